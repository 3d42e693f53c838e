"""Checks of the language server: renames, moves, undo, what they ask for, and the disk."""

import json
import os

from checks.editors import files as f
from checks.editors.asking import FAILED, code, everywhere, places_of, renamed, text_of_error, texts, wanted_places
from checks.editors.client import Client, Failed
from checks.editors.documents import faults_of, wanted_faults
from checks.editors.files import FILES, SHOP, TAX
from checks.server.server import same


def renames():
    """A rename gives the edits of all files, by the model."""
    for path, text in (("tax/tax.go", "Rate int"), ("tax/tax.go", "Rate\n"), ("shop.go", "Rate")):
        with Client(FILES) as client:
            client.start()
            at = client.found(path, text)
            same(client.after(renamed(client, path, at, "Share")), f.renamed(FILES, path, at, "Share"))
            same(texts(client), FILES)
            same(client.stop(), 0)


def renames_each_identifier():
    """Each place of each file is renamed, or refused, as the model says. A place behind an identifier is one of it."""
    with Client(FILES) as client:
        client.start()
        for path in ("tax/tax.go", "shop.go"):
            for at in range(len(FILES[path])):
                try:
                    wanted = f.renamed(FILES, path, f.asked(FILES[path], at), "fresh")
                except f.Refusal:
                    same(code(client, "textDocument/rename", client.at(path, at) | {"newName": "fresh"}), FAILED)
                    continue
                told = renamed(client, path, at, "fresh")
                same((path, at, client.after(told)), (path, at, wanted))
        same(client.stop(), 0)


def versions_of_edits():
    """An edit of an open document names its version; that of a file that is not open names none."""
    with Client(FILES) as client:
        client.start()
        client.did_open("tax/tax.go", version=41)
        client.did_change("tax/tax.go", {"text": TAX + "\n"})
        told = client.edits_of(renamed(client, "tax/tax.go", client.found("tax/tax.go", "Rate int"), "Share"))
        same({path: version for path, (version, _) in told.items()}, {"tax/tax.go": 42, "shop.go": None})
        same(client.stop(), 0)


def edits_without_versions():
    """Where the client has no documentChanges, the edits are those of `changes`."""
    with Client(FILES, {}) as client:
        client.start()
        at = client.found("tax/tax.go", "Rate int")
        told = renamed(client, "tax/tax.go", at, "Share")
        same(list(told), ["changes"])
        same(client.after(told), f.renamed(FILES, "tax/tax.go", at, "Share"))
        same(client.stop(), 0)


def edits_are_small():
    """An edit of a rename replaces no more than one line of its file, and no text by the same text."""
    with Client(FILES) as client:
        client.start()
        for path, (_, edits) in client.edits_of(renamed(client, "tax/tax.go", client.found("tax/tax.go", "Rate int"), "Share")).items():
            for edit in edits:
                same((path, edit["range"]["start"]["line"]), (path, edit["range"]["end"]["line"]))
                same("\n" in edit["newText"], False)
        same(client.stop(), 0)


def renamed_and_on():
    """An edit that is applied is what the next request speaks of, in open documents and in files."""
    with Client(FILES) as client:
        client.start()
        client.did_open("tax/tax.go")
        for name in ("Share", "Part", "Rate"):
            before = texts(client)
            at = client.found("tax/tax.go", " int = ") - 4 if name == "Share" else client.found("tax/tax.go", "var ") + 4
            told = renamed(client, "tax/tax.go", at, name)
            wanted = f.renamed(before, "tax/tax.go", at, name)
            same(client.after(told), wanted)
            client.apply(told)
            same(texts(client), before | wanted)
        same(texts(client), FILES)
        same(client.stop(), 0)


def not_applied():
    """An edit that is not applied changes nothing: the next request speaks of the texts as they are."""
    with Client(FILES) as client:
        client.start()
        client.did_open("tax/tax.go")
        at = client.found("tax/tax.go", "Rate int")
        for name in ("Share", "Part"):
            same(client.after(renamed(client, "tax/tax.go", at, name)), f.renamed(FILES, "tax/tax.go", at, name))
        same(places_of(client, "tax/tax.go", at), wanted_places(client, "tax/tax.go", at, 4))
        same(client.stop(), 0)


def sentence(client, place):
    """`path:line:column` of a place of the model, with lines and columns from 1 and columns in bytes."""
    path, _, offset = place.strip().rpartition(":#")
    before = f.texts_of(texts(client))[path][: int(offset)]
    return f"{f.path_of(path)}:{before.count(10) + 1}:{len(before) - before.rfind(10)}"


def refusals():
    """A refused rename is an error whose text says which identifier would be captured, by what, or would be lost."""
    rows = (
        ("shop.go", "Total", "tax", 14, "this identifier would be captured by"),
        ("tax/tax.go", "Rate int", "Net", 14, "this identifier would be captured by"),
        ("tax/tax.go", "Rate int", "rate", 15, "this identifier would be lost"),
        ("tax/tax.go", "Rate int", "int", 15, "this identifier would be lost"),
    )
    with Client(FILES) as client:
        client.start()
        for path, found, name, number, words in rows:
            at = client.found(path, found)
            told, body = f.refused(FILES, path, at, name)
            same((name, told), (name, number))
            text = text_of_error(client, "textDocument/rename", client.at(path, at) | {"newName": name})
            used, _, by = body.strip().partition(" by ")
            same((name, text.startswith(f"{sentence(client, used)}: {words}")), (name, True))
            if by and by != "universe":
                same((name, sentence(client, by) in text.split(words)[1]), (name, True))
        same(client.stop(), 0)


def other_refusals():
    """Names that are none, places without an identifier, and what cannot be renamed."""
    rows = (
        ("Rate int", "func", "the new name is not legal here"),
        ("Rate int", "", "the new name is not legal here"),
        ("Rate int", "a b", "the new name is not legal here"),
        ("Rate int", "Rate", "this is so already"),
        ("var Rate", "x", "no identifier stands here"),
        ("int = 2", "x", "what stands here cannot be renamed"),
    )
    with Client(FILES) as client:
        client.start()
        for found, name, words in rows:
            text = text_of_error(client, "textDocument/rename", client.at("tax/tax.go", client.found("tax/tax.go", found)) | {"newName": name})
            same((name, words in text), (name, True))
        missing = {"textDocument": {"uri": client.uri("tax/none.go")}, "position": {"line": 0, "character": 0}, "newName": "x"}
        same(code(client, "textDocument/rename", missing), FAILED)
        same(client.stop(), 0)


def faulty_packages():
    """A rename that a fault forbids says where the fault is; one beside it is done."""
    files = FILES | {"other/o.go": "package other\n\nvar x int = y\n"}
    with Client(files) as client:
        client.start()
        text = text_of_error(client, "textDocument/rename", client.at("other/o.go", client.found("other/o.go", "x int")) | {"newName": "z"})
        same(text.startswith("other/o.go:3:13: "), True)
        at = client.found("tax/tax.go", "Rate int")
        same(client.after(renamed(client, "tax/tax.go", at, "Share")), f.renamed(files, "tax/tax.go", at, "Share"))
        same(client.stop(), 0)


def prepared():
    """prepareRename gives the range of the identifier at or around a place, and its text."""
    with Client(FILES) as client:
        client.start()
        for path, found, length, inside in (("tax/tax.go", "Rate int", 4, 0), ("tax/tax.go", "Rate int", 4, 2), ("shop.go", "Net", 3, 1)):
            at = client.found(path, found)
            told = client.ask("textDocument/prepareRename", client.at(path, at + inside))
            wanted = client.span(path, at, length)
            same(told if "start" in told else told["range"], wanted)
            same(told.get("placeholder", found.split(" ")[0]), found.split(" ")[0])
        same(client.stop(), 0)


def not_prepared():
    """Where nothing can be renamed, prepareRename answers null or an error."""
    with Client(FILES) as client:
        client.start()
        for found in ("var Rate", "int = 2", "= 2", "// Rate"):
            try:
                same(client.ask("textDocument/prepareRename", client.at("tax/tax.go", client.found("tax/tax.go", found))), None)
            except Failed as failed:
                same(failed.code, FAILED)
        same(client.stop(), 0)


# References, definitions, highlights


def references():
    """References are all identifiers of a declaration, with it or without it."""
    with Client(FILES) as client:
        client.start()
        declared = ("tax/tax.go", client.found("tax/tax.go", "Rate int"))
        for path, text in (("tax/tax.go", "Rate int"), ("shop.go", "Rate")):
            at = client.found(path, text)
            same(places_of(client, path, at), wanted_places(client, path, at, 4))
            same(places_of(client, path, at, False), wanted_places(client, path, at, 4, [declared]))
        same(client.stop(), 0)


def no_references():
    """Where no identifier stands there are no references: an empty list, null or an error."""
    with Client(FILES) as client:
        client.start()
        try:
            same(client.ask("textDocument/references", client.at("tax/tax.go", 0) | everywhere()) or [], [])
        except Failed as failed:
            same(failed.code, FAILED)
        same(client.stop(), 0)


def definitions():
    """The definition of an identifier is where it is declared."""
    with Client(FILES) as client:
        client.start()
        rows = (("shop.go", "Net", "tax/tax.go", "Net", 3), ("shop.go", "n) *", "shop.go", "n int", 1), ("tax/tax.go", "Rate int", "tax/tax.go", "Rate int", 4))
        for path, text, other, declared, length in rows:
            told = client.ask("textDocument/definition", client.at(path, client.found(path, text)))
            told = told[0] if isinstance(told, list) else told
            same((client.path(told["uri"]), told["range"]), (other, client.span(other, client.found(other, declared), length)))
        same(client.stop(), 0)


def highlights():
    """Highlights are the identifiers of a declaration in the same file."""
    with Client(FILES) as client:
        client.start()
        at = client.found("tax/tax.go", "Rate int")
        told = client.ask("textDocument/documentHighlight", client.at("tax/tax.go", at))
        wanted = [client.span(p, o, 4) for p, o in f.uses(FILES, "tax/tax.go", at) if p == "tax/tax.go"]
        same(sorted(json.dumps(h["range"], sort_keys=True) for h in told), sorted(json.dumps(r, sort_keys=True) for r in wanted))
        same(client.stop(), 0)


# Moves


def file_operations():
    filters = {"willRename": True, "didRename": True}
    return {"workspace": {"fileOperations": filters, "workspaceEdit": {"documentChanges": True}}}


def moves():
    """A folder that is to be renamed gives the edits of a move, by the model; the client moves the files."""
    with Client(FILES, file_operations()) as client:
        client.start()
        client.did_open("shop.go")
        params = {"files": [{"oldUri": client.uri("tax"), "newUri": client.uri("duty")}]}
        told = client.ask("workspace/willRenameFiles", params)
        wanted = f.moved(FILES, "tax", "duty")
        same(client.after(told), wanted)
        client.apply(told)
        client.settle()
        os.rename(client.top / "tax", client.top / "duty")
        client.notify("workspace/didRenameFiles", params)
        at = client.found("duty/tax.go", "Rate int")
        after = {"go.mod": f.GO_MOD, "duty/tax.go": wanted["tax/tax.go"], "shop.go": client.text("shop.go")}
        told = places_of(client, "duty/tax.go", at)
        same(told, sorted((p, json.dumps(client.span(p, o, 4), sort_keys=True)) for p, o in f.uses(after, "duty/tax.go", at)))
        same(client.stop(), 0)


def moves_of_nothing():
    """What is no folder of Go files may be renamed without edits."""
    with Client(FILES | {"notes/a.txt": "x"}, file_operations()) as client:
        client.start()
        params = {"files": [{"oldUri": client.uri("notes"), "newUri": client.uri("papers")}]}
        told = client.ask("workspace/willRenameFiles", params)
        same(client.edits_of(told) if told else {}, {})
        same(client.stop(), 0)


# Undo and redo


def applied(client, command):
    """Executes a command: the server sends its edit to the client, which applies it. Returns the texts that the edit gives."""
    number = client.send("workspace/executeCommand", {"command": command, "arguments": []})
    request = client.request_of_server("workspace/applyEdit")
    after = client.after(request["params"]["edit"])
    client.apply(request["params"]["edit"])
    client.reply(request, {"applied": True})
    client.result(number)
    return after


def undone():
    """Undo takes a rename back in all files, and redo does it again."""
    with Client(FILES) as client:
        client.start()
        client.did_open("tax/tax.go")
        at = client.found("tax/tax.go", "Rate int")
        told = renamed(client, "tax/tax.go", at, "Share")
        wanted = client.after(told)
        client.apply(told)
        for _ in range(2):
            same(applied(client, "gorefd.undo"), {path: FILES[path] for path in wanted})
            same(texts(client), FILES)
            same(applied(client, "gorefd.redo"), wanted)
            same(texts(client), FILES | wanted)
        same(client.stop(), 0)


def undone_in_order():
    """Undo takes a rename back, and redo does it again, where the client opens the other files for it, one after another."""
    with Client(FILES) as client:
        client.start()
        client.did_open("tax/tax.go")
        told = renamed(client, "tax/tax.go", client.found("tax/tax.go", "Rate int"), "Share")
        wanted = client.after(told)
        client.apply_opening(told)
        same(texts(client), FILES | wanted)
        same(applied(client, "gorefd.undo"), {path: FILES[path] for path in wanted})
        same(applied(client, "gorefd.redo"), wanted)
        same(client.stop(), 0)


def typed_behind_a_rename():
    """What is typed behind a rename is published at once."""
    with Client(FILES) as client:
        client.start()
        client.did_open("tax/tax.go")
        client.apply_opening(renamed(client, "tax/tax.go", client.found("tax/tax.go", "Rate int"), "Share"))
        same((faults_of(client, "tax/tax.go") or [], faults_of(client, "shop.go") or []), ([], []))
        client.did_change("tax/tax.go", {"text": client.text("tax/tax.go").replace("price + Share", "price + Shar")})
        same((len(wanted_faults(client, "tax/tax.go")), faults_of(client, "tax/tax.go")), (1, wanted_faults(client, "tax/tax.go")))
        same(client.stop(), 0)


def saved_behind_a_rename():
    """Where an edit is not made and something else is typed, a save publishes what is there, and so does what comes behind a request."""

    def saves(client):
        client.notify("textDocument/didSave", {"textDocument": {"uri": client.uri("shop.go")}})

    def asks(client):
        same(code(client, "textDocument/prepareRename", client.at("shop.go", client.found("shop.go", "Total"))), FAILED)
        client.did_open("tax/tax.go")

    for goes_on in (saves, asks):
        with Client(FILES) as client:
            client.start()
            client.did_open("shop.go")
            renamed(client, "shop.go", client.found("shop.go", "Total"), "Sum")
            client.did_change("shop.go", {"text": SHOP.replace("tax.Rate", "tax.Rat")})
            goes_on(client)
            same((len(wanted_faults(client, "shop.go")), faults_of(client, "shop.go")), (1, wanted_faults(client, "shop.go")))
            same(client.stop(), 0)


def nothing_to_undo():
    """Undo and redo are refused where there is nothing to take back or to do again."""
    with Client(FILES) as client:
        client.start()
        for command in ("gorefd.undo", "gorefd.redo"):
            same((command, code(client, "workspace/executeCommand", {"command": command})), (command, FAILED))
        same(client.stop(), 0)


def no_redo_after_a_change():
    """A rename after an undo leaves nothing to do again."""
    with Client(FILES) as client:
        client.start()
        at = client.found("tax/tax.go", "Rate int")
        client.apply(renamed(client, "tax/tax.go", at, "Share"))
        applied(client, "gorefd.undo")
        client.apply(renamed(client, "tax/tax.go", at, "Part"))
        same(code(client, "workspace/executeCommand", {"command": "gorefd.redo"}), FAILED)
        same(client.stop(), 0)


# The disk


def watched():
    """A file that changes on the disk is read again where the client says so."""
    with Client(FILES) as client:
        client.start()
        (client.top / "tax/tax.go").write_text(TAX.replace("price", "amount"))
        (client.top / "tax/more.go").write_text("package tax\n\nfunc Twice() int {\n\treturn Rate + Rate\n}\n")
        client.disk["tax/more.go"] = ""
        changes = [{"uri": client.uri("tax/tax.go"), "type": 2}, {"uri": client.uri("tax/more.go"), "type": 1}]
        client.notify("workspace/didChangeWatchedFiles", {"changes": changes})
        at = client.found("tax/tax.go", "Rate int")
        same(places_of(client, "tax/tax.go", at), wanted_places(client, "tax/tax.go", at, 4))
        os.remove(client.top / "tax/more.go")
        del client.disk["tax/more.go"]
        client.notify("workspace/didChangeWatchedFiles", {"changes": [{"uri": client.uri("tax/more.go"), "type": 3}]})
        same(places_of(client, "tax/tax.go", at), wanted_places(client, "tax/tax.go", at, 4))
        same(client.stop(), 0)


def writes_nothing():
    """The server writes no file: a rename is the client's to apply."""
    with Client(FILES) as client:
        client.start()
        client.did_open("shop.go")
        renamed(client, "shop.go", client.found("shop.go", "Total"), "Sum")
        client.notify("textDocument/didSave", {"textDocument": {"uri": client.uri("shop.go")}})
        same(client.stop(), 0)
        same({path: (client.top / path).read_text() for path in FILES}, FILES)
        same(sorted(path.name for path in client.top.iterdir()), ["go.mod", "shop.go", "tax"])


def without_a_module():
    """Without a go.mod the path of a package is that of its folder from the root."""
    files = {"a/a.go": "package a\n\nvar X int\n", "b/b.go": 'package b\n\nimport "a"\n\nfunc f() int {\n\treturn a.X\n}\n'}
    with Client(files) as client:
        client.start()
        told = client.after(renamed(client, "b/b.go", client.found("b/b.go", "X"), "Z"))
        same(told, {"a/a.go": "package a\n\nvar Z int\n", "b/b.go": files["b/b.go"].replace("a.X", "a.Z")})
        same(client.stop(), 0)


def progress():
    """Work is told under a token that the client gives, from its begin to its end."""
    with Client(FILES, {"window": {"workDoneProgress": True}}) as client:
        client.start(workDoneToken="start")
        client.settle()
        told = [note["params"] for note in client.notes if note["method"] == "$/progress"]
        kinds = [params["value"]["kind"] for params in told if params["token"] == "start"]
        if kinds:
            same((kinds[0], kinds[-1], kinds.count("begin"), kinds.count("end")), ("begin", "end", 1, 1))
        same(client.stop(), 0)
