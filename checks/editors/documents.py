"""Checks of the language server: documents, positions, and the faults that are published."""

import json
from urllib.parse import quote

from checks.editors import files as f
from checks.editors.asking import places_of, renamed, texts, wanted_places
from checks.editors.client import Client
from checks.editors.files import FILES, RETURNS, SHOP, TAX, WIDE
from checks.editors.positions import position, span
from checks.server.server import same


def open_text_counts():
    """What an editor holds counts, and not what lies on the disk."""
    with Client(FILES) as client:
        client.start()
        client.did_open("shop.go", SHOP.replace("Total", "Sum"))
        at = client.found("shop.go", "Sum")
        same(places_of(client, "shop.go", at), wanted_places(client, "shop.go", at, 3))
        same((client.top / "shop.go").read_text(), SHOP)
        same(client.stop(), 0)


def changed_as_a_whole():
    """A change without a range is the new text."""
    with Client(FILES) as client:
        client.start()
        client.did_open("tax/tax.go")
        client.did_change("tax/tax.go", {"text": "package tax\n"}, {"text": TAX.replace("price", "p")})
        at = client.found("tax/tax.go", "p int")
        same(places_of(client, "tax/tax.go", at), wanted_places(client, "tax/tax.go", at, 1))
        same(client.stop(), 0)


def changed_in_parts():
    """Changes follow one another: each speaks of the text after those before it."""
    with Client(FILES) as client:
        client.start()
        client.did_open("tax/tax.go")
        text = client.text("tax/tax.go")
        at = text.index("price int")
        client.did_change(
            "tax/tax.go",
            {"range": span(text, at, at + 5), "text": "amount"},
            {"range": span(text.replace("price int", "amount int"), at, at + 6), "text": "sum"},
            {"range": span("", 0, 0), "text": "// Taxes.\n\n"},
            {"range": {"start": {"line": 8, "character": 8}, "end": {"line": 8, "character": 13}}, "text": "sum"},
        )
        at = client.found("tax/tax.go", "sum int")
        same(client.text("tax/tax.go").count("sum"), 2)
        same(places_of(client, "tax/tax.go", at), wanted_places(client, "tax/tax.go", at, 3))
        same(client.stop(), 0)


def in_units_of(encoding):
    """Columns behind characters of several units are counted in units, in what is asked, changed and told."""
    capabilities = {"general": {"positionEncodings": [encoding]}, "workspace": {"workspaceEdit": {"documentChanges": True}}}
    with Client({"go.mod": f.GO_MOD, "wide/wide.go": WIDE}, capabilities) as client:
        client.start()
        same(client.encoding, encoding)
        at = client.found("wide/wide.go", "b int")
        same(places_of(client, "wide/wide.go", at), wanted_places(client, "wide/wide.go", at, 1))
        client.did_open("wide/wide.go")
        last = client.found("wide/wide.go", "+ b") + 2
        client.did_change("wide/wide.go", {"range": client.span("wide/wide.go", last, 1), "text": "b + b"})
        same(places_of(client, "wide/wide.go", at), wanted_places(client, "wide/wide.go", at, 1))
        wanted = f.renamed(texts(client), "wide/wide.go", at, "count")
        same(client.after(renamed(client, "wide/wide.go", at, "count")), wanted)
        same(client.stop(), 0)


def utf16_columns():
    in_units_of("utf-16")


def utf8_columns():
    in_units_of("utf-8")


def inside_a_character():
    """A column inside a character is the start of the character."""
    with Client({"go.mod": f.GO_MOD, "wide/wide.go": WIDE}) as client:
        client.start()
        client.did_open("wide/wide.go")
        start = position(WIDE, client.found("wide/wide.go", "\U0001f600"))
        inside = start | {"character": start["character"] + 1}
        client.notify(
            "textDocument/didChange",
            {
                "textDocument": {"uri": client.uri("wide/wide.go"), "version": 2},
                "contentChanges": [{"range": {"start": inside, "end": inside}, "text": "+"}],
            },
        )
        client.open["wide/wide.go"] = [2, WIDE.replace("\u00e9\U0001f600", "\u00e9+\U0001f600")]
        at = client.found("wide/wide.go", "b int")
        same(places_of(client, "wide/wide.go", at), wanted_places(client, "wide/wide.go", at, 1))
        same(client.stop(), 0)


def past_the_ends():
    """A column past the end of its line is the end of the line, and a line past the last one the end of the text."""
    with Client(FILES) as client:
        client.start()
        client.did_open("shop.go")
        far = {"line": 0, "character": 999}
        behind = {"line": 999, "character": 7}
        client.did_change("shop.go", {"range": {"start": far, "end": far}, "text": " // the shop"})
        client.did_change("shop.go", {"range": {"start": behind, "end": behind}, "text": "\nvar last int = 1\n"})
        client.did_change("shop.go", {"range": {"start": {"line": 9, "character": 0}, "end": {"line": 2**31 - 1, "character": 2**31 - 1}}, "text": ""})
        same(client.text("shop.go").startswith("package shop // the shop\n"), True)
        at = client.found("shop.go", "last")
        same(places_of(client, "shop.go", at), wanted_places(client, "shop.go", at, 4))
        same(client.stop(), 0)


def lines_with_returns():
    """A carriage return with a line feed ends one line."""
    with Client({"go.mod": f.GO_MOD, "back/back.go": RETURNS}) as client:
        client.start()
        at = client.found("back/back.go", "x int")
        same(places_of(client, "back/back.go", at), wanted_places(client, "back/back.go", at, 1))
        client.did_open("back/back.go")
        client.did_change("back/back.go", {"range": {"start": {"line": 2, "character": 99}, "end": {"line": 3, "character": 0}}, "text": " // one\r\n"})
        same("// one\r\n\r\nfunc" in client.text("back/back.go"), True)
        same(places_of(client, "back/back.go", at), wanted_places(client, "back/back.go", at, 1))
        same(client.after(renamed(client, "back/back.go", at, "y")), f.renamed(texts(client), "back/back.go", at, "y"))
        same(client.stop(), 0)


def closed_again():
    """A document that is closed is what lies on the disk."""
    with Client(FILES) as client:
        client.start()
        client.did_open("shop.go", "package shop\n\nvar other int = 1\n")
        client.did_close("shop.go")
        at = client.found("tax/tax.go", "Rate int")
        same(places_of(client, "tax/tax.go", at), wanted_places(client, "tax/tax.go", at, 4))
        same(client.stop(), 0)


def new_file():
    """A document that is not on the disk is a file while it is open."""
    with Client(FILES) as client:
        client.start()
        client.did_open("tax/more.go", "package tax\n\nfunc Twice() int {\n\treturn Rate + Rate\n}\n")
        at = client.found("tax/tax.go", "Rate int")
        wanted = f.uses(texts(client) | {"tax/more.go": client.text("tax/more.go")}, "tax/tax.go", at)
        same(len(places_of(client, "tax/tax.go", at)), len(wanted))
        client.did_close("tax/more.go")
        same(places_of(client, "tax/tax.go", at), wanted_places(client, "tax/tax.go", at, 4))
        same(client.stop(), 0)


def strangers():
    """Documents that are no Go files of the folder, and changes of documents that are not open, disturb nothing."""
    with Client(FILES) as client:
        client.start()
        for uri in ("untitled:Untitled-1", "file:///elsewhere/a.go", client.uri("notes.txt"), client.uri("tax/_x.go"), "file://host/a.go", "", "%"):
            item = {"uri": uri, "languageId": "go", "version": 1, "text": "package other x"}
            client.notify("textDocument/didOpen", {"textDocument": item})
            change = {"textDocument": {"uri": uri, "version": 2}, "contentChanges": [{"text": "x"}]}
            client.notify("textDocument/didChange", change)
            client.notify("textDocument/didClose", {"textDocument": {"uri": uri}})
        never = {"textDocument": {"uri": client.uri("shop.go"), "version": 2}, "contentChanges": [{"text": "x"}]}
        client.notify("textDocument/didChange", never)
        client.notify("textDocument/didClose", {"textDocument": {"uri": client.uri("shop.go")}})
        at = client.found("tax/tax.go", "Rate int")
        same(places_of(client, "tax/tax.go", at), wanted_places(client, "tax/tax.go", at, 4))
        same(client.stop(), 0)


def escaped_uris():
    """A URI may escape what it need not, in either case of letters."""
    with Client(FILES) as client:
        client.start()
        uri = client.uri("shop.go").replace("shop.go", "%73h%6Fp%2ego")
        item = {"uri": uri, "languageId": "go", "version": 4, "text": SHOP.replace("Total", "Sum")}
        client.notify("textDocument/didOpen", {"textDocument": item})
        at = SHOP.index("Total")
        params = {"textDocument": {"uri": client.uri("shop.go")}, "position": position(SHOP, at), "newName": "All"}
        told = client.ask("textDocument/rename", params)
        change = told["documentChanges"][0]
        same((change["textDocument"]["version"], change["edits"][0]["range"]), (4, span(SHOP, at, at + 3)))
        same(client.stop(), 0)


def folders_with_blanks():
    """Folders whose names need escapes."""
    with Client({"go.mod": f.GO_MOD, "a b\u00e9/c.go": "package c\n\nvar x int = 1\n"}) as client:
        client.start()
        same(quote("a b\u00e9") in client.uri("a b\u00e9/c.go"), True)
        client.settle()
        same(client.stop(), 0)




def faults_of(client, path):
    """The faults that the server published last for a file, as pairs of position and kind."""
    client.settle()
    told = [note["params"] for note in client.notes if note["method"] == "textDocument/publishDiagnostics"]
    told = [params for params in told if client.path(params["uri"]) == path]
    if not told:
        return None
    for fault in told[-1]["diagnostics"]:
        same((fault["severity"], fault["source"]), (1, "gorefd"))
    return sorted((json.dumps(fault["range"]["start"], sort_keys=True), fault["code"]) for fault in told[-1]["diagnostics"])


def wanted_faults(client, path):
    found = [(at, kind) for p, at, kind in f.faults(texts(client)) if p == path]
    return sorted((json.dumps(position(client.text(path), at), sort_keys=True), kind) for at, kind in found)


def published():
    """Faults are published for an open document, change with it, and are cleared."""
    with Client(FILES) as client:
        client.start()
        client.did_open("tax/tax.go")
        same(faults_of(client, "tax/tax.go") or [], [])
        client.did_change("tax/tax.go", {"text": TAX.replace("price + Rate", "price + Rat")})
        same((faults_of(client, "tax/tax.go"), len(faults_of(client, "tax/tax.go"))), (wanted_faults(client, "tax/tax.go"), 1))
        client.did_change("tax/tax.go", {"text": TAX.replace("Rate int = 2", "Rate int = 1.5")})
        same(faults_of(client, "tax/tax.go"), wanted_faults(client, "tax/tax.go"))
        client.did_change("tax/tax.go", {"text": TAX})
        same(faults_of(client, "tax/tax.go"), [])
        same(client.stop(), 0)


def published_elsewhere():
    """A change of one document publishes the faults that come with it in another open one."""
    with Client(FILES) as client:
        client.start()
        client.did_open("shop.go")
        client.did_open("tax/tax.go")
        client.did_change("tax/tax.go", {"text": TAX.replace("Rate", "Share")})
        same(faults_of(client, "shop.go"), wanted_faults(client, "shop.go"))
        same(len(faults_of(client, "shop.go")), 1)
        same(client.stop(), 0)


def published_and_closed():
    """A document that is closed has its faults cleared."""
    with Client(FILES) as client:
        client.start()
        client.did_open("tax/tax.go", TAX + "var\n")
        same(len(faults_of(client, "tax/tax.go")), 1)
        client.did_close("tax/tax.go")
        same(faults_of(client, "tax/tax.go"), [])
        same(client.stop(), 0)


def published_version():
    """What is published names the version of the document."""
    with Client(FILES, {"textDocument": {"publishDiagnostics": {"versionSupport": True}}}) as client:
        client.start()
        client.did_open("tax/tax.go", TAX + "var\n", version=7)
        client.did_change("tax/tax.go", {"text": TAX + "\nvar x\n"})
        client.settle()
        told = [note["params"].get("version") for note in client.notes if note["method"] == "textDocument/publishDiagnostics"]
        same(told[-1], 8)
        same(client.stop(), 0)
