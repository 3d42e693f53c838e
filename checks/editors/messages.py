"""Checks of the language server: from initialize to exit, frames and calls."""

import json

from checks.editors.asking import INVALID, PARAMS, PARSE, UNKNOWN, UNREADY, code, everywhere
from checks.editors.client import Client, Failed, frame
from checks.editors.files import FILES
from checks.server.server import same


def capabilities():
    """initialize tells what the server can do."""
    with Client(FILES) as client:
        told = client.start()["capabilities"]
        same(told["renameProvider"], {"prepareProvider": True})
        for name in ("referencesProvider", "definitionProvider", "documentHighlightProvider"):
            same((name, told[name]), (name, True))
        sync = told["textDocumentSync"]
        same((sync["openClose"], sync["change"]), (True, 2))
        same(sorted(told["executeCommandProvider"]["commands"]), ["gorefd.redo", "gorefd.undo"])
        operations = told["workspace"]["fileOperations"]
        for name in ("willRename", "didRename"):
            same(operations[name]["filters"][0]["pattern"]["matches"], "folder")
        same(told["positionEncoding"], "utf-16")
        same(client.stop(), 0)


def utf8_where_listed():
    """The server takes UTF-8 where the client can, whatever else it can."""
    for offered, wanted in ((["utf-16", "utf-8"], "utf-8"), (["utf-8"], "utf-8"), (["utf-32", "utf-16"], "utf-16"), ([], "utf-16")):
        with Client(FILES, {"general": {"positionEncodings": offered}}) as client:
            same((offered, client.start()["capabilities"]["positionEncoding"]), (offered, wanted))
            same(client.stop(), 0)


def named_server():
    """initialize tells the server's name."""
    with Client(FILES) as client:
        same(client.start()["serverInfo"]["name"], "gorefd")
        same(client.stop(), 0)


def before_initialize():
    """Before initialize a request is refused and a notification dropped."""
    with Client(FILES) as client:
        same(code(client, "textDocument/rename", {}), UNREADY)
        same(code(client, "shutdown"), UNREADY)
        client.notify("textDocument/didSave", {"textDocument": {"uri": client.uri("shop.go")}})
        client.start()
        same(client.stop(), 0)


def initialized_twice():
    """A second initialize is refused, and changes nothing."""
    with Client(FILES) as client:
        client.start()
        same(code(client, "initialize", {"processId": None, "rootUri": None, "capabilities": {}}), INVALID)
        same(len(client.ask("textDocument/references", client.at("shop.go", client.found("shop.go", "Total")) | everywhere())), 1)
        same(client.stop(), 0)


def exit_alone():
    """exit without shutdown ends with status 1."""
    with Client(FILES) as client:
        client.start()
        client.notify("exit")
        same(client.ended(), 1)


def exit_first():
    """exit before initialize ends with status 1."""
    with Client(FILES) as client:
        client.notify("exit")
        same(client.ended(), 1)


def input_ends():
    """The end of the input without exit ends with status 1, before and after shutdown."""
    with Client(FILES) as client:
        client.start()
        same(client.ended(), 1)
    with Client(FILES) as client:
        client.start()
        client.ask("shutdown")
        same(client.ended(), 1)


def after_shutdown():
    """After shutdown each request is refused, and a notification dropped."""
    with Client(FILES) as client:
        client.start()
        same(client.ask("shutdown"), None)
        same(code(client, "shutdown"), INVALID)
        same(code(client, "textDocument/rename", {}), INVALID)
        same(code(client, "check/unknown"), INVALID)
        client.did_open("shop.go")
        client.notify("exit")
        same(client.ended(), 0)
        same(client.notes, [])


def ends_by_exit():
    """The server ends by exit, though its input stays open."""
    with Client(FILES) as client:
        client.start()
        client.ask("shutdown")
        client.notify("exit")
        same(client.process.wait(timeout=60), 0)


# Messages


def unknown_methods():
    """A request that the server does not know is refused; a notification is dropped."""
    with Client(FILES) as client:
        client.start()
        for method in ("textDocument/hover", "$/unknown", "", "textDocument/Rename"):
            same(code(client, method, {}), UNKNOWN)
            client.notify(method, {})
        same(client.stop(), 0)
        same((client.nameless, client.asked), ([], []))


def cancelled():
    """A request that is cancelled is answered, and cancelling what was answered or never asked does nothing."""
    with Client(FILES) as client:
        client.start()
        number = client.send("textDocument/definition", client.at("shop.go", client.found("shop.go", "Net")))
        client.notify("$/cancelRequest", {"id": number})
        client.notify("$/cancelRequest", {"id": "never"})
        same(client.path(client.result(number)["uri"]), "tax/tax.go")
        same(client.stop(), 0)


def no_json():
    """A body that is no JSON or no UTF-8 is an error without an id, and not the end."""
    with Client(FILES) as client:
        client.start()
        for body in (b"", b"{", b'{"jsonrpc": "2.0",}', b"nul", b'"\xff"', b"{} {}", b"[" * 500):
            client.body(body)
            same((body, client.error_without_id()), (body, PARSE))
        same(client.stop(), 0)


def no_calls():
    """JSON that is no call is an error without an id."""
    with Client(FILES) as client:
        client.start()
        calls = (
            [], [{"jsonrpc": "2.0", "method": "shutdown", "id": 1}], 7, None, "x", {}, {"jsonrpc": "2.0"}, {"method": "initialized"},
            {"jsonrpc": "2.0", "method": "x", "params": 1}, {"jsonrpc": "2.0", "method": 1, "params": {}},
        )  # fmt: skip
        for call in calls:
            client.body(json.dumps(call).encode())
            same((call, client.error_without_id()), (call, INVALID))
        same(client.stop(), 0)


def wrong_calls_with_ids():
    """What is no call, but has a legal id, is answered by an error with that id."""
    with Client(FILES) as client:
        client.start()
        calls = (
            {"method": "shutdown"}, {"jsonrpc": "1.0", "method": "shutdown"}, {"jsonrpc": 2.0, "method": "shutdown"},
            {"jsonrpc": "2.0", "method": 7}, {"jsonrpc": "2.0", "method": "shutdown", "params": "x"},
            {"jsonrpc": "2.0", "method": "shutdown", "params": True}, {"jsonrpc": "2.0"},
        )  # fmt: skip
        for number, call in enumerate(calls):
            client.body(call | {"id": f"wrong {number}"})
            try:
                client.result(f"wrong {number}")
                raise AssertionError(call)
            except Failed as failed:
                same((call, failed.code), (call, INVALID))
        same(client.stop(), 0)


def wrong_ids():
    """An id is a string or an integer."""
    with Client(FILES) as client:
        client.start()
        for number in (None, True, 1.5, [], {}, [1]):
            client.body({"jsonrpc": "2.0", "id": number, "method": "shutdown"})
            same((number, client.error_without_id()), (number, INVALID))
        same(client.stop(), 0)


def legal_ids():
    """The id of an answer is that of its request."""
    with Client(FILES) as client:
        client.start()
        for number in (0, -7, 2**31 - 1, -(2**31), "", "a", "7", '"\\\u00e9\U0001f600\n', 2**53):
            same((number, code(client, "check/unknown", number=number)), (number, UNKNOWN))
        same(client.stop(), 0)


def null_params():
    """Parameters that are null stand for none."""
    with Client(FILES) as client:
        client.start()
        client.body({"jsonrpc": "2.0", "id": 70, "method": "shutdown", "params": None})
        same(client.result(70), None)
        client.body({"jsonrpc": "2.0", "method": "exit", "params": None})
        same(client.ended(), 0)


def answers_of_the_client():
    """An answer of the client, to what was never asked, is not answered."""
    with Client(FILES) as client:
        client.start()
        for more in ({"id": 999, "result": None}, {"id": None, "error": {"code": 1, "message": "x"}}, {"id": "x", "result": {"applied": True}}):
            client.body({"jsonrpc": "2.0"} | more)
        same(client.stop(), 0)
        same(client.nameless, [])


def headers_as_http_has_them():
    """Names of fields have no case, other fields are skipped, and blanks stand around a value."""
    with Client(FILES) as client:
        client.start()
        body = json.dumps({"jsonrpc": "2.0", "id": 5, "method": "check/unknown"}).encode()
        size = str(len(body)).encode()
        headers = (
            b"content-length: " + size + b"\r\n", b"CONTENT-LENGTH:" + size + b"\r\n", b"Content-Length: \t" + size + b" \r\n",
            b"Content-Type: application/vscode-jsonrpc; charset=utf-8\r\nContent-Length: " + size + b"\r\n",
            b"Content-Length: " + size + b"\r\nContent-Type: application/vscode-jsonrpc; charset=utf8\r\n",
            b"X-Content-Length: 7\r\nContent-Length: " + size + b"\r\n", b"Content-Length: 000" + size + b"\r\n",
        )  # fmt: skip
        for header in headers:
            client.raw(header + b"\r\n" + body)
            try:
                client.result(5)
            except Failed as failed:
                same((header, failed.code), (header, UNKNOWN))
            client.answers.clear()
        same(client.stop(), 0)


def headers_without_length():
    """A header that gives no length is an error without an id; the next message begins behind its empty line."""
    with Client(FILES) as client:
        client.start()
        for header in (b"Content-Type: x\r\n", b"Content-Length: x\r\n", b"Content-Length: -1\r\n", b"Content-Length:\r\n", b"Content-Length 7\r\n"):
            client.raw(header + b"\r\n")
            same((header, client.error_without_id()), (header, PARSE))
        client.settle()
        same(client.stop(), 0)


def in_pieces():
    """A message may arrive byte by byte, and several at once."""
    with Client(FILES) as client:
        client.start()
        body = frame(json.dumps({"jsonrpc": "2.0", "id": 80, "method": "check/unknown"}).encode())
        for at in range(len(body)):
            client.raw(body[at : at + 1])
        more = b"".join(frame(json.dumps({"jsonrpc": "2.0", "id": 81 + n, "method": "check/unknown"}).encode()) for n in range(5))
        client.raw(more)
        for number in range(80, 86):
            try:
                client.result(number)
            except Failed as failed:
                same(failed.code, UNKNOWN)
        same(client.stop(), 0)


def in_order():
    """Requests are answered in their order."""
    with Client(FILES) as client:
        client.start()
        place = client.at("shop.go", client.found("shop.go", "Total"))
        numbers = [client.send("textDocument/references", place | everywhere()) for _ in range(20)]
        same([len(client.result(number)) for number in numbers], [1] * 20)
        same(list(client.answers)[-20:], [json.dumps(number) for number in numbers])
        same(client.stop(), 0)


def wrong_params():
    """Parameters that lack what is needed, or have it in another form, are refused."""
    with Client(FILES) as client:
        client.start()
        uri = {"uri": client.uri("shop.go")}
        place = {"line": 0, "character": 0}
        wrong = (
            None, {}, [], [uri, place], {"textDocument": uri}, {"textDocument": uri, "position": place},
            {"textDocument": uri, "position": {"line": 0}, "newName": "x"}, {"textDocument": uri, "position": [0, 0], "newName": "x"},
            {"textDocument": uri, "position": {"line": -1, "character": 0}, "newName": "x"},
            {"textDocument": uri, "position": {"line": 0.5, "character": 0}, "newName": "x"},
            {"textDocument": uri, "position": place, "newName": 7}, {"textDocument": {}, "position": place, "newName": "x"},
            {"textDocument": "shop.go", "position": place, "newName": "x"},
        )  # fmt: skip
        for params in wrong:
            same((params, code(client, "textDocument/rename", params)), (params, PARAMS))
        for params in (None, {}, {"textDocument": uri}, {"textDocument": uri, "position": {"line": "0", "character": 0}}):
            same((params, code(client, "textDocument/definition", params)), (params, PARAMS))
        same(code(client, "workspace/executeCommand", {"arguments": []}), PARAMS)
        same(code(client, "workspace/executeCommand", {"command": "gorefd.other"}), PARAMS)
        for method in ("textDocument/didOpen", "textDocument/didChange", "textDocument/didClose", "textDocument/didSave"):
            client.notify(method, {})
            client.notify(method)
        same(client.stop(), 0)
        same(client.nameless, [])
