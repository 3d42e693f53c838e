"""A client of the language server protocol, with no library: messages in frames over the pipes of a server that it starts."""

import json
import os
import pathlib
import queue
import shutil
import subprocess
import tempfile
import threading
from urllib.parse import quote, unquote

from checks.editors import positions
from checks.server.server import PROGRAM

DEADLINE = 60


def frame(body):
    return b"Content-Length: %d\r\n\r\n" % len(body) + body


def read_frame(stream):
    """The next message of a stream, or None at its end. What is written must be a frame as the specification has it."""
    fields = {}
    while True:
        line = stream.readline()
        if line == b"" and not fields:
            return None
        if not line.endswith(b"\r\n"):
            raise AssertionError(f"no line of a header: {line!r}")
        if line == b"\r\n":
            break
        name, colon, value = line[:-2].partition(b": ")
        if not colon:
            raise AssertionError(f"no field of a header: {line!r}")
        fields[name.lower()] = value
    body = stream.read(int(fields[b"content-length"]))
    message = json.loads(body.decode("utf-8"))
    if message.get("jsonrpc") != "2.0":
        raise AssertionError(f"no message of JSON-RPC 2.0: {message}")
    return message


class Failed(Exception):
    """The answer to a request is an error."""

    def __init__(self, error):
        self.code = error["code"]
        self.text = error["message"]
        super().__init__(f"{self.code} {self.text}")


class Client:
    """A server started in a new folder with these files. It reads all that the server writes, and answers requests of the server."""

    def __init__(self, files, capabilities=None, folder=None):
        self.top = pathlib.Path(folder or tempfile.mkdtemp()).resolve()
        self.is_new = folder is None
        self.disk = dict(files)
        for path, text in files.items():
            (self.top / path).parent.mkdir(parents=True, exist_ok=True)
            (self.top / path).write_bytes(text.encode("utf-8"))
        self.capabilities = {"workspace": {"workspaceEdit": {"documentChanges": True}}} if capabilities is None else capabilities
        self.encoding = "utf-16"
        self.open = {}
        self.number = 0
        self.notes = []
        self.asked = []
        self.answers = {}
        self.nameless = []
        self.arrived = queue.Queue()
        self.process = subprocess.Popen(
            [*PROGRAM, "lsp"], cwd=self.top, stdin=subprocess.PIPE, stdout=subprocess.PIPE, stderr=subprocess.PIPE
        )
        self.reader = threading.Thread(target=self.read, daemon=True)
        self.reader.start()

    def __enter__(self):
        return self

    def __exit__(self, *_):
        if self.process.poll() is None:
            self.process.kill()
        self.process.wait()
        if self.is_new:
            shutil.rmtree(self.top)

    def read(self):
        try:
            while (message := read_frame(self.process.stdout)) is not None:
                self.arrived.put(message)
            self.arrived.put(None)
        except (AssertionError, ValueError, KeyError) as fault:
            self.arrived.put(fault)

    # What is sent

    def raw(self, data):
        self.process.stdin.write(data)
        self.process.stdin.flush()

    def body(self, message):
        self.raw(frame(message if isinstance(message, bytes) else json.dumps(message).encode("utf-8")))

    def notify(self, method, params=None):
        self.body({"jsonrpc": "2.0", "method": method} | ({} if params is None else {"params": params}))

    def send(self, method, params=None, number=None):
        """Sends a request and returns its id."""
        if number is None:
            self.number += 1
            number = self.number
        self.body({"jsonrpc": "2.0", "id": number, "method": method} | ({} if params is None else {"params": params}))
        return number

    def ask(self, method, params=None, number=None):
        """The result of a request; raises its error."""
        return self.result(self.send(method, params, number))

    # What arrives

    def next(self):
        message = self.arrived.get(timeout=DEADLINE)
        if isinstance(message, Exception):
            raise message
        return message

    def take(self):
        """Takes one message, and returns False at the end of what the server writes."""
        message = self.next()
        if message is None:
            return False
        if "method" in message and "id" in message:
            self.asked.append(message)
        elif "method" in message:
            self.notes.append(message)
        elif message["id"] is None:
            self.nameless.append(message)
        else:
            if json.dumps(message["id"]) in self.answers:
                raise AssertionError(f"answered twice: {message}")
            self.answers[json.dumps(message["id"])] = message
        return True

    def result(self, number):
        key = json.dumps(number)
        while key not in self.answers:
            if not self.take():
                raise AssertionError(f"no answer to {number}")
        message = self.answers[key]
        if ("result" in message) == ("error" in message):
            raise AssertionError(f"neither or both of result and error: {message}")
        if "error" in message:
            raise Failed(message["error"])
        return message["result"]

    def error_without_id(self):
        """The next error whose id is null."""
        while not self.nameless:
            if not self.take():
                raise AssertionError("no error without an id")
        return self.nameless.pop(0)["error"]["code"]

    def settle(self):
        """A request that the server does not know: what it had to say before it is read now."""
        try:
            self.ask("check/settle")
        except Failed as failed:
            if failed.code != -32601:
                raise

    def request_of_server(self, method):
        """The next request of the server with this method."""
        while True:
            for message in self.asked:
                if message["method"] == method:
                    self.asked.remove(message)
                    return message
            if not self.take():
                raise AssertionError(f"no request {method}")

    def reply(self, message, result):
        self.body({"jsonrpc": "2.0", "id": message["id"], "result": result})

    def ended(self):
        """Ends the input, and returns the status of the server."""
        self.process.stdin.close()
        while self.take():
            pass
        return self.process.wait(timeout=DEADLINE)

    # A session

    def start(self, **more):
        """From initialize to initialized."""
        params = {"processId": os.getpid(), "rootUri": self.uri(""), "capabilities": self.capabilities} | more
        told = self.ask("initialize", params)
        self.encoding = told["capabilities"].get("positionEncoding", "utf-16")
        self.notify("initialized", {})
        return told

    def stop(self):
        """From shutdown to exit; returns the status."""
        if self.ask("shutdown") is not None:
            raise AssertionError("the result of shutdown is null")
        self.notify("exit")
        return self.ended()

    # Files and documents

    def uri(self, path):
        return "file://" + quote(str(self.top / path) if path else str(self.top))

    def path(self, uri):
        if not uri.startswith("file://"):
            raise AssertionError(f"no file: {uri}")
        return str(pathlib.Path(unquote(uri[len("file://") :])).relative_to(self.top))

    def text(self, path):
        """What the client takes for the text of a file: its document, or what lies on the disk."""
        return self.open[path][1] if path in self.open else (self.top / path).read_bytes().decode("utf-8")

    def did_open(self, path, text=None, version=1):
        text = self.text(path) if text is None else text
        self.open[path] = [version, text]
        item = {"uri": self.uri(path), "languageId": "go", "version": version, "text": text}
        self.notify("textDocument/didOpen", {"textDocument": item})

    def did_change(self, path, *changes):
        """Sends content changes, and keeps the text after them."""
        document = self.open[path]
        document[0] += 1
        for change in changes:
            document[1] = positions.changed(document[1], change, self.encoding)
        identifier = {"uri": self.uri(path), "version": document[0]}
        self.notify("textDocument/didChange", {"textDocument": identifier, "contentChanges": list(changes)})

    def did_close(self, path):
        del self.open[path]
        self.notify("textDocument/didClose", {"textDocument": {"uri": self.uri(path)}})

    def at(self, path, offset):
        """The params of a request at a place in a file."""
        at = positions.position(self.text(path), offset, self.encoding)
        return {"textDocument": {"uri": self.uri(path)}, "position": at}

    def found(self, path, text, nth=0):
        """The offset of the nth time that a text stands in a file."""
        at = -1
        for _ in range(nth + 1):
            at = self.text(path).index(text, at + 1)
        return at

    def span(self, path, start, length):
        return positions.span(self.text(path), start, start + length, self.encoding)

    def edits_of(self, edit):
        """The edits of a WorkspaceEdit by path, with the version that it names, which is None for `changes`."""
        if "documentChanges" in edit:
            return {
                self.path(change["textDocument"]["uri"]): (change["textDocument"]["version"], change["edits"])
                for change in edit["documentChanges"]
            }
        return {self.path(uri): (None, edits) for uri, edits in edit["changes"].items()}

    def after(self, edit):
        """The texts of the files that a WorkspaceEdit changes. A version it names must be that of the document."""
        texts = {}
        for path, (version, edits) in self.edits_of(edit).items():
            if version is not None and version != self.open[path][0]:
                raise AssertionError(f"{path}: version {version}, and not {self.open[path][0]}")
            texts[path] = positions.edited(self.text(path), edits, self.encoding)
        return texts

    def change_by(self, path, edits):
        """Changes an open document by text edits, and tells so."""
        latest = sorted(edits, key=lambda e: (e["range"]["start"]["line"], e["range"]["start"]["character"]), reverse=True)
        self.did_change(path, *({"range": e["range"], "text": e["newText"]} for e in latest))

    def apply(self, edit):
        """Does as an editor does: changes open documents and tells so; writes the other files."""
        for path, (_, edits) in self.edits_of(edit).items():
            if path in self.open:
                self.change_by(path, edits)
            else:
                text = positions.edited(self.text(path), edits, self.encoding)
                (self.top / path).write_bytes(text.encode("utf-8"))

    def apply_opening(self, edit):
        """Does as an editor does that writes no file: changes open documents, and then opens and changes the others, one after another."""
        found = self.edits_of(edit)
        for path in sorted(found, key=lambda path: path not in self.open):
            if path not in self.open:
                self.did_open(path)
            self.change_by(path, found[path][1])
