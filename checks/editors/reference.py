"""A language server by the model, slow and small, on which the checks of the language server are tried: they must pass with it.

    python3 -m checks.editors.cases python3 checks/editors/reference.py

It is written from the specification of the protocol and the rules of the model, as the checks are, and shows only that these can be met.
"""

import json
import os
import pathlib
import sys
from urllib.parse import quote, unquote_to_bytes

sys.path.insert(0, str(pathlib.Path(__file__).resolve().parents[2]))

from checks.editors import positions as p
from checks.editors.files import asked
from checks.model.moves import plan_move
from checks.model.refusals import Refusal, is_path
from checks.model.renames import declaration_at, is_renamable, plan_rename
from checks.model.workspace import Workspace

WORDS = {
    4: "there is no such Go file",
    10: "no identifier stands here",
    11: "what stands here cannot be renamed",
    12: "the new name is not legal here",
    13: "this is so already",
    16: "there is no such package",
    17: "files lie there already",
    18: "this lies in the folder that moves",
}
COMMANDS = ["gorefd.undo", "gorefd.redo"]
FOLDERS = {"filters": [{"scheme": "file", "pattern": {"glob": "**", "matches": "folder"}}]}


class Wrong(Exception):
    def __init__(self, code, text=""):
        self.code, self.text = code, text


class Exit(Exception):
    """The session ends with this status."""


class Document:
    def __init__(self, uri, version, text):
        self.uri, self.version, self.text = uri, version, text


class Server:
    def __init__(self, read, write, top):
        self.reading, self.writing = read, write
        self.top = top
        self.state = "new"
        self.encoding = "utf-16"
        self.open = {}
        self.told = {}
        self.undos, self.redos = [], []
        self.book = {}
        self.written = set()
        self.asked = 0
        self.waiting = {}
        self.prefix = ""

    # Frames

    def send(self, message):
        body = json.dumps({"jsonrpc": "2.0"} | message).encode()
        self.writing.write(b"Content-Length: %d\r\n\r\n" % len(body) + body)
        self.writing.flush()

    def fail(self, number, code, text="refused"):
        self.send({"id": number, "error": {"code": code, "message": text}})

    def header(self):
        """The length that a header gives, None where it gives none, and the end of the input as an exception."""
        size = None
        while True:
            line = self.reading.readline()
            if not line.endswith(b"\n"):
                raise Exit(1)
            line = line[:-1].removesuffix(b"\r")
            if not line:
                return size
            name, colon, value = line.partition(b":")
            if colon and name.lower() == b"content-length":
                size = int(value) if value.strip().isdigit() else None

    def serve(self):
        while True:
            size = self.header()
            if size is None:
                self.fail(None, -32700)
                continue
            body = self.reading.read(size)
            if len(body) < size:
                raise Exit(1)
            try:
                value = json.loads(body.decode("utf-8"))
            except (ValueError, RecursionError):
                self.fail(None, -32700)
                continue
            self.take(value)

    def take(self, value):
        has_id = isinstance(value, dict) and type(value.get("id")) in (str, int)
        number = value["id"] if has_id else None
        if not isinstance(value, dict) or value.get("jsonrpc") != "2.0":
            return self.fail(number, -32600)
        params = value.get("params")
        if params is not None and not isinstance(params, (list, dict)):
            return self.fail(number, -32600)
        if "method" not in value:
            if "result" in value or "error" in value:
                return self.waiting.pop(number, lambda _: None)(value.get("result"))
            return self.fail(number, -32600)
        if not isinstance(value["method"], str) or ("id" in value and not has_id):
            return self.fail(number, -32600)
        if not has_id:
            return self.note(value["method"], params)
        try:
            told = self.request(value["method"], params, number)
        except Wrong as wrong:
            return self.fail(number, wrong.code, wrong.text)
        except Refusal as refusal:
            return self.fail(number, -32803, self.sentence(refusal))
        if told is not Ellipsis:
            self.send({"id": number, "result": told})

    # Files

    def path(self, uri):
        """The path below the folder, or None."""
        if not uri.startswith("file://"):
            return None
        rest = uri[len("file://") :].removeprefix("localhost")
        path = unquote_to_bytes(rest).decode("utf-8", "replace")
        return os.path.relpath(path, self.top) if path.startswith(str(self.top) + "/") else None

    def uri(self, path):
        return self.open[path].uri if path in self.open else "file://" + quote(f"{self.top}/{path}")

    def is_go(self, path):
        return path.endswith(".go") and not any(part[0] in "._" for part in path.split("/")) and is_path(self.prefix + path)

    def load(self):
        mod = self.top / "go.mod"
        self.prefix = mod.read_text().split()[1] + "/" if mod.exists() else ""

    def disk(self):
        found = {str(path.relative_to(self.top)): path for path in self.top.rglob("*.go")}
        return {self.prefix + path: file.read_bytes() for path, file in found.items() if self.is_go(path)}

    def texts(self):
        """The files as the client has them: documents before what lies on the disk."""
        now = self.disk()
        for path, document in self.open.items():
            if self.is_go(path):
                now[self.prefix + path] = document.text.encode("utf-8")
        return now

    def sentence(self, refusal):
        lines = refusal.body.strip().split("\n")
        if refusal.code in (14, 15):
            used, _, by = lines[0].partition(" by ")
            words = "this identifier would be lost"
            if refusal.code == 14:
                words = "this identifier would be captured by " + ("a predeclared name" if by == "universe" else self.shown(by))
            return f"{self.shown(used)}: {words}"
        if refusal.code == 9 and lines[0]:
            place, _, kind = lines[0].rpartition(" ")
            return f"{self.shown(place)}: {kind}"
        return WORDS.get(refusal.code, "refused")

    def shown(self, place):
        path, _, offset = place.rpartition(":#")
        before = self.texts()[path][: int(offset)]
        return f"{path[len(self.prefix):]}:{before.count(10) + 1}:{len(before) - before.rfind(10)}"

    # Params

    def member(self, params, *names):
        for name in names:
            if not isinstance(params, dict) or name not in params:
                raise Wrong(-32602)
            params = params[name]
        return params

    def typed(self, kind, params, *names):
        value = self.member(params, *names)
        if type(value) is not kind or (kind is int and value < 0):
            raise Wrong(-32602)
        return value

    def position(self, value):
        return {"line": self.typed(int, value, "line"), "character": self.typed(int, value, "character")}

    def place(self, params):
        """The path and the byte of a place."""
        uri = self.typed(str, params, "textDocument", "uri")
        at = self.position(self.member(params, "position"))
        path = self.path(uri)
        texts = self.texts()
        if path is None or self.prefix + path not in texts:
            return None, 0
        text = texts[self.prefix + path].decode("utf-8")
        return self.prefix + path, len(text[: asked(text, p.offset_of(text, at, self.encoding))].encode("utf-8"))

    def range(self, path, offset, length):
        text = self.texts()[path].decode("utf-8")
        start = len(text.encode("utf-8")[:offset].decode("utf-8"))
        return p.span(text, start, start + length, self.encoding)

    # Notifications

    def note(self, method, params):
        if method == "exit":
            raise Exit(0 if self.state == "down" else 1)
        if self.state != "up":
            return
        try:
            if method == "textDocument/didOpen":
                item = self.member(params, "textDocument")
                path = self.path(self.typed(str, item, "uri"))
                document = Document(item["uri"], self.member(item, "version"), self.typed(str, item, "text"))
                if path is not None:
                    self.open[path] = document
            elif method == "textDocument/didChange":
                path = self.path(self.typed(str, params, "textDocument", "uri"))
                if path in self.open:
                    for change in self.typed(list, params, "contentChanges"):
                        self.open[path].text = p.changed(self.open[path].text, change, self.encoding)
                    self.open[path].version = self.member(params, "textDocument", "version")
            elif method == "textDocument/didClose":
                path = self.path(self.typed(str, params, "textDocument", "uri"))
                self.open.pop(path, None)
                if self.told.pop(path, None):
                    self.publish_one(path, [], None)
            else:
                return
        except Wrong:
            return
        self.publish()

    def publish_one(self, path, found, version):
        more = {} if version is None else {"version": version}
        self.send({"method": "textDocument/publishDiagnostics", "params": {"uri": self.uri(path), "diagnostics": found} | more})

    def publish(self):
        faults = Workspace(self.texts()).faults()
        for path, document in self.open.items():
            found = [
                {"range": self.range(at, offset, 0), "severity": 1, "source": "gorefd", "code": kind, "message": kind}
                for at, offset, kind in faults
                if at == self.prefix + path
            ]
            if found != self.told.get(path, []):
                self.told[path] = found
                self.publish_one(path, found, document.version)

    # Requests

    def request(self, method, params, number):
        if method == "initialize":
            if self.state != "new":
                raise Wrong(-32600)
            return self.initialize(params or {})
        if self.state == "new":
            raise Wrong(-32002)
        if self.state == "down":
            raise Wrong(-32600)
        if method == "shutdown":
            self.state = "down"
            return None
        does = {
            "textDocument/rename": self.rename,
            "textDocument/prepareRename": self.prepare,
            "textDocument/references": self.references,
            "textDocument/definition": self.definition,
            "textDocument/documentHighlight": self.highlight,
            "workspace/willRenameFiles": self.will_rename,
            "workspace/executeCommand": lambda params: self.execute(params, number),
        }
        if method not in does:
            raise Wrong(-32601)
        return does[method](params)

    def initialize(self, params):
        self.state = "up"
        self.load()
        can = params.get("capabilities", {})
        self.has_documents = can.get("workspace", {}).get("workspaceEdit", {}).get("documentChanges", False)
        self.encoding = "utf-8" if "utf-8" in can.get("general", {}).get("positionEncodings", []) else "utf-16"
        return {
            "capabilities": {
                "positionEncoding": self.encoding,
                "textDocumentSync": {"openClose": True, "change": 2, "save": True},
                "renameProvider": {"prepareProvider": True},
                "referencesProvider": True,
                "definitionProvider": True,
                "documentHighlightProvider": True,
                "executeCommandProvider": {"commands": COMMANDS},
                "workspace": {"fileOperations": {"willRename": FOLDERS, "didRename": FOLDERS}},
            },
            "serverInfo": {"name": "gorefd"},
        }

    def workspace_edit(self, spans):
        """The edit of spans in bytes, by path."""
        texts = self.texts()
        edits = {}
        for path, found in spans.items():
            if found:
                text = texts[path]
                before = lambda at: text[:at].decode("utf-8")
                edits[path[len(self.prefix) :]] = [
                    {"range": p.span(text.decode("utf-8"), len(before(a)), len(before(b)), self.encoding), "newText": new.decode("utf-8")}
                    for a, b, new in found
                ]
        if not self.has_documents:
            return {"changes": {self.uri(path): found for path, found in edits.items()}}
        versions = {path: self.open[path].version if path in self.open else None for path in edits}
        return {
            "documentChanges": [{"textDocument": {"uri": self.uri(path), "version": versions[path]}, "edits": edits[path]} for path in edits]
        }

    def rename(self, params):
        name = self.typed(str, params, "newName")
        path, offset = self.place(params)
        if path is None:
            raise Refusal(4)
        texts = self.texts()
        edits = plan_rename(Workspace(texts), texts, path, offset, name)
        after = {at: edits.edited_text(at, texts[at]) for at in edits.spans}
        self.undos.append(({at: texts[at] for at in after}, after))
        self.redos.clear()
        return self.workspace_edit(edits.spans)

    def found(self, params):
        path, offset = self.place(params)
        if path is None:
            raise Refusal(4)
        workspace = Workspace(self.texts())
        told = workspace.uses(path, offset)
        if isinstance(told, int):
            raise Refusal(told)
        return path, offset, declaration_at(workspace, path, offset), told

    def location(self, place, length):
        return {"uri": self.uri(place[0][len(self.prefix) :]), "range": self.range(*place, length)}

    def prepare(self, params):
        path, offset, declaration, told = self.found(params)
        if not is_renamable(declaration):
            raise Refusal(11)
        length = len(declaration.name)
        at = [o for q, o in told if q == path and o <= offset < o + length]
        return {"range": self.range(path, at[0], length), "placeholder": declaration.name}

    def declared(self, declaration):
        return (declaration.path, declaration.offset) if hasattr(declaration, "offset") else None

    def references(self, params):
        declared = self.typed(bool, params, "context", "includeDeclaration")
        path, offset, declaration, told = self.found(params)
        leave = [] if declared else [place_of(declaration)]
        return [self.location(place, len(declaration.name)) for place in told if place not in leave]

    def definition(self, params):
        path, offset, declaration, told = self.found(params)
        return self.location(place_of(declaration), len(declaration.name))

    def highlight(self, params):
        path, offset, declaration, told = self.found(params)
        return [{"range": self.range(*place, len(declaration.name))} for place in told if place[0] == path]

    def will_rename(self, params):
        for file in self.typed(list, params, "files"):
            old, new = self.path(file["oldUri"]), self.path(file["newUri"])
            texts = self.texts()
            workspace = Workspace(texts)
            if self.prefix + old in workspace.packages:
                return self.workspace_edit(plan_move(workspace, texts, self.prefix + old, self.prefix + new).spans)
        return None

    def execute(self, params, number):
        command = self.typed(str, params, "command")
        if command not in COMMANDS:
            raise Wrong(-32602)
        back, on = (self.undos, self.redos) if command == "gorefd.undo" else (self.redos, self.undos)
        if not back:
            raise Wrong(-32803, "nothing to take back")
        old, new = step = back.pop()
        on.append(step)
        wanted = old if command == "gorefd.undo" else new
        texts = self.texts()
        spans = {path: [(0, len(texts[path]), text)] for path, text in wanted.items()}
        self.asked += 1
        self.waiting[self.asked] = lambda _: self.send({"id": number, "result": None})
        self.send({"id": self.asked, "method": "workspace/applyEdit", "params": {"edit": self.workspace_edit(spans)}})
        return ...


def place_of(declaration):
    from checks.model.identifiers import place_of as place

    return place(declaration)


if __name__ == "__main__":
    try:
        Server(sys.stdin.buffer, sys.stdout.buffer, pathlib.Path.cwd().resolve()).serve()
    except Exit as end:
        sys.exit(end.args[0])
