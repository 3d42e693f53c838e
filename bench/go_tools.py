"""Measures `gorename`, `gomvpkg` and a running `gopls`, where they are installed, for scripts that compare with them."""
import json
import os
import shutil
import signal
import subprocess
import tempfile
import time


def laid(top, files):
    """Writes the files below the folder `src` of `top`."""
    for path, text in files.items():
        name = os.path.join(top, "src", path)
        os.makedirs(os.path.dirname(name), exist_ok=True)
        with open(name, "wb") as file:
            file.write(text)


def environment_in(top, modules):
    return dict(os.environ, GO111MODULE=modules, GOPATH=top, GOCACHE=os.path.join(top, "cache"), GOFLAGS="", HOME=top)


def once(files, program, *words):
    """Prints the seconds of one run of a program on these files, in a new folder."""
    if shutil.which(program) is None:
        print(f"  {program}: skipped, since it is not there")
        return
    with tempfile.TemporaryDirectory() as top:
        laid(top, files)
        begin = time.perf_counter()
        subprocess.run([program, *words], cwd=os.path.join(top, "src"), env=environment_in(top, "off"), check=True, capture_output=True)
        print(f"  {' '.join((program, *words)):70} {time.perf_counter() - begin:8.3f} s")


class Gopls:
    """A running gopls that serves the files of one module."""

    def __init__(self, top, files, module):
        laid(top, {f"{module}/go.mod": f"module {module}\n\ngo 1.19\n".encode(), **files})
        self.root = os.path.join(top, "src", module)
        self.number = 0
        self.child = subprocess.Popen(
            ["gopls", "serve"],
            stdin=subprocess.PIPE,
            stdout=subprocess.PIPE,
            stderr=subprocess.DEVNULL,
            cwd=self.root,
            env=environment_in(top, "on"),
            start_new_session=True,
        )

    def place(self, path):
        return "file://" + os.path.join(os.path.dirname(self.root), path)

    def send(self, message):
        text = json.dumps({"jsonrpc": "2.0", **message}).encode()
        self.child.stdin.write(b"Content-Length: %d\r\n\r\n" % len(text) + text)
        self.child.stdin.flush()

    def tell(self, method, **params):
        self.send({"method": method, "params": params})

    def ask(self, method, **params):
        """The result and its seconds. Requests of the server meanwhile get empty answers."""
        self.number += 1
        begin = time.perf_counter()
        self.send({"id": self.number, "method": method, "params": params})
        while True:
            length = 0
            while (line := self.child.stdout.readline().strip()) != b"":
                length = int(line.split()[1]) if line.startswith(b"Content-Length") else length
            message = json.loads(self.child.stdout.read(length))
            if "method" in message and "id" in message:
                asked = message["params"].get("items", []) if message["method"] == "workspace/configuration" else None
                self.send({"id": message["id"], "result": asked and [None] * len(asked)})
            elif message.get("id") == self.number:
                if "error" in message:
                    raise RuntimeError(f"{method}: {message['error']}")
                return message["result"], time.perf_counter() - begin

    def end(self):
        """Kills it, and the commands of go that it has started."""
        os.killpg(self.child.pid, signal.SIGKILL)
        self.child.wait()

    def peak(self):
        with open(f"/proc/{self.child.pid}/status") as status:
            return next(int(line.split()[1]) for line in status if line.startswith("VmHWM")) / 1024


def position(text, offset):
    return {"line": text.count(b"\n", 0, offset), "character": offset - (text.rfind(b"\n", 0, offset) + 1)}


def running(files, module, asked):
    """Prints the seconds of each question to a running gopls, and the most memory that it has had. A question is a label, a path, an
    offset, and a new name, or None for the uses. The first is asked twice: the second time gopls has loaded all files."""
    if shutil.which("gopls") is None:
        print("  gopls: skipped, since it is not there")
        return
    with tempfile.TemporaryDirectory(ignore_cleanup_errors=True) as top:
        server = Gopls(top, files, module)
        server.ask("initialize", processId=None, rootUri="file://" + server.root, capabilities={})
        server.tell("initialized")
        for _, path, _, _ in asked:
            text = files[path].decode()
            server.tell("textDocument/didOpen", textDocument={"uri": server.place(path), "languageId": "go", "version": 1, "text": text})
        for label, path, offset, name in (asked[0], *asked):
            there = {"textDocument": {"uri": server.place(path)}, "position": position(files[path], offset)}
            if name is None:
                found, seconds = server.ask("textDocument/references", context={"includeDeclaration": True}, **there)
                told = f"{len(found)} places"
            else:
                found, seconds = server.ask("textDocument/rename", newName=name, **there)
                told = f"{sum(len(change['edits']) for change in found.get('documentChanges', []))} edits"
            print(f"  gopls: {label:63} {seconds:8.3f} s, {told}")
        print(f"  gopls: most memory {server.peak():.0f} MiB")
        server.end()
