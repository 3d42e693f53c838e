"""Plays the story of two editors, as README.md and docs/PROTOCOL.md have it, on a built `gorefd`."""

import os
import pathlib
import re
import shlex
import shutil
import subprocess
import sys
import tempfile

from checks import TOP
from checks.server.server import A, DEADLINE, OBJECT, PROGRAM, Server, connect, put, run, same, stands, untold

README = (TOP / "README.md").read_text()
PROTOCOL = (TOP / "docs" / "PROTOCOL.md").read_text()
PLACE = "crates/gorefd/out/gorefd"


def section(text, title):
    return re.search(rf"^## {re.escape(title)}\n(.*?)(?=^## |\Z)", text, re.M | re.S)[1]


def blocks(text):
    """The fenced blocks, each with its language."""
    return re.findall(r"^```(\w*)\n(.*?)^```$", text, re.M | re.S)


def rows(text):
    """The cells of the rows of a table, but of its head."""
    lines = [[cell.strip() for cell in line.split("|")[1:-1]] for line in text.splitlines() if line.startswith("|")]
    return lines[2:]


def spans(cell):
    return re.findall(r"`([^`]*)`", cell)


class Folder:
    """A folder in which the program stands where the documents say."""

    def __enter__(self):
        self.folder = tempfile.TemporaryDirectory()
        program = pathlib.Path(self.folder.name, PLACE)
        program.parent.mkdir(parents=True)
        program.write_text("#!/bin/sh\nexec " + shlex.join(PROGRAM) + ' "$@"\n')
        program.chmod(0o755)
        return self.folder.name

    def __exit__(self, *_):
        self.folder.cleanup()


def told_by_shell(script, folder):
    """What a script of the documents writes, with E for how long the journal is told to be, which comes last."""
    ran = subprocess.run(["bash", "-e", "-c", script], cwd=folder, capture_output=True, timeout=DEADLINE, text=True)
    same((ran.returncode, untold(ran.stderr.encode())), (0, b""))
    lines = ran.stdout.splitlines()
    ends = [line for line in lines if re.fullmatch("settled [1-9][0-9]*", line)]
    same(len(ends), 1)
    return "\n".join([line for line in lines if line != ends[0]] + ["settled E", ""])


class Socket:
    """A session without `nc`."""

    def __init__(self, path):
        self.client = connect(path)

    def type(self, text):
        self.client.send(text)

    def see(self, length):
        return self.client.read.read(length)

    def close(self):
        self.client.close()


class Terminal:
    """A session by `nc -U`."""

    def __init__(self, path):
        stands(path)
        self.nc = subprocess.Popen(["nc", "-U", path], stdin=subprocess.PIPE, stdout=subprocess.PIPE)

    def type(self, text):
        self.nc.stdin.write(text)
        self.nc.stdin.flush()

    def see(self, length):
        return self.nc.stdout.read(length)

    def close(self):
        self.nc.stdin.close()
        self.nc.wait(DEADLINE)
        self.nc.stdout.close()


def lines_of(cell):
    """What a cell of a table spells out, a line for each."""
    return "".join(line + "\n" for line in spans(cell)).encode()


def typed_story(session):
    """Plays the table of README.md in two sessions, row by row."""
    told = section(README, "In an editor")
    script = blocks(told)[0][1]
    with Folder() as folder:
        path = os.path.join(folder, "gorefd.sock")
        server = subprocess.Popen(["bash", "-c", "exec " + script], cwd=folder, stdout=subprocess.PIPE, stderr=subprocess.PIPE)
        try:
            sessions, count = {"first": session(path), "second": session(path)}, 0
            for who, typed, shown in rows(told):
                seen, _, ended = shown.partition("; of the server ")
                wanted = lines_of(seen)
                count += 1
                sessions[who].type(lines_of(typed))
                same((typed, sessions[who].see(len(wanted))), (typed, wanted))
                if ended:
                    for each in sessions.values():
                        each.close()
                    out, err = server.communicate(timeout=DEADLINE)
                    same((server.returncode, re.sub(rb"[1-9][0-9]*", b"E", out), untold(err)), (0, lines_of(ended), b""))
            same(server.poll(), 0)
        finally:
            server.kill()
            server.communicate()
    return f"{count} steps"


def story_over_sockets():
    """The story of README.md, over two sockets."""
    return typed_story(Socket)


def story_by_nc():
    """The story of README.md as it is told, by `nc -U` in two terminals."""
    if shutil.which("nc") is None:
        return "but there is no nc here: not played"
    return typed_story(Terminal)


def by_hand():
    """The session of docs/PROTOCOL.md by `nc -U`, as it stands there."""
    if shutil.which("nc") is None:
        return "but there is no nc here: not played"
    script, told = (text for _, text in blocks(section(PROTOCOL, "By hand")))
    with Folder() as folder:
        same(told_by_shell(script, folder), told)
    return "by nc"


def documented_client():
    """The client of docs/PROTOCOL.md tells the story that stands behind it."""
    (language, client), (_, script), (_, told) = blocks(section(PROTOCOL, "A client"))
    same(language, "python")
    with Folder() as folder:
        pathlib.Path(folder, "client.py").write_text(client)
        os.symlink(sys.executable, os.path.join(folder, "python3"))
        same(told_by_shell(f'PATH="$PWD:$PATH"\n{script}', folder), told)
    return f"{len(client.splitlines())} lines"


def documented_retries():
    """The client of docs/PROTOCOL.md asks again wherever another session was first."""
    client = {"__name__": "client", "print": lambda *_, **__: None}
    exec(blocks(section(PROTOCOL, "A client"))[0][1], client)
    with Server(1, 2, 2) as server:
        other, editor = server.connect(), client["Editor"]("editor", server.path)
        for turn in range(10):
            number = other.number()
            same(other.ask(put(number, "b/b.go", b"package b\n" + b"\n" * turn)), (b"ok %d" % (number + 1), b""))
            text = b"package a\n\nvar f%d int\n" % turn
            for is_new in (True, False):
                same(editor.change("put", f"a/f{turn}.go {len(text)}", text), is_new)
        same(editor.change("put", f"a/a.go {len(A)}", A), True)
        for turn in range(10):
            same(editor.change("del", f"a/f{turn}.go"), True)
        same(editor.ask("wait")[0], "ok")
        same(editor.ask("object a"), ("ok", editor.state, OBJECT))
        editor.end()
        other.close()
        same(server.ended()[0], 0)


def documented_sessions():
    """The sessions of README.md and docs/PROTOCOL.md, each a script that writes `session.in`, and the answers behind it."""
    count = 0
    for text in (README, PROTOCOL):
        told = blocks(text)
        for (_, script), (_, answer) in zip(told, told[1:]):
            if script.endswith("> session.in\n"):
                with tempfile.TemporaryDirectory() as folder:
                    subprocess.run(["bash", "-e", "-c", script], cwd=folder, check=True)
                    sent = pathlib.Path(folder, "session.in").read_bytes()
                same(run(["run"], input=sent), (0, answer.encode(), b""))
                count += 1
    same(count > 0, True)
    return f"{count} of them"


def documented_ends():
    """docs/PROTOCOL.md tells of each exit status, with each text on standard error."""
    faults = {"memory fault", "read fault", "write fault", "turns fault", "socket fault", "unsettled"}
    faults |= {"another server is at work at this path", "no server is at work at this path"}
    faults |= {"journal fault", "another server keeps its journal in this folder"}
    told = {}
    for status, texts, *_ in rows(section(PROTOCOL, "How the program ends")):
        told.setdefault(status, set()).update(text.removeprefix("gorefd: ") for text in spans(texts) if text != "gorefd: ")
    same(told, {"0": set(), "1": faults, "2": set()})


CHECKS = (documented_sessions, documented_ends, story_over_sockets, story_by_nc, by_hand, documented_client, documented_retries)
