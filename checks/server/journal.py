"""Checks that a built `gorefd serve --journal DIR` loses nothing that was answered: where it is killed, where the last record was cut off, and
where the disk is full.

    python3 -m checks.server.journal [WORD..] PROGRAM

The file is read here by its format alone: records of a length in four bytes, the lowest first, four bytes of the SHA-256 digest of these, eight
bytes of the digest of what the record holds, and what it holds.
"""

import hashlib
import os
import random
import resource
import signal
import struct
import tempfile
import threading

from checks.server.server import A, Server, check_program, put, same, settles, together

HEADING = b"gorefd changes 1"
BEFORE = 16  # how many bytes of a record stand before what it holds


def record(held):
    length = struct.pack("<I", len(held))
    return length + hashlib.sha256(length).digest()[:4] + hashlib.sha256(held).digest()[:8] + held


def records(text):
    """What the records of a file hold, and how many bytes stand behind them."""
    held, at = [], 0
    while at + BEFORE <= len(text):
        (length,) = struct.unpack_from("<I", text, at)
        one = text[at + BEFORE : at + BEFORE + length]
        if len(one) < length or record(one) != text[at : at + BEFORE + length]:
            break
        held.append(one)
        at += BEFORE + length
    return held, len(text) - at


class Folder:
    """The folder of a journal, beside the folders of the servers that use it one after the other."""

    def __enter__(self):
        self.above = tempfile.TemporaryDirectory()
        self.path = os.path.join(self.above.name, "journal")
        self.file = os.path.join(self.path, "changes")
        return self

    def __exit__(self, *_):
        self.above.cleanup()

    def serve(self, sessions=1, limits=(), workers=1, stop_after=None, more=()):
        return Server(workers, sessions, stop_after, limits=limits, more=("--journal", self.path, *more))

    def text(self):
        with open(self.file, "rb") as file:
            return file.read()

    def write(self, text):
        with open(self.file, "wb") as file:
            file.write(text)


def killed(server):
    """Ends a server at once, as a crash does."""
    server.process.send_signal(signal.SIGKILL)
    server.process.wait()


def text_of(turn):
    return A + b"\nvar v%d int\n" % turn


def state(client):
    """All that a client sees of the workspace: the number, the steps of undo and redo, the files and their texts."""
    looked = client.ask(b"look\n")
    listed = client.ask(b"list\n")
    paths = [line.split()[0] for line in listed[1].splitlines()]
    return looked, listed, [client.ask(b"cat %s\n" % path) for path in paths]


def some_changes(client):
    """Puts, a rename, a move, a del, undos and redos. It answers the number of the current state."""
    same(client.ask(put(0, "a/a.go", A)), (b"ok 1", b""))
    same(client.ask(put(1, "b/b.go", b'package b\n\nimport "a"\n\nvar y int = a.F(2)\n')), (b"ok 2", b""))
    same(client.ask(b"rename 2 a/a.go:#15 total\n"), (b"ok 3", b""))
    same(client.ask(b"move 3 a c\n"), (b"ok 4", b""))
    same(client.ask(b"undo 4\n"), (b"ok 3", b""))
    same(client.ask(b"undo 3\n"), (b"ok 2", b""))
    same(client.ask(b"redo 2\n"), (b"ok 3", b""))
    same(client.ask(b"del 3 b/b.go\n"), (b"ok 5", b""))
    same(client.ask(put(5, "d/d.go", b"package d\n")), (b"ok 6", b""))
    same(client.ask(b"undo 6\n"), (b"ok 5", b""))
    return 5


def all_is_there_after_a_kill():
    """A server that starts where another was killed has its files, its numbers, and the same steps of undo and redo."""
    with Folder() as folder:
        with folder.serve() as server:
            client = server.connect()
            some_changes(client)
            seen = state(client)
            killed(server)
        with folder.serve() as server:
            client = server.connect()
            same(state(client), seen)
            same(client.ask(b"redo 5\n"), (b"ok 6", b""))
            same(client.ask(b"cat d/d.go\n"), (b"ok 6", b"package d\n"))
            same(client.ask(put(6, "d/d.go", b"package d\n\nvar z int\n")), (b"ok 7", b""))
            for number, before in ((7, 6), (6, 5), (5, 3), (3, 2), (2, 1), (1, 0)):
                same(client.ask(b"undo %d\n" % number), (b"ok %d" % before, b""))
            killed(server)
        with folder.serve(stop_after=1) as server:
            client = server.connect()
            same(client.ask(b"look\n"), (b"ok 0", b"undo 0 redo 6\n"))
            client.end()
            settles(server)


def one_record_a_change():
    """Each admitted change has one record. Looks, refusals, builds and waits have none."""
    with Folder() as folder, folder.serve() as server:
        client = server.connect()
        some_changes(client)
        same(len(records(folder.text())[0]), 1 + 10)
        for asked in (b"look\n", b"undo 3\n", b"put 1 a/a.go 10\npackage a\n", b"wait\n", b"log 3\n", b"rename 5 a/a.go:#15 a.b\n"):
            client.ask(asked)
        held, torn = records(folder.text())
        same((held[0], len(held), torn), (HEADING, 11, 0))


def cuts_leave_first_changes():
    """From a file that was cut off anywhere in its last two records, a server has the changes of the whole ones, and goes on behind them. Zeros
    behind the last record are cut off too."""
    with Folder() as folder:
        with folder.serve() as server:
            client = server.connect()
            for turn in range(3):
                same(client.ask(put(turn, "a/a.go", text_of(turn))), (b"ok %d" % (turn + 1), b""))
            killed(server)
        whole = folder.text()
        held, _ = records(whole)
        first = len(whole) - len(record(held[-1])) - len(record(held[-2]))
        for end in range(first, len(whole) + 1, 7):
            folder.write(whole[:end])
            left = len(records(whole[:end])[0]) - 1
            with folder.serve(stop_after=1) as server:
                client = server.connect()
                same(client.number(), left)
                same(client.ask(put(left, "b/b.go", b"package b\n")), (b"ok %d" % (left + 1), b""))
                client.end()
                settles(server)
            same(len(records(folder.text())[0]), left + 2)
        for zeros in (1, 8, 5_000):
            folder.write(whole + bytes(zeros))
            with folder.serve() as server:
                client = server.connect()
                same(client.number(), 3)
                killed(server)
            same(folder.text(), whole)


def damage_is_found():
    """A server does not start from a file in which a bit flipped, and from one that is no journal. It tells it, and leaves the file alone."""
    with Folder() as folder:
        with folder.serve() as server:
            client = server.connect()
            some_changes(client)
            killed(server)
        whole = folder.text()
        held, _ = records(whole)
        first, last = len(record(held[0])), len(whole) - len(record(held[-1]))
        flips = [(at, 1) for at in (9, 20, first + 12, first + 18, last + 9, last + 17)]
        flips += [(start + at, bit) for start in (0, first, last) for at in range(8) for bit in (1, 128)]
        for text in (
            *(whole[:at] + bytes([whole[at] ^ bit]) + whole[at + 1 :] for at, bit in flips),
            b"no journal at all\n" * 9,
            record(b"another heading") + whole[len(record(HEADING)) :],
            record(HEADING) + record(held[2]),
            record(HEADING) + record(b""),
            record(HEADING) + record(b"\2" + struct.pack("<Q", 0)),
        ):
            folder.write(text)
            with folder.serve() as server:
                same(server.ended(), (1, b"", b"gorefd: journal fault\n"))
            same(folder.text(), text)


def full_disks_refuse():
    """Where the disk takes no more, a change is refused by name, and nothing changes. A shorter one is taken."""
    with Folder() as folder:
        with folder.serve(limits=((resource.RLIMIT_FSIZE, 2_000),)) as server:
            client = server.connect()
            same(client.ask(put(0, "a/a.go", A)), (b"ok 1", b""))
            before = folder.text()
            large = A + b"// a line\n" * 400
            same(client.ask(put(1, "a/a.go", large)), (b"no 26", b""))
            same((client.ask(b"look\n"), client.ask(b"cat a/a.go\n")), ((b"ok 1", b"undo 1 redo 0\n"), (b"ok 1", A)))
            same(folder.text(), before)
            same(client.ask(put(1, "a/a.go", text_of(1))), (b"ok 2", b""))
            same(client.ask(b"undo 2\n"), (b"ok 1", b""))
            seen = state(client)
            killed(server)
        with folder.serve() as server:
            client = server.connect()
            same(state(client), seen)
            same(client.ask(put(1, "a/a.go", large)), (b"ok 3", b""))


def one_server_a_folder():
    """Another server does not start with the folder of one that is at work. The folder is its owner's alone."""
    with Folder() as folder, folder.serve() as server:
        client = server.connect()
        same(client.ask(put(0, "a/a.go", A)), (b"ok 1", b""))
        with folder.serve() as other:
            same(other.ended(), (1, b"", b"gorefd: another server keeps its journal in this folder\n"))
        same(os.stat(folder.path).st_mode & 0o777, 0o700)
        same(os.stat(folder.file).st_mode & 0o777, 0o600)
        same(client.number(), 1)


def changes_over_borders():
    """Borders of chapters change nothing of it: a server that closed its journal many times leaves the same file."""
    with Folder() as folder:
        with folder.serve(more=("--chapter", "5")) as server:
            client = server.connect()
            for turn in range(40):
                same(client.ask(put(turn, "a/a.go", text_of(turn))), (b"ok %d" % (turn + 1), b""))
            seen = state(client)
            killed(server)
        with folder.serve(more=("--chapter", "5")) as server:
            client = server.connect()
            same(state(client), seen)
            same(client.ask(b"log 0\n")[1][:7], b"closed ")


class Changing:
    """A session that puts texts of one file, each with a higher number, until its server is gone. It knows what was answered."""

    def __init__(self, name):
        self.name, self.path = name, "%s/f.go" % name
        self.answered, self.asked, self.highest = -1, -1, 0

    def text(self, turn):
        return b"package %s\n\nvar v%d int\n" % (self.name.encode(), turn)

    def goes_on(self, client):
        try:
            number = client.number()
            while True:
                self.asked = self.answered + 1
                head, body = client.ask(put(number, self.path, self.text(self.asked)))
                if head.startswith(b"ok "):
                    self.answered, number = self.asked, int(head.split()[1])
                    self.highest = number
                else:
                    same(head, b"no 6")
                    number = int(body)
        except (OSError, AssertionError):
            if self.asked > self.answered + 1:
                raise

    def may_be(self, found):
        """Whether the file may have this text: the last one that was answered, or the one that was asked for."""
        return found in {self.text(turn) for turn in (self.answered, self.asked)} or (found is None and self.answered < 0)


def kills_lose_nothing(kills=12, seed=1):
    """A server is killed at any moment while sessions change the workspace. What was answered is there afterwards, and of what was not, one
    change at most a session. So it goes over and over with one folder."""
    chance = random.Random(seed)
    with Folder() as folder:
        sessions = [Changing("p%d" % n) for n in range(4)]
        for kill in range(kills + 1):
            with folder.serve(sessions=5, workers=2) as server:
                client = server.connect()
                number = client.number()
                same(number >= max(session.highest for session in sessions), True)
                for session in sessions:
                    head, found = client.ask(b"cat %s\n" % session.path.encode())
                    found = found if head.startswith(b"ok ") else None
                    if not session.may_be(found):
                        raise AssertionError(f"kill {kill}: {session.path} has {found!r}, answered {session.answered}, asked {session.asked}")
                    if found == session.text(session.asked):
                        session.answered = session.asked
                if kill == kills:
                    return f"{number} changes, {kills} kills"
                clients = [server.connect() for _ in sessions]
                ends = threading.Timer(0.05 + chance.random() * 0.4, lambda: server.process.send_signal(signal.SIGKILL))
                ends.start()
                together(*(lambda s=s, c=c: s.goes_on(c) for s, c in zip(sessions, clients)))
                ends.join()
                server.process.wait()


CHECKS = (
    all_is_there_after_a_kill,
    one_record_a_change,
    cuts_leave_first_changes,
    damage_is_found,
    full_disks_refuse,
    one_server_a_folder,
    changes_over_borders,
    kills_lose_nothing,
)


def main():
    check_program(CHECKS, __doc__)


if __name__ == "__main__":
    main()
