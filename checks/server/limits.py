"""Checks each limit of a workspace and of its history, as docs/PROTOCOL.md has it, on a built `gorefd run`: the largest input is admitted,
and the next larger one is refused. A server is asked for the bytes of a file and for the steps of undo.
"""

from checks.server.server import Server, put, run, same, settles

FILE_BYTES, FILES, TOTAL_BYTES, PACKAGES, STEPS, ENTRIES = 1_048_576, 4_096, 67_108_864, 1_024, 100, 1_000_000
LOOK = b"look\n"
TOO_LARGE, FULL = b"no 5 0\n", b"no 19 0\n"


def answers(sent, wanted):
    """The session is answered so."""
    status, out, err = run(["run"], input=sent)
    same((status, err, out[-200:], len(out), out == wanted), (0, b"", wanted[-200:], len(wanted), True))


def puts(texts):
    """Puts of these files, one after another."""
    return b"".join(put(basis, path, text) for basis, (path, text) in enumerate(texts))


def done(count):
    """What is answered to the first changes."""
    return b"".join(b"ok %d 0\n" % number for number in range(1, count + 1))


def steps_of_undo():
    changes = STEPS + 2
    undos = range(changes, changes - STEPS, -1)
    sent = puts([("a/a.txt", b"%d" % turn) for turn in range(changes)]) + b"".join(b"undo %d\n" % number for number in undos)
    wanted = done(changes) + b"".join(b"ok %d 0\n" % (number - 1) for number in undos)
    answers(sent + b"undo 2\n", wanted + b"no 7 0\n")


def bytes_of_a_file():
    """Of a put the basis is looked at first, then the path, then the bytes."""
    least = b"x" * (FILE_BYTES + 1)
    sent = put(0, "a/a.txt", least[1:]) + put(1, "a/b.txt", least) + put(0, "/a", least) + put(1, "/a", least) + LOOK
    answers(sent, b"ok 1 0\n" + TOO_LARGE + b"no 6 2\n1\n" + b"no 3 0\n" + b"ok 1 14\nundo 1 redo 0\n")


def packages():
    """A file that is no Go file makes no package."""
    sent = puts([(f"p{number}/a.go", b"package p\n") for number in range(PACKAGES + 1)])
    sent += put(PACKAGES, "q/a.txt", b"x") + put(PACKAGES + 1, "p0/b.go", b"package p\n")
    answers(sent, done(PACKAGES) + TOO_LARGE + b"ok %d 0\nok %d 0\n" % (PACKAGES + 1, PACKAGES + 2))


def files():
    """A file that is there already may be changed."""
    sent = puts([(f"a/f{number}.txt", b"x") for number in range(FILES + 1)]) + put(FILES, "a/f0.txt", b"y")
    answers(sent, done(FILES) + TOO_LARGE + b"ok %d 0\n" % (FILES + 1))


def bytes_in_all():
    count = TOTAL_BYTES // FILE_BYTES
    sent = puts([(f"a/f{number}.txt", b"x" * FILE_BYTES) for number in range(count)] + [("a/g.txt", b"x")])
    answers(sent + put(count, "a/f0.txt", b"x"), done(count) + TOO_LARGE + b"ok %d 0\n" % (count + 1))


def entries():
    """A put is two entries. A take keeps room for its own entry and for that of the Job, and a look comes before it. A `status` needs no room."""
    first, looked = put(0, "a/a.go", b"package a\n"), b"ok 1 14\nundo 1 redo 0\n"
    count = ENTRIES - 5
    answers(first + LOOK * count + b"work\n" + LOOK, b"ok 1 0\n" + looked * count + b"ok 1 2\na\n" + FULL)
    count += 1
    status = b"ok 1 61\nsessions 1\nworkers 0\nchapter 0\ndue 0\nleft 0\nbytes 10\nkept 10\n"
    answers(first + LOOK * count + b"work\n" + LOOK * 2 + b"status\n", b"ok 1 0\n" + looked * count + FULL + looked + FULL + status)


def at_a_server():
    """In one session at a server: as many bytes of a file as there may be, one more, and all steps of undo."""
    texts = [("a/f.txt", b"%d" % turn) for turn in range(STEPS)] + [("a/f.txt", b"x" * FILE_BYTES)]
    count, undone = len(texts), b"".join(b"undo %d\n" % number for number in range(len(texts), 1, -1))
    with Server(1, 1, 1) as server:
        client = server.connect()
        client.send(puts(texts) + put(count, "a/f.txt", b"x" * (FILE_BYTES + 1)) + undone + b"undo 1\nend\n")
        same(client.rest(), done(count) + TOO_LARGE + b"".join(b"ok %d 0\n" % number for number in range(count - 1, 0, -1)) + b"no 7 0\n")
        client.close()
        settles(server)


CHECKS = (steps_of_undo, bytes_of_a_file, packages, files, bytes_in_all, entries, at_a_server)
