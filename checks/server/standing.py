"""Checks what a built `gorefd serve` tells of itself by `status`: its sessions and workers, the entries left, and the bytes of all texts."""

import threading

from checks.server.chapters import first_open, texts
from checks.server.entries import BUILD, COMMAND, WAIT, puts_and_waits
from checks.server.server import A, DEADLINE, Server, put, same, settles

WORDS = (b"sessions", b"workers", b"chapter", b"due", b"left", b"bytes", b"kept")
MARK, LIMIT = 900_000, 1_000_000


def status(client):
    """What is told, by its words in their order, and the number of the current state."""
    head, told = client.ask(b"status\n")
    same(head[:3], b"ok ")
    lines = [line.split(b" ") for line in told.splitlines()]
    same((told[-1:], tuple(word for word, _ in lines)), (b"\n", WORDS))
    return {word.decode(): int(number) for word, number in lines} | {"state": int(head.split()[1])}


def comes_to(client, word, number):
    """Waits until so many are told: a thread begins and ends at its own time."""
    for _ in range(DEADLINE * 100):
        if status(client)[word] == number:
            return
        threading.Event().wait(0.01)
    raise AssertionError(f"{status(client)}, wanted {word} {number}")


def without_an_entry():
    """Each number, at first, and behind a put, its build and a wait. A `status` adds no entry, and closes no chapter."""
    with Server(2, 1, 1) as server:
        client = server.connect()
        comes_to(client, "workers", 2)
        first = {"sessions": 1, "workers": 2, "chapter": 0, "due": MARK, "left": LIMIT, "bytes": 0, "kept": 0, "state": 0}
        for _ in range(20):
            same(status(client), first)
        same(client.ask(put(0, "a/a.go", A)), (b"ok 1", b""))
        same(client.ask(b"wait\n"), (b"ok 1", b""))
        entries = COMMAND + BUILD + WAIT
        now = first | {"due": MARK - entries, "left": LIMIT - entries, "bytes": len(A), "kept": len(A), "state": 1}
        for _ in range(20):
            same(status(client), now)
        client.end()
        same(settles(server), entries)


def sessions_under_way():
    """Sessions are counted while they are under way, and a client that waits for a thread is none."""
    with Server(1, 3, 4) as server:
        clients = [server.connect() for _ in range(3)]
        for client in clients:
            client.number()
        waiting = server.connect()
        same([status(client)["sessions"] for client in clients], [3, 3, 3])
        clients[2].end()
        waiting.number()
        comes_to(clients[0], "sessions", 3)
        for client in (clients[1], waiting):
            client.end()
        comes_to(clients[0], "sessions", 1)
        clients[0].end()
        settles(server)


def bytes_of_texts():
    """The bytes are those of the texts of all files of the current state, as `list` tells them, whatever was before. What was put is kept, also
    where it is gone; what is refused is not."""
    with Server(1, 1, 1) as server:
        client, number = server.connect(), 0
        sizes = lambda: sum(int(line.split()[1]) for line in client.ask(b"list\n")[1].splitlines())
        asked = [put(0, "a/a.go", A), put(1, "b/b.txt", b"x" * 100_000), put(2, "b/b.txt", b""), put(3, "b/c.txt", b"\xff" * 7)]
        asked += [b"del 4 a/a.go\n", b"undo 5\n", b"undo 4\n", b"undo 3\n", b"redo 2\n", b"undo 3\n", b"undo 2\n"]
        wanted = [len(A), len(A) + 100_000, len(A), len(A) + 7, 7, len(A) + 7, len(A), len(A) + 100_000, len(A), len(A) + 100_000, len(A)]
        kept = [len(A), len(A) + 100_000, len(A) + 100_000, *[len(A) + 100_007] * 8]
        for line, many, put_before in zip(asked, wanted, kept, strict=True):
            number = int(client.ask(line)[0].split()[1])
            same(client.ask(put(number + 1, "z/z.txt", b"z"))[0], b"no 6")
            told = status(client)
            same((line[:12], told["bytes"], told["state"], sizes()), (line[:12], many, number, many))
            same((line[:12], told["kept"]), (line[:12], put_before))
        client.end()
        settles(server)


def over_borders():
    """The chapter is the one that `log` tells of, and what is left of it and of the journal falls with each entry. Texts are kept that were put
    since it began."""
    with Server(1, 1, 1, more=("--chapter", "50")) as server:
        client = server.connect()
        puts_and_waits(client, 0, "a/a.go", texts(40))
        sizes = [len(text) for text in texts(40)]
        before = status(client)
        begun = first_open(client)
        after = status(client)
        same(begun > 50, True)
        # (the log is an entry, and the first of a chapter where it closed the one before)
        same(after["chapter"], begun)
        same((after["due"] + LIMIT - 50, 0 <= after["due"] < 50), (after["left"], True))
        same(after["kept"] in [sum(sizes[since:]) for since in range(25, 41)], True)
        same(before["due"] - after["due"] if before["chapter"] == begun else 50 - after["due"], 1)
        client.end()
        same(settles(server), begun + 50 - after["due"])


CHECKS = (without_an_entry, sessions_under_way, bytes_of_texts, over_borders)
