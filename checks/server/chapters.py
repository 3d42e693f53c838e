"""Checks that a built `gorefd serve --chapter ENTRIES` closes its journal over and over, and that nobody notices but by `log`."""

import socket

from checks.server.editors import a_large_package, changes
from checks.server.entries import BUILD, COMMAND, WAIT, puts_and_waits
from checks.server.server import A, Server, put, same, settles, together


def texts(turns):
    """Texts of one file, each with another variable."""
    return [A + b"\nvar v%d int\n" % turn for turn in range(turns)]


def first_open(client):
    """The number of the first entry whose journal is not closed, or 0 where none was closed."""
    _, told = client.ask(b"log 0\n")
    return int(told.split()[1]) if told.startswith(b"closed ") else 0


def as_many_entries():
    """A put, its build and a wait, over and over: as many entries as without borders, wherever these lie."""
    for entries in (1, 7, 40):
        with Server(2, 1, 1, more=("--chapter", str(entries))) as server:
            client, turns = server.connect(), 40
            puts_and_waits(client, 0, "a/a.go", texts(turns))
            client.end()
            same((entries, settles(server)), (entries, turns * (COMMAND + BUILD + WAIT)))


def undo_over_borders():
    """Undo and redo lead over borders: each state comes back with its files and its number, and its package finished."""
    with Server(1, 1, 1, more=("--chapter", "5")) as server:
        client, all_texts = server.connect(), texts(30)
        number = puts_and_waits(client, 0, "a/a.go", all_texts)
        same(first_open(client) > 0, True)
        for back in range(29):
            same(client.ask(b"undo %d\n" % (number - back)), (b"ok %d" % (number - back - 1), b""))
            same(client.ask(b"cat a/a.go\n"), (b"ok %d" % (number - back - 1), all_texts[-2 - back]))
            same(client.ask(b"object a\n")[0][:3], b"ok ")
        for forth in range(29):
            same(client.ask(b"redo %d\n" % (number - 29 + forth)), (b"ok %d" % (number - 28 + forth), b""))
        client.end()
        settles(server)


def logs_over_borders():
    """A log of an entry of a closed journal tells where the current one begins. From there on each entry has its line, and past the end none."""
    with Server(1, 1, 1, more=("--chapter", "20")) as server:
        client = server.connect()
        puts_and_waits(client, 0, "a/a.go", texts(20))
        begun = first_open(client)
        same(begun > 0, True)
        same(client.ask(b"log %d\n" % (begun - 1)), (b"ok 20", b"closed %d\n" % begun))
        same(client.ask(b"log %d\n" % begun)[1].split()[0] in (b"look", b"log", b"commit", b"take", b"deliver"), True)
        same(client.ask(b"log 999999\n"), (b"ok 20", b""))
        client.end()
        settles(server)


def idle_clients_hold_up_none():
    """A client that sends nothing more, and one that waits for a package, hold up no border."""
    with Server(1, 3, 3, more=("--chapter", "30")) as server:
        idle, waiting, busy = (server.connect() for _ in range(3))
        same(idle.ask(put(0, "i/i.go", b"package i\n")), (b"ok 1", b""))
        same(busy.ask(put(1, "a/x.go", a_large_package(b"a"))), (b"ok 2", b""))
        waiting.send(b"wait\n")
        number = puts_and_waits(busy, 2, "b/b.go", texts(60))
        same(waiting.reply()[0][:3], b"ok ")
        same(first_open(busy) > 60, True)
        same(idle.ask(b"look\n")[0], b"ok %d" % number)
        for client in (idle, waiting, busy):
            client.end()
        settles(server)


def unread_replies_hold_up_none():
    """A client that reads nothing of a long reply holds up no border."""
    text = b"package l\n" + b"// line\n" * 120_000
    with Server(1, 2, 2, more=("--chapter", "30")) as server:
        lazy, busy = server.connect(), server.connect()
        same(lazy.ask(put(0, "l/l.go", text)), (b"ok 1", b""))
        lazy.send(b"cat l/l.go\n")
        same(lazy.socket.recv(2, socket.MSG_PEEK | socket.MSG_WAITALL), b"ok")
        puts_and_waits(busy, 1, "b/b.go", texts(60))
        same(first_open(busy) > 60, True)
        same(lazy.reply(), (b"ok 1", text))
        for client in (lazy, busy):
            client.end()
        settles(server)


def many_over_borders():
    """Sessions that change packages of their own beside one another, while workers build, over many borders: all is settled."""
    with Server(4, 6, 6, more=("--chapter", "50")) as server:
        clients = [server.connect() for _ in range(6)]
        together(*(lambda c=c, n=n: list(changes(c, n, 60)) for c, n in zip(clients, (b"a", b"b", b"c", b"d", b"e"))))
        same(clients[-1].ask(b"wait\n")[0][:3], b"ok ")
        begun = first_open(clients[-1])
        same(begun > 200, True)
        for client in clients:
            client.end()
        same(settles(server) > begun, True)


CHECKS = (as_many_entries, undo_over_borders, logs_over_borders, idle_clients_hold_up_none, unread_replies_hold_up_none, many_over_borders)
