"""Checks how many entries of the journal a built `gorefd serve` uses: two for each package that is built and for each command that changes
something, and one for any other. Nobody adds an entry to find that there is nothing to do: so the length at the end is known.
"""

from checks.server.editors import a_large_package, entries_from
from checks.server.server import A, Server, put, retried, same, settles, together

COMMAND = BUILD = 2
WAIT = 1


def client_of(number):
    """A file of a package that imports `base`."""
    return b"package u%d\n\nimport \"base\"\n\nfunc G() int {\n\treturn base.F()\n}\n" % number


def base_of(number):
    """A file of the package that the others import."""
    return b"package base\n\nfunc F() int {\n\treturn %d\n}\n" % number


def puts_and_waits(client, number, path, texts):
    """Puts texts, one after another, and waits for each to be built. It answers the number of the state behind them."""
    for text in texts:
        same(client.ask(put(number, path, text)), (b"ok %d" % (number + 1), b""))
        number += 1
        same(client.ask(b"wait\n"), (b"ok %d" % number, b""))
    return number


def each_put_awaited():
    """A put, its build and a wait, over and over, however many workers have nothing to do."""
    for workers in (1, 4, 16):
        with Server(workers, 1, 1) as server:
            client, turns = server.connect(), 40
            puts_and_waits(client, 0, "a/a.go", [A + b"\nvar v%d int\n" % turn for turn in range(turns)])
            client.end()
            same((workers, settles(server)), (workers, turns * (COMMAND + BUILD + WAIT)))


def many_importers():
    """A put to a package that 60 others import: each is built once."""
    above, turns = 60, 5
    with Server(4, 1, 1) as server:
        client = server.connect()
        number = puts_and_waits(client, 0, "base/b.go", [base_of(0)])
        for package in range(above):
            number = puts_and_waits(client, number, f"u{package}/u.go", [client_of(package)])
        puts_and_waits(client, number, "base/b.go", [base_of(turn + 1) for turn in range(turns)])
        client.end()
        one_each = (1 + above) * (COMMAND + BUILD + WAIT)
        same(settles(server), one_each + turns * (COMMAND + (1 + above) * BUILD + WAIT))


def nothing_to_build():
    """Files that are no Go files: no worker takes, though each change wakes one."""
    with Server(16, 1, 1) as server:
        client, turns = server.connect(), 50
        puts_and_waits(client, 0, "a/a.txt", [b"%d" % turn for turn in range(turns)])
        client.end()
        same(settles(server), turns * (COMMAND + WAIT))


def waits_look_once():
    """Sessions that wait at the same time for a package that takes a while: each looks once, behind the delivery."""
    sessions = 8
    with Server(2, sessions, sessions) as server:
        clients = [server.connect() for _ in range(sessions)]
        same(clients[0].ask(put(0, "a/x.go", a_large_package(b"a"))), (b"ok 1", b""))
        together(*(lambda c=c: same(c.ask(b"wait\n"), (b"ok 1", b"")) for c in clients))
        for client in clients:
            client.end()
        same(settles(server), COMMAND + BUILD + sessions * WAIT)


def no_take_refused():
    """Sessions that change packages of their own beside one another, while workers build: each Job that is taken is handed in, and no Take is
    refused."""

    def edits(client, name):
        number = client.number()
        for turn in range(40):
            text = b"package %s\n\nvar V%d int\n" % (name, turn)
            number, _ = retried(client, b"put %%d %s/x.go %d" % (name, len(text)), number, text)

    with Server(4, 5, 5) as server:
        clients = [server.connect() for _ in range(5)]
        together(*(lambda c=c, n=n: edits(c, n) for c, n in zip(clients, (b"a", b"b", b"c", b"d"))))
        same(clients[-1].ask(b"wait\n")[0][:3], b"ok ")
        words = [entry.split() for entry in entries_from(clients[-1], 0)[0]]
        takes = [told for kind, _, told, _ in words if kind == b"take"]
        handed = [kind for kind, _, _, _ in words if kind in (b"deliver", b"give")]
        same((takes.count(b"no"), len(takes)), (0, len(handed)))
        for client in clients:
            client.end()
        settles(server)


CHECKS = (each_put_awaited, many_importers, nothing_to_build, waits_look_once, no_take_refused)
