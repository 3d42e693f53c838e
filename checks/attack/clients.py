"""Attacks a built `gorefd serve` by its clients: those that say nothing, hear nothing, are slow, go away at any byte or come without end, and by
what a machine does to it. None may stop another session, end the server, hold memory for ever or lose a change that was answered with `ok`.
"""

import contextlib
import os
import resource
import signal
import socket
import threading
import time

from checks.attack.memory import forked_whole
from checks.attack.refusing import Library
from checks.attack.serving import Answer, ask
from checks.model.history import History, answered
from checks.server.connections import COMMANDS, served, state_of, whole_commands
from checks.server.server import DEADLINE, Server, put, retried, same, settles, together

SESSIONS = 32
LIMIT = 1_048_576
LOOK = b"look\n"
KIBIBYTE = 1024


def resident(server):
    """How much memory a server has, in bytes."""
    with open(f"/proc/{server.process.pid}/status", encoding="utf-8") as file:
        return next(KIBIBYTE * int(line.split()[1]) for line in file if line.startswith("VmRSS:"))


def handles(server):
    """How many files and how many threads a server has."""
    folder = f"/proc/{server.process.pid}"
    return len(os.listdir(folder + "/fd")), len(os.listdir(folder + "/task"))


def eventually(told, wanted):
    """Waits until this is told, which other threads of a server still work at."""
    for _ in range(6000):
        if told() == wanted:
            return
        time.sleep(0.01)
    same(told(), wanted)


def does(client, commands, history):
    """Has commands answered as the model answers them."""
    for command in commands:
        same((command[:80], ask(client, command)), (command[:80], Answer(history, command).told))


def is_stopped(server):
    """Whether all threads of a server are stopped."""
    folder = f"/proc/{server.process.pid}/task"
    states = []
    for thread in os.listdir(folder):
        with open(f"{folder}/{thread}/stat", encoding="utf-8") as file:
            states.append(file.read().rpartition(")")[2].split()[0])
    return set(states) == {"T"}


def waits(client):
    """The client is not answered."""
    client.socket.settimeout(0.2)
    try:
        told = client.socket.recv(1, socket.MSG_PEEK)
    except TimeoutError:
        client.socket.settimeout(60)
        return
    raise AssertionError(f"told {told!r}")


def silent_clients():
    """As many clients that say nothing as there are sessions but one hold no one up. The next client waits until one of them goes away."""
    with Server(1, SESSIONS, SESSIONS + 1) as server:
        silent = [server.connect() for _ in range(SESSIONS - 1)]
        busy, history = server.connect(), History()
        does(busy, COMMANDS, history)
        late = server.connect()
        late.send(LOOK)
        waits(late)
        same(ask(busy, LOOK), Answer(history, LOOK).told)
        silent.pop().close()
        same(late.reply()[0], b"ok %d" % history.current.number)
        for client in silent:
            client.close()
        late.end()
        busy.end()
        settles(server)


def deaf_clients():
    """Clients that ask for a thousand mebibytes each and read nothing hold no one up, and take no memory for what they do not read."""
    with Server(1, SESSIONS, SESSIONS) as server:
        busy, history = server.connect(), History()
        does(busy, [put(0, "a/a.txt", b"x" * LIMIT)], history)
        before = resident(server)
        deaf = [server.connect() for _ in range(SESSIONS - 1)]
        for client in deaf:
            client.send(b"cat a/a.txt\n" * 1000)
        does(busy, [LOOK, b"cat a/a.txt\n", b"list\n", b"undo 1\n", b"redo 0\n"] * 20, history)
        more = resident(server) - before
        for client in deaf:
            client.close()
        busy.end()
        settles(server)
    if more > 16 * LIMIT:
        raise AssertionError(f"{more} bytes more")


def creeping(pause, letters):
    """Clients that send a byte and pause before the next hold no one up, and are answered in the end."""
    with Server(1, SESSIONS, SESSIONS) as server:
        slow = [server.connect() for _ in range(SESSIONS - 1)]
        busy, over = server.connect(), threading.Event()

        def creep():
            for letter in letters:
                for client in slow:
                    client.send(bytes([letter]))
                time.sleep(pause)
            over.set()

        def work():
            history, turns = History(), 0
            while not over.is_set():
                does(busy, [put(history.current.number, "a/a.go", b"package a\n\nvar x%d int\n" % turns), LOOK, b"wait\n", b"object a\n"], history)
                turns += 1
            told.append((history.current.number, turns))

        told = []
        together(creep, work)
        number, turns = told[0]
        for client in slow:
            head, _ = client.reply()
            same((head[:3], int(head[3:]) <= number), (b"ok ", True))
            client.end()
        busy.end()
        settles(server)
    return f"{turns} turns beside them"


def slow_clients():
    """At forty bytes a second."""
    return creeping(0.025, LOOK)


def byte_a_second():
    """At a byte a second."""
    return creeping(1, LOOK)


def story(number, turn):
    """Commands from the state of a number on, whatever files it has."""
    text, path = b"package a\n\nvar x%d int\n" % turn, b"b%d" % turn
    return [
        put(number, "a/a.go", text),
        b"rename %d a/a.go:#15 yy\n" % (number + 1),
        b"undo %d\n" % (number + 2),
        b"redo %d\n" % (number + 1),
        b"cat a/a.go\n",
        b"put %d %s/b.go 10\npackage b\n" % (number + 2, path),
        b"move %d %s c/d%d\n" % (number + 3, path, turn),
        b"wait\n",
        b"object a\n",
        b"del %d c/d%d/b.go\n" % (number + 4, turn),
    ]


def on_the_way(history, sent):
    """The histories that a session goes through that sends this, from none of its commands done to all."""
    commands, part = whole_commands(sent)
    histories = [history]
    for command in commands + [part] * bool(part):
        after = forked_whole(histories[-1])
        answered(after, command, served)
        histories.append(after)
    return histories


def showing(client):
    """The number of the state, and the text of each file."""
    head, listed = client.ask(b"list\n")
    paths = [line.rsplit(b" ", 1)[0] for line in listed.splitlines()]
    return head, {path: client.ask(b"cat " + path + b"\n")[1] for path in paths}


def resets():
    """Connections to one server, each reset behind a byte of what it sends, with the first reply unread: each has done a first part of its
    commands, and a next one sees it."""
    length = len(b"".join(story(0, 0)))
    with Server(1, 1, 2 * (length + 1)) as server:
        history = History()
        for cut in range(length + 1):
            sent = b"".join(story(history.current.number, cut))[:cut]
            client = server.connect()
            client.send(sent)
            if b"\n" in sent:
                # the first reply has come, and is not read: so the connection is reset
                whole = len(whole_commands(sent)[0])
                if whole:
                    client.socket.recv(1, socket.MSG_PEEK)
            client.close()
            after = server.connect()
            told = showing(after)
            found = [other for other in on_the_way(history, sent) if state_of(other) == told]
            if not found:
                raise AssertionError(f"behind {sent!r} the state is {told!r}")
            history = found[-1]
            after.end()
        settles(server)
    return f"{length + 1} connections"


def brief(turn, server):
    """One of many connections: it says nothing, a part of a line, a line that is none, or breaks off inside a put; or it reads its reply."""
    client = server.connect()
    way = turn % 5
    if way == 1:
        client.send(b"loo")
    elif way == 2:
        client.send(b"frob\n")
        same(client.reply(), (b"no 2", b""))
    elif way == 3:
        client.send(b"put 0 b/b.go 100000\npackage b")
    elif way == 4:
        client.send(b"frob\n" * 100)
    client.close()


def many_connections(count=10_000, warm=1000):
    """Connections one after another, while a session is on: files, threads and memory are those of the first thousand."""
    with Library() as library, contextlib.closing(library.page()) as page:
        with Server(1, 4, count + 2, environment=page.environment) as server:
            keeper, history = server.connect(), History()
            does(keeper, COMMANDS, history)
            before = handles(server)
            for turn in range(count):
                if turn == warm:
                    eventually(lambda: handles(server), before)
                    blocks, held, room = page.get("blocks"), page.get("bytes"), resident(server)
                brief(turn, server)
                if turn % 1000 == 0:
                    does(keeper, [LOOK], history)
            eventually(lambda: handles(server), before)
            eventually(lambda: page.get("blocks"), blocks)
            more = page.get("bytes") - held, resident(server) - room
            does(keeper, [b"cat a/a.go\n", b"list\n"], history)
            keeper.end()
            server.connect().end()
            settles(server)
    # (the looks are entries of the journal)
    if more[0] > 64 * KIBIBYTE or more[1] > 2 * LIMIT:
        raise AssertionError(f"{more} bytes more")
    return f"{count} connections, {more[0]} bytes more"


def none_more_accepted():
    """Where no more files may be open, the next connection cannot be accepted. The sessions that are on go on, and see each other's changes;
    when one of them has ended, that connection is accepted."""
    for most in range(2, 7):
        # (beside the connections it has its three streams, the listener, and the lock twice)
        with Server(2, 8, most + 1, limits=[(resource.RLIMIT_NOFILE, 6 + most)]) as server:
            server.stands()
            clients, history = [], History()
            while len(clients) < most:
                client = server.connect()
                client.send(LOOK)
                client.reply()
                clients.append(client)
            late = server.connect()
            late.send(LOOK)
            for turn in range(50):
                client = clients[turn % most]
                does(client, [put(history.current.number, "a/a.go", b"package a\n\nvar x%d int\n" % turn), b"cat a/a.go\n", b"wait\n"], history)
            for client in clients:
                does(client, [b"cat a/a.go\n"], history)
            same((server.process.poll(), has_word(late)), (None, False))
            for client in clients:
                client.end()
            same(late.reply()[0], b"ok %d" % history.current.number)
            late.end()
            settles(server)


def has_word(client):
    """Whether something came to a client within a moment."""
    client.socket.settimeout(0.05)
    try:
        return bool(client.socket.recv(1, socket.MSG_PEEK))
    except TimeoutError:
        return False
    finally:
        client.socket.settimeout(DEADLINE)


def whole_puts():
    """A put of a whole file from each of all sessions at once. All are done. When the files are gone and the history has forgotten them, the
    memory for their trees, faults and objects is given back. The journal keeps the text of each put."""
    text = b"package p\n" + b"".join(b"var x%d int\n" % number for number in range(2000)) + b"/*"
    text += b"x" * (LIMIT - len(text) - 3) + b"*/\n"
    with Library() as library, contextlib.closing(library.page()) as page:
        with Server(4, SESSIONS, SESSIONS + 1, environment=page.environment) as server:
            clients = [server.connect() for _ in range(SESSIONS)]
            for client in clients:
                client.number()
            before = page.get("bytes")

            def one(which):
                return lambda: retried(clients[which], b"put %%d p%d/p.go %d" % (which, LIMIT), 0, text)

            together(*(one(which) for which in range(SESSIONS)))
            for which, client in enumerate(clients):
                same(client.ask(b"cat p%d/p.go\n" % (which * 7 % SESSIONS)), (b"ok %d" % SESSIONS, text))
            most, number = page.get("bytes") - before, SESSIONS
            for which in range(SESSIONS):
                same(clients[which].ask(b"del %d p%d/p.go\n" % (number, which)), (b"ok %d" % (number + 1), b""))
                number += 1
            for turn in range(102):
                same(clients[0].ask(put(number, "q/q.txt", b"%d" % turn)), (b"ok %d" % (number + 1), b""))
                number += 1
            same(clients[0].ask(b"wait\n")[0], b"ok %d" % number)
            # a mebibyte more for what is small
            eventually(lambda: page.get("bytes") - before < (SESSIONS + 2) * LIMIT, True)
            left = page.get("bytes") - before - SESSIONS * LIMIT
            for client in clients:
                client.end()
            server.connect().end()
            settles(server)
    return f"{most} bytes, then {left} beside the texts"


def broken_puts():
    """Connections that break off inside a put of a whole file, all at once: the memory for it is given back."""
    with Library() as library, contextlib.closing(library.page()) as page:
        with Server(1, SESSIONS, 5 * (SESSIONS - 1) + 2, environment=page.environment) as server:
            keeper = server.connect()
            keeper.number()
            time.sleep(0.1)
            before, most, blocks = page.get("bytes"), 0, None
            for turn in range(5):
                clients = [server.connect() for _ in range(SESSIONS - 1)]
                for client in clients:
                    # where all are answered, no thread is at an earlier connection
                    same(client.ask(b"frob\n"), (b"no 2", b""))
                if turn == 1:
                    time.sleep(0.5)
                    blocks = page.get("blocks")
                elif turn > 1:
                    eventually(lambda: page.get("blocks") <= blocks, True)
                for client in clients:
                    client.send(b"put 0 a/a.go %d\n" % LIMIT + b"x" * (LIMIT // 2))
                eventually(lambda: page.get("bytes") - before > (SESSIONS - 1) * LIMIT, True)
                most = max(most, page.get("bytes") - before)
                for client in clients:
                    client.close()
                eventually(lambda: page.get("bytes") - before < LIMIT, True)
            same(keeper.ask(LOOK), (b"ok 0", b"undo 0 redo 0\n"))
            keeper.end()
            server.connect().end()
            settles(server)
    return f"{most} bytes at most"


def stopped():
    """A server that is stopped and goes on, again and again, while its clients work and its workers build."""
    with Server(4, 4, 4) as server:
        clients, history, over = [server.connect() for _ in range(4)], History(), threading.Event()

        def stop_and_go():
            while not over.wait(0.005):
                os.kill(server.process.pid, signal.SIGSTOP)
                eventually(lambda: is_stopped(server), True)
                os.kill(server.process.pid, signal.SIGCONT)

        def work():
            try:
                for turn in range(60):
                    text = b"package a\n\nvar x%d int\n" % turn
                    does(clients[turn % 4], [put(history.current.number, "a/a.go", text), b"wait\n", b"object a\n"], history)
            finally:
                over.set()

        together(work, stop_and_go)
        os.kill(server.process.pid, signal.SIGSTOP)
        eventually(lambda: is_stopped(server), True)
        for client in clients:
            client.send(b"cat a/a.go\n")
        waits(clients[0])
        os.kill(server.process.pid, signal.SIGCONT)
        for client in clients:
            same(client.reply(), (b"ok %d" % history.current.number, text_of(history)))
            client.end()
        settles(server)


def text_of(history):
    return history.current.texts["a/a.go"]


CHECKS = (
    silent_clients,
    deaf_clients,
    slow_clients,
    resets,
    many_connections,
    none_more_accepted,
    whole_puts,
    broken_puts,
    stopped,
)
