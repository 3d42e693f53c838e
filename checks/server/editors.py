"""Checks sessions of a built `gorefd` that end well, alone and at once, with workers, and how a server ends."""

import os
import pathlib
import re
import resource
import socket
import subprocess
import threading
import time

from checks.server.server import A, DEADLINE, OBJECT, PROGRAM, Server, put, retried, same, settles, together


def in_one_write():
    """All commands in one write, with two workers; `wait` answers once both packages are built."""
    with Server(2, 1, 1) as server:
        client = server.connect()
        client.send(put(0, "a/a.go", A) + put(1, "b/b.go", b"package b\n") + b"wait\nobject a\nend\n")
        told = client.rest()
        same(told, b"ok 1 0\nok 2 0\nok 2 0\nok 2 %d\n" % len(OBJECT) + OBJECT)
        client.close()
        settles(server)


def reply_by_reply():
    """A client that waits for each reply before it asks on."""
    with Server(1, 1, 1) as server:
        client = server.connect()
        same(client.ask(b"look\n"), (b"ok 0", b"undo 0 redo 0\n"))
        same(client.ask(put(0, "a/a.go", A)), (b"ok 1", b""))
        same(client.ask(b"cat a/a.go\n"), (b"ok 1", A))
        same(client.ask(b"rename 1 a/a.go:#15 z\n"), (b"ok 2", b""))
        same(client.ask(b"uses a/a.go:#50\n"), (b"ok 2", b"a/a.go:#15\na/a.go:#50\n"))
        same(client.ask(b"wait\n"), (b"ok 2", b""))
        same(client.ask(b"undo 2\n"), (b"ok 1", b""))
        same(client.ask(b"wait\n"), (b"ok 1", b""))
        same(client.ask(b"object a\n"), (b"ok 1", OBJECT))
        client.end()
        settles(server)


def reply_by_reply_on_pipes():
    """The same with `gorefd run`: a client on two pipes that sends a command only once it has read the reply to the one before."""
    program = subprocess.Popen(PROGRAM + ["run"], stdin=subprocess.PIPE, stdout=subprocess.PIPE, stderr=subprocess.PIPE)
    late = threading.Timer(DEADLINE, program.kill)
    late.start()
    try:
        for sent, head, told in (
            (b"look\n", b"ok 0", b"undo 0 redo 0\n"),
            (put(0, "a/a.go", A), b"ok 1", b""),
            (b"cat a/a.go\n", b"ok 1", A),
            (b"rename 1 a/a.go:#15 z\n", b"ok 2", b""),
            (b"uses a/a.go:#50\n", b"ok 2", b"a/a.go:#15\na/a.go:#50\n"),
            (b"undo 2\n", b"ok 1", b""),
            (b"undo 2\n", b"no 6", b"1\n"),
            (b"work\n", b"ok 1", b"a\n"),
            (b"object a\n", b"ok 1", OBJECT),
            (b"log 8\n", b"ok 1", b"undo 2 ok 1\n"),
            (b"log 99\n", b"ok 1", b""),
        ):
            program.stdin.write(sent)
            program.stdin.flush()
            same(program.stdout.readline(), head + b" %d\n" % len(told))
            same(program.stdout.read(len(told)), told)
        same(program.communicate(b"end\n"), (b"", b""))
        same(program.returncode, 0)
    finally:
        late.cancel()
        program.kill()
        program.wait()


def two_editors():
    """Two sessions on one history: one renames, the other is refused as moved, retries, undoes, and builds."""
    with Server(2, 2, 2) as server:
        first, second = server.connect(), server.connect()
        same(first.ask(put(0, "a/a.go", A)), (b"ok 1", b""))
        same(second.ask(b"cat a/a.go\n"), (b"ok 1", A))
        same(first.ask(b"rename 1 a/a.go:#15 z\n"), (b"ok 2", b""))
        same(second.ask(put(1, "b/b.go", b"package b\n")), (b"no 6", b"2\n"))
        same(second.ask(put(2, "b/b.go", b"package b\n")), (b"ok 3", b""))
        same(first.ask(b"list\n"), (b"ok 3", b"a/a.go 58\nb/b.go 10\n"))
        same(second.ask(b"undo 3\n"), (b"ok 2", b""))
        same(second.ask(b"undo 2\n"), (b"ok 1", b""))
        same(first.ask(b"wait\n"), (b"ok 1", b""))
        same(first.ask(b"object a\n"), (b"ok 1", OBJECT))
        for client in (first, second):
            client.end()
        settles(server)


def racing_puts():
    """Two clients put files of their own at the same time, and again where they are refused as moved: all files are there."""
    each = 20

    def puts(client, name):
        number = client.number()
        for i in range(each):
            line = b"put %%d %s/f%d.go 10" % (name, i)
            number, _ = retried(client, line, number, b"package p\n")
        client.end()

    with Server(2, 2, 3) as server:
        clients = server.connect(), server.connect()
        together(*(lambda c=c, n=n: puts(c, n) for c, n in zip(clients, (b"p", b"q"))))
        last = server.connect()
        head, body = last.ask(b"list\n")
        same(head, b"ok %d" % (2 * each))
        wanted = sorted(f"{name}/f{i}.go 10" for name in "pq" for i in range(each))
        same(body.decode().splitlines(), wanted)
        last.end()
        settles(server)


def racing_renames():
    """Two clients rename a variable each at the same time, there and back, in one file and its uses: none of it is lost, and each change of
    the history is that of one of them. As the names of both are as long as before, no offset moves."""
    text = b"package a\n\nvar ax, bx int\n\nfunc F() int {\n\treturn ax + bx\n}\n"
    each = 20

    def renames(client, start, name):
        number = client.number()
        for i in range(each):
            new = name + b"xyz"[(i + 1) % 3 : (i + 1) % 3 + 1]
            number, _ = retried(client, b"rename %%d a/a.go:#%d %s" % (text.index(start), new), number)
            head, uses = client.ask(b"uses a/a.go:#%d\n" % text.index(start))
            same(uses.split()[0], b"a/a.go:#%d" % text.index(start))
        client.end()

    with Server(2, 2, 3) as server:
        clients = server.connect(), server.connect()
        same(clients[0].ask(put(0, "a/a.go", text)), (b"ok 1", b""))
        together(lambda: renames(clients[0], b"ax", b"a"), lambda: renames(clients[1], b"bx", b"b"))
        last = server.connect()
        letter = b"xyz"[each % 3 : each % 3 + 1]
        after = text.replace(b"ax", b"a" + letter).replace(b"bx", b"b" + letter)
        same(last.ask(b"cat a/a.go\n"), (b"ok %d" % (1 + 2 * each), after))
        for number in range(1 + 2 * each, 1, -1):
            same(last.ask(b"undo %d\n" % number), (b"ok %d" % (number - 1), b""))
        same(last.ask(b"cat a/a.go\n"), (b"ok 1", text))
        last.end()
        settles(server)


def undo_between():
    """One client puts and undoes at once, another does too, each with the number that it is told: undo takes back the last change of
    whichever session, and the numbers of states are never used again."""
    each = 20

    def there_and_back(client, name, numbers):
        number = client.number()
        for i in range(each):
            number, _ = retried(client, b"put %%d %s/f%d.go 10" % (name, i), number, b"package p\n")
            numbers.append(number)
            number, _ = retried(client, b"undo %d", number)
        client.end()

    with Server(1, 2, 3) as server:
        clients, numbers = (server.connect(), server.connect()), ([], [])
        together(*(lambda c=c, n=n, m=m: there_and_back(c, n, m) for c, n, m in zip(clients, (b"p", b"q"), numbers)))
        made = sorted(numbers[0] + numbers[1])
        same(made, list(range(1, 2 * each + 1)))
        last = server.connect()
        same(last.ask(b"list\n"), (b"ok 0", b""))
        last.end()
        settles(server)


def others_wait():
    """With one session thread a second connection is answered once the first has ended, and with no thread free none is lost."""
    with Server(1, 1, 5) as server:
        first = server.connect()
        same(first.number(), 0)
        others = [server.connect() for _ in range(4)]
        for other in others:
            other.send(b"look\nend\n")
        others[0].socket.settimeout(0.2)
        try:
            raise AssertionError(f"told {others[0].socket.recv(1)!r}")
        except socket.timeout:
            others[0].socket.settimeout(60)
        first.end()
        for other in others:
            same(other.rest(), b"ok 0 14\nundo 0 redo 0\n")
            other.close()
        settles(server)


def no_more_than_asked():
    """Behind the last connection that it was asked to accept, none is served: it is cut off, or finds no one there."""
    with Server(1, 2, 2) as server:
        clients = [server.connect() for _ in range(3)]
        for client in clients[:2]:
            same(client.number(), 0)
        clients[2].send(b"look\n")
        for client in clients[:2]:
            client.end()
        settles(server)
        same(clients[2].rest(), b"")
        clients[2].close()
        same(os.path.lexists(server.path), False)


def without_an_end():
    """Where it is not said after how many connections to end, the server goes on when all have ended."""
    with Server(1, 2) as server:
        for number in range(20):
            client = server.connect()
            same(client.ask(put(number, "a/a.go", b"package a\n" + b"\n" * number)), (b"ok %d" % (number + 1), b""))
            client.end()
        same(server.process.poll(), None)
        server.process.terminate()
        status, out, err = server.ended()
        same((status, out, err), (-15, b"", b""))


def count_of(client):
    """How many entries the journal has behind the last command of this client, if no one else does anything: the least number at which a
    `log` is told nothing, each of which is an entry more."""
    asked, low, high = 0, 0, 1_000_000
    while low < high:
        middle = (low + high) // 2
        _, entry = client.ask(b"log %d\n" % (middle + asked))
        asked += 1
        if entry:
            low = middle + 1
        else:
            high = middle
    return low + asked


def entries_from(client, start):
    """The entries of the journal from there on, but those of reading it, and how many there were before this reading."""
    count = count_of(client)
    entries = []
    for number in range(start, count):
        head, entry = client.ask(b"log %d\n" % number)
        if not re.fullmatch(rb"[a-z]+ [0-9]+ (ok|no) [0-9]+\n", entry):
            raise AssertionError(f"entry {number}: {entry!r}")
        if not entry.startswith(b"log "):
            entries.append(entry)
    return entries, count


def settled_length():
    """The length that a server tells at its end is that of the journal which a client read: workers that have nothing to build add nothing."""
    with Server(3, 1, 1) as server:
        client = server.connect()
        same(client.ask(put(0, "a/a.go", A)), (b"ok 1", b""))
        same(client.ask(b"wait\n"), (b"ok 1", b""))
        entries, _ = entries_from(client, 0)
        same([entries.count(e) for e in (b"commit 0 ok 1\n", b"take 1 ok 1\n", b"deliver 1 ok 1\n")], [1, 1, 1])
        count = count_of(client)
        client.end()
        same(settles(server), count)


def alone_settled():
    """Without a package to build no worker takes: the journal has the looks of the sessions alone."""
    with Server(4, 2, 2) as server:
        first, second = server.connect(), server.connect()
        for client in (first, second):
            for _ in range(10):
                same(client.number(), 0)
            same(client.ask(b"frob\n"), (b"no 2", b""))
            client.end()
        same(settles(server), 20)


def a_large_package(name):
    """A package that takes a while to build."""
    functions = b"".join(b"\nfunc F%d(x int) int {\n\treturn x%s\n}\n" % (i, b" + x * 2" * 60) for i in range(400))
    return b"package %s\n" % name + functions


def overlap(entries):
    """Whether a Job was taken while another was out, as two takes show with nothing handed in between."""
    words = [entry.split() for entry in entries]
    works = [kind for kind, _, told, _ in words if kind in (b"deliver", b"give") or (kind, told) == (b"take", b"ok")]
    return (b"take", b"take") in zip(works, works[1:])


def workers_at_once():
    """Two workers have a Job each at the same time, as the journal shows; a server with one worker never shows it. Whether it is seen depends
    on when threads run, so it is tried often."""
    with Server(2, 1, 1) as server:
        client, number, read = server.connect(), 0, 0
        for turn in range(1, 101):
            for name in (b"a", b"b"):
                text = a_large_package(name) + b"\nvar v%d int\n" % turn
                number, _ = retried(client, b"put %%d %s/x.go %d" % (name, len(text)), number, text)
            same(client.ask(b"wait\n"), (b"ok %d" % number, b""))
            entries, read = entries_from(client, read)
            if overlap(entries):
                client.end()
                settles(server)
                return f"seen in turn {turn}"
    raise AssertionError("never seen")


def workers_behind_one_change():
    """The same behind one change by which two packages have to be built: a worker that takes one of them has another worker take the next."""
    with Server(2, 1, 1) as server:
        client, read = server.connect(), 0
        for number, name in enumerate((b"a", b"b")):
            text = a_large_package(name).replace(b"\n", b'\nimport "c"\nfunc G() int {\n\treturn c.V\n}\n', 1)
            same(client.ask(put(number, "%s/x.go" % name.decode(), text)), (b"ok %d" % (number + 1), b""))
        for number in range(2, 102):
            same(client.ask(put(number, "c/x.go", b"package c\n\nvar V int\nvar v%d int\n" % number)), (b"ok %d" % (number + 1), b""))
            same(client.ask(b"wait\n"), (b"ok %d" % (number + 1), b""))
            entries, read = entries_from(client, read)
            if overlap(entries):
                client.end()
                settles(server)
                return f"seen in turn {number - 1}"
    raise AssertionError("never seen")


def none_is_left_behind():
    """While a worker judges a package on which all others build, no other worker has anything to judge. It is woken once the verdict is there:
    else it sleeps for good, and a server whose worker sleeps never ends."""
    with Server(2, 1, 1) as server:
        client, text = server.connect(), a_large_package(b"z")
        for number, name in enumerate((b"a", b"b", b"c", b"d")):
            user = b'package %s\n\nimport "z"\n\nfunc G() int {\n\treturn z.F0(1)\n}\n' % name
            same(client.ask(put(number, "%s/x.go" % name.decode(), user)), (b"ok %d" % (number + 1), b""))
        for number in range(4, 10):
            changed = text + b"\nvar v%d int\n" % number
            same(client.ask(put(number, "z/x.go", changed)), (b"ok %d" % (number + 1), b""))
            same(client.ask(b"wait\n"), (b"ok %d" % (number + 1), b""))
        client.end()
        server.process.wait(10)
        settles(server)


def one_worker_alone():
    """With one worker no Job is taken while another is out. A session that waits meanwhile looks again only where an event may have finished
    what it waits for, so the journal has few looks."""
    with Server(1, 1, 1) as server:
        client, number = server.connect(), 0
        for name in (b"a", b"b", b"c"):
            text = a_large_package(name)
            number, _ = retried(client, b"put %%d %s/x.go %d" % (name, len(text)), number, text)
        same(client.ask(b"wait\n"), (b"ok 3", b""))
        entries, _ = entries_from(client, 0)
        same((overlap(entries), sum(entry.startswith(b"look ") for entry in entries) < 20), (False, True))
        client.end()
        settles(server)


def all_wake():
    """A session that begins to wait behind workers which sleep is woken: behind the last delivery all who wait look."""
    with Server(4, 1, 1) as server:
        client, text = server.connect(), a_large_package(b"a")
        client.send(put(0, "a/x.go", text) + b"wait\n")
        same([client.reply() for _ in range(2)], [(b"ok 1", b"")] * 2)
        client.end()
        settles(server)


def none_missed():
    """One worker, and two sessions that put a small package and wait for it, again and again: no put is missed, also not one that comes as
    the worker is about to sleep."""

    def edits(client, name):
        number = client.number()
        for turn in range(250):
            text = b"package %s\n\nvar V%d int\n" % (name, turn)
            number, _ = retried(client, b"put %%d %s/x.go %d" % (name, len(text)), number, text)
            same(client.ask(b"wait\n")[0][:3], b"ok ")
        client.end()

    with Server(1, 2, 2) as server:
        clients = [server.connect() for _ in range(2)]
        together(*(lambda c=c, n=n: edits(c, n) for c, n in zip(clients, (b"a", b"b"))))
        settles(server)


def seconds_of(process):
    """The processor time that a process has taken."""
    with open(f"/proc/{process.pid}/stat") as told:
        words = told.read().rpartition(")")[2].split()
    return (int(words[11]) + int(words[12])) / os.sysconf("SC_CLK_TCK")


def asleep():
    """Threads that have nothing to do sleep: workers without a Job, and sessions without a line."""
    with Server(4, 3, 1) as server:
        client = server.connect()
        same(client.ask(put(0, "a/a.go", A)), (b"ok 1", b""))
        same(client.ask(b"wait\n"), (b"ok 1", b""))
        begin = seconds_of(server.process)
        time.sleep(1)
        taken = seconds_of(server.process) - begin
        same(taken < 0.2, True)
        client.end()
        settles(server)


def awake(process):
    """How many threads of a process run, or wait to run."""
    stats = pathlib.Path(f"/proc/{process.pid}/task").glob("*/stat")
    return sum(stat.read_text().rpartition(")")[2].split()[0] == "R" for stat in stats)


def others_sleep():
    """While a worker builds, the other workers sleep, and so does a session that waits."""
    with Server(4, 1, 1) as server:
        client, seen = server.connect(), []
        client.send(put(0, "a/x.go", a_large_package(b"a")) + b"wait\n")
        same(client.reply(), (b"ok 1", b""))
        for _ in range(30):
            seen.append(awake(server.process))
            time.sleep(0.001)
        same(client.reply(), (b"ok 1", b""))
        same((seen, 2 * sum(count > 1 for count in seen) <= sum(count > 0 for count in seen)), (seen, True))
        client.end()
        settles(server)


def changes(client, name, turns):
    """Puts a package of one file so many times, each with another variable, and yields the turn behind each put."""
    number = client.number()
    for turn in range(turns):
        text = b"package %s\n\nvar V%d int\n" % (name, turn)
        number, _ = retried(client, b"put %%d %s/x.go %d" % (name, len(text)), number, text)
        yield turn


def builds_meanwhile():
    """Sessions change files while workers build; each `wait` answers a state all of whose packages have an object."""

    def edits(client, name):
        for i in changes(client, name, 15):
            head, _ = client.ask(b"wait\n")
            same(head[:3], b"ok ")
            head, told = client.ask(b"object %s\n" % name)
            if head == b"no 20":
                same(told, name + b"\n")
            else:
                same(told, b"object %s %s\nvar %s#V%d int\n" % (name, name, name, i))
        client.end()

    with Server(3, 3, 3) as server:
        clients = [server.connect() for _ in range(3)]
        together(*(lambda c=c, n=n: edits(c, n) for c, n in zip(clients, (b"a", b"b", b"c"))))
        settles(server)


def many_at_once():
    """As many sessions and workers as there may be, twice as many connections, which are served in some order."""
    with Server(16, 32, 64) as server:
        gate = threading.Barrier(64)

        def come(name):
            client = server.connect()
            gate.wait()
            client.send(b"look\n")
            _, number = client.reply(), 0
            retried(client, b"put %%d p%d/f.go 10" % name, number, b"package p\n")
            client.end()

        together(*(lambda n=n: come(n) for n in range(64)))
        settles(server)


def with_a_small_stack():
    """A server that was started with a stack of 1 MiB answers for a file at the limit of nesting: its threads have stacks of their own."""
    text = b"package a\n\nfunc f() {\n" + b"for {" * 199 + b"}" * 199 + b"\n}\n"
    limits = [(resource.RLIMIT_STACK, 1024 * 1024)]
    with Server(1, 1, 1, limits=limits) as server:
        client = server.connect()
        same(client.ask(put(0, "a/a.go", text)), (b"ok 1", b""))
        same(client.ask(b"faults\n"), (b"ok 1", b""))
        same(client.ask(b"wait\n"), (b"ok 1", b""))
        same(client.ask(b"uses a/a.go:#16\n"), (b"ok 1", b"a/a.go:#16\n"))
        same(client.ask(b"rename 1 a/a.go:#16 g\n"), (b"ok 2", b""))
        same(client.ask(b"wait\n"), (b"ok 2", b""))
        head, told = client.ask(b"object a\n")
        same((head, told.startswith(b"object a a\nfunc a#g () () ")), (b"ok 2", True))
        client.end()
        settles(server)


CHECKS = (
    in_one_write,
    reply_by_reply,
    reply_by_reply_on_pipes,
    two_editors,
    racing_puts,
    racing_renames,
    undo_between,
    others_wait,
    no_more_than_asked,
    without_an_end,
    settled_length,
    alone_settled,
    workers_at_once,
    workers_behind_one_change,
    none_is_left_behind,
    one_worker_alone,
    all_wake,
    none_missed,
    asleep,
    others_sleep,
    builds_meanwhile,
    many_at_once,
    with_a_small_stack,
)
