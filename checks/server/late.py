"""Checks Jobs of a built `gorefd` that are delivered late or given back, and what the journal shows of them.

A worker builds a package of many functions. A session sees by `log` that a Job was taken, and another session changes the history meanwhile.
Where the worker is done before the change, the check is repeated with a larger package. It fails where no Job ever comes late. Entries of
`look` and `log`, and of workers that found no package, are left out: their number depends on when threads run. `once_a_visit` says whether
workers that found none had to be refused.
"""

import re
import resource
import socket
import subprocess
import threading
import time

from checks.model.history import History, answered
from checks.server.editors import awake, entries_from
from checks.server.server import DEADLINE, PROGRAM, Client, Server, put, same, settles

# How many functions the package has, one try after another.
SIZES = (300, 600, 1200, 1800, 1800, 1800)
FUNCTION = b"\nfunc F0(x int) int {\n\treturn x" + b" + x * 2" * 60 + b"\n}\n"
MORE = b"package a\n\nvar V int\n"
OTHER = b"package b\n"


def repeated(function, functions):
    """The function under as many names."""
    return b"".join(function.replace(b"F0", b"F%d" % number) for number in range(functions))


def large(functions, name=b"a"):
    """A file that takes a while to build."""
    return b"package " + name + b"\n" + repeated(FUNCTION, functions)


def object_of_large(functions, *others):
    """The object of the package of this file and of others behind it: by the model that of one function, whose lines are repeated."""
    files = [large(1), *others]
    puts = b"".join(put(number, "a/%d.go" % number, text) for number, text in enumerate(files))
    told = answered(History(), puts + b"work\nobject a\n").partition(b"object a a\n")
    function, end, rest = told[2].partition(b"end\n")
    return told[1] + repeated(function + end, functions) + rest


def has_object(client, number, functions, *others):
    """The package has the object of these texts in the state of this number."""
    head, told = client.ask(b"object a\n")
    same((head, told[:20], told == object_of_large(functions, *others)), (b"ok %d" % number, b"object a a\nfunc a#F0", True))


def builds(client, number, functions, *others):
    """All is built in the state of this number, the package from these texts."""
    same(client.ask(b"wait\n"), (b"ok %d" % number, b""))
    has_object(client, number, functions, *others)


def compares(client, number, basis, told):
    """The objects of all packages in the state of this number compare so with those of the state `basis`."""
    same(client.ask(b"objects %d\n" % basis), (b"ok %d" % number, told))


def waits_for(client, wanted):
    """Reads the journal until it shows an entry."""
    number, end = 0, time.monotonic() + DEADLINE
    while time.monotonic() < end:
        _, entry = client.ask(b"log %d\n" % number)
        if entry == wanted:
            return
        number += 1 if entry else 0
        if entry[:4] in (b"", b"log "):
            threading.Event().wait(0.0002)
    raise AssertionError(f"the journal never shows {wanted!r}")


def is_out(entries):
    """Whether a Job was taken that was not handed in."""
    handed = [entry.split()[0] != b"take" for entry in entries if re.match(rb"take \d+ ok|deliver|give", entry)]
    return 2 * sum(handed) != len(handed)


def journal(client):
    """The journal but its reading, once no Job is out."""
    entries, read, pause = [], 0, 0.01
    while read == 0 or is_out(entries):
        more, read = entries_from(client, read)
        entries += more
        threading.Event().wait(pause if is_out(entries) else 0)
        pause *= 2
        if pause > DEADLINE:
            raise AssertionError("a Job stays out")
    return entries


def once_a_visit(entries, packages):
    """On a visit of a state no package goes out twice that is not given back between, and who asks is refused just where each package is out or
    finished. `packages` tells how many each state has; none of them is finished where the state is made."""
    finished, current, out = dict.fromkeys(packages, 0), 0, 0
    for entry in entries:
        kind, _, word, told = entry.split()
        is_done = word == b"ok"
        if kind in (b"commit", b"undo", b"redo") and is_done:
            current, out = int(told), 0
        elif kind == b"take":
            same((entry, is_done), (entry, out < packages[current] - finished[current]))
            out += is_done
        elif kind in (b"deliver", b"give") and is_done:
            finished[current] += kind == b"deliver"
            out -= out > 0


def shows(entries, before, behind, packages, order=list):
    """Whether a Job came late: then the journal has just these entries before it came and those behind, in this order, and otherwise more
    deliveries among the first. Entries are parted by commas."""
    before, behind = ([entry.strip().encode() + b"\n" for entry in text.split(",")] for text in (before, behind))
    acts = [entry for entry in entries if not entry.startswith(b"look ") and not entry.endswith(b" no 23\n")]
    first, last = acts[: len(before)], acts[len(before) :]
    if deliveries(first) > deliveries(before):
        return False
    same((first, order(last)), (before, order(behind)))
    once_a_visit(entries, packages)
    return True


def deliveries(entries):
    return sum(entry.startswith(b"deliver ") for entry in entries)


def until_late(play, workers=1):
    """Plays it with larger and larger packages, each time on a server of its own, until a Job came late."""
    for turn, functions in enumerate(SIZES, 1):
        with Server(workers, 2, 2) as server:
            clients = server.connect(), server.connect()
            is_late = play(*clients, functions)
            for client in clients:
                client.end()
            settles(server)
        if is_late:
            return f"seen in try {turn}"
    raise AssertionError("no Job came late")


def begins(client, number, functions):
    """Puts the package that takes a while, and sees that it is taken."""
    same(client.ask(put(number, "a/0.go", large(functions))), (b"ok %d" % (number + 1), b""))
    waits_for(client, b"take %d ok %d\n" % (number + 1, number + 1))


def put_meanwhile(first, second, functions, path, text):
    """Another file is put while the package is built."""
    begins(first, 0, functions)
    same(second.ask(put(1, path, text)), (b"ok 2", b""))


def put_of_the_package():
    """A file is put in the package while it is built: the delivery is stale, and the package is built again."""

    def play(first, second, functions):
        put_meanwhile(first, second, functions, "a/1.go", MORE)
        builds(second, 2, functions, MORE)
        before, behind = "commit 0 ok 1, take 1 ok 1, commit 1 ok 2", "deliver 1 no 21, take 2 ok 2, deliver 2 ok 2"
        return shows(journal(first), before, behind, {0: 0, 1: 1, 2: 1})

    return until_late(play)


def put_of_another():
    """Another package is put while it is built. Its texts are the same in the new state, and the delivery is stale all the same."""

    def play(first, second, functions):
        put_meanwhile(first, second, functions, "b/0.go", OTHER)
        builds(second, 2, functions)
        before = "commit 0 ok 1, take 1 ok 1, commit 1 ok 2"
        behind = "deliver 1 no 21, take 2 ok 2, deliver 2 ok 2, take 2 ok 2, deliver 2 ok 2"
        return shows(journal(first), before, behind, {0: 0, 1: 1, 2: 2})

    return until_late(play)


def undone():
    """The put is undone for which it is built: the delivery is stale, and behind redo the package is built again. `objects` shows that the
    state which was left has no object until then."""

    def play(first, second, functions):
        same(first.ask(put(0, "a/1.go", MORE)), (b"ok 1", b""))
        same(first.ask(b"wait\n"), (b"ok 1", b""))
        begins(first, 1, functions)
        same(second.ask(b"undo 2\n"), (b"ok 1", b""))
        journal(first)
        compares(second, 1, 1, b"equal a\n")
        compares(second, 1, 2, b"differs a\n")
        same(second.ask(b"redo 1\n"), (b"ok 2", b""))
        builds(second, 2, functions, MORE)
        compares(first, 2, 1, b"differs a\n")
        compares(first, 2, 2, b"equal a\n")
        before = "commit 0 ok 1, take 1 ok 1, deliver 1 ok 1, commit 1 ok 2, take 2 ok 2, undo 2 ok 1"
        behind = "deliver 2 no 21, redo 1 ok 2, take 2 ok 2, deliver 2 ok 2"
        return shows(journal(first), before, behind, {0: 0, 1: 1, 2: 1})

    return until_late(play)


def undone_once_all_sleep():
    """Undo goes back to a state whose package was never finished, while the worker sleeps: it is woken, and builds the package."""

    def play(first, second, functions):
        put_meanwhile(first, second, functions, "a/0.go", MORE)
        same(second.ask(b"wait\n"), (b"ok 2", b""))
        journal(first)
        same(second.ask(b"undo 2\n"), (b"ok 1", b""))
        builds(second, 1, functions)
        before = "commit 0 ok 1, take 1 ok 1, commit 1 ok 2"
        behind = "deliver 1 no 21, take 2 ok 2, deliver 2 ok 2, undo 2 ok 1, take 1 ok 1, deliver 1 ok 1"
        return shows(journal(first), before, behind, {0: 0, 1: 1, 2: 1})

    return until_late(play)


def undone_and_redone():
    """Back in the state in which it was taken, on another visit, the delivery is done."""

    def play(first, second, functions):
        begins(first, 0, functions)
        same(second.ask(b"undo 1\n"), (b"ok 0", b""))
        same(second.ask(b"redo 0\n"), (b"ok 1", b""))
        builds(second, 1, functions)
        return shows(journal(first), "commit 0 ok 1, take 1 ok 1, undo 1 ok 0, redo 0 ok 1", "deliver 1 ok 1", {0: 0, 1: 1})

    return until_late(play)


def taken_on_two_visits():
    """It goes out on two visits of a state, to a worker each: one delivery is done, and the other is of a package that is finished already."""

    def play(first, second, functions):
        begins(first, 0, functions)
        same(second.ask(b"undo 1\n"), (b"ok 0", b""))
        same(second.ask(b"redo 0\n"), (b"ok 1", b""))
        builds(second, 1, functions)
        before = "commit 0 ok 1, take 1 ok 1, undo 1 ok 0, redo 0 ok 1, take 1 ok 1"
        return shows(journal(first), before, "deliver 1 ok 1, deliver 1 no 22", {0: 0, 1: 1})

    return until_late(play, 2)


def once_each():
    """With workers to spare two packages go out once each on a visit, one of them although it is out since another; a session that asks for
    more meanwhile is refused. The three are delivered in any order."""

    def play(first, second, functions):
        begins(first, 0, functions)
        same(second.ask(put(1, "b/0.go", large(functions, b"b"))), (b"ok 2", b""))
        waits_for(second, b"take 2 ok 2\n")
        second.ask(b"work\n")
        builds(second, 2, functions)
        entries = journal(first)
        before = "commit 0 ok 1, take 1 ok 1, commit 1 ok 2, take 2 ok 2, take 2 ok 2"
        behind = "deliver 1 no 21, deliver 2 ok 2, deliver 2 ok 2"
        is_late = shows(entries, before, behind, {0: 0, 1: 1, 2: 2}, sorted)
        return is_late and any(deliveries(entries[:at]) == 0 for at, entry in enumerate(entries) if entry == b"take 2 no 23\n")

    return until_late(play, 4)


def told_to_work():
    """A session builds too, by `work`, while the worker has a package: what it delivers is stale, and it is told the current number."""

    def play(first, second, functions):
        begins(first, 0, functions)
        same(first.ask(put(1, "b/0.go", large(functions, b"b"))), (b"ok 2", b""))
        first.send(b"work\n")
        waits_for(second, b"take 2 ok 2\n")
        same(second.ask(put(2, "c/0.go", OTHER)), (b"ok 3", b""))
        told = first.reply()
        builds(second, 3, functions)
        before = "commit 0 ok 1, take 1 ok 1, commit 1 ok 2, take 2 ok 2, commit 2 ok 3"
        behind = "deliver 1 no 21, deliver 2 no 21" + ", take 3 ok 3, deliver 3 ok 3" * 3
        if not shows(journal(first), before, behind, {0: 0, 1: 1, 2: 2, 3: 3}, sorted):
            return False
        same(told, (b"no 21", b"3\n"))
        return True

    return until_late(play)


def given_back():
    """`run` whose `work` finds no memory to build in: the package is given back, and goes out again on the same visit. The least limit is no
    limit to some systems, so it is a page."""
    near, far = socket.socketpair()
    program = subprocess.Popen(PROGRAM + ["run"], stdin=far, stdout=far)
    try:
        far.close()
        near.settimeout(DEADLINE)
        client = Client(near)
        same(client.ask(put(0, "a/0.go", large(SIZES[0]))), (b"ok 1", b""))
        soft, hard = resource.prlimit(program.pid, resource.RLIMIT_DATA)
        resource.prlimit(program.pid, resource.RLIMIT_DATA, (resource.getpagesize(), hard))
        same(client.ask(b"work\n"), (b"no 1", b""))
        resource.prlimit(program.pid, resource.RLIMIT_DATA, (soft, hard))
        same(client.ask(b"work\n"), (b"ok 1", b"a\n"))
        same(client.ask(b"work\n"), (b"no 23", b""))
        has_object(client, 1, SIZES[0])
        shown = shows(journal(client), "commit 0 ok 1, take 1 ok 1", "give 1 ok 1, take 1 ok 1, deliver 1 ok 1", {0: 0, 1: 1})
        client.end()
        same((shown, program.wait(DEADLINE)), (True, 0))
    finally:
        program.kill()
        program.wait()


def sleeps(process):
    """Waits until all threads of a process have slept for a while."""
    end, seen = time.monotonic() + DEADLINE, 0
    while seen < 50:
        seen = 0 if awake(process) else seen + 1
        if time.monotonic() > end:
            raise AssertionError("the server never sleeps")
        threading.Event().wait(0.002)


def gives_back(functions, is_changed):
    """How often a worker gives a package back for which it finds no memory. Then it sleeps, though the package waits, until there is memory
    again and a change comes, or the server ends."""
    with Server(1, 1, 1) as server:
        client, (soft, hard) = server.connect(), resource.prlimit(server.process.pid, resource.RLIMIT_DATA)
        same(client.ask(put(0, "a/0.go", large(functions))), (b"ok 1", b""))
        resource.prlimit(server.process.pid, resource.RLIMIT_DATA, (resource.getpagesize(), hard))
        sleeps(server.process)
        resource.prlimit(server.process.pid, resource.RLIMIT_DATA, (soft, hard))
        given = sum(entry.startswith(b"give 1 ok") for entry in journal(client))
        if is_changed:
            same(client.ask(put(1, "b/0.go", OTHER)), (b"ok 2", b""))
            builds(client, 2, functions)
        client.end()
        settles(server)
    return given


def given_back_by_a_worker():
    """A worker for whose package memory is wanting gives it back, and tries again a few times alone, so that the journal isn't filled."""
    told = []
    for is_changed in (True, False):
        given = next(filter(None, (gives_back(functions, is_changed) for functions in SIZES)), 0)
        same((given, 8 < given < 50), (given, True))
        told.append(given)
    return f"given back {told[0]} and {told[1]} times"


CHECKS = (
    put_of_the_package,
    put_of_another,
    undone,
    undone_once_all_sleep,
    undone_and_redone,
    taken_on_two_visits,
    once_each,
    told_to_work,
    given_back,
    given_back_by_a_worker,
)
