"""Runs stored sessions on a built `gorefd serve` with each allocation refused in turn:

    python3 -m checks.attack.serving PROGRAM [SESSION.. | others | all]

Without names of sessions it tries the worked rows. First a server is started with each allocation refused that its start makes. Then a server
with one worker serves the session, and another session beside it. At each command the first allocation is refused, in the next run the second,
and so on: one of the command itself, or one of what the worker builds behind it. A refused command has changed nothing that the other session
sees, and the same command is answered when it is sent again. What is to be built is built in the end, and the server settles.
"""

import contextlib
import itertools
import os
import sys
import time
from concurrent.futures import ThreadPoolExecutor

from checks.attack.memory import NO_MEMORY, commands_of, questions
from checks.attack.refusing import Library
from checks.attack.rows import chosen
from checks.model.history import History
from checks.server import server as serving
from checks.server.connections import served
from checks.server.server import Server, put, same, settles

NO_MORE, WORK = b"no 23 0\n", b"work\n"
NO_START = (1, b"", b"gorefd: memory fault\n")
WAIT, LOOK, LOOKED = b"wait\n", b"look\n", b"ok 0 14\nundo 0 redo 0\n"


class Answer:
    """A command and its reply by a server whose worker has built all that is to be built."""

    def __init__(self, history, command):
        line, _, body = command.partition(b"\n")
        self.sent, self.told = command, served(history, line, body)


def whole(head_and_body):
    head, body = head_and_body
    return head + b" %d\n" % len(body) + body


def ask(client, command):
    return whole(client.ask(command))


def works(client):
    """Builds what the worker leaves, as a session. A worker that is refused memory for taking a package waits for the next change."""
    told = b""
    while told not in (NO_MORE, NO_MEMORY):
        told = ask(client, WORK)


def built(client, page, history):
    """Has all built, first while a call may still be refused, and tells whether one was."""
    works(client)
    told = ask(client, WAIT)
    was_hit = page.was_hit()
    works(client)
    wanted = b"ok %d 0\n" % history.current.number
    same((told == NO_MEMORY and was_hit or told == wanted, ask(client, WAIT)), (True, wanted))
    Answer(history, WAIT)
    return was_hit


def seen(client, history):
    """The state is as before for another session."""
    for asked in questions(history, ("look", "list", "cat")):
        same((asked.sent, ask(client, asked.sent)), (asked.sent, asked.told))


def refused_at(library, commands, ahead):
    """Serves a session whose commands are each refused that call. How many calls were refused, and how many commands."""
    page, hits, refused = library.page(), 0, 0
    try:
        with Server(1, 2, 2, environment=page.environment) as server:
            keeper, client, history = server.connect(), server.connect(), History()
            # where these are answered, all threads have begun
            for first in keeper, client:
                same(ask(first, WAIT), b"ok 0 0\n")
            for command in commands:
                page.refuse(ahead)
                told = ask(client, command)
                if told == NO_MEMORY:
                    same((command, page.was_hit()), (command, True))
                    hits, refused = hits + 1, refused + 1
                    seen(keeper, history)
                    told = ask(client, command)
                same((command, told), (command, Answer(history, command).told))
                hits += built(keeper, page, history)
            for asked in questions(history, ("look", "list", "cat", "faults", "object")):
                same((asked.sent, ask(keeper, asked.sent)), (asked.sent, asked.told))
            client.end()
            keeper.end()
            settles(server)
    finally:
        page.close()
    return hits, refused


A = b"package a\n\nvar x int\n\nfunc F(y int) int {\n\treturn x + y\n}\n"
PATIENCE = 30
# More tries than three workers make.
MOST_TRIES = 200


def is_answered(client, server):
    """Whether a `wait` is answered in time; it may itself be refused memory once. Where it is not, the server is of no more use."""
    client.socket.settimeout(PATIENCE)
    try:
        told = ask(client, WAIT)
        return (ask(client, WAIT) if told == NO_MEMORY else told).startswith(b"ok ")
    except TimeoutError:
        server.process.kill()
        return False


def passes(library, ahead):
    """A worker is refused this call, of those that a put and its build make. It builds all the same, with no help by a session and no further
    change. True where a call was refused behind the put; None where none was at all."""
    page = library.page()
    with contextlib.closing(page), Server(1, 2, 2, environment=page.environment) as server:
        keeper, client = server.connect(), server.connect()
        for first in keeper, client:
            same(ask(first, WAIT), b"ok 0 0\n")
        page.refuse(ahead)
        is_refused = ask(client, put(0, "a/a.go", A)) == NO_MEMORY
        if not is_refused:
            same((ahead, is_answered(client, server)), (ahead, True))
        was_hit = page.was_hit()
        if was_hit and not is_refused:
            same(ask(client, b"object a\n")[:5], b"ok 1 ")
        keeper.end()
        client.end()
        settles(server)
    return not is_refused if was_hit else None


def want_that_passes(library, pool):
    """A worker that was refused memory once builds all the same. At how many calls."""
    numbers, told = itertools.count(1), []
    while None not in told:
        told += pool.map(lambda ahead: passes(library, ahead), itertools.islice(numbers, 32))
    return told.count(True)


def quiet(page, seconds=2):
    """How many calls were refused when none was any more for a while."""
    before = -1
    while before != page.get("hits") <= MOST_TRIES:
        before = page.get("hits")
        time.sleep(seconds)
    return page.get("hits")


def want_that_lasts(library):
    """Where a package cannot be built for want of memory, workers try a few times and then wait for a change. Else they would fill the journal.
    When there is memory, the next change has them build it."""
    text = b'package a\n\nvar s string\n\nfunc F() string {\n\treturn "' + b"x" * 5_000 + b'"\n}\n'
    page = library.page()
    with contextlib.closing(page), Server(3, 1, 1, environment=page.environment) as server:
        client = server.connect()
        same(ask(client, WAIT), b"ok 0 0\n")
        # the room that its object grows to
        page.set("size", 16_384)
        same(ask(client, put(0, "a/a.go", text)), b"ok 1 0\n")
        tries = quiet(page)
        same((tries > 0, tries <= MOST_TRIES), (True, True))
        page.set("size", 0)
        same(ask(client, put(1, "b/b.go", b"package b\n")), b"ok 2 0\n")
        same((is_answered(client, server), ask(client, b"object a\n")[:5]), (True, b"ok 2 "))
        client.end()
        settles(server)
    return tries


def without_log(commands):
    """The journal of a server has the events of its workers, so what it shows is not compared."""
    return [command for command in commands if not command.startswith(b"log ")]


def climbed(library, name, sent, most=10_000):
    """Serves a session again and again, until no call is refused any more. How many runs that took, how many calls were refused, and how many
    commands."""
    commands, _ = commands_of(sent)
    commands, hits, refused = without_log(commands), 0, 0
    for ahead in itertools.count(1):
        try:
            some = refused_at(library, commands, ahead)
        except Exception as fault:
            raise AssertionError(f"{name}, call {ahead} of each command refused: {fault}") from fault
        hits, refused = hits + some[0], refused + some[1]
        if not some[0] or ahead == most:
            return ahead, hits, refused


def looked(server):
    """What a connection is told, or None where its session ended for want of memory, or where no server stands."""
    try:
        client = server.connect()
        told = ask(client, LOOK)
        client.end()
        return told
    except (AssertionError, OSError):
        return None


def started(library, number):
    """Runs a server of two short sessions with this call refused. How it went: the server did not begin, and told why; one of the sessions ended
    alone, or was refused its command; all was answered; or None where no call was refused."""
    page = library.page(number)
    try:
        with Server(1, 1, 2, environment=page.environment) as server:
            first, second = looked(server), None
            while second is None and server.process.poll() is None:
                second = looked(server)
            ended = server.ended()
            if ended == NO_START:
                same((first, second, os.path.exists(server.path + ".new")), (None, None, False))
                return "not begun"
            same((ended[0], ended[1][:8], ended[2]), (0, b"settled ", b""))
            same((LOOKED in (first, second), {first, second} <= {None, NO_MEMORY, LOOKED}), (True, True))
            if first == second == LOOKED:
                return "answered" if page.get("hits") else None
            return "one session refused"
    finally:
        page.close()


def starts(library, pool):
    """Starts servers with each call refused. How each went."""
    numbers, told = itertools.count(1), []
    while None not in told:
        told += pool.map(lambda number: started(library, number), itertools.islice(numbers, 32))
    return [how for how in told if how]


def counted(told):
    return ", ".join(f"{told.count(how)} {how}" for how in sorted(set(told)))


def main():
    if len(sys.argv) < 2:
        raise SystemExit(__doc__)
    serving.PROGRAM.append(os.path.abspath(sys.argv[1]))
    sessions, wrong = chosen(sys.argv[2:]), []

    def one(name):
        try:
            return climbed(library, name, sessions[name][0])
        except AssertionError as fault:
            wrong.append(str(fault))
            return 0, 0, 0

    with Library() as library, ThreadPoolExecutor(len(os.sched_getaffinity(0))) as pool:
        begun = starts(library, pool)
        told = list(pool.map(one, sessions))
    runs, hits, refused = (sum(numbers) for numbers in zip(*told))
    print("\n".join([*wrong, f"start: {counted(begun)}"]))
    print(f"{len(sessions)} sessions, {runs} runs: {hits} calls refused, {refused} commands refused, {len(wrong)} not right")
    raise SystemExit(1 if wrong or not refused or "not begun" not in begun else 0)


if __name__ == "__main__":
    main()
