"""Checks connections to a built `gorefd serve` that break off, send no commands, read nothing or are slow, and what other clients see of them.
"""

import random
import threading

from checks.model.history import History, answered, reply, size_of
from checks.model.refusals import Refusal
from checks.server.server import A, OBJECT, Server, put, same, settles, together

SMALL = b"package a\n\nvar x int\n"
COMMANDS = (
    put(0, "a/a.go", SMALL),
    b"rename 1 a/a.go:#15 yy\n",
    b"undo 2\n",
    b"redo 1\n",
    b"cat a/a.go\n",
    put(2, "b/b.go", b"package b\n"),
    b"move 3 b c/d\n",
    b"wait\n",
    b"object a\n",
    b"del 4 c/d/b.go\n",
)
SESSION = b"".join(COMMANDS) + b"end\n"


def served(history, line, body=None):
    """The reply of a server whose workers build all that is to be built while a session waits."""
    if line != b"wait":
        return reply(history, line, body)
    try:
        while True:
            history.work()
    except Refusal as refusal:
        same(refusal.code, 23)
    return b"ok %d 0\n" % history.current.number


def seen(client):
    """The number of the state, and the text of each file."""
    head, listed = client.ask(b"list\n")
    paths = [line.rsplit(b" ", 1)[0] for line in listed.splitlines()]
    texts = {}
    for path in paths:
        again, texts[path] = client.ask(b"cat " + path + b"\n")
        same(again, head)
    return head, texts


def state_of(history):
    """The same, as the model has it."""
    return b"ok %d" % history.current.number, {path.encode(): text for path, text in history.current.texts.items()}


def seen_after(server):
    last = server.connect()
    told = seen(last)
    last.end()
    settles(server)
    return told


def whole_commands(sent):
    """The commands of what was sent whole, each with its body, and what is left."""
    commands = []
    while b"\n" in sent:
        line, _, rest = sent.partition(b"\n")
        size = size_of(line)
        if len(rest) < size:
            break
        commands.append(line + b"\n" + rest[:size])
        sent = rest[size:]
    return commands, sent


def cut_while_sending():
    """A connection whose client has no more to send behind each byte of a session in turn. What was sent is answered as a whole input, and
    is what others see."""
    for cut in range(len(SESSION) + 1):
        history = History()
        wanted = answered(history, SESSION[:cut], served)
        with Server(1, 1, 2) as server:
            client = server.connect()
            client.send(SESSION[:cut])
            client.no_more()
            same((cut, client.rest()), (cut, wanted))
            client.close()
            same((cut, seen_after(server)), (cut, state_of(history)))
    return f"at {len(SESSION) + 1} bytes"


def cut_after_replies():
    """The same, but the client waits for the reply to each command that it has sent whole, and then breaks off behind a part of the next. A
    last line without its end is done, as at the end of any input, though no one is there to be told."""
    for cut in range(len(SESSION) + 1):
        history = History()
        wanted = answered(history, SESSION[:cut], served)
        commands, part = whole_commands(SESSION[:cut])
        with Server(1, 1, 2) as server:
            client = server.connect()
            told = b""
            for command in commands:
                if command == b"end\n":
                    client.send(command)
                    break
                head, body = client.ask(command)
                told += head + b" %d\n" % len(body) + body
            if part:
                client.send(part)
            client.close()
            same((cut, wanted.startswith(told)), (cut, True))
            same((cut, seen_after(server)), (cut, state_of(history)))
    return f"at {len(SESSION) + 1} bytes"


def states_on_the_way():
    """The states that a session goes through, from none of its commands done to all, each with the length of the replies up to it."""
    history, states, length = History(), [(0, state_of(History()))], 0
    for command in COMMANDS:
        length += len(answered(history, command, served))
        states.append((length, state_of(history)))
    return states


def cut_while_reading():
    """A client that sends a whole session, reads a first part of the replies, byte by byte longer, and goes away. Each reply that it had read
    whole stands; of the rest the server has done some first part, and no half of a command."""
    states = states_on_the_way()
    for cut in range(states[-1][0] + 1):
        with Server(1, 1, 2) as server:
            client = server.connect()
            client.send(SESSION)
            told = client.read.read(cut)
            same(len(told), cut)
            client.close()
            state = seen_after(server)
            possible = [after for length, after in states[1:] if length > cut]
            done = [after for length, after in states if length <= cut][-1]
            if state != done and state not in possible:
                raise AssertionError(f"at {cut}: {state!r}")
    return f"at {states[-1][0] + 1} bytes"


def garbage():
    """Bytes that are no commands are refused, line by line, and the server goes on."""
    noise = random.Random(7)
    with Server(1, 1, 42) as server:
        keeper = server.connect()
        same(keeper.ask(put(0, "a/a.go", A)), (b"ok 1", b""))
        keeper.end()
        for _ in range(20):
            client = server.connect()
            lines = [bytes(noise.choice(b"\x00\xff\r {}pu5") for _ in range(noise.randrange(2000))) for _ in range(20)]
            client.send(b"\n".join(lines) + b"\nend\n")
            same(client.rest(), b"no 2 0\n" * 20)
            client.close()
        for _ in range(20):
            client = server.connect()
            sent = noise.randbytes(noise.randrange(20_000))
            client.send(sent)
            client.no_more()
            same(client.rest(), b"no 2 0\n" * (sent.count(b"\n") + (not sent.endswith(b"\n") and sent != b"")))
            client.close()
        last = server.connect()
        same(last.ask(b"cat a/a.go\n"), (b"ok 1", A))
        last.end()
        settles(server)


def never_reads():
    """A client that asks for much and reads nothing, and one that says nothing, hold only their own sessions."""
    with Server(1, 3, 3) as server:
        deaf, silent, busy = server.connect(), server.connect(), server.connect()
        big = b"package a\n" + b"// x\n" * 100_000
        same(busy.ask(put(0, "a/a.go", big)), (b"ok 1", b""))
        deaf.send(b"cat a/a.go\n" * 1_000)
        for _ in range(100):
            same(busy.ask(b"cat a/a.go\n"), (b"ok 1", big))
        same(busy.ask(b"wait\n"), (b"ok 1", b""))
        deaf.close()
        silent.close()
        busy.end()
        settles(server)


def half_a_put():
    """A client that stays silent inside the bytes of a put, or that waits, holds no one up; what it began is done when it goes on."""
    with Server(1, 3, 3) as server:
        slow, waiting, busy = server.connect(), server.connect(), server.connect()
        slow.send(put(0, "s/s.go", b"package s\n")[:-3])
        same(waiting.ask(b"wait\n"), (b"ok 0", b""))
        number = 0
        for turn in range(50):
            text = b"package a\n\nvar x%d int\n" % turn
            same(busy.ask(put(number, "a/a.go", text)), (b"ok %d" % (number + 1), b""))
            same(busy.ask(b"wait\n"), (b"ok %d" % (number + 1), b""))
            number += 1
        slow.send(b" s\n")
        same(slow.reply(), (b"no 6", b"%d\n" % number))
        for client in (slow, waiting, busy):
            client.end()
        settles(server)


def byte_by_byte():
    """A client that sends one byte at a time, while another sends all at once."""
    text = put(0, "a/a.go", A) + b"wait\nobject a\n"
    told = b"ok 1 0\nok 1 0\nok 1 %d\n" % len(OBJECT) + OBJECT
    with Server(1, 2, 2) as server:
        slow, fast = server.connect(), server.connect()

        def creep():
            for at in range(len(text)):
                slow.send(text[at : at + 1])
                threading.Event().wait(0.001)
            slow.send(b"end\n")
            same(slow.rest(), told)

        def run():
            for _ in range(500):
                head, body = fast.ask(b"list\n")
                same((head, body) in ((b"ok 0", b""), (b"ok 1", b"a/a.go 58\n")), True)
            fast.end()

        together(creep, run)
        slow.close()
        settles(server)


CHECKS = (cut_while_sending, cut_after_replies, cut_while_reading, garbage, never_reads, half_a_put, byte_by_byte)
