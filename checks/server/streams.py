"""Checks streams of a built `gorefd` that are slow, or fail after each byte: the input or the output of `run`, and a connection that is reset or
whose client reads no more. Commands that were read whole before are done, and no others.
"""

import resource
import socket
import tempfile

from checks.model.history import History, answered, replies
from checks.server.connections import COMMANDS, SESSION, seen_after, served, state_of, whole_commands
from checks.server.server import Server, run, same, together


def reset_behind(sent):
    """A socket from which these bytes are read, and then a fault: its other end went away with a byte unread."""
    near, far = socket.socketpair()
    far.send(b"x")
    near.sendall(sent)
    near.close()
    return far


def slow_input():
    """`run` with an input that gives one byte to each read: a packet is what one read gets, however much it asks for."""
    near, far = socket.socketpair(socket.AF_UNIX, socket.SOCK_SEQPACKET)
    told = []

    def creep():
        for at in range(len(SESSION)):
            near.send(SESSION[at : at + 1])

    together(creep, lambda: told.append(run(["run"], stdin=far)))
    near.close()
    far.close()
    same(told, [(0, replies(SESSION), b"")])


def failing_input():
    """`run` with an input that fails behind each byte of a session."""
    for cut in range(len(SESSION) + 1):
        commands, part = whole_commands(SESSION[:cut])
        ended = (0, b"") if commands and commands[-1] == b"end\n" else (1, b"gorefd: read fault\n")
        far = reset_behind(SESSION[:cut])
        status, out, err = run(["run"], stdin=far)
        far.close()
        same((cut, out, status, err), (cut, replies(b"".join(commands)), *ended))
    return f"at {len(SESSION) + 1} bytes"


def failing_output():
    """`run` with an output that takes so many bytes, and then fails."""
    wanted = replies(SESSION)
    for most in range(len(wanted) + 1):
        ended = (0, b"") if most == len(wanted) else (1, b"gorefd: write fault\n")
        with tempfile.TemporaryFile() as output:
            status, _, err = run(["run"], [(resource.RLIMIT_FSIZE, most)], input=SESSION, stdout=output)
            output.seek(0)
            same((most, output.read(), status, err), (most, wanted[:most], *ended))
    return f"at {len(wanted) + 1} bytes"


def reset_while_sending():
    """A connection that is reset behind each byte of a session: a last line without its end is not done, as it is at the end of an input."""
    for cut in range(len(SESSION)):
        commands, part = whole_commands(SESSION[:cut])
        history = History()
        answered(history, b"".join(commands), served)
        with Server(1, 1, 2) as server:
            client = server.connect()
            for command in commands:
                client.ask(command)
            client.send(b"look\n")
            client.socket.recv(1, socket.MSG_PEEK)
            client.send(part)
            client.close()
            same((cut, seen_after(server)), (cut, state_of(history)))
    return f"at {len(SESSION)} bytes"


def hears_no_more():
    """A client that has sent all, and hears nothing behind each reply in turn: the next command is done, though no one is told, and no other."""
    for heard in range(len(COMMANDS)):
        history = History()
        answered(history, b"".join(COMMANDS[: heard + 1]), served)
        with Server(1, 1, 2) as server:
            client = server.connect()
            for command in COMMANDS[:heard]:
                client.ask(command)
            client.socket.shutdown(socket.SHUT_RD)
            client.send(b"".join(COMMANDS[heard:]) + b"end\n")
            client.close()
            same((heard, seen_after(server)), (heard, state_of(history)))
    return f"behind {len(COMMANDS)} replies"


CHECKS = (slow_input, failing_input, failing_output, reset_while_sending, hears_no_more)
