"""Attacks a built `gorefd serve` by its machine: calls of the system that fail, a full disk, and clients of a byte a second.

    python3 -m checks.attack.machine PROGRAM

It needs `strace` and the right to mount.
"""

import os
import subprocess
import tempfile

from checks.attack import clients
from checks.attack.clients import does
from checks.model.history import History
from checks.server.connections import COMMANDS
from checks.server.server import PROGRAM, Server, check_program, connect, put, same, serve_words, settles, untold

SOCKET_FAULT = (1, b"", b"gorefd: socket fault\n")
MEMORY_FAULT = (1, b"", b"gorefd: memory fault\n")
NOT_ACCEPTED = ("EMFILE", "ENFILE", "ENOMEM", "ENOBUFS", "ECONNABORTED", "EPERM", "EIO")
# What the start of a server calls, with the faults of a full disk and of a machine that has no more of something.
CALLS = ("flock", "ftruncate", "socket", "bind", "listen", "mkdir", "mkdirat", "chmod", "fchmodat", "link", "linkat", "unlink", "unlinkat", "rmdir")
THREADS = ("clone", "clone3")
# What these take away may be left where they fail.
TAKING_AWAY = ("unlink", "unlinkat", "rmdir")
# The file of the lock stays.
LOCK = ["s.lock"]


def injecting(call, fault, number):
    """Words that have the call of this number fail, of each thread its own."""
    return ["strace", "-f", "-qq", "-o", "/dev/null", "-e", f"trace={call}", "-e", f"inject={call}:error={fault}:when={number}"]


def not_accepted():
    """A connection that cannot be accepted, for whatever reason, is accepted later: the sessions that are on go on, and so does the server."""
    for fault in NOT_ACCEPTED:
        with Server(2, 3, 4, before=injecting("accept,accept4", fault, 2)) as server:
            first, second, history = server.connect(), server.connect(), History()
            does(first, COMMANDS[:1], history)
            does(second, COMMANDS[1:4], history)
            third = server.connect()
            does(third, COMMANDS[4:6], history)
            # its thread is the first to accept again, and fails at first
            first.end()
            does(second, COMMANDS[6:], history)
            fourth = server.connect()
            does(fourth, [b"list\n", b"wait\n", b"undo %d\n" % history.current.number], history)
            for client in (second, third, fourth):
                client.end()
            settles(server)
    return f"{len(NOT_ACCEPTED)} reasons"


def interrupted():
    """A call that was interrupted is made again."""
    with Server(2, 3, 4, before=injecting("accept,accept4", "EINTR", 1)) as server:
        history = History()
        for commands in COMMANDS[:3], COMMANDS[3:5], COMMANDS[5:]:
            client = server.connect()
            does(client, commands, history)
            client.end()
        server.connect().end()
        settles(server)


def is_injected(call, number, words, folder):
    """Starts a server whose call of this number fails. Whether there was such a call."""
    trace = os.path.join(folder, "trace")
    strace = ["strace", "-f", "-qq", "-o", trace, "-e", f"trace={call}", "-e", f"inject={call}:error=ENOSPC:when={number}"]
    path = os.path.join(folder, "s")
    with subprocess.Popen([*strace, *PROGRAM, *words], stdout=subprocess.PIPE, stderr=subprocess.PIPE) as process:
        try:
            connect(path, process).end()
        except (AssertionError, OSError):
            # it has ended, be it before it made its socket or behind it
            pass
        told = process.communicate(timeout=60)
    with open(trace, encoding="utf-8") as file:
        was_there = "(INJECTED)" in file.read()
    os.unlink(trace)
    out, err = told[0], untold(told[1])
    if was_there and out:
        # it was a call of the end, which takes the socket away
        same((call in TAKING_AWAY, process.returncode, out[:8], err), (True, 0, b"settled ", b""))
    elif was_there:
        same((call, number, process.returncode, out, err), (call, number, *(MEMORY_FAULT if call in THREADS else SOCKET_FAULT)))
        left = os.listdir(folder)
        if call not in TAKING_AWAY:
            same((call, number, left), (call, number, LOCK))
    else:
        same((call, number, err), (call, number, b""))
    return was_there


def each_call_of_the_start():
    """Each call that a server's start makes fails as where there is no more room: the server tells it and ends, and leaves nothing."""
    count = 0
    for call in CALLS + THREADS:
        for number in range(1, 10):
            with tempfile.TemporaryDirectory() as folder:
                if not is_injected(call, number, serve_words(os.path.join(folder, "s"), 2, 2, 1), folder):
                    break
                count += 1
    return f"{count} calls"


class Disk:
    """A disk of its own, with room for so many files and folders, itself among them."""

    def __init__(self, room):
        self.room = room

    def __enter__(self):
        self.folder = tempfile.TemporaryDirectory()
        subprocess.run(["mount", "-t", "tmpfs", "-o", f"size=64k,nr_inodes={self.room}", "tmpfs", self.folder.name], check=True)
        return self.folder.name

    def __exit__(self, *_):
        subprocess.run(["umount", self.folder.name], check=True)
        self.folder.cleanup()


def full_disk():
    """On a disk without room for its socket a server tells it and leaves nothing; one that has made its socket goes on when the disk is full."""
    refused = 0
    for room in range(1, 8):
        with Disk(room) as folder:
            path = os.path.join(folder, "s")
            with subprocess.Popen([*PROGRAM, *serve_words(path, 1, 1, 2)], stdout=subprocess.PIPE, stderr=subprocess.PIPE) as process:
                try:
                    client, history = connect(path, process), History()
                except AssertionError:
                    refused += 1
                    same((room, process.poll(), os.listdir(folder) in ([], LOCK)), (room, 1, True))
                    continue
                try:
                    while True:
                        with open(os.path.join(folder, f"f{len(os.listdir(folder))}"), "wb") as file:
                            file.write(b"x" * 70_000)
                except OSError:
                    # the disk is full
                    pass
                does(client, COMMANDS, history)
                client.end()
                client = connect(path, process)
                does(client, [b"list\n", put(history.current.number, "q/q.go", b"package q\n")], history)
                client.end()
                out, err = process.communicate(timeout=60)
                same((process.returncode, untold(err), out[:8]), (0, b"", b"settled "))
    if not refused:
        raise AssertionError("the disk was never full")
    return f"{refused} of 7 disks had no room"


CHECKS = (not_accepted, interrupted, each_call_of_the_start, full_disk, clients.byte_a_second)

if __name__ == "__main__":
    check_program(CHECKS, __doc__)
