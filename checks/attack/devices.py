"""Runs stored sessions on a built `gorefd run` with an input and an output that fail at each place.

    python3 -m checks.attack.devices PROGRAM [SESSION.. | others | all]

Without names of sessions it tries the worked rows. `strace` has the n-th read fail, or end the input, while the input gives one byte to each
read; and it has the n-th write fail, or write nothing. Then the session ends with a read fault or a write fault, what was read whole before is
answered, and what was written is a first part of the session's text. The gate tries `inputs` and `outputs`, which need no `strace`.
"""

import os
import resource
import socket
import subprocess
import sys
import tempfile
import threading
from concurrent.futures import ThreadPoolExecutor

from checks.attack.rows import chosen, worked
from checks.model.history import replies, size_of
from checks.server import server as serving
from checks.server.connections import whole_commands
from checks.server.server import run, same
from checks.server.streams import reset_behind

READ_FAULT = (1, b"gorefd: read fault\n")
WRITE_FAULT = (1, b"gorefd: write fault\n")
WELL = (0, b"")
# Inputs over this size are cut at some places only.
LARGE = 4_000


def places(size):
    """Each place of a text, or some thousand of a large one."""
    return range(0, size + 1, 1 + size // LARGE)


def input_at(name, sent, cut):
    """The input is reset behind some bytes."""
    commands, _ = whole_commands(sent[:cut])
    ended = WELL if b"end\n" in commands else READ_FAULT
    far = reset_behind(sent[:cut])
    status, out, err = run(["run"], stdin=far)
    far.close()
    same((name, cut, out, status, err), (name, cut, replies(b"".join(commands)), *ended))


def output_at(name, sent, wanted, most):
    """The output takes so many bytes, a last write in part, and then fails. (A write over the limit of a file ends no program here.)"""
    ended = WELL if most >= len(wanted) else WRITE_FAULT
    with tempfile.TemporaryFile() as output:
        streams = {"stdin": subprocess.PIPE, "stdout": output, "stderr": subprocess.PIPE}
        with subprocess.Popen([*serving.PROGRAM, "run"], restore_signals=False, **streams) as process:
            # it writes nothing before it is sent something
            resource.prlimit(process.pid, resource.RLIMIT_FSIZE, (most, most))
            _, err = process.communicate(sent, timeout=serving.DEADLINE)
        output.seek(0)
        same((name, most, output.read(), process.returncode, err), (name, most, wanted[:most], *ended))


def at_each(points):
    """Does what is to be done at each point, on all processors, and tells how many they were."""
    with ThreadPoolExecutor(len(os.sched_getaffinity(0))) as pool:
        return sum(1 for _ in pool.map(lambda point: point[0](*point[1:]), points))


def inputs(sessions=None):
    """An input that fails behind each byte of each session."""
    sessions = sessions or worked()
    points = [(input_at, name, sent, cut) for name, (sent, _) in sessions.items() for cut in places(len(sent))]
    return f"{at_each(points)} places"


def outputs(sessions=None):
    """An output that fails behind each byte of the text of each session."""
    sessions = sessions or worked()
    points = [(output_at, name, *pair, most) for name, pair in sessions.items() for most in places(len(pair[1]))]
    return f"{at_each(points)} places"


def bytewise(sent):
    """An input that gives one byte to each read, and what fills it."""
    near, far = socket.socketpair(socket.AF_UNIX, socket.SOCK_SEQPACKET)

    def fill():
        with near:
            try:
                for at in range(len(sent)):
                    near.send(sent[at : at + 1])
            except OSError:
                # the program has ended
                pass

    filler = threading.Thread(target=fill, daemon=True)
    filler.start()
    return far


def traced(sent, call, inject=()):
    """Runs a session under `strace`, one byte a read. Its lines of this call, what the session wrote, its status, and what it wrote on standard
    error."""
    with tempfile.TemporaryDirectory() as folder, tempfile.TemporaryFile() as output:
        trace = os.path.join(folder, "trace")
        words = ["strace", "-o", trace, "-e", f"trace={call}", *inject, *serving.PROGRAM, "run"]
        far = bytewise(sent)
        ran = subprocess.run(words, stdin=far, stdout=output, stderr=subprocess.PIPE, timeout=60)
        far.close()
        output.seek(0)
        with open(trace, encoding="utf-8", errors="replace") as file:
            lines = [line for line in file if line.startswith(call)]
        return lines, output.read(), ran.returncode, ran.stderr


def injected(sent, call, how, number, and_later=""):
    """The same, with the call of this number going so, and all later ones with the word `+`."""
    lines, *told = traced(sent, call, ["-e", f"inject={call}:{how}:when={number}{and_later}"])
    same((number, "(INJECTED)" in lines[number - 1]), (number, True))
    return tuple(told)


def numbers(sent, call, descriptor):
    """The numbers of the calls on a stream, among all calls of that name."""
    lines, *told = traced(sent, call)
    same(told[1:], [*WELL])
    return [number for number, line in enumerate(lines, 1) if line.startswith(f"{call}({descriptor},")]


def failed_read(name, sent, number, count):
    """The read behind so many bytes fails. One more than there are is that behind the end of the last line. An input that ends inside the line
    of a put ends in two reads before it is answered: that of the line, and that of the body."""
    told = injected(sent, "read", "error=EIO", number)
    left = whole_commands(sent)[1]
    twice = b"\n" not in left and size_of(left) > 0
    read = sent if count > len(sent) + twice else b"".join(whole_commands(sent[:count])[0])
    same((name, count, *told), (name, count, replies(read), *READ_FAULT))


def empty_read(name, sent, number, count):
    """The read behind so many bytes gives nothing, and so does each later one, as at the end of an input."""
    told = injected(sent, "read", "retval=0", number, "+")
    same((name, count, *told), (name, count, replies(sent[:count]), *WELL))


def failed_write(how):
    def fails(name, sent, wanted, number, count):
        """The write behind so many others fails. What was to be written then may still be written, when the program ends."""
        out, *ended = injected(sent, "write", how, number)
        # each reply is written before the next command is read
        same((name, count, wanted.startswith(out), out.count(b"\n") >= count, *ended), (name, count, True, True, *WRITE_FAULT))

    return fails


WRITES = ("error=EIO", "error=ENOSPC", "retval=0")


def by_strace(sessions):
    """Each read and each write of each session."""
    points = []
    for name, (sent, wanted) in sessions.items():
        for count, number in enumerate(numbers(sent, "read", 0)):
            points += [(failed_read, name, sent, number, count), (empty_read, name, sent, number, count)]
        for count, number in enumerate(numbers(sent, "write", 1)):
            points += [(failed_write(how), name, sent, wanted, number, count) for how in WRITES]
    return f"{at_each(points)} calls"


def main():
    if len(sys.argv) < 2:
        raise SystemExit(__doc__)
    serving.PROGRAM.append(os.path.abspath(sys.argv[1]))
    sessions = chosen(sys.argv[2:])
    checks = [inputs, outputs, by_strace]

    def check(of):
        def on_sessions():
            return of(sessions)

        on_sessions.__name__ = of.__name__
        return on_sessions

    raise SystemExit(0 if serving.passes([check(of) for of in checks]) else 1)


CHECKS = (inputs, outputs)

if __name__ == "__main__":
    main()
