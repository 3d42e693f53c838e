"""A built program, a server of it on a socket, and clients: what all checks of `gorefd serve` share."""

import os
import re
import resource
import signal
import socket
import subprocess
import sys
import tempfile
import threading

DEADLINE = 60
TOLD = re.compile(rb"gorefd: (?:recovered (?:0|[1-9][0-9]*) changes|serving [^\n]*|ended, (?:0|[1-9][0-9]*) entries)\n")
A = b"package a\n\nvar x int\n\nfunc F(y int) int {\n\treturn x + y\n}\n"
OBJECT = b"object a a\nvar a#x int\nfunc a#F (int) (int) 1 5\nglobal a#x\nlocal 0\nop +\nret 1\nend\n"
PROGRAM = []


def serve_words(path, workers=1, sessions=1, stop_after=None):
    words = ["serve", "--socket", path, "--workers", str(workers), "--sessions", str(sessions)]
    return words if stop_after is None else [*words, "--stop-after", str(stop_after)]


def limited(limits, umask=None):
    """What a child does before it becomes the program: it sets its limits, pairs of a resource and a number, and its mask. A write over
    the limit of a file fails, and ends nothing."""

    def begin():
        for what, most in limits:
            resource.setrlimit(what, (most, most))
            if what == resource.RLIMIT_FSIZE:
                signal.signal(signal.SIGXFSZ, signal.SIG_IGN)
        if umask is not None:
            os.umask(umask)

    return begin


def run(words, limits=(), **streams):
    """Runs the program to its end, and tells its status and what it wrote."""
    streams = {"stdin": subprocess.DEVNULL, "stdout": subprocess.PIPE} | streams
    if "input" in streams:
        del streams["stdin"]
    # (a child that does nothing before it becomes the program is made faster)
    begin = limited(limits) if limits else None
    ran = subprocess.run(PROGRAM + words, stderr=subprocess.PIPE, timeout=DEADLINE, preexec_fn=begin, **streams)
    return ran.returncode, ran.stdout, untold(ran.stderr)


def untold(err):
    """What was written on standard error beside the lines by which a server tells its start and its end."""
    return TOLD.sub(b"", err)


def stands(path, process=None):
    """Waits until a server has made its socket."""
    for _ in range(DEADLINE * 100):
        if os.path.exists(path) and not os.path.exists(path + ".new"):
            return
        if process is not None and process.poll() is not None:
            raise AssertionError("the server has ended: " + repr(process.communicate()))
        threading.Event().wait(0.01)
    raise AssertionError("no socket")


def connect(path, process=None):
    stands(path, process)
    client = socket.socket(socket.AF_UNIX, socket.SOCK_STREAM)
    client.settimeout(DEADLINE)
    client.connect(path)
    return Client(client)


class Server:
    """A server on a socket of its own, in a folder of its own."""

    def __init__(self, workers=1, sessions=1, stop_after=None, umask=0o022, limits=(), environment=None, before=(), more=()):
        """The words before those of the program are those of a command that runs it; more words are options of `serve`."""
        self.folder = tempfile.TemporaryDirectory()
        self.path = os.path.join(self.folder.name, "s")
        words = [*before, *PROGRAM, *serve_words(self.path, workers, sessions, stop_after), *more]
        options = {"stdout": subprocess.PIPE, "stderr": subprocess.PIPE, "env": os.environ | (environment or {})}
        self.is_group = bool(before)
        self.process = subprocess.Popen(words, preexec_fn=limited(limits, umask), start_new_session=self.is_group, **options)

    def __enter__(self):
        return self

    def __exit__(self, *_):
        if self.is_group and self.process.returncode is None:
            os.killpg(self.process.pid, signal.SIGKILL)
        self.process.kill()
        self.process.communicate()
        self.folder.cleanup()

    def stands(self):
        """Waits until there is a socket."""
        stands(self.path, self.process)

    def connect(self):
        return connect(self.path, self.process)

    def ended(self):
        """The status, and what it wrote, without the lines that tell its start and its end."""
        out, err = self.process.communicate(timeout=DEADLINE)
        return self.process.returncode, out, untold(err)


class Client:
    def __init__(self, client):
        self.socket = client
        self.read = client.makefile("rb")

    def send(self, text):
        self.socket.sendall(text)

    def reply(self):
        """One reply: its head without the size, and its body."""
        head = self.read.readline()
        words = head.split()
        if len(words) != 3 or not head.endswith(b"\n"):
            raise AssertionError(f"no reply: {head!r}")
        return b" ".join(words[:2]), self.read.read(int(words[2]))

    def ask(self, text):
        self.send(text)
        return self.reply()

    def number(self):
        """The number of the current state."""
        head, _ = self.ask(b"look\n")
        return int(head.split()[1])

    def rest(self):
        """All that is still to be read, up to the end."""
        try:
            return self.read.read()
        except ConnectionResetError:
            return b""

    def no_more(self):
        """Tells the other side that nothing more is sent."""
        self.socket.shutdown(socket.SHUT_WR)

    def end(self):
        """Ends the session, to which no reply is left."""
        self.send(b"end\n")
        same(self.rest(), b"")
        self.close()

    def close(self):
        self.read.close()
        self.socket.close()


def put(basis, path, text):
    return b"put %d %s %d\n" % (basis, path.encode(), len(text)) + text


def same(told, wanted):
    if told != wanted:
        raise AssertionError(f"told {told!r}, wanted {wanted!r}")


def settles(server):
    """How many entries the journal has, as the server tells at its end."""
    status, out, err = server.ended()
    same((status, err), (0, b""))
    if not re.fullmatch(rb"settled (0|[1-9][0-9]*)\n", out):
        raise AssertionError(f"told {out!r}")
    return int(out.split()[1])


def together(*tasks):
    """Runs tasks at the same time, each in a thread, and raises what one of them raised."""
    failed = []

    def done(task):
        try:
            task()
        except BaseException as fault:
            failed.append(fault)

    threads = [threading.Thread(target=done, args=(task,), daemon=True) for task in tasks]
    for thread in threads:
        thread.start()
    for thread in threads:
        thread.join(2 * DEADLINE)
        if thread.is_alive():
            raise AssertionError("a client has no end")
    if failed:
        raise failed[0]


def retried(client, line, number, body=b"", turns=10_000):
    """Asks for a change, `line` with a `%d` for its basis, and again with the number that is told where another was first. It answers the
    number behind it, and how often it was refused."""
    for turn in range(turns):
        head, told = client.ask(line % number + b"\n" + body)
        if head.startswith(b"ok "):
            return int(head.split()[1]), turn
        same(head, b"no 6")
        number = int(told)
    raise AssertionError("refused too often")


def passes(checks):
    """Does checks, tells of each, and answers whether all passed."""
    failed = 0
    for check in checks:
        try:
            told = check()
            print(f"{check.__name__}: ok{f', {told}' if told else ''}", flush=True)
        except Exception as fault:
            failed += 1
            print(f"{check.__name__}: {fault!r}", flush=True)
    print(f"{len(checks)} checks, {failed} failed")
    return not failed


def check_program(checks, usage):
    """Does checks on the program that the command line names. It ends with status 1 where one fails, or with the usage where none is named."""
    PROGRAM.extend(os.path.abspath(word) if os.path.isfile(word) else word for word in sys.argv[1:])
    if not PROGRAM:
        sys.exit(usage)
    sys.exit(0 if passes(checks) else 1)
