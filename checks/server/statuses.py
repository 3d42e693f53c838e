"""Checks what a built `gorefd` prints for each command line, and how it ends: each exit status with its text.

The texts for command lines are those of their parser, `clap`, written down here. It calls the program by the name of its file.
"""

import fcntl
import os
import pathlib
import resource
import socket
import stat
import subprocess
import tempfile
import threading

from checks.server.server import DEADLINE, PROGRAM, Server, connect, limited, put, run, same, serve_words, settles, together

MORE = "\n\nFor more information, try '--help'.\n"
RUN = "\n\nUsage: gorefd run" + MORE
ALL = "\n\nUsage: gorefd <COMMAND>" + MORE
SERVE = "\n\nUsage: gorefd serve [OPTIONS] --socket <PATH> --workers <N> --sessions <M>" + MORE
HELP = """Renames and moves in Go source, with undo, and builds packages

Usage: gorefd <COMMAND>

Commands:
  run     Serves one session from standard input to standard output
  serve   Serves sessions to those who connect to a Unix socket, and builds packages beside them
  stop    Ends a server, and returns once it has ended
  rename  Gives what is declared or used at a place another name, in all files of a folder
  move    Gives the folder of a package another path, and changes its imports
  faults  Lists the faults of the Go files of a folder
  uses    Lists the uses of what is declared or used at a place
  lsp     Serves an editor from standard input to standard output, as a language server

Options:
  -h, --help     Print help
  -V, --version  Print version
"""
VERSION = b"gorefd 0.1.0\n"
RUN_HELP = """Serves one session from standard input to standard output

Usage: gorefd run

Options:
  -h, --help  Print help
"""
SERVE_HELP = """Serves sessions to those who connect to a Unix socket, and builds packages beside them

Usage: gorefd serve [OPTIONS] --socket <PATH> --workers <N> --sessions <M>

Options:
      --socket <PATH>      The path of the server's socket
      --workers <N>        How many threads build packages, 1 to 16
      --sessions <M>       How many threads serve connections, 1 to 32
      --stop-after <K>     Ends after K connections, 1 to 1000000; else it does not end
      --idle <SECONDS>     Ends a session whose client sends or reads nothing for so long, 1 to 1000000
      --chapter <ENTRIES>  Closes the journal when it has so many entries, 1 to 900000; else 900000
      --journal <DIR>      Keeps each change in this folder before it is answered, and goes on with those that are there
  -h, --help               Print help
"""
GOOD = serve_words("s")


def without(name):
    at = GOOD.index(name)
    return GOOD[:at] + GOOD[at + 2 :]


def missing(*named):
    lines = "".join(f"\n  {option}" for option in named)
    required = " ".join(["--socket <PATH>", "--workers <N>", "--sessions <M>"])
    return f"error: the following required arguments were not provided:{lines}\n\nUsage: gorefd serve {required}" + MORE


def out_of_range(name, value, most):
    return f"error: invalid value '{value}' for '{name}': {value} is not in 1..={most}" + MORE


def no_number(name, value):
    return f"error: invalid value '{value}' for '{name}': invalid digit found in string" + MORE


def numbers(name, placeholder, most):
    """Words with this option at numbers that are none, each with its text."""
    named = f"{name} {placeholder}"
    words = lambda value: without(name) + [name, value] if name in GOOD else GOOD + [name, value]
    rows = [(words(value), out_of_range(named, value, most)) for value in ("0", str(most + 1), str(2**32 - 1))]
    return rows + [(words(value), no_number(named, value)) for value in ("x", "1x", "1.0")]


BAD = [
    ([], "error: 'gorefd' requires a subcommand but one was not provided\n  [subcommands: run, serve, stop, rename, move, faults, uses, lsp]" + ALL),
    (["frob"], "error: unrecognized subcommand 'frob'" + ALL),
    ([""], "error: unrecognized subcommand ''" + ALL),
    (["help"], "error: unrecognized subcommand 'help'" + ALL),
    (["--frob"], "error: unexpected argument '--frob' found" + ALL),
    (["run", "run"], "error: unexpected argument 'run' found" + RUN),
    (["run", "--socket"], "error: unexpected argument '--socket' found" + RUN),
    (["serve"], missing("--socket <PATH>", "--workers <N>", "--sessions <M>")),
    (without("--socket"), missing("--socket <PATH>")),
    (without("--workers"), missing("--workers <N>")),
    (without("--sessions"), missing("--sessions <M>")),
    (GOOD + ["more"], "error: unexpected argument 'more' found" + SERVE),
    *numbers("--workers", "<N>", 16),
    *numbers("--sessions", "<M>", 32),
    *numbers("--stop-after", "<K>", 1_000_000),
    *numbers("--idle", "<SECONDS>", 1_000_000),
]
UNREAD = [[b"\xff"], ["serve", "--socket", b"\xff"]]


def called(text):
    """The text with the name by which the program is called."""
    return text.replace("gorefd", os.path.basename(PROGRAM[-1])).encode()


def bad_words():
    """Words that ask nothing end with status 2 and their text on standard error, and nothing is made."""
    with tempfile.TemporaryDirectory() as folder:
        for words, text in BAD:
            same((words, *run(words, cwd=folder)), (words, 2, b"", called(text)))
        for words in UNREAD:
            same((words, *run(words, cwd=folder)), (words, 2, b"", ("error: a word is not UTF-8" + ALL).encode()))
        for words in (GOOD + ["--socket", "t"], ["run", "--", "x"], without("--workers") + ["--workers", ""]):
            status, out, err = run(words, cwd=folder)
            same((words, status, out, err[:7], err.endswith(MORE[2:].encode())), (words, 2, b"", b"error: ", True))
        same(os.listdir(folder), [])
    return f"{len(BAD) + len(UNREAD) + 3} of them"


def helps():
    """Help and the version go to standard output, with status 0."""
    for words, text in ((["--help"], HELP), (["run", "--help"], RUN_HELP), (["serve", "--help"], SERVE_HELP)):
        for flag in ("--help", "-h"):
            same(run([*words[:-1], flag]), (0, called(text), b""))
    for flag in ("--version", "-V"):
        same(run([flag]), (0, VERSION, b""))
    with open("/dev/full", "wb") as full:
        for flag in ("--help", "--version"):
            same(run([flag], stdout=full), (1, None, b"gorefd: write fault\n"))


def one_session():
    """How `run` ends: with its input, at a line `end`, or with a fault of its streams."""
    look = b"ok 0 14\nundo 0 redo 0\n"
    same(run(["run"]), (0, b"", b""))
    same(run(["run"], input=b"look\n"), (0, look, b""))
    same(run(["run"], input=b"look"), (0, look, b""))
    same(run(["run"], input=b"look\nend\nlook\n"), (0, look, b""))
    same(run(["run"], input=b"wait\nput 0 a/a.go 5\nabc"), (0, b"no 2 0\nno 24 0\n", b""))
    with open("/dev/full", "wb") as full:
        same(run(["run"], input=b"look\n", stdout=full), (1, None, b"gorefd: write fault\n"))
        same(run(["run"], stdout=full), (0, None, b""))
    folder = os.open("/", os.O_RDONLY)
    same(run(["run"], stdin=folder), (1, b"", b"gorefd: read fault\n"))
    os.close(folder)


def is_loaded(told):
    """Whether the program was loaded at all: else its loader ends it by a signal, or with status 127."""
    return 0 <= told[0] < 127


def told_start_and_end():
    """A server tells its start and its end on standard error, each by a line."""
    with Server(1, 1, 1) as server:
        server.connect().end()
        _, err = server.process.communicate(timeout=DEADLINE)
        same(err, b"gorefd: serving %s\ngorefd: ended, 0 entries\n" % server.path.encode())


def foreign_locks():
    """Where no file stands at the path of the lock, but a folder or a link, or a file that others may write, there is no server."""
    with tempfile.TemporaryDirectory() as folder:
        path, target = os.path.join(folder, "s"), os.path.join(folder, "target")
        lock = path + ".lock"
        with open(target, "wb") as file:
            file.write(b"kept")
        os.chmod(target, 0o600)

        def refused():
            same(run(serve_words(path, 1, 1, 1)), (1, b"", b"gorefd: socket fault\n"))
            same(os.path.lexists(path), False)

        os.mkdir(lock)
        refused()
        os.rmdir(lock)
        os.symlink(target, lock)
        refused()
        os.unlink(lock)
        os.link(target, lock)
        refused()
        os.unlink(lock)
        with open(lock, "wb"):
            os.chmod(lock, 0o666)
        refused()
        with open(target, "rb") as file:
            same(file.read(), b"kept")


def wanting_memory():
    """With too little memory `run` and `serve` tell so and end with status 1; with a little more `run` answers, also by `no 1 0`."""
    faults = 0
    for kilobytes in range(64, 1024, 16):
        told = run(["run"], [(resource.RLIMIT_DATA, kilobytes * 1024)], input=b"look\n")
        if told == (1, b"", b"gorefd: memory fault\n"):
            faults += 1
        elif is_loaded(told) and told not in ((0, b"ok 0 14\nundo 0 redo 0\n", b""), (0, b"no 1 0\n", b"")):
            raise AssertionError(f"{kilobytes} kilobytes: {told!r}")
    if not faults:
        raise AssertionError("memory was never wanting")
    with tempfile.TemporaryDirectory() as folder:
        words = serve_words(os.path.join(folder, "s"), 16, 32, 1)
        same(run(words, [(resource.RLIMIT_AS, 60_000_000)]), (1, b"", b"gorefd: memory fault\n"))
    return f"at {faults} limits"


def accepted_later():
    """Where a connection cannot be accepted, since no more files may be open, it is accepted once one is closed."""
    with Server(1, 2, 2, limits=[(resource.RLIMIT_NOFILE, 7)]) as server:
        first = server.connect()
        same(first.number(), 0)
        second = server.connect()
        second.send(b"look\n")
        second.socket.settimeout(0.5)
        try:
            raise AssertionError(f"told {second.socket.recv(1)!r}")
        except TimeoutError:
            second.socket.settimeout(DEADLINE)
        first.end()
        same(second.reply(), (b"ok 0", b"undo 0 redo 0\n"))
        second.end()
        settles(server)


def untold_end():
    """A server that cannot tell its end has a write fault."""
    with tempfile.TemporaryDirectory() as folder, open("/dev/full", "wb") as full:
        path = os.path.join(folder, "s")

        told = []
        together(lambda: told.append(run(serve_words(path, 1, 1, 1), stdout=full)), lambda: connect(path).end())
        same(told, [(1, None, b"gorefd: write fault\n")])


def taken_paths():
    """Where anything stands at the path but a socket that nobody serves, or at the one beside it at which the socket is made, there is no
    server, and it stays."""
    with tempfile.TemporaryDirectory() as folder:
        place = lambda name: os.path.join(folder, name)
        listeners = []

        def stand(what, name):
            if what == "file":
                pathlib.Path(place(name)).write_bytes(b"kept")
            elif what == "folder":
                os.mkdir(place(name))
            elif what == "link":
                os.symlink(place("nowhere"), place(name))
            else:
                listener = socket.socket(socket.AF_UNIX, socket.SOCK_STREAM)
                listener.bind(place(name))
                listener.listen()
                listeners.append(listener)

        def seen():
            return {
                name: (os.lstat(place(name)).st_ino, os.lstat(place(name)).st_mode, os.lstat(place(name)).st_mtime_ns)
                for name in os.listdir(folder)
                if not name.endswith(".lock")
            }

        kinds = ("file", "folder", "link", "socket")
        for kind in kinds:
            stand(kind, kind)
            stand(kind, f"beside_{kind}.new")
        before = seen()
        for path in (
            *(place(kind) for kind in kinds),
            *(place(f"beside_{kind}") for kind in kinds),
            place("no/folder"),
            place("x" * 200),
            place("file/s"),
            "",
        ):
            same((path, *run(serve_words(path, stop_after=1), cwd=folder)), (path, 1, b"", b"gorefd: socket fault\n"))
        same(seen(), before)
        same(pathlib.Path(place("file")).read_bytes(), b"kept")
        for listener in listeners:
            listener.close()


IN_USE = (1, b"", b"gorefd: another server is at work at this path\n")


def second_server():
    """A second server at the same path is refused, and the first goes on. At its end the socket is gone, and a third may serve there."""
    with Server(1, 1, 2) as first:
        client = first.connect()
        same(run(serve_words(first.path)), IN_USE)
        same(client.number(), 0)
        client.end()
        first.connect().end()
        settles(first)
        same(os.listdir(first.folder.name), ["s.lock"])
        together(lambda: same(run(serve_words(first.path, 1, 1, 1)), (0, b"settled 0\n", b"")), lambda: connect(first.path).end())


def servers_at_once():
    """Of servers that are started at the same path at the same time one serves, and each other is refused."""
    with tempfile.TemporaryDirectory() as folder:
        path, told, ended = os.path.join(folder, "s"), [], threading.Event()

        def serve():
            told.append(run(serve_words(path, 1, 1, 1)))
            if len(told) == 7:
                ended.set()

        def come():
            same(ended.wait(60), True)
            connect(path).end()

        together(*[serve] * 8, come)
        same(sorted(told)[1:], [IN_USE] * 7)
        same((sorted(told)[0][0], sorted(told)[0][2], os.listdir(folder)), (0, b"", ["s.lock"]))


def after_a_kill():
    """A socket that a killed server left is replaced."""
    with Server(1, 1, 1) as server:
        server.connect().close()
        server.process.kill()
        server.process.communicate()
        same(stat.S_ISSOCK(os.stat(server.path).st_mode), True)
        together(lambda: same(run(serve_words(server.path, 1, 1, 1)), (0, b"settled 0\n", b"")), lambda: comes(server.path))


def comes(path):
    """Connects once somebody serves there, and ends the session."""
    for _ in range(DEADLINE * 100):
        try:
            return connect(path).end()
        except ConnectionRefusedError:
            threading.Event().wait(0.01)
    raise AssertionError("nobody serves")


def stopped():
    """`gorefd stop` has a server accept no more, and returns when its sessions have ended. The server settles, and its socket is gone."""
    with Server(2, 2) as server:
        client, told = server.connect(), []
        same(client.number(), 0)

        def stop():
            told.append(run(["stop", "--socket", server.path]))

        def goes_on():
            for _ in range(20):
                same(client.number(), 0)
                threading.Event().wait(0.01)
            same(told, [])
            client.end()

        together(stop, goes_on)
        same((told, settles(server)), ([(0, b"", b"")], 21))
        same(os.listdir(server.folder.name), ["s.lock"])
        same(run(["stop", "--socket", server.path]), (1, b"", b"gorefd: no server is at work at this path\n"))


def stopped_early():
    """`gorefd stop` leaves no word at a server that holds its path and has no socket yet, so the server serves when it comes up."""
    with tempfile.TemporaryDirectory() as folder:
        path = os.path.join(folder, "s")
        with open(path + ".lock", "w") as lock:
            fcntl.flock(lock, fcntl.LOCK_EX)
            same(run(["stop", "--socket", path]), (1, b"", b"gorefd: socket fault\n"))
            same(os.path.getsize(path + ".lock"), 0)


NOW = ["stop", "--now", "--socket"]


def stopped_now():
    """`gorefd stop --now` shuts the connections of sessions under way, where each thread has one, and a further client waits. The server settles,
    its socket is gone, and a server may serve there again."""
    with Server(1, 2) as server:
        clients = [server.connect() for _ in range(3)]
        same(clients[0].ask(put(0, "a/a.txt", b"x")), (b"ok 1", b""))
        same(clients[1].number(), 1)
        same(run([*NOW, server.path]), (0, b"", b""))
        same([client.rest() for client in clients], [b""] * 3)
        same(settles(server), 3)
        same(os.listdir(server.folder.name), ["s.lock"])
        same(run([*NOW, server.path]), (1, b"", b"gorefd: no server is at work at this path\n"))
        together(lambda: same(run(serve_words(server.path, 1, 1, 1)), (0, b"settled 0\n", b"")), lambda: comes(server.path))


def now_behind_a_stop():
    """A `gorefd stop` waits for a session that goes on. A `gorefd stop --now` behind it ends the session, and both return."""
    with Server(1, 1) as server:
        client, told = server.connect(), []
        same(client.number(), 0)
        first = threading.Thread(target=lambda: told.append(run(["stop", "--socket", server.path])), daemon=True)
        first.start()
        threading.Event().wait(0.5)
        same((told, client.number()), ([], 0))
        same(run([*NOW, server.path]), (0, b"", b""))
        first.join(DEADLINE)
        same((told, client.rest(), settles(server)), ([(0, b"", b"")], b"", 2))


def now_in_the_midst():
    """Sessions that are cut off by `gorefd stop --now`: one in the bytes of a put, which is not done; one whose client reads nothing of long
    replies; one that waits for packages; one that is silent. All end, and the server settles."""
    with Server(1, 5) as server:
        clients = [server.connect() for _ in range(5)]
        cut, deaf, waits, silent, asks = clients
        same(asks.ask(put(0, "l/l.go", b"package l\n" + b"// line\n" * 100_000)), (b"ok 1", b""))
        cut.send(put(1, "a/a.txt", b"x" * 1_000)[:-1])
        deaf.send(b"cat l/l.go\n" * 50)
        same(deaf.socket.recv(2, socket.MSG_PEEK | socket.MSG_WAITALL), b"ok")
        waits.send(b"wait\n")
        same([client.number() for client in (silent, asks)], [1, 1])
        same(run([*NOW, server.path]), (0, b"", b""))
        same([client.rest() for client in (silent, asks)], [b"", b""])
        settles(server)


def silent_clients():
    """A client that sends nothing for three seconds is let go, and so is one that reads nothing. Who waits for packages is not."""
    with Server(1, 1, 3, more=["--idle", "3"]) as server:
        silent = server.connect()
        same(silent.number(), 0)
        same(silent.rest(), b"")
        deaf = server.connect()
        same(deaf.ask(put(0, "a/a.txt", b"x" * 1_000_000)), (b"ok 1", b""))
        deaf.send(b"cat a/a.txt\n" * 20)
        last = server.connect()
        same(last.number(), 1)
        last.end()
        for client in (silent, deaf):
            client.close()
        server.ended()


NO_OTHER = b"no other user"


def as_another(path):
    """What another user is told who connects, or `NO_OTHER` where this process may not become another user."""
    reader, writer = os.pipe()
    child = os.fork()
    if child == 0:
        told = NO_OTHER
        try:
            os.setgroups([])
            os.setresgid(65534, 65534, 65534)
            os.setresuid(65534, 65534, 65534)
            told = b"connected"
            socket.socket(socket.AF_UNIX, socket.SOCK_STREAM).connect(path)
        except OSError as fault:
            told = told if told == NO_OTHER else type(fault).__name__.encode()
        os.write(writer, told)
        os._exit(0)
    os.close(writer)
    with open(reader, "rb") as told:
        text = told.read()
    os.waitpid(child, 0)
    return text


def owner_alone():
    """Only its owner may connect to the socket, whatever the mask, and nothing stands beside it."""
    others = set()
    for umask in (0, 0o022, 0o077, 0o177):
        with Server(1, 1, 1, umask) as served:
            os.chmod(served.folder.name, 0o755)
            client = served.connect()
            same(stat.S_IMODE(os.stat(served.path).st_mode), 0o600)
            same(os.stat(served.path).st_uid, os.getuid())
            others.add(as_another(served.path))
            client.close()
            settles(served)
            same(os.listdir(served.folder.name), ["s.lock"])
    same(others <= {b"PermissionError", NO_OTHER}, True)
    return "no other user tried" if NO_OTHER in others else "another user was refused"


def owner_enters():
    """Only its owner may enter the folder in which the socket is made, whatever the mask. The folder is there for a moment, so it is tried
    often. Something stands at the socket's path, so that each try ends at once."""
    modes = set()
    with tempfile.TemporaryDirectory() as folder:
        path = os.path.join(folder, "s")
        pathlib.Path(path).touch()
        for turn in range(1, 301):
            silent = {"stdout": subprocess.DEVNULL, "stderr": subprocess.DEVNULL}
            ran = subprocess.Popen(PROGRAM + serve_words(path), preexec_fn=limited((), 0), **silent)
            while ran.poll() is None:
                try:
                    modes.add(stat.S_IMODE(os.stat(path + ".new").st_mode))
                except FileNotFoundError:
                    pass
            same(ran.returncode, 1)
            if modes:
                same(modes, {0o700})
                return f"seen in turn {turn}"
    raise AssertionError("never seen")


CHECKS = (
    bad_words,
    helps,
    one_session,
    wanting_memory,
    accepted_later,
    untold_end,
    taken_paths,
    second_server,
    servers_at_once,
    after_a_kill,
    stopped,
    stopped_early,
    stopped_now,
    now_behind_a_stop,
    now_in_the_midst,
    silent_clients,
    told_start_and_end,
    foreign_locks,
    owner_alone,
    owner_enters,
)
