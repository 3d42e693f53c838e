"""Measures a server on a socket: how long 1 worker and 4 workers take to build all packages, and how sessions are answered meanwhile.

The workspace is that of build.py, of about LINES (222,572) lines; or the Go files below FOLDER, of which FILE, by its path below
FOLDER, lies in a package that all others import. FILE is put last, so that little is built before it.
With 1 worker and with 4 the script measures the seconds from the put of FILE to the reply of `wait`, and then ROUNDS (3) times those
behind other texts of FILE. Beside each stand the server's processor time, how long the looks of another session took, and how many
entries the journal gained.
With 4 workers, 8 sessions then put and undo for SECONDS (20), and after that put, rename and undo as long. Meanwhile FILE is put every
second, so that there is always much to build, and another session looks. The script prints the replies a second, how many of them
were `ok` and how many of each refusal, and how long the looks took.
Last, each file gets its text back. Then 8 sessions put once in 100 ms each, and one session renames a variable of a file of its own
without pause. The script prints how many of these renames were admitted.
Where go is installed, `go build -p 4` builds the same files.

    usage: python3 bench/workers.py PROGRAM [LINES [SECONDS [ROUNDS [FOLDER FILE]]]]
"""
import collections
import multiprocessing
import os
import pathlib
import socket
import statistics
import subprocess
import sys
import tempfile
import time
import types

import build
import check

EDITORS = 8
PAUSE = 0.1
TICK = os.sysconf("SC_CLK_TCK")


class Server:
    """A server on a socket of its own, which is killed at the end. It is started with more words, if there are some."""

    def __init__(self, program, workers, *more):
        self.folder = tempfile.TemporaryDirectory()
        self.path = os.path.join(self.folder.name, "s")
        words = ["serve", "--socket", self.path, "--workers", str(workers), "--sessions", str(EDITORS + 4)]
        self.child = subprocess.Popen([program, *words, *more])
        while not os.path.exists(self.path):
            if self.child.poll() is not None:
                sys.exit("the server has ended")
            time.sleep(0.01)

    def __enter__(self):
        return self

    def __exit__(self, *_):
        self.child.kill()
        self.child.wait()
        self.folder.cleanup()

    def processor(self):
        words = pathlib.Path(f"/proc/{self.child.pid}/stat").read_text().rsplit(")", 1)[1].split()
        return (int(words[11]) + int(words[12])) / TICK

    def peak(self):
        """The most memory that it has had, in MiB."""
        status = pathlib.Path(f"/proc/{self.child.pid}/status").read_text()
        return next(int(line.split()[1]) for line in status.splitlines() if line.startswith("VmHWM")) / 1024


class Session(check.Session):
    def __init__(self, path):
        there = socket.socket(socket.AF_UNIX)
        there.connect(path)
        self.child = types.SimpleNamespace(stdin=there.makefile("wb"), stdout=there.makefile("rb"))

    def number(self):
        return self.ask(b"look")[1]

    def put_now(self, path, text):
        """Puts, and tries again where another session came first."""
        number = self.number()
        while True:
            word, told, body, _ = self.ask(b"put %d %s %d" % (number, path.encode(), len(text)), text)
            if word == b"ok":
                return
            if told != 6:
                sys.exit(f"{path}: {told} {body}")
            number = int(body)

    def entries(self):
        """How many entries the journal had before this search for its end."""
        least, most, own = 0, 1_000_000, 0
        while least < most:
            middle = (least + most) // 2
            _, _, body, _ = self.ask(b"log %d" % (middle + own))
            own += 1
            least, most = (middle + 1, most) if body else (least, middle)
        return least


def workspace(lines, folder, lowest):
    """Files by path, those of the lowest package last, and how many lines and packages they have."""
    if folder is None:
        files, _, _ = build.workspace(lines)
    else:
        top = pathlib.Path(folder)
        files = {str(path.relative_to(top)): path.read_bytes() for path in sorted(top.rglob("*.go"))}
    last = os.path.dirname(lowest)
    files = dict(sorted(files.items(), key=lambda item: os.path.dirname(item[0]) == last))
    return files, sum(text.count(b"\n") for text in files.values()), len({os.path.dirname(path) for path in files})


def another(text, number):
    return text + b"\nvar again%d int\n" % number


def looking(path, until, told):
    """Looks until `until` is set, with short pauses, and puts the seconds of each look into `told`."""
    session, waits = Session(path), []
    while not until.is_set():
        waits.append(session.ask(b"look")[3])
        time.sleep(0.002)
    told.put(("look", waits))


def editing(path, number, files, verbs, until, told):
    """Sends those of put, rename and undo that are in `verbs`, for files of its own, until `until` is set. A put with an old basis is
    sent again. A rename or an undo is sent only behind an admitted put."""
    session, counts = Session(path), collections.Counter()
    mine = sorted(files)[number :: EDITORS]
    basis, turn = session.number(), 0
    while not until.is_set():
        turn, has_put = turn + 1, False
        file = mine[turn % len(mine)]
        text = another(files[file], turn * EDITORS + number)
        offset = text.rindex(b"again")
        for verb, line, body in (
            ("put", b"put %%d %s %d" % (file.encode(), len(text)), text),
            ("rename", b"rename %%d %s:#%d other%d" % (file.encode(), offset, turn), b""),
            ("undo", b"undo %d", b""),
        ):
            if verb not in verbs or until.is_set() or verb != "put" and not has_put:
                continue
            while True:
                word, told_number, rest, seconds = session.ask(line % basis, body)
                counts[f"{verb} {'ok' if word == b'ok' else 'no %d' % told_number}"] += 1
                counts[f"seconds of {verb}"] += seconds
                if word == b"ok":
                    basis, has_put = told_number, True
                elif told_number == 6:
                    basis = int(rest)
                if (word, told_number) != (b"no", 6) or verb != "put" or until.is_set():
                    break
    told.put(("edit", counts))


def pacing(path, number, files, until, told):
    """Puts files of its own, one in PAUSE seconds, until `until` is set. A put with an old basis is sent again."""
    session, counts = Session(path), collections.Counter()
    mine = sorted(files)[number :: EDITORS]
    while not until.is_set():
        begin, file = time.perf_counter(), mine[counts["put ok"] % len(mine)]
        session.put_now(file, another(files[file], (counts["put ok"] + 1) * EDITORS + number))
        counts["put ok"] += 1
        counts["seconds of put"] += time.perf_counter() - begin
        time.sleep(max(0, PAUSE - (time.perf_counter() - begin)))
    told.put(("edit", counts))


def renaming(path, file, text, until, told):
    """Renames a variable of the file to other names, until `until` is set. Each rename has the number that a look told right before it."""
    session, counts, turn = Session(path), collections.Counter(), 0
    text = another(text, 0)
    session.put_now(file, text)
    offset = text.rindex(b"again")
    while not until.is_set():
        turn += 1
        word, told_number, _, seconds = session.ask(b"rename %d %s:#%d other%d" % (session.number(), file.encode(), offset, turn))
        counts[f"rename {'ok' if word == b'ok' else 'no %d' % told_number}"] += 1
        counts["seconds of rename"] += seconds
    told.put(("edit", counts))


class Beside:
    """Processes that run until `end` stops them and collects what they measured."""

    def __init__(self, *works):
        self.until, self.told = multiprocessing.Event(), multiprocessing.Queue()
        self.all = [multiprocessing.Process(target=work, args=(*args, self.until, self.told)) for work, *args in works]
        for process in self.all:
            process.start()

    def end(self):
        self.until.set()
        seen = [self.told.get(timeout=120) for _ in self.all]
        for process in self.all:
            process.join()
        return seen


def waits_told(waits):
    waits = sorted(waits)
    middle, most, last = (1000 * wait for wait in (statistics.median(waits), waits[int(len(waits) * 0.98)], waits[-1]))
    return f"{len(waits)} looks, median {middle:.2f} ms, 98 of 100 within {most:.2f} ms, longest {last:.1f} ms"


def built(server, session, name, act):
    """Prints and returns how many seconds the build of all packages takes behind a put."""
    beside = Beside((looking, server.path))
    entries, processor = session.entries(), server.processor()
    act()
    begin = time.perf_counter()
    word, number, body, _ = session.ask(b"wait")
    seconds, processor = time.perf_counter() - begin, server.processor() - processor
    waits = beside.end()[0][1]
    if word != b"ok":
        sys.exit(f"wait: {word} {number} {body}")
    entries = session.entries() - entries - len(waits)
    print(f"    {name:16} {seconds:8.3f} s, processor {processor:8.2f} s, about {entries} entries; {waits_told(waits)}", flush=True)
    return seconds


def build_all(program, workers, files, lowest, rounds, seconds):
    with Server(program, workers) as server:
        session = Session(server.path)
        print(f"  {workers} worker{'s' if workers > 1 else ''}:", flush=True)
        _, loading = session.put_all({path: text for path, text in files.items() if path != lowest})
        session.ask(b"wait")
        print(f"    all but one put  {loading:8.3f} s", flush=True)
        built(server, session, "first build", lambda: session.put_now(lowest, files[lowest]))
        found = [built(server, session, "build of all", lambda: session.put_now(lowest, another(files[lowest], n))) for n in range(rounds)]
        word, _, faults, _ = session.ask(b"faults")
        if word != b"ok" or faults:
            sys.exit(f"faults: {word} {faults[:200]}")
        for verbs in (("put", "undo"), ("put", "rename", "undo")) if seconds > 0 else ():
            edit_all(server, session, files, lowest, seconds, verbs)
        if seconds > 0:
            rename_all(server, session, files, lowest, seconds)
        print(f"    most memory      {server.peak():8.0f} MiB", flush=True)
        return statistics.median(found)


def print_counts(counts, verbs):
    """Prints the mean time of each command, and how many were admitted or refused."""
    for verb in verbs:
        found = {what[len(verb) + 1 :]: count for what, count in sorted(counts.items()) if what.startswith(verb + " ")}
        mean = counts[f"seconds of {verb}"] / max(1, sum(found.values()))
        print(f"      {verb:7} mean {mean * 1000:8.1f} ms; " + ", ".join(f"{what}: {count}" for what, count in found.items()))


def rename_all(server, session, files, lowest, seconds):
    """One session that renames beside sessions that put once in PAUSE seconds. First each file gets its own text back, with
    blank lines, and the faults are asked for."""
    for path, text in files.items():
        session.put_now(path, text + b"\n\n")
    session.ask(b"faults")
    others = {path: text for path, text in files.items() if path != lowest}
    one = min(others)
    text = others.pop(one)
    works = [(pacing, server.path, editor, others) for editor in range(EDITORS)]
    beside = Beside((renaming, server.path, one, text), *works)
    time.sleep(seconds)
    counts = sum((counts for _, counts in beside.end()), collections.Counter())
    print(f"    {EDITORS} sessions that put once in {PAUSE} s, and one that renames, for {seconds:.1f} s:")
    print_counts(counts, ("put", "rename"))


def edit_all(server, session, files, lowest, seconds, verbs):
    """Sessions that edit while the workers build."""
    others = {path: text for path, text in files.items() if path != lowest}
    entries, processor, begin, number = session.entries(), server.processor(), time.perf_counter(), 1000
    works = [(editing, server.path, editor, others, verbs) for editor in range(EDITORS)]
    beside = Beside((looking, server.path), *works)
    while time.perf_counter() - begin < seconds:
        number += 1
        session.put_now(lowest, another(files[lowest], number))
        time.sleep(1)
    seen = beside.end()
    ended, processor = time.perf_counter() - begin, server.processor() - processor
    counts = sum((counts for what, counts in seen if what == "edit"), collections.Counter())
    waits = next(waits for what, waits in seen if what == "look")
    replies = sum(count for what, count in counts.items() if not what.startswith("seconds"))
    print(f"    {EDITORS} sessions with {', '.join(verbs)} for {ended:.1f} s: {replies / ended:.1f} replies a second, processor {processor:.1f} s;")
    print(f"      {waits_told(waits)}")
    print_counts(counts, verbs)
    print(f"      {session.entries() - entries} entries of the journal, {len(waits)} of them of these looks")


def main(program, lines=222_572, seconds=20, rounds=3, folder=None, lowest=build.BASE):
    files, count, packages = workspace(int(lines), folder, lowest)
    load = " ".join(f"{part:.2f}" for part in os.getloadavg())
    print(f"{count} lines, {len(files)} files, {packages} packages; {os.cpu_count()} processors, load {load}:", flush=True)
    one, four = (build_all(program, workers, files, lowest, int(rounds), float(seconds) * (workers == 4)) for workers in (1, 4))
    print(f"  1 worker takes {one / four:.2f} times what 4 workers take; load {os.getloadavg()[0]:.2f}")
    beside = check.go(files, "build", "-p", "4", "./...")
    print("  go build -p 4: skipped, since go is not there" if beside is None else f"  go build -p 4: {beside:.3f} s")


if __name__ == "__main__":
    if len(sys.argv) not in (2, 3, 4, 5, 7):
        sys.exit(__doc__)
    main(*sys.argv[1:])
