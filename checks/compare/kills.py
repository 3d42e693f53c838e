"""Kills a built `gorefd serve --journal DIR` at random moments of a soak, and compares what is recovered with the model.

    python3 -m checks.compare.kills PROGRAM [KILLS [SEED]]

KILLS times (300) a server begins where the last one was killed, eight sessions make random commands while four workers build, and the server is
killed behind 0.05 to 1 s. Then each record of the file has to be a change that was answered with `ok`, or one that was asked for and not
answered, of which there is at most one a session; no other may be missing. The model makes these changes in the order of the file. The next
server has to have its files, its number, and its steps of undo and redo, some of which are made. Each reply is compared too.

Each tenth kill begins a new folder. Now and then the file of a copy is cut off at a random byte, has the beginning of one record more, or has a
bit flipped; and now and then a server may write only so many bytes to the file, or the disk is small. It prints each difference, and ends with
status 1 where there is one.
"""

import collections
import contextlib
import os
import random
import re
import resource
import shutil
import struct
import subprocess
import sys
import tempfile
import threading
import time

from checks.compare import families, weeks
from checks.compare.soak import CHANGES, CLOCK
from checks.compare.weeks import DONE, LIMIT, SESSIONS, WORKERS
from checks.server import server as serving
from checks.server.journal import BEFORE, HEADING, killed, record, records

KILLS_A_FOLDER = 10
SMALL_DISK = 256 * 1024
FULL = b"no 26"
CHAPTERS = (900_000, 2_000)
TOLD_OF_ENTRY = re.compile(rb"|closed \d+\n|%s" % weeks.LINE.pattern)


class Bytes:
    """What stands in a record, read from its beginning."""

    def __init__(self, held):
        self.held, self.at = held, 0

    def byte(self):
        self.at += 1
        return self.held[self.at - 1]

    def number(self):
        self.at += 8
        return struct.unpack_from("<Q", self.held, self.at - 8)[0]

    def text(self):
        length = self.number()
        self.at += length
        return self.held[self.at - length : self.at]

    def many(self, read):
        return [read() for _ in range(self.number())]

    def edit(self):
        return self.number(), self.number(), self.text()

    def file(self):
        """The change of a file: its path, its new one or None, and its edits."""
        path = self.text()
        fate = self.byte()
        return path, {0: lambda: path, 1: self.text, 2: lambda: None}[fate](), self.many(self.edit)


def texts_behind(texts, held):
    """The files behind the change of a record, where these are the files before it."""
    read = Bytes(held)
    read.byte(), read.number()
    changed, added = read.many(read.file), read.many(lambda: (read.text(), read.text()))
    serving.same(read.at, len(held))
    behind = {path: text for path, text in texts.items() if path not in {one[0] for one in changed}}
    for path, new, edits in changed:
        text = texts[path]
        for start, end, put in reversed(edits):
            text = text[:start] + put + text[end:]
        if new is not None:
            behind[new] = text
    return behind | dict(added)


class Session(weeks.Session):
    """A client whose server is killed."""

    def goes_on(self, is_over):
        try:
            self.client = self.server.connect()
            while True:
                self.act()
                time.sleep(self.generator.choice([0, 0, 0.002, 0.004]))
        except Exception as fault:
            if not is_over.is_set():
                self.fault = f"session {self.name}: {fault!r} at {self.asked[-1].line[:200] if self.asked else None!r}"

    def ask(self, line, body=b""):
        asked = super().ask(line, body)
        if asked.head == FULL:
            time.sleep(0.002)
        return asked


class Replay(weeks.Replay):
    """The history by the model. It knows the history behind each record of the file."""

    def __init__(self):
        super().__init__()
        self.behind = [self.at()]

    def at(self):
        return self.history.states, self.history.cursor, self.history.numbers

    def of_record(self, asked, held):
        """Makes the change of a command, which is that of a record."""
        before = self.history.current.texts()
        if asked.verb in CHANGES:
            self.makes(asked)
            if texts_behind(before, held) != self.history.current.texts():
                self.differ_at(f"session {asked.session}: {asked.line!r} has the record {held[:400]!r}")
        else:
            self.steps(asked)
        self.all_may_be_finished()
        self.behind.append(self.at())

    def admits(self, asked, held):
        """Whether a command that was not answered may have made the change of a record, by the model."""
        if asked.verb not in CHANGES:
            return True
        state = self.history.current
        told, after = state.change(asked.line, asked.body)
        return told.ok and families.State(0, after, set(), set()).texts() == texts_behind(state.texts(), held)


def history_at(at):
    history = families.History()
    history.states, history.cursor, history.numbers = at
    return history


class Replies(weeks.Replies):
    """Replies of a server whose disk may be full: then a change is refused, and nothing changes."""

    def __init__(self, replay, asked, chapter, is_full):
        super().__init__(replay, asked, range(LIMIT * LIMIT), chapter, least_workers=0)
        self.is_full = is_full

    def compare(self, asked):
        if asked.verb != b"log":
            return super().compare(asked)
        if not asked.is_ok() or not TOLD_OF_ENTRY.fullmatch(asked.told):
            self.differences.append(f"session {asked.session}: {asked.line!r} was answered {asked.reply()!r}")

    def is_right(self, asked, point):
        if asked.head == FULL and asked.verb in DONE:
            return self.is_full and asked.told == b"" and self.replay.points[point][0] == asked.basis()
        return super().is_right(asked, point)


class Soak:
    """Servers with one journal, one after the other, each of which is killed."""

    def __init__(self, generator, folder, seed):
        self.generator, self.folder, self.seed = generator, folder, seed
        self.chapter = generator.choice(CHAPTERS)
        self.file = os.path.join(folder, "changes")
        self.replay, self.read, self.at = Replay(), 0, 0
        self.sessions = [Session(None, name, seed) for name in range(SESSIONS)]
        self.differences, self.told, self.last = [], collections.Counter(), []

    def differ(self, text):
        self.differences.append(text)

    def server(self, folder=None, limits=()):
        more = ("--journal", folder or self.folder, "--chapter", str(self.chapter))
        return serving.Server(WORKERS, SESSIONS + 1, limits=limits, more=more)

    def life(self, is_limited):
        """A server, from its start to its kill."""
        limits = ((resource.RLIMIT_FSIZE, self.at + self.generator.randrange(500, 30_000)),) if is_limited else ()
        with self.server(limits=limits) as server:
            reader = Session(server, 9, self.seed)
            reader.client = server.connect()
            self.compare_entries(reader)
            self.compare(reader, self.replay.history)
            self.walk(reader)
            is_over = threading.Event()
            for session in self.sessions:
                session.server = server
            threads = [threading.Thread(target=session.goes_on, args=(is_over,), daemon=True) for session in self.sessions]
            for thread in threads:
                thread.start()
            time.sleep(0.05 + self.generator.random() * 0.95)
            is_over.set()
            killed(server)
            for thread in threads:
                thread.join(60)
            told = server.process.stderr.read()
        recovered = b"gorefd: recovered %d changes\n" % max(self.read - 1, 0)
        if recovered not in told:
            self.differ(f"told {told!r}, and {recovered!r} were there")
        self.differences += [session.fault for session in self.sessions if session.fault]
        return reader

    def compare_entries(self, client):
        """Compares the last entries of the changes that were recovered with their records, unless their chapter is closed."""
        last = self.last[-50:]
        first = max(self.read - 1, 0) - len(last)
        found = [client.ask(b"log %d" % (first + n)).told for n in range(len(last))]
        if not all(told == entry or told.startswith(b"closed ") and self.read >= self.chapter // 2 for told, entry in zip(found, last)):
            self.differ(f"the last entries are {found}, by the model {last}")

    def look(self, client, history):
        """Compares the number of the state, the steps of undo and redo, and one file."""
        path, text = self.generator.choice([*history.current.texts().items(), (b"s9/none", None)])
        looked, told = client.ask(b"look"), client.ask(b"cat " + path)
        found = looked.head, looked.told, told.told if told.is_ok() else None
        wanted = b"ok %d" % history.current.number, history.looked(), text
        if found != wanted:
            self.differ(f"behind a step {path} is {found}, by the model {wanted}")

    def compare(self, client, history):
        """Compares all that a client sees of the workspace with the model."""
        state = history.current
        looked = client.ask(b"look")
        listed = client.ask(b"list")
        texts = {}
        for line in listed.told.splitlines():
            path = line.rsplit(b" ", 1)[0]
            texts[path] = client.ask(b"cat " + path).told
        found = looked.head, looked.told, texts
        wanted = b"ok %d" % state.number, history.looked(), state.texts()
        if found != wanted:
            self.differ(f"recovered {found}, by the model {wanted}")

    def walk(self, client):
        """Undoes some changes, mostly few and now and then all, and makes most of them again."""
        number = self.replay.history.current.number
        states, cursor, numbers = self.replay.at()
        back = cursor if self.generator.random() < 0.1 else min(cursor, self.generator.randrange(4))
        for verb, by, count in ((b"undo", -1, back), (b"redo", 1, back * 3 // 4)):
            for _ in range(count):
                cursor += by
                asked = client.ask(b"%s %d" % (verb, number))
                number = asked.number()
                if asked.head == FULL:
                    return
                self.look(client, history_at((states, cursor, numbers)))
            self.compare(client, history_at((states, cursor, numbers)))

    def settle(self, reader, is_full):
        """Compares the records that were added with the changes that were asked for, and each reply with the model."""
        with open(self.file, "rb") as file:
            text = file.read()
        held, torn = records(text)
        asked = sorted((one for session in (*self.sessions, reader) for one in session.asked), key=lambda one: one.sent)
        for session in self.sessions:
            session.asked, session.client = [], None
        open_ones = [one for one in asked if one.came is None]
        answered = [one for one in asked if one.came is not None]
        done = collections.defaultdict(list)
        for one in answered:
            if one.verb in DONE and one.is_ok():
                done[key_of(one)].append(one)
        replay = self.replay
        replay.begin(0, [], answered)
        if self.read == 0:
            serving.same(held[0], HEADING)
            self.read = 1
        for one in held[self.read :]:
            found = self.made_by(one, done, open_ones)
            if found is None:
                raise AssertionError(f"a record of no change that was asked for: {one[:400]!r}")
            replay.of_record(found, one)
            self.last.append(b"%s %d ok %d\n" % key_of(found))
        lost = [one.line[:100] for ones in done.values() for one in ones]
        if lost:
            self.differ(f"{len(lost)} changes were answered and are not there: {lost[:5]}")
        replies = Replies(replay, answered, self.chapter, is_full)
        for one in answered:
            replies.compare(one)
        self.differences += replay.differences + replies.differences
        replay.differences = []
        self.told["commands"] += len(answered)
        self.told["changes"] += len(held) - self.read
        self.told["not answered and there"] += sum(one.came is not None for one in open_ones)
        self.told["not answered"] += sum(one.verb in DONE for one in open_ones)
        self.told["refused for the disk"] += sum(one.head == FULL for one in answered)
        self.told["cut off by a kill"] += bool(torn)
        self.read, self.at = len(held), len(text) - torn

    def made_by(self, held, done, open_ones):
        """The command that made the change of a record, which is the next one; or None."""
        verb, basis = weeks.kept_change(held)
        history = self.replay.history
        if verb == b"commit":
            number = history.numbers
        else:
            by = 1 if verb == b"redo" else -1
            if not history.steps(by):
                return None
            number = history.states[history.cursor + by].number
        found = done[verb, basis, number]
        if found:
            return found.pop(0)
        for one in open_ones:
            if one.came is None and one.verb in DONE and key_of(one, number) == (verb, basis, number) and self.replay.admits(one, held):
                one.head, one.told, one.came = b"ok %d" % number, b"", next(CLOCK)
                return one
        return None

    def copy(self, text):
        """A folder of a journal whose file has this text."""
        folder = os.path.join(tempfile.mkdtemp(dir=os.path.dirname(self.folder)), "journal")
        os.mkdir(folder, 0o700)
        with open(os.path.join(folder, "changes"), "wb") as file:
            file.write(text)
        os.chmod(file.name, 0o600)
        return folder

    def text(self):
        with open(self.file, "rb") as file:
            return file.read()

    def cut(self):
        """From a file that was cut off in its last records a server has the changes of the whole ones."""
        text = self.text()[: self.at]
        held, _ = records(text)
        last = sum(len(record(one)) for one in held[-3:])
        self.begins_with(text[: len(text) - self.generator.randrange(min(last, len(text)) + 1)])

    def torn(self):
        """A server takes a record away that was cut off."""
        text = self.text()[: self.at]
        held, _ = records(text)
        one = record(self.generator.choice(held))
        self.begins_with(text + one[: self.generator.randrange(len(one))])

    def begins_with(self, text):
        """A server that begins with such a file has the changes of its whole records, and goes on behind them."""
        folder = self.copy(text)
        left = max(len(records(text)[0]) - 1, 0)
        history = history_at(self.replay.behind[left])
        with self.server(folder) as server:
            client = Session(server, 8, 0)
            client.client = server.connect()
            self.compare(client, history)
            put = b"%d" % self.generator.randrange(10**9)
            asked = client.ask(b"put %d s9/n/9.txt %d" % (history.current.number, len(put)), put)
            serving.same(asked.head, b"ok %d" % history.numbers)
            killed(server)
        with open(os.path.join(folder, "changes"), "rb") as file:
            after, torn = records(file.read())
        serving.same((len(after), torn), (left + 2, 0))
        shutil.rmtree(os.path.dirname(folder))

    def flipped(self):
        """A server does not begin with a file in which a bit flipped. It tells it, and leaves the file alone."""
        text = bytearray(self.text()[: self.at])
        at = self.generator.randrange(len(text)) if self.generator.random() < 0.5 else self.begin_of_record(text)
        bit = self.generator.randrange(8)
        text[at] ^= 1 << bit
        folder = self.copy(bytes(text))
        with self.server(folder) as server:
            try:
                ended = server.process.wait(30), server.ended()[2]
            except subprocess.TimeoutExpired:
                ended = "a server that serves"
        with open(os.path.join(folder, "changes"), "rb") as file:
            is_same = file.read() == text
        if ended != (1, b"gorefd: journal fault\n") or not is_same:
            self.differ(f"bit {bit} of byte {at} of {len(text)} was flipped: {ended}, and the file is {'the same' if is_same else 'another one'}")
        shutil.rmtree(os.path.dirname(folder))

    def begin_of_record(self, text):
        """One of the first bytes of some record."""
        held, _ = records(bytes(text))
        starts = [0]
        for one in held[:-1]:
            starts.append(starts[-1] + len(record(one)))
        return self.generator.choice(starts) + self.generator.randrange(BEFORE)


def key_of(asked, number=None):
    verb = b"commit" if asked.verb in CHANGES else asked.verb
    return verb, asked.basis(), asked.number() if number is None else number


@contextlib.contextmanager
def folder_of_a_journal(is_small):
    """A place for a journal, on a small disk if so. It answers whether the disk is small."""
    with tempfile.TemporaryDirectory() as above:
        folder = os.path.join(above, "journal")
        if is_small:
            os.mkdir(folder, 0o700)
            mount = ["mount", "-t", "tmpfs", "-o", f"size={SMALL_DISK},mode=0700", "none", folder]
            is_small = subprocess.run(mount, capture_output=True).returncode == 0
        try:
            yield folder, is_small
        finally:
            if is_small:
                subprocess.run(["umount", folder], check=True)


def some_kills(generator, kills, name, wants_small):
    """Kills servers with one folder. It answers what was seen, and the differences."""
    with folder_of_a_journal(wants_small) as (folder, is_small):
        soak = Soak(generator, folder, name)
        for _ in range(kills):
            is_limited = generator.random() < 0.1
            soak.told.update({"kills": 1, "limited": is_limited, "small disk": is_small})
            try:
                soak.settle(soak.life(is_limited), is_limited or is_small)
                if generator.random() < 0.5:
                    way = generator.choice(("cut", "torn", "flipped"))
                    soak.told[way] += 1
                    getattr(soak, way)()
            except Exception as fault:
                soak.differ(repr(fault))
            if soak.differences:
                break
        return soak.told, soak.differences


def drive(kills, seed):
    generator, told, found = random.Random(seed), collections.Counter(), []
    begin = time.perf_counter()
    for first in range(0, kills, KILLS_A_FOLDER):
        name = f"{seed}/{first}"
        seen, differences = some_kills(generator, min(KILLS_A_FOLDER, kills - first), name, first // KILLS_A_FOLDER % 4 == 3)
        told.update(seen)
        found += differences
        for difference in differences[:20]:
            print(f"{name}, kill {seen['kills']}: {difference[:1000]}", flush=True)
        print(f"{time.perf_counter() - begin:.0f} s: " + ", ".join(f"{what}: {count}" for what, count in told.items()), flush=True)
    return found


def main():
    words = sys.argv[1:]
    if not words:
        sys.exit(__doc__)
    serving.PROGRAM.append(os.path.abspath(words[0]))
    kills, seed = [int(word) for word in words[1:]] + [300, 0][len(words) - 1 :]
    found = drive(kills, seed)
    print(f"{len(found)} differences")
    sys.exit(1 if found else 0)


if __name__ == "__main__":
    main()
