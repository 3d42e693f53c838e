"""Drives a built `gorefd serve` for long, over chapters of its journal, and repeats each chapter by the model.

    python3 -m checks.compare.weeks PROGRAM [COMMANDS [CHAPTER [SEED [journal]]]]

Eight sessions make COMMANDS random commands (1,000,000) in all, while four workers build. The server closes its journal at CHAPTER entries
(300,000). Where half a chapter is there, the sessions rest, and one more client reads all its entries by `log`. Each of these adds an entry
itself, so the chapter is nearly full behind them. Mostly it is filled up but for ROOM entries, and is closed while all sessions and workers are
at work. These last entries are told by the replies alone. Each second chapter is closed while the sessions rest, so that all of
it is read.

The model makes the changes that were answered with `ok`, in the order of the journal, and checks each entry and each reply. With the word
`journal` the server keeps its changes on the disk, and these have to be the same ones in the same order. The memory of the server is read all
the time. It prints each difference, and ends with status 1 where there is one, or where memory grows from chapter to chapter.
"""

import collections
import os
import random
import re
import struct
import sys
import tempfile
import threading
import time

from checks.compare import families, soak
from checks.compare.families import as_first, as_named
from checks.compare.soak import CHANGES
from checks.server import server as serving
from checks.server.journal import HEADING, records

SESSIONS, WORKERS = 8, 4
LIMIT = 1_000_000
ROOM = 300
AT_ONCE = 400
DONE = CHANGES + (b"undo", b"redo")
STATUS = (b"sessions", b"workers", b"chapter", b"due", b"left", b"bytes", b"kept")
LINE = re.compile(rb"(look|log|commit|undo|redo|take|deliver|give) \d+ (ok|no) \d+\n")


class Session(soak.Session):
    """A client that works mostly on a family of its own."""

    def __init__(self, server, name, seed):
        super().__init__(server, name, seed, 0)
        self.own, self.seen, self.latest, self.most = b"s%d" % name, {}, 0, 0

    def files(self, name):
        """The paths of a family, as if it were s0."""
        prefix = name + b"/"
        paths = [line.rsplit(b" ", 1)[0] for line in self.ask(b"list").told.splitlines()]
        return [as_first(name, path).decode() for path in paths if path.startswith(prefix)]

    def file(self):
        """A family, and a path and a text of it, as if it were s0; or None."""
        name = self.own if self.generator.random() < 0.85 else b"s%d" % self.generator.randrange(SESSIONS)
        paths = self.files(name)
        if not paths:
            return None
        path = self.generator.choice(paths)
        asked = self.ask(b"cat " + as_named(name, path.encode()))
        if not asked.is_ok():
            return None
        text = as_first(name, asked.told)
        if name == self.own:
            self.seen[path] = text
        return name, path, text

    def put_some(self):
        generator = self.generator
        found = self.file() if generator.random() < 0.6 else None
        if found:
            name, path, text = found
            text = families.changed_text(generator, path, text)
        else:
            name, (path, text) = self.own, families.any_put(generator, self.seen)
        if name == self.own:
            self.seen[path] = text
        self.put(as_named(name, path.encode()).decode(), as_named(name, text))

    def note(self):
        """Puts a text that is no Go, and stood nowhere before."""
        self.put("s9/n/%d.txt" % self.generator.randrange(5), b"%s %d\n" % (self.own, len(self.asked)) + b"x" * self.generator.randrange(300))

    def rename(self):
        found = self.file()
        if found:
            name, path, text = found
            offset = self.generator.choice(families.places(text))
            new = families.any_name(self.generator, text, offset)
            place = "%s:#%d" % (as_named(name, path.encode()).decode(), offset)
            self.edit(lambda number: f"rename {number} {place} {new}")

    def move(self):
        source, target = (as_named(self.own, folder.encode()).decode() for folder in families.any_move(self.generator))
        self.edit(lambda number: f"move {number} {source} {target}")

    def delete(self):
        found = self.file()
        if found:
            path = as_named(found[0], found[1].encode()).decode()
            self.change(lambda number: (f"del {number} {path}".encode(), b""))

    def faults(self):
        """Takes back what has faults, or deletes the file of the first one, mostly."""
        asked = self.ask(b"faults")
        way = self.generator.random()
        if asked.told and way < 0.4:
            self.ask(b"undo %d" % asked.number())
        elif asked.told and way < 0.9:
            self.ask(b"del %d %s" % (asked.number(), asked.told.partition(b":#")[0]))

    def uses(self):
        found = self.file()
        if found:
            name, path, text = found
            self.ask(b"uses %s:#%d" % (as_named(name, path.encode()), self.generator.choice(families.places(text))))

    def objects(self):
        if self.generator.random() < 0.4:
            self.ask(b"wait")
        self.ask(b"object " + as_named(self.own, self.generator.choice(families.FOLDERS).encode()))

    def simple(self):
        entry = self.latest + self.generator.randrange(-100, 5000)
        self.ask(
            self.generator.choice(
                [b"look", b"work", b"work", b"list", b"log %d" % max(entry, 0), b"frob", b"cat a", b"status", b"cat %s/a/a.go" % self.own]
            )
        )

    def act(self):
        ways = [self.put_some, self.note, self.rename, self.move, self.delete, self.undo_or_redo, self.faults, self.uses, self.objects, self.simple]
        self.generator.choices(ways, [16, 8, 12, 3, 1, 12, 8, 8, 8, 18])[0]()

    def goes_on(self, rests):
        """Acts until it has to rest, or has made its commands, and then begins another connection, now and then."""
        try:
            self.client = self.client or self.server.connect()
            while not rests.is_set() and len(self.asked) < self.most:
                self.act()
            if self.generator.random() < 0.3:
                self.client.end()
                self.client = None
        except Exception as fault:
            self.fault = f"session {self.name}: {fault!r} at {self.asked[-1].line[:200] if self.asked else None!r}"
            rests.set()


class Reader(soak.Session):
    """The client that reads the journal. It counts the entries that it adds."""

    def __init__(self, server):
        super().__init__(server, "reader", 0, 0)
        self.client = server.connect()

    def status(self):
        """What `status` tells, by its words, and the number of the state."""
        head, told = self.client.ask(b"status\n")
        lines = [line.split(b" ") for line in told.splitlines()]
        serving.same([word for word, _ in lines], list(STATUS))
        found = {word.decode(): int(number) for word, number in lines}
        return found | {"number": int(head.split()[1]), "all": found["chapter"] + LIMIT - found["left"]}

    def many(self, lines):
        """The bodies of replies to lines that are sent together."""
        found = []
        for first in range(0, len(lines), AT_ONCE):
            some = lines[first : first + AT_ONCE]
            self.client.send(b"".join(some))
            found += [self.client.reply()[1] for _ in some]
        return found

    def entries(self, first, behind):
        return self.many([b"log %d\n" % number for number in range(first, behind)])


def in_order(history, changes, behind):
    """Changes of which it is known when they were asked for and answered, in an order in which they can have been made, so that those behind
    them can follow: `behind` has the verb, the basis and the number of each. It is None where there is no order."""

    def step(states, cursor, verb, basis, number):
        """The states and the cursor behind a change, or None where it can't be made so."""
        if states[cursor] != basis:
            return None
        if verb == b"undo" or verb == b"redo":
            cursor += 1 if verb == b"redo" else -1
            return (states, cursor) if 0 <= cursor < len(states) and states[cursor] == number else None
        states = (states[: cursor + 1] + (number,))[-101:]
        return states, len(states) - 1

    def can_follow(at):
        for one in behind:
            at = at and step(*at, *one)
        return at is not None

    def choices(at, left):
        """The changes that may come next."""
        first = min(one.came for one in left)
        told = set()
        for index, one in enumerate(left):
            if one.sent > first:
                break
            verb = one.verb if one.verb in (b"undo", b"redo") else b"commit"
            after = step(*at, verb, one.basis(), one.number())
            if after is not None and (verb, one.number()) not in told:
                told.add((verb, one.number()))
                yield one, after, left[:index] + left[index + 1 :]

    start = tuple(state.number for state in history.states), history.cursor
    found, left = [], sorted(changes, key=lambda one: one.sent)
    open_choices = [choices(start, left)] if left else []
    while open_choices:
        chosen = next(open_choices[-1], None)
        if chosen is None:
            open_choices.pop()
            if found:
                found.pop()
            continue
        one, after, left = chosen
        found.append(one)
        if left:
            open_choices.append(choices(after, left))
        elif can_follow(after):
            return found
        else:
            found.pop()
    return None if changes or not can_follow(start) else []


class Replay(soak.Replay):
    """The history by the model, part by part, and the states that were current in a part, one after another."""

    def __init__(self):
        self.history, self.differences = families.History(), []
        self.made_of, self.kept = [], 0

    def differ_at(self, text):
        self.differences.append(text)

    def answer(self, asked):
        head, told, put = self.history.change(asked.line, asked.body)
        self.kept += put
        return head + b" %d\n" % len(told) + told

    def order(self):
        return self.history.current.order

    def commit(self, number, basis, ok, told):
        asked = self.committed(number, basis, ok, told)
        if asked is not None and self.makes(asked):
            self.made_of.append((b"commit", basis))

    def makes(self, asked):
        """Makes the change of a command that was answered with `ok`. It answers whether the model tells the same."""
        number = asked.number()
        model = self.answer(asked)
        if model != asked.reply():
            self.differ_at(f"session {asked.session} was told {asked.reply()!r} on {asked.line!r}, by the model {model!r}")
            return False
        self.begin_visit()
        self.point_of[number] = len(self.points)
        self.add_point(("commit", asked.basis(), number))
        return True

    def steps(self, asked):
        """Makes the undo or redo of a command that was answered with `ok`."""
        by = 1 if asked.verb == b"redo" else -1
        model = self.history.states[self.history.cursor + by].number if self.history.steps(by) else None
        if (model, asked.basis()) != (asked.number(), self.history.current.number):
            self.differ_at(f"session {asked.session} was told {asked.reply()!r} on {asked.line!r}, by the model {model}")
            return
        self.history.cursor += by
        self.begin_visit()
        self.add_point((asked.verb.decode(), asked.basis(), asked.number()))

    def repeat(self, changes):
        """Makes changes whose entries were not read. Which packages were built meanwhile is not known."""
        for asked in changes:
            if asked.verb in CHANGES:
                made = self.makes(asked)
                self.made_of += [(b"commit", asked.basis())] if made else []
            else:
                self.steps(asked)
                self.made_of.append((asked.verb, asked.basis()))
            self.all_may_be_finished()
        if changes:
            self.all_may_be_finished()
        self.is_exact = not changes

    def all_may_be_finished(self):
        state = self.history.current
        state.finished |= set(state.order)

    def all_are_finished(self):
        """No package waits any more, as `wait` told while all sessions rest."""
        self.all_may_be_finished()
        self.history.current.sure |= set(self.history.current.order)

    def step(self, kind, by, none, number, basis, ok, told):
        history = self.history
        there = history.steps(by)
        wanted = (True, history.states[history.cursor + by].number) if there else (False, none)
        if self.moves_on(number, basis, ok, told, wanted):
            history.cursor += by
            self.made_of.append((kind.encode(), basis))
            self.begin_visit()
            self.add_point((kind, basis, told))

    def brought(self, number, basis):
        self.out[basis] -= 1
        if self.out[basis] < 0 and self.is_whole:
            self.differ(number, f"no package is out that was taken in state {basis}")


class Replies(soak.Replies):
    """Compares each reply with the model's to a state that was current between the command and its reply."""

    def __init__(self, replay, asked, chapters, mark, least_workers=WORKERS):
        super().__init__(replay, asked)
        self.chapters, self.mark, self.least_workers = chapters, mark, least_workers

    def state(self, number):
        return self.replay.states[number]

    def order(self, number):
        return self.state(number).order

    def by_model(self, number, line, body):
        state = self.state(number)
        if line.split(b" ")[0] in CHANGES:
            told, _ = state.change(line, body)
            head, body = (b"ok %d" if told.ok else b"no %d") % told.code, told.body
        else:
            head, body = state.question(line)
        return head + b" %d\n" % len(body) + body

    def object(self, number, asked):
        package = asked.line.split(b" ")[1]
        model = self.by_model(number, asked.line, b"")
        if asked.reply() == b"no 20 %d\n%s\n" % (len(package) + 1, package):
            return (model.startswith(b"ok ") or model.startswith(b"no 9 ")) and number not in self.built[asked.session]
        there = package.decode() in self.replay.maybe[number]
        return asked.reply() == model and (there or model.startswith(b"no 16 ") or model.startswith(b"no 3 "))

    def is_right(self, asked, point):
        if asked.verb != b"status":
            return super().is_right(asked, point)
        number = self.replay.points[point][0]
        told = dict(line.split(b" ") for line in asked.told.splitlines())
        due, left = int(told[b"due"]), int(told[b"left"])
        return (
            asked.is_ok()
            and asked.number() == number
            and tuple(told) == STATUS
            and 1 <= int(told[b"sessions"]) <= SESSIONS + 1
            and self.least_workers <= int(told[b"workers"]) <= WORKERS
            and int(told[b"chapter"]) in self.chapters
            and due == max(left - LIMIT + self.mark, 0)
            and int(told[b"bytes"]) == self.state(number).size
        )

    def compare(self, asked):
        if asked.verb != b"log":
            return super().compare(asked)
        entry = int(asked.line.split(b" ")[1])
        here = entry - self.replay.first
        if asked.told == b"" and asked.is_ok():
            return
        closed = [b"closed %d\n" % first for first in self.chapters if first > entry]
        if 0 <= here < len(self.replay.entries):
            right = asked.told == self.replay.entries[here].encode() + b"\n"
        else:
            right = asked.told in closed or LINE.fullmatch(asked.told)
        if not right or not asked.is_ok():
            self.differences.append(f"session {asked.session}: {asked.line!r} was answered {asked.reply()!r}")


class Held:
    """Reads how many bytes of memory a process has, again and again."""

    def __init__(self, process):
        self.process, self.most, self.ended = process, 0, threading.Event()
        self.thread = threading.Thread(target=self.reads, daemon=True)
        self.thread.start()

    def now(self):
        with open(f"/proc/{self.process}/statm") as file:
            return int(file.read().split()[1]) * os.sysconf("SC_PAGESIZE")

    def reads(self):
        try:
            while not self.ended.wait(0.1):
                self.most = max(self.most, self.now())
        except OSError:
            pass

    def most_since(self):
        """The greatest number of bytes since this was asked before."""
        found, self.most = max(self.most, self.now()), 0
        return found


class Kept:
    """The changes that a server keeps on the disk: what was added since this was asked before."""

    def __init__(self, path):
        self.path, self.at = path, 0

    def added(self):
        with open(self.path, "rb") as file:
            file.seek(self.at)
            text = file.read()
        held, behind = records(text)
        if behind:
            raise AssertionError(f"{behind} bytes of {self.path} are no record")
        if self.at == 0:
            serving.same(held.pop(0), HEADING)
        self.at += len(text)
        return [kept_change(one) for one in held]


def kept_change(held):
    """The verb and the basis of a change that was kept."""
    return {1: b"commit", 2: b"undo", 3: b"redo"}[held[0]], struct.unpack_from("<Q", held, 1)[0]


def counts_of_entries(entries):
    found = collections.Counter()
    for entry in entries:
        kind, _, word, code = entry.split(" ")
        found[kind if kind in ("look", "log", "take", "deliver", "give") and word == "ok" else f"{kind} {word}" + (code if word == "no" else "")] += 1
    return found


def counts_of_replies(asked):
    """How many entries of each kind commands have made; those of changes that another change came before are not known."""
    found = collections.Counter({"look": 0, "log": 0, "commit ok": 0, "undo ok": 0, "redo ok": 0, "undo no7": 0, "redo no8": 0})
    for one in asked:
        if one.verb == b"log":
            found["log"] += 1
        elif one.verb not in (b"status", b"frob"):
            found["look"] += 1
        if one.verb in CHANGES and one.is_ok():
            found["commit ok"] += 1
        elif one.verb in (b"undo", b"redo") and one.head in (b"no 7", b"no 8"):
            found[f"{one.verb.decode()} no{one.number()}"] += 1
        elif one.verb in (b"undo", b"redo") and one.is_ok():
            found[one.verb.decode() + " ok"] += 1
    return found


class Weeks:
    """A server with its sessions, part by part: from a rest of all sessions to the next one."""

    def __init__(self, server, seed, mark, kept=None):
        self.server, self.mark, self.kept = server, mark, kept
        self.sessions = [Session(server, name, seed) for name in range(SESSIONS)]
        self.reader, self.held = Reader(server), Held(server.process.pid)
        self.replay, self.differences = Replay(), []
        self.chapters, self.known, self.rest_at = [0], 0, 0
        self.heads, self.kinds, self.unread, self.commands = collections.Counter(), collections.Counter(), 0, 0
        self.memory = []

    def differ(self, text):
        self.differences.append(f"chapter {self.chapters[-1]}: {text}")

    def works(self, most):
        """Lets the sessions work until half a chapter is there, or so many commands are made."""
        fits = self.mark * 2 // 5
        rests, old = threading.Event(), self.chapters[-1]
        for session in self.sessions:
            session.latest, session.most = self.rest_at, self.mark // (4 * SESSIONS)
        threads = [threading.Thread(target=session.goes_on, args=(rests,), daemon=True) for session in self.sessions]
        for thread in threads:
            thread.start()
        while any(thread.is_alive() for thread in threads) and not rests.wait(0.01):
            told = self.reader.status()
            is_next = told["chapter"] > old or self.known == old
            if is_next and told["all"] - told["chapter"] >= fits or sum(len(session.asked) for session in self.sessions) >= most:
                rests.set()
        for thread in threads:
            thread.join(60)
            if thread.is_alive():
                raise AssertionError("a session has no end")
        faults = [session.fault for session in self.sessions if session.fault]
        if faults:
            raise AssertionError("; ".join(faults))

    def part(self, most, is_quiet):
        """One part, and what comes of it: the border behind it comes while the sessions rest, or not."""
        self.works(most)
        self.reader.ask(b"wait")
        told = self.reader.status()
        tail = 0
        if told["chapter"] != self.chapters[-1]:
            tail = told["chapter"] - self.known
            self.chapters.append(told["chapter"])
        first = max(told["chapter"], self.known)
        lines = self.reader.entries(first, told["all"])
        asked = sorted((one for session in (*self.sessions, self.reader) for one in session.asked), key=lambda one: one.sent)
        for session in (*self.sessions, self.reader):
            session.asked = []
        self.commands += len(asked)
        self.check(first, lines, tail, asked, told)
        self.memory.append((self.chapters[-1], self.held.most_since(), told["kept"]))
        self.known = told["all"] + len(lines)
        self.rest_at = self.known
        self.fill(is_quiet)

    def fill(self, is_quiet):
        """Fills the chapter up, with entries of `log`."""
        due = self.reader.status()["due"]
        if is_quiet and due:
            self.known += len(self.reader.many([b"log %d\n" % self.known] * due))
            while self.reader.status()["due"] < 1:
                time.sleep(0.01)
            begun = self.reader.status()["chapter"]
            if begun != self.known:
                self.differ(f"closed at {begun}, with {self.known} entries")
            self.chapters.append(begun)
        elif due > ROOM:
            self.known += len(self.reader.many([b"log %d\n" % self.known] * (due - ROOM)))

    def check(self, first, lines, tail, asked, told):
        """Repeats a part by the model, and compares."""
        bad = [line for line in lines if not LINE.fullmatch(line)]
        if bad:
            raise AssertionError(f"{len(bad)} of {len(lines)} entries from {first} on are told so: {bad[0]!r}")
        entries = [line.decode().rstrip("\n") for line in lines]
        replay = self.replay
        replay.begin(first, entries, asked)
        read = [entry.split(" ") for entry in entries]
        behind = [(kind.encode(), int(basis), int(out)) for kind, basis, word, out in read if word == "ok" and kind in ("commit", "undo", "redo")]
        unread = list(unread_changes(asked, collections.Counter(behind)))
        ordered = in_order(replay.history, unread, behind)
        if ordered is None:
            raise AssertionError(f"{len(unread)} changes that were not read have no order")
        replay.is_whole = not tail
        replay.repeat(ordered)
        replay.kept = 0
        replay.run()
        replies = Replies(replay, asked, self.chapters, self.mark)
        for one in asked:
            replies.compare(one)
        self.differences += replay.differences + replies.differences
        replay.differences = []
        replay.all_are_finished()
        self.count(entries, tail, asked)
        self.compare_status(told)
        self.compare_kept()

    def count(self, entries, tail, asked):
        """Compares how many entries there are with how many the replies tell of."""
        read, wanted = counts_of_entries(entries), counts_of_replies(asked)
        left = {kind: wanted[kind] - read[kind] for kind in wanted}
        out = read["take"] - read["give"] - sum(count for kind, count in read.items() if kind.startswith("deliver"))
        self.unread += tail
        self.kinds += read
        builds = tail - sum(left.values())
        if min(left.values()) < 0 or builds < 0 or builds and builds + out < 0 or (out if not tail else out > 0):
            self.differ(f"{tail} entries were not read; by the replies {left}, and {out} packages more were taken than brought")

    def compare_status(self, told):
        state = self.replay.history.current
        wanted = {"sessions": 1 + sum(s.client is not None for s in self.sessions), "workers": WORKERS, "bytes": state.size, "number": state.number}
        wanted |= {"kept": self.replay.kept, "due": max(told["left"] - LIMIT + self.mark, 0)}
        found = {word: told[word] for word in wanted}
        if found != wanted:
            self.differ(f"status tells {found}, by the model {wanted}")

    def compare_kept(self):
        """Compares the changes on the disk with those of the part."""
        made, self.replay.made_of = self.replay.made_of, []
        if self.kept is None:
            return
        found = self.kept.added()
        if found != made:
            at = next((n for n, (one, other) in enumerate(zip(found, made)) if one != other), min(len(found), len(made)))
            self.differ(f"{len(found)} changes were kept, {len(made)} made; change {at} is kept as {found[at : at + 1]}, made as {made[at : at + 1]}")

    def ends(self):
        """Ends the sessions and the server, and compares how many entries it had."""
        for session in (*self.sessions, self.reader):
            if session.client is not None:
                session.client.end()
        self.held.ended.set()
        serving.same(serving.run(["stop", "--socket", self.server.path]), (0, b"", b""))
        settled = serving.settles(self.server)
        if settled != self.known:
            self.differ(f"settled {settled}, and {self.known} entries were counted")
        return settled


def unread_changes(asked, read):
    """The changes that were answered with `ok`, without those that were read."""
    left = read.copy()
    for one in sorted(asked, key=lambda a: -a.sent):
        if one.verb in DONE and one.is_ok():
            kind = b"commit" if one.verb in CHANGES else one.verb
            key = kind, one.basis(), one.number()
            if left[key] > 0:
                left[key] -= 1
            else:
                yield one


def drive(commands, mark, seed, folder):
    """Works over chapters, and tells what was seen. It answers whether all is as the model says."""
    more = ["--chapter", str(mark)]
    more += ["--journal", folder] if folder else []
    begin = time.perf_counter()
    with serving.Server(WORKERS, SESSIONS + 1, more=more) as server:
        server.stands()
        weeks = Weeks(server, seed, mark, Kept(os.path.join(folder, "changes")) if folder else None)
        while weeks.commands < commands:
            before = len(weeks.differences)
            weeks.part(commands - weeks.commands, len(weeks.chapters) % 2 == 0)
            chapter, held, kept = weeks.memory[-1]
            print(
                f"chapter {chapter}: {weeks.commands} commands, {held / 2**20:.1f} MiB at most, {kept} bytes kept, "
                f"{time.perf_counter() - begin:.0f} s",
                flush=True,
            )
            for difference in weeks.differences[before : before + 20]:
                print("  " + difference, flush=True)
        settled = weeks.ends()
    seconds = time.perf_counter() - begin
    print(f"{weeks.commands} commands, {settled} entries, {len(weeks.chapters)} chapters, {weeks.unread} entries not read, {seconds:.0f} s")
    print("  entries read: " + ", ".join(f"{kind}: {count}" for kind, count in sorted(weeks.kinds.items())))
    print(f"{len(weeks.differences)} differences")
    return not weeks.differences and is_bounded(weeks.memory)


def is_bounded(memory):
    """Whether the chapters of the last half need no more memory than those of the first, but for an eighth."""
    held = [most for _, most, _ in memory]
    half = len(held) // 2
    if half < 2:
        return True
    first, last = max(held[:half]), max(held[half:])
    print(f"memory: {first / 2**20:.1f} MiB at most in the first {half} chapters, {last / 2**20:.1f} MiB afterwards")
    return last <= first + first // 8


def main():
    words = sys.argv[1:]
    if not words:
        sys.exit(__doc__)
    serving.PROGRAM.append(os.path.abspath(words[0]))
    keeps = words[-1] == "journal"
    numbers = [int(word) for word in words[1 : len(words) - keeps]]
    commands, mark, seed = numbers + [1_000_000, 300_000, 0][len(numbers) :]
    with tempfile.TemporaryDirectory() as above:
        sys.exit(0 if drive(commands, mark, seed, os.path.join(above, "journal") if keeps else None) else 1)


if __name__ == "__main__":
    main()
