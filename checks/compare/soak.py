"""Drives a built `gorefd serve` with many sessions at a time, and replays its journal by the model.

    python3 -m checks.compare.soak PROGRAM [SEED [LENGTH [SESSIONS [WORKERS]]]]

Each of SESSIONS clients (32) makes LENGTH random commands (100) over two connections, while WORKERS workers (16) build. One more client reads
the whole journal by `log`, and the server ends and prints its length. The model repeats the changes that were answered with `ok`, in the
order of the journal, and checks each entry. Each reply has to be the model's to a state that was current between the command and the reply.
The journal does not name the packages that workers took and delivered, so the model knows which packages are finished for certain and which
may be. It prints each difference, and ends with status 1 where there is one.
"""

import bisect
import collections
import functools
import itertools
import random
import re
import sys
import threading
import time

from checks.generate import changes
from checks.generate.sessions import a_folder, a_new_name, a_place, a_target
from checks.generate.shadows import shadowed
from checks.model.history import History, State, reply
from checks.model.refusals import Refusal
from checks.server import server as serving

CONNECTIONS = 2
CHANGES = (b"put", b"del", b"rename", b"move")
CLOCK = itertools.count()


class Asked:
    """A command with its reply, and when the one was sent and the other had come."""

    def __init__(self, session, line, body):
        self.session, self.line, self.body = session, line, body
        self.verb = line.split(b" ")[0]
        self.sent, self.came, self.head, self.told = next(CLOCK), None, None, None

    def basis(self):
        return int(self.line.split(b" ")[1])

    def is_ok(self):
        return self.head.startswith(b"ok ")

    def number(self):
        """The number of the state, or of the refusal."""
        return int(self.head.split(b" ")[1])

    def reply(self):
        return self.head + b" %d\n" % len(self.told) + self.told


class Session:
    """A client with a seed of its own, which knows of the workspace what it was told."""

    def __init__(self, server, name, seed, length):
        self.server, self.name, self.length = server, name, length
        self.generator = random.Random(f"{seed}/{name}")
        self.asked, self.number, self.fault, self.client = [], 0, None, None

    def ask(self, line, body=b""):
        asked = Asked(self.name, line, body)
        self.asked.append(asked)
        asked.head, asked.told = self.client.ask(line + b"\n" + body)
        asked.came = next(CLOCK)
        if asked.is_ok():
            self.number = asked.number()
        elif asked.number() == 6:
            self.number = int(asked.told)
        return asked

    def change(self, make):
        """Asks for a change, and again for the number that is told, a few times."""
        for _ in range(self.generator.randrange(1, 7)):
            line, body = make(self.number)
            asked = self.ask(line, body)
            if asked.is_ok() or asked.number() != 6:
                return asked
        return asked

    def edit(self, line):
        """A rename or a move; where the files have faults, the last change is mostly taken back."""
        asked = self.change(lambda number: (line(number).encode(), b""))
        if not asked.is_ok() and asked.number() == 9 and self.generator.random() < 0.7:
            self.ask(b"undo %d" % self.number)

    def a_file(self):
        """A path and its text, of those that are there; or None."""
        paths = [line.rsplit(b" ", 1)[0].decode() for line in self.ask(b"list").told.splitlines()]
        if not paths:
            return None
        path = self.generator.choice(paths)
        asked = self.ask(b"cat " + path.encode())
        return (path, asked.told) if asked.is_ok() else None

    def put(self, path, text):
        self.change(lambda number: (b"put %d %s %d" % (number, path.encode(), len(text)), text))

    def put_some(self):
        generator = self.generator
        file = self.a_file()
        if file is None or generator.random() < 0.04:
            path, text = generator.choice(sorted(shadowed(generator).items()))
        elif generator.random() < 0.85:
            path, text = file[0], file[1] + b"\nvar z%d int\n" % generator.randrange(10**6)
        else:
            path, text = file[0], changes.changed(generator, dict([file]))[file[0]]
        self.put(path, text)

    def rename(self):
        file = self.a_file()
        if file is not None:
            place = "%s:#%d" % a_place(self.generator, dict([file]))
            name = a_new_name(self.generator, dict([file]))
            self.edit(lambda number: f"rename {number} {place} {name}")

    def move(self):
        texts = {line.rsplit(b" ", 1)[0].decode(): b"" for line in self.ask(b"list").told.splitlines()}
        source, target = a_folder(self.generator, texts), a_target(self.generator, texts)
        self.edit(lambda number: f"move {number} {source} {target}")

    def delete(self):
        file = self.a_file()
        if file is not None:
            self.change(lambda number: (f"del {number} {file[0]}".encode(), b""))

    def undo_or_redo(self):
        verb = self.generator.choice([b"undo", b"undo", b"redo"])
        self.change(lambda number: (b"%s %d" % (verb, number), b""))

    def faults(self):
        """Takes back what has faults, mostly."""
        asked = self.ask(b"faults")
        if asked.told and self.generator.random() < 0.7:
            self.ask(b"undo %d" % asked.number())

    def uses(self):
        file = self.a_file()
        if file is not None:
            self.ask(b"uses " + ("%s:#%d" % a_place(self.generator, dict([file]))).encode())

    def objects(self):
        """Waits, mostly, and asks for an object."""
        if self.generator.random() < 0.7:
            self.ask(b"wait")
        folders = {line.rsplit(b" ", 1)[0].rsplit(b"/", 1)[0] for line in self.ask(b"list").told.splitlines()}
        self.ask(b"object " + self.generator.choice(sorted(folders | {b"q"})))

    def simple(self):
        number = self.generator.randrange(2000)
        self.ask(self.generator.choice([b"look", b"work", b"work", b"list", b"log %d" % number, b"frob", b"cat a", b"wait"]))

    def act(self):
        ways = [self.put_some, self.rename, self.move, self.delete, self.undo_or_redo, self.faults, self.uses, self.objects, self.simple]
        self.generator.choices(ways, [14, 16, 5, 1, 14, 12, 8, 10, 14])[0]()

    def run(self):
        try:
            for part in range(1, CONNECTIONS + 1):
                self.client = self.server.connect()
                while len(self.asked) < self.length * part // CONNECTIONS:
                    self.act()
                self.client.send(b"end\n")
                serving.same(self.client.rest(), b"")
                self.client.close()
        except Exception as fault:
            last = self.asked[-1].line[:200] if self.asked else None
            self.fault = f"session {self.name}: {fault!r} at {last!r}"


class Journal:
    """Reads the whole journal; by what it reads each `log` adds an entry."""

    def __init__(self, client):
        self.client, self.logs = client, 0

    def entry(self, number):
        head, body = self.client.ask(b"log %d\n" % number)
        self.logs += 1
        return body.decode().rstrip("\n")

    def length(self):
        """How many entries there were before this object's first `log`, if none came but its own."""
        least, most = 0, 1_000_000
        while least < most:
            middle = (least + most) // 2
            own = self.logs
            if self.entry(middle + own):
                least = middle + 1
            else:
                most = middle
        return least

    def read(self):
        length = self.length()
        return [self.entry(number) for number in range(length)]


class Replay:
    """The history by the model, entry by entry, and the states that were current one after another."""

    def __init__(self, entries, asked):
        self.history = History()
        self.history.current.sure = set()
        self.differences = []
        self.begin(0, entries, asked)

    def begin(self, first, entries, asked):
        """Begins with the entries from a number on."""
        self.first, self.entries = first, entries
        self.made = {a.number(): a for a in asked if a.verb in CHANGES and a.is_ok()}
        self.points, self.point_of, self.events = [], {}, []
        self.states, self.maybe = {}, {}
        self.out = collections.Counter()
        self.begin_visit()
        self.add_point(None)

    def differ(self, number, text):
        self.differences.append(f"entry {self.first + number} ({self.entries[number]}): {text}")

    def add_point(self, event):
        history = self.history
        self.points.append((history.current.number, history.cursor, len(history.states) - 1 - history.cursor))
        self.events.append(event)
        self.states[history.current.number] = history.current
        self.maybe[history.current.number] = history.current.finished

    def begin_visit(self):
        self.surely_taken, self.maybe_taken, self.delivered, self.is_exact = set(), set(), 0, True

    def run(self):
        for number, entry in enumerate(self.entries):
            kind, basis, word, told = entry.split(" ")
            told = int(told)
            getattr(self, kind)(number, int(basis), word == "ok", told)
        return self

    def look(self, number, basis, ok, told):
        current = self.history.current.number
        if (basis, ok, told) != (current, True, current):
            self.differ(number, f"the current state is {current}")

    log = look

    def moves_on(self, number, basis, ok, told, wanted):
        """Whether the event is as the model says: admitted with this number, or refused with this code."""
        current = self.history.current.number
        wanted = (False, 6) if basis != current else wanted
        if (ok, told) != wanted:
            self.differ(number, f"the current state is {current}, the answer by the model {wanted}")
        return ok and wanted == (ok, told)

    def committed(self, number, basis, ok, told):
        """The command whose change an entry says was admitted, if the model says so too and a session was told of it."""
        if not self.moves_on(number, basis, ok, told, (True, self.history.numbers)):
            return None
        asked = self.made.get(told)
        if asked is None:
            self.differ(number, "no session was told of it")
        return asked

    def commit(self, number, basis, ok, told):
        asked = self.committed(number, basis, ok, told)
        if asked is None:
            return
        old = self.history.current
        model = self.answer(asked)
        if model != asked.reply():
            self.differ(number, f"session {asked.session} was told {asked.reply()!r} on {asked.line!r}, by the model {model!r}")
            return
        self.history.current.sure = old.sure & self.history.current.finished
        self.begin_visit()
        self.point_of[told] = len(self.points)
        self.add_point(("commit", basis, told))

    def answer(self, asked):
        """Makes a change, and answers the model's reply to it."""
        return reply(self.history, asked.line, asked.body)

    def order(self):
        """The packages of the current state."""
        return self.history.current.workspace.order

    def step(self, kind, by, none, number, basis, ok, told):
        history = self.history
        there = 0 <= history.cursor + by < len(history.states)
        wanted = (True, history.states[history.cursor + by].number) if there else (False, none)
        if self.moves_on(number, basis, ok, told, wanted):
            history.move(kind, by, none)
            self.begin_visit()
            self.add_point((kind, basis, told))

    def undo(self, *entry):
        self.step("undo", -1, 7, *entry)

    def redo(self, *entry):
        self.step("redo", 1, 8, *entry)

    def take(self, number, basis, ok, told):
        state = self.history.current
        if basis != state.number or (ok, told) not in ((True, state.number), (False, 23)):
            self.differ(number, f"the current state is {state.number}")
        order = self.order()
        may_wait = [p for p in order if p not in state.sure | self.surely_taken]
        must_wait = [p for p in order if p not in state.finished | self.maybe_taken]
        if not ok and must_wait:
            self.differ(number, f"these wait: {must_wait}")
        if ok and not may_wait:
            self.differ(number, "no package waits")
        if ok:
            self.out[basis] += 1
            last = may_wait.index(must_wait[0]) if must_wait else len(may_wait) - 1
            found = may_wait[: last + 1]
            self.maybe_taken |= set(found)
            if len(found) == 1:
                self.surely_taken.add(found[0])
            else:
                self.is_exact = False

    def deliver(self, number, basis, ok, told):
        state = self.history.current
        self.brought(number, basis)
        if basis != state.number:
            if (ok, told) != (False, 21):
                self.differ(number, f"the current state is {state.number}")
        elif ok:
            if told != state.number:
                self.differ(number, f"the current state is {state.number}")
            # it may be of an earlier visit of this state
            others = set(self.order())
            state.finished |= self.maybe_taken if self.out[basis] == 0 and self.is_exact and self.maybe_taken else others
            self.delivered += 1
            if self.is_exact and self.out[basis] == 0 and self.delivered == len(self.surely_taken):
                state.sure |= self.surely_taken
        elif told != 22:
            self.differ(number, f"the current state is {state.number}")

    def give(self, number, basis, ok, told):
        self.brought(number, basis)
        self.is_exact = False
        self.differ(number, "a package was given back, which is for want of memory alone")

    def brought(self, number, basis):
        self.out[basis] -= 1
        if self.out[basis] < 0:
            self.differ(number, f"no package is out that was taken in state {basis}")


class Replies:
    """Compares each reply with the model's to a state that was current between the command and its reply."""

    def __init__(self, replay, asked):
        self.replay = replay
        made = [a for a in asked if a.verb in CHANGES and a.is_ok() and a.number() in replay.point_of]
        self.by_end = sorted((a.came, replay.point_of[a.number()]) for a in made)
        self.by_begin = sorted((a.sent, replay.point_of[a.number()]) for a in made)
        self.latest = list(itertools.accumulate((p for _, p in self.by_end), max))
        self.earliest = list(itertools.accumulate((p for _, p in reversed(self.by_begin)), min))[::-1]
        self.differences = []
        self.reached = collections.Counter()
        self.built = collections.defaultdict(set)

    def span(self, asked):
        """The points between which a command was answered, as far as the changes tell it."""
        before = bisect.bisect_left(self.by_end, (asked.sent, -1))
        behind = bisect.bisect_right(self.by_begin, (asked.came, len(self.replay.points)))
        first = self.latest[before - 1] if before else 0
        last = self.earliest[behind] - 1 if behind < len(self.earliest) else len(self.replay.points) - 1
        return max(first, self.reached[asked.session]), last

    @functools.lru_cache(maxsize=64)
    def state(self, number):
        return State(number, self.replay.states[number].texts, set())

    @functools.lru_cache(maxsize=4096)
    def by_model(self, number, line, body):
        """The model's reply to a command in a state, as if nothing were finished there."""
        history = History()
        history.states = [self.state(number)]
        return reply(history, line, body)

    def order(self, number):
        """The packages of a state."""
        return self.state(number).workspace.order

    def object(self, number, asked):
        """Whether the state may answer so for an object."""
        model = self.by_model(number, asked.line, b"")
        if not model.startswith(b"no 20 "):
            return asked.reply() == model
        package = asked.line.split(b" ")[1].decode()
        if asked.reply() == model:
            return number not in self.built[asked.session]
        if package not in self.replay.maybe[number]:
            return False
        history = History()
        history.states = [State(number, self.state(number).texts, {package})]
        return asked.reply() == reply(history, asked.line)

    def is_right(self, asked, point):
        number, undo, redo = self.replay.points[point]
        event, verb, code = self.replay.events[point], asked.verb, asked.number()
        if verb in CHANGES + (b"undo", b"redo"):
            if asked.is_ok():
                return event == (verb.decode() if verb not in CHANGES else "commit", asked.basis(), code)
            if code == 6:
                return number == int(asked.told) and number != asked.basis()
            if number != asked.basis():
                return False
            if verb in (b"undo", b"redo"):
                return (code, (undo, redo)[code - 7]) == ({b"undo": 7, b"redo": 8}[verb], 0) and asked.told == b""
            return asked.reply() == self.by_model(number, asked.line, asked.body)
        if asked.is_ok() and number != code:
            return False
        if verb == b"look":
            return asked.told == b"undo %d redo %d\n" % (undo, redo)
        if verb == b"object":
            return self.object(number, asked)
        if verb == b"wait":
            return asked.is_ok() and asked.told == b"" and set(self.order(number)) <= self.replay.maybe[number]
        if verb == b"work":
            if asked.is_ok():
                return asked.told.decode()[:-1] in self.replay.maybe[number]
            return code in (22, 23) and asked.told == b"" or code == 21 and int(asked.told) == number
        return asked.reply() == self.by_model(number, asked.line, b"")

    def compare(self, asked):
        if asked.verb == b"log":
            entry = int(asked.line.split(b" ")[1])
            wanted = self.replay.entries[entry].encode() + b"\n" if entry < len(self.replay.entries) else b""
            right = asked.is_ok() and asked.told in (b"", wanted)
        elif asked.verb == b"frob":
            right = asked.reply() == b"no 2 0\n"
        else:
            first, last = self.span(asked)
            point = next((p for p in range(first, last + 1) if self.is_right(asked, p)), None)
            right = point is not None
            if right:
                self.reached[asked.session] = point
                if asked.verb == b"wait":
                    self.built[asked.session].add(asked.number())
        if not right:
            between = "" if asked.verb in (b"log", b"frob") else f", between {self.replay.points[first]} and {self.replay.points[last]}"
            self.differences.append(f"session {asked.session}: {asked.line!r} was answered {asked.reply()[:300]!r}{between}")


def counted(entries, asked):
    """Where the entries of a kind are not as many as the commands that make one."""
    told = collections.Counter(entry.split(" ")[0] for entry in entries)
    of = collections.Counter(a.verb.decode() for a in asked)
    looks = sum(count for verb, count in of.items() if verb not in ("log", "frob"))
    ok = lambda verbs: sum(a.is_ok() for a in asked if a.verb in verbs)
    entered = collections.Counter(entry.split(" ")[0] for entry in entries if entry.split(" ")[2] == "ok")
    none = lambda verb, code: sum(a.verb == verb and a.head == code for a in asked)
    refused = lambda kind, code: sum(entry.startswith(kind) and entry.endswith(code) for entry in entries)
    found = []
    for what, here, wanted in (
        ("log", told["log"], of["log"]),
        ("look", min(told["look"], looks), looks),
        ("commit ok", entered["commit"], ok(CHANGES)),
        ("undo ok", entered["undo"], ok((b"undo",))),
        ("redo ok", entered["redo"], ok((b"redo",))),
        ("undo no 7", refused("undo ", " no 7"), none(b"undo", b"no 7")),
        ("redo no 8", refused("redo ", " no 8"), none(b"redo", b"no 8")),
    ):
        if here != wanted:
            found.append(f"{here} entries `{what}`, and {wanted} of them were told")
    if told["look"] > looks and not of["wait"]:
        found.append(f"{told['look']} looks, and {looks} of them were asked for")
    return found


def jobs_out(entries):
    kinds = collections.Counter(entry.split(" ")[0] for entry in entries if not entry.startswith("take") or " ok " in entry)
    return kinds["take"] - kinds["deliver"] - kinds["give"]


def drive(seed, length, count, workers):
    """What was asked, the journal, and the differences that were seen on the way."""
    with serving.Server(workers, count, CONNECTIONS * count + 2) as server:
        first = Session(server, "first", seed, 0)
        first.client = server.connect()
        for path, text in shadowed(first.generator).items():
            first.put(path, text)
        first.client.send(b"end\n")
        first.client.close()
        sessions = [Session(server, number, seed, length) for number in range(count)]
        threads = [threading.Thread(target=session.run, daemon=True) for session in sessions]
        for thread in threads:
            thread.start()
        for thread in threads:
            thread.join()
        faults = [session.fault for session in sessions if session.fault]
        asked = sorted((a for s in [first, *sessions] for a in s.asked if a.came is not None), key=lambda a: a.sent)
        if faults:
            return asked, [], faults
        last = server.connect()
        serving.same(last.ask(b"wait\n")[0].split(b" ")[0], b"ok")
        time.sleep(1)
        journal = Journal(last)
        entries = journal.read()
        last.send(b"end\n")
        last.close()
        settled = serving.settles(server)
        if settled != len(entries) + journal.logs:
            faults.append(f"settled {settled}, and {len(entries)} entries and {journal.logs} logs were counted")
        if jobs_out(entries):
            faults.append(f"{jobs_out(entries)} packages were still out")
        return asked, entries, faults


def main():
    words = sys.argv[1:]
    if not words:
        sys.exit(__doc__)
    serving.PROGRAM.append(words[0])
    seed, length, count, workers = [int(word) for word in words[1:]] + [0, 100, 32, 16][len(words) - 1 :]
    begin = time.perf_counter()
    asked, entries, differences = drive(seed, length, count, workers)
    print(f"seed {seed}: {count} sessions, {workers} workers, {len(asked)} commands, {len(entries)} entries, {time.perf_counter() - begin:.1f} s")
    heads = collections.Counter(a.verb.decode() + " " + (b"ok" if a.is_ok() else a.head).decode() for a in asked)
    print("  " + ", ".join(f"{head}: {number}" for head, number in sorted(heads.items())))
    kinds = collections.Counter(re.sub(r"^(\w+) \d+ (ok \d+|no)", lambda m: m[1] + (" no" if m[2] == "no" else " ok"), e) for e in entries)
    print("  entries: " + ", ".join(f"{kind}: {number}" for kind, number in sorted(kinds.items())))
    if entries:
        replay = Replay(entries, asked).run()
        differences += replay.differences + counted(entries, asked)
        replies = Replies(replay, asked)
        for one in asked:
            replies.compare(one)
        differences += replies.differences
    for difference in differences:
        print(difference)
    print(f"{len(differences)} differences, {time.perf_counter() - begin:.1f} s in all")
    sys.exit(1 if differences else 0)


if __name__ == "__main__":
    main()
