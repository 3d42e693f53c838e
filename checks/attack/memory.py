"""Runs stored sessions on a built `gorefd run` with each allocation refused in turn:

    python3 -m checks.attack.memory PROGRAM [fresh|climbing [SESSION.. | others | all]]

Without names of sessions it tries the worked rows. A small library refuses what the program asks the C library for.

`fresh` runs the session once for each allocation from the program's start on. Where a command is refused for want of memory, the current state
is shown: how far undo and redo reach, each file, the faults, each package's object. It has to be as before, by the model. Then the same command
is sent again. It has to be answered as if it had not been refused, and so has all that follows, up to a walk back to the first state and forth
to the last one. At the end the whole journal is read: the refused command has left no entry of what it did not do. Otherwise all is answered as
where no allocation is refused, or the session ends for want of memory.

`climbing` runs the session once. Before each command its first allocation is refused, then its second, and so on until it is answered with none
refused. Each time the state, the files and the journal have to be as before. Behind the last command come the same walk and the journal. A
change that is answered though an allocation was refused is done: the session is begun anew, and goes on with the next allocation there.
"""

import copy
import functools
import itertools
import os
import subprocess
import sys
import threading
from concurrent.futures import ThreadPoolExecutor

from checks.attack.refusing import Library
from checks.attack.rows import chosen
from checks.model.history import History, reply
from checks.server.connections import whole_commands

NO_MEMORY = b"no 1 0\n"
CUT_SHORT = b"no 24 0\n"
ENDED = (1, b"gorefd: memory fault\n")
KINDS = ("refused", "ended", "answered")
CHANGES = (b"put", b"del", b"rename", b"move", b"undo", b"redo", b"work", b"log")
# Without a command for so long, a run hangs. (A row takes seconds on an idle machine.)
SECONDS = 120


class Asked:
    """A command, the reply that it gets, and the entries that it adds to the journal."""

    def __init__(self, history, command):
        line, _, body = command.partition(b"\n")
        before = len(history.entries)
        self.sent, self.told = command, reply(history, line, body)
        self.entries = [entry.encode() for entry in history.entries[before:]]

    def left_if_refused(self):
        """The entries that the command may have left where it was refused for want of memory: what it did before, which is a look, or a Job
        that it took and gave back. A command that only looks may be refused behind its look."""
        only_looks = all(entry.startswith(b"look ") for entry in self.entries)
        for count in range(len(self.entries) + only_looks):
            left = self.entries[:count]
            if left and left[-1].startswith(b"take "):
                _, number, _ = left[-1].split(b" ", 2)
                left.append(b"give %s ok %s\n" % (number, number))
            yield left


def forked(history):
    """A history that goes on as this one, and leaves it as it is. Both know the same finished packages."""
    other = copy.copy(history)
    other.entries, other.states = list(history.entries), list(history.states)
    return other


def questions(history, kinds):
    """Questions about the current state, on a history that they leave as it is."""
    shown, state = forked(history), history.current
    all_kinds = {
        "look": ["look"],
        "list": ["list"],
        "cat": [f"cat {path}" for path in sorted(state.texts)],
        "faults": ["faults"],
        "object": [f"object {path}" for path in state.workspace.order],
    }
    return [Asked(shown, line.encode() + b"\n") for kind in kinds for line in all_kinds[kind]]


def shows(history):
    """Questions that show the current state."""
    return questions(history, ("look", "list", "cat", "faults", "object"))


def walk(history):
    """Back to the first state and forth to the last one, with what each of them shows."""
    asked = []
    for verb, steps in ("undo", history.cursor), ("redo", len(history.states) - 1):
        for _ in range(steps):
            asked += shows(history)
            asked.append(Asked(history, b"%s %d\n" % (verb.encode(), history.current.number)))
    return asked + shows(history)


def commands_of(sent):
    """The commands of a session up to its end, and what is left: a part of a put, or a line without its newline."""
    commands, part = whole_commands(sent)
    return (commands[: commands.index(b"end\n")], b"") if b"end\n" in commands else (commands, part)


class Session:
    """A stored session by the model: its commands, what the state before each of them shows, and the walk at its end. What is left behind its
    last whole command, if anything, is sent in the walk's place, and its reply is `last`."""

    def __init__(self, sent, wanted):
        self.commands, self.part = commands_of(sent)
        history, self.asked, self.shown = History(), [], []
        for command in self.commands:
            self.shown.append(shows(history))
            self.asked.append(Asked(history, command))
        told = b"".join(asked.told for asked in self.asked)
        if not wanted.startswith(told) or not self.part and wanted != told:
            raise SystemExit("the model answers the session otherwise")
        self.last = wanted[len(told) :]
        self.walk = [] if self.part else walk(history)

    def rest(self, refused=None):
        """What is asked from the refused command on, or behind the last one where none was refused. Behind a refused command no entry of the
        journal is asked for before the end, since entries of what shows the state lie between."""
        if refused is None:
            return self.walk
        return self.shown[refused] + [asked for asked in self.asked[refused:] if not asked.sent.startswith(b"log ")] + self.walk

    def journals(self, refused=None):
        """The journals that there may be at the end, without its reading."""
        before = self.asked if refused is None else self.asked[:refused]
        left = [[]] if refused is None else self.asked[refused].left_if_refused()
        return [entries_of(before) + some + entries_of(self.rest(refused)) for some in left]


def entries_of(asked):
    return [entry for each in asked for entry in each.entries]


def bodies_of(text):
    """The bodies of the replies in what a session wrote."""
    bodies = []
    while text:
        head, _, rest = text.partition(b"\n")
        size = int(head.split()[2])
        bodies.append(rest[:size])
        text = rest[size:]
    return bodies


def is_journal(read, journals):
    """Whether the entries that were read are those of such a journal, and behind them those of reading."""
    return any(read[: len(entries)] == entries and all(entry.startswith(b"log ") for entry in read[len(entries) :]) for entries in journals)


class Running:
    """The program, at work on a session, with its page."""

    def __init__(self, words, library, refused=0):
        self.page = library.page(refused)
        pipes = dict.fromkeys(("stdin", "stdout", "stderr"), subprocess.PIPE)
        self.process = subprocess.Popen(words, env=os.environ | self.page.environment, **pipes)
        self.asks, self.over = 0, threading.Event()
        threading.Thread(target=self.watch, daemon=True).start()

    def __enter__(self):
        return self

    def watch(self):
        """Kills the program where it hangs."""
        seen = None
        while not self.over.wait(SECONDS):
            if seen == self.asks:
                self.process.kill()
            seen = self.asks

    def __exit__(self, *_):
        self.over.set()
        self.process.kill()
        self.process.communicate()
        self.page.close()

    def ask(self, sent):
        """What the program answers, and whether it is a whole reply."""
        self.asks += 1
        try:
            self.process.stdin.write(sent)
            self.process.stdin.flush()
        except BrokenPipeError:
            return b"", False
        head = self.process.stdout.readline()
        if not head.endswith(b"\n"):
            return head, False
        size = int(head.split()[2])
        body = self.process.stdout.read(size)
        return head + body, len(body) == size

    def finish(self, sent=b""):
        """What it answers to the last that is sent, its status, and what it wrote on standard error."""
        out, err = self.process.communicate(sent)
        return out, (self.process.returncode, err)


class Fresh:
    """A session, with one allocation refused from the program's start on."""

    def __init__(self, words, library, session):
        self.words, self.library, self.session = words, library, session

    def told(self, refused):
        """How it went, and how many calls the commands made: a command was refused, the session ended, all was answered; or what is wrong."""
        with Running(self.words, self.library, refused) as running:
            for number, asked in enumerate(self.session.asked):
                told, is_whole = running.ask(asked.sent)
                if told == NO_MEMORY:
                    return self.ends(running, number), 0
                if not is_whole:
                    return self.has_ended(told, asked.told, running.finish()[1]), 0
                if told != asked.told:
                    return f"command {number}, {asked.sent!r}, is answered {told!r}", 0
            made = running.page.get("calls")
            return self.ends(running), made

    def ends(self, running, refused=None):
        """The rest of the session, by one write, and its journal."""
        rest = self.session.rest(refused)
        wanted = b"".join(asked.told for asked in rest)
        if self.session.part:
            out, ended = running.finish(b"".join(asked.sent for asked in rest) + self.session.part)
            is_refused = out == wanted + NO_MEMORY and self.session.last != CUT_SHORT
            kind = "refused" if refused is not None or is_refused else "answered"
            if (out, ended) == (wanted + self.session.last, (0, b"")) or is_refused and ended == (0, b""):
                return kind
            return self.has_ended(out, wanted, ended)
        journals = self.session.journals(refused)
        logs = b"".join(b"log %d\n" % number for number in range(max(map(len, journals))))
        out, ended = running.finish(b"".join(asked.sent for asked in rest) + logs)
        at = "" if refused is None else f" behind {self.session.asked[refused].sent!r}"
        if ended != (0, b""):
            return self.has_ended(out, wanted, ended) if refused is None else f"{ended!r}{at}"
        if not out.startswith(wanted):
            return f"answered otherwise{at}: {out[:300]!r} for {wanted[:300]!r}"
        if not is_journal(bodies_of(out[len(wanted) :]), journals):
            return f"the journal is another{at}: {out[len(wanted) :][:300]!r}"
        return "answered" if refused is None else "refused"

    def has_ended(self, told, wanted, ended):
        """The session has ended for want of memory, in the middle of its replies."""
        return "ended" if wanted.startswith(told) and ended == ENDED else f"{ended!r}, after {told!r} for {wanted!r}"

    def point(self, number):
        told, _ = self.told(number)
        return told if told in KINDS else f"call {number} refused: {told}"

    def jobs(self):
        """One for each call that is made for the session's commands where none is refused. Those of the walk are not counted. A job tells how its
        points went."""
        told, made = self.told(0)
        if told != "answered":
            return [lambda: [f"none refused: {told}"]]
        # what is left behind the last command is read at the end of the input
        numbers = range(1, made + 1 + 20 * bool(self.session.part))
        return [functools.partial(lambda number: [self.point(number)], number) for number in numbers]


class Wrong(Exception):
    """What was told is not what the model tells."""


class Climb:
    """One run of a session in which each allocation of each command is refused in turn."""

    def __init__(self, words, library, session):
        self.words, self.library, self.session = words, library, session
        self.counts = dict.fromkeys(KINDS, 0)

    def ask(self, running, history, command):
        asked = Asked(history, command)
        told, _ = running.ask(command)
        if told != asked.told:
            raise Wrong(f"{command!r} is answered {told[:300]!r} for {asked.told[:300]!r}")
        return told

    def left(self, running, history, allowed):
        """Adds the entries that a refused command left to the model's journal, as the journal shows them."""
        start, left = len(history.entries), []
        asks = 0
        while True:
            told, _ = running.ask(b"log %d\n" % (start + len(left)))
            asks += 1
            body = bodies_of(told)[0] if told.startswith(b"ok ") else None
            if body is None or body and not body.startswith(b"log ") and len(left) > 4:
                raise Wrong(f"the journal shows {told!r}")
            if body == b"" or body.startswith(b"log ") and left:
                break
            left.append(body)
        if left not in allowed:
            raise Wrong(f"the journal has {left!r} more")
        history.entries += [entry.decode() for entry in left]
        number = history.current.number
        history.entries += [f"log {number} ok {number}\n"] * asks

    def point(self, running, history, command, ahead, allowed):
        """Refuses one call of a command. Whether a call was refused, and whether the command was."""
        running.page.refuse(ahead)
        told, _ = running.ask(command)
        was_hit = running.page.was_hit()
        if told != NO_MEMORY:
            return was_hit, False, told
        if not was_hit:
            raise Wrong(f"{command!r} is refused, and no memory was")
        self.left(running, history, allowed)
        for asked in questions(history, ("look", "list", "cat")):
            self.ask(running, history, asked.sent)
        return True, True, told

    def climb(self, running, history, command, begin):
        """Refuses each call of a command from one on. It answers how many were refused where one was refused though the command was done."""
        is_change = command.split(b" ")[0].strip() in CHANGES
        allowed = list(Asked(forked_whole(history), command).left_if_refused())
        for ahead in itertools.count(begin):
            was_hit, was_refused, told = self.point(running, history, command, ahead, allowed)
            if was_refused:
                self.counts["refused"] += 1
                continue
            asked = Asked(history, command)
            if told != asked.told:
                raise Wrong(f"{command!r} with call {ahead} refused is answered {told[:300]!r} for {asked.told[:300]!r}")
            self.counts["answered"] += was_hit
            if not was_hit:
                return None
            if is_change:
                return ahead

    def run(self):
        """Climbs all commands, by as many runs of the program as it takes."""
        at, begin = 0, 1
        while True:
            with Running(self.words, self.library) as running:
                history = History()
                # where this is answered, the program has begun
                self.ask(running, history, b"look\n")
                for command in self.session.commands[:at]:
                    self.ask(running, history, command)
                stopped = None
                for number in range(at, len(self.session.commands)):
                    stopped = self.climb(running, history, self.session.commands[number], begin)
                    begin = 1
                    if stopped is not None:
                        at, begin = number, stopped + 1
                        break
                if stopped is None:
                    return self.end(running, history)

    def end(self, running, history):
        if not self.session.part:
            for asked in walk(forked_whole(history)):
                self.ask(running, history, asked.sent)
            entries = list(history.entries)
            for number, entry in enumerate(entries):
                told = self.ask(running, history, b"log %d\n" % number)
                if bodies_of(told)[0] != entry.encode():
                    raise Wrong(f"entry {number} is {told!r}")
        out, ended = running.finish(self.session.part)
        if (out, ended) != (self.session.last, (0, b"")):
            raise Wrong(f"the end is {out!r}, {ended!r}")

    def jobs(self):
        """One, since each point is tried behind the one before it."""
        return [self.points]

    def points(self):
        try:
            self.run()
        except Wrong as wrong:
            return [str(wrong)]
        return [kind for kind in KINDS for _ in range(self.counts[kind])]


def forked_whole(history):
    """A history that goes on as this one, and shares no set of finished packages with it."""
    other = forked(history)
    other.states = [copy.copy(state) for state in history.states]
    for state in other.states:
        state.finished = set(state.finished)
    return other


WAYS = {"fresh": Fresh, "climbing": Climb}


def tried(words, way, sessions, library, pool):
    """How the points of these sessions went: lines of what is wrong, and how many of each kind there were. The words are the program's."""
    # the longest first, since some take as long as many others
    longest = sorted(sessions, key=lambda name: -len(sessions[name][0]))
    runs = {name: WAYS[way]([*words, "run"], library, Session(*sessions[name])) for name in longest}
    jobs = [(name, job) for name, run in runs.items() for job in run.jobs()]
    wrong, counts = [], dict.fromkeys(KINDS, 0)
    for (name, _), told in zip(jobs, pool.map(lambda pair: pair[1](), jobs)):
        wrong += [f"{name}: {line}" for line in told if line not in KINDS]
        for kind in KINDS:
            counts[kind] += told.count(kind)
    return wrong, counts


def main():
    if len(sys.argv) < 2 or len(sys.argv) > 2 and sys.argv[2] not in WAYS:
        raise SystemExit(__doc__)
    program, way, sessions = os.path.abspath(sys.argv[1]), (sys.argv[2:] or ["climbing"])[0], chosen(sys.argv[3:])
    with Library() as library, ThreadPoolExecutor(len(os.sched_getaffinity(0))) as pool:
        wrong, counts = tried([program], way, sessions, library, pool)
    told = ", ".join(f"{count} {kind}" for kind, count in counts.items())
    print("\n".join([*wrong, f"{len(sessions)} sessions, {way}: {told}, {len(wrong)} not right"]))
    raise SystemExit(1 if wrong or not counts["refused"] else 0)


if __name__ == "__main__":
    main()
