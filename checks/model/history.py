"""The states of a workspace with their finished packages, and the replies to whole sessions.

`replies(input)` returns the bytes that a session on a new book writes, by the rules of the commands. A state's finished packages are a set of
names: what a package compiles to depends on the files of its closure alone.
"""

import re

from checks.model.moves import plan_move
from checks.model.objects import object_of
from checks.model.refusals import Refusal, fault_lines, is_path
from checks.model.renames import plan_rename
from checks.model.workspace import Workspace


class State:
    def __init__(self, number, texts, finished, interfaces=True):
        self.number = number
        self.texts = texts
        self.finished = finished
        self.workspace = Workspace(texts, interfaces)

    def closure_texts(self, package):
        """The files of the packages that a package builds on, itself among them."""
        return {
            file.path: file.source
            for other in self.workspace.closure(package)
            for file in self.workspace.packages[other].files
        }

    def object_of(self, package):
        """The object of a package that is finished and has no faults, else None."""
        return object_of(self.workspace, package) if package in self.finished else None

    def carried(self, after):
        """The finished packages that a change to this state carries over."""
        return {
            package
            for package in self.finished
            if package in after.workspace.packages and self.closure_texts(package) == after.closure_texts(package)
        }


UNDO_DEPTH = 100
ENTRIES = 1_000_000


class History:
    def __init__(self, journal=None, interfaces=True):
        self.interfaces = interfaces
        self.states = [State(0, {}, set(), interfaces)]
        self.cursor = 0
        self.numbers = 1
        self.journal = journal
        self.entries = []
        self.kept = 0

    @property
    def current(self):
        return self.states[self.cursor]

    def enter(self, kind, out=None, kept=0):
        """Adds an entry, where the journal has room for it and for those that are kept."""
        if self.journal is not None and len(self.entries) + kept + 1 > self.journal:
            raise Refusal(19)
        number = self.current.number
        self.entries.append(f"{kind} {number} {out or f'ok {number}'}\n")

    def meant_for(self, basis):
        if basis != self.current.number:
            raise Refusal(6, f"{self.current.number}\n")

    def change(self, texts, put=0):
        """Changes the files. The journal keeps what is put into them, so many bytes."""
        self.enter("commit", f"ok {self.numbers}")
        self.kept += put
        state = State(self.numbers, texts, set(), self.interfaces)
        state.finished = self.current.carried(state)
        self.states = (self.states[: self.cursor + 1] + [state])[-UNDO_DEPTH - 1 :]
        self.cursor = len(self.states) - 1
        self.numbers += 1

    def move(self, kind, by, code):
        there = 0 <= self.cursor + by < len(self.states)
        self.enter(kind, f"ok {self.states[self.cursor + by].number}" if there else f"no {code}")
        if not there:
            raise Refusal(code)
        self.cursor += by

    def work(self):
        waiting = [p for p in self.current.workspace.order if p not in self.current.finished]
        self.enter("take", None if waiting else "no 23", kept=1)
        if not waiting:
            raise Refusal(23)
        self.enter("deliver")
        self.current.finished.add(waiting[0])
        return waiting[0] + "\n"

    def log(self, number):
        """The line of an entry of those before this event."""
        before = len(self.entries)
        self.enter("log")
        return self.entries[number] if number < before else ""

    def status(self):
        """What a session on a book of its own is told: it is the only one, there is no worker, and no chapter is closed."""
        left = (ENTRIES if self.journal is None else self.journal) - len(self.entries)
        size = sum(map(len, self.current.texts.values()))
        told = {"sessions": 1, "workers": 0, "chapter": 0, "due": left, "left": left, "bytes": size, "kept": self.kept}
        return "".join(f"{word} {number}\n" for word, number in told.items())

    def object(self, package):
        if not is_path(package, 1):
            raise Refusal(3)
        workspace = self.current.workspace
        if package not in workspace.packages:
            raise Refusal(16)
        if package not in self.current.finished:
            raise Refusal(20, package + "\n")
        faults = workspace.package_faults(package)
        if faults:
            raise Refusal(9, fault_lines(faults[:1]))
        return object_of(workspace, package)


    def objects(self, basis):
        """How the object of each package compares with that in the state of a number."""
        before = next((state for state in self.states if state.number == basis), None)
        if before is None:
            raise Refusal(6, f"{self.current.number}\n")
        lines = []
        for package in self.current.workspace.order:
            text = self.current.object_of(package)
            told = "missing" if text is None else "equal" if before.object_of(package) == text else "differs"
            lines.append(f"{told} {package}\n")
        return "".join(lines)


def a_number(word, bits=64):
    if not re.fullmatch("0|[1-9][0-9]*", word) or int(word) >= 2**bits:
        raise Refusal(2)
    return int(word)


def a_place(word):
    """The path and the offset of a word that is cut at its last `:#`."""
    path, sign, offset = word.rpartition(":#")
    if not sign:
        raise Refusal(2)
    return path, a_number(offset, 32)


def uses_of(workspace, texts, path, offset):
    """The number of a refusal and its body, or None and the lines."""
    if not is_path(path):
        return 3, ""
    if path not in texts:
        return 4, ""
    if path.endswith(".go"):
        found = workspace.uses(path, offset)
    else:
        found = 9 if workspace.faults() else 10
    if found == 9:
        return 9, fault_lines(workspace.faults()[:1])
    if isinstance(found, int):
        return found, ""
    return None, "".join("%s:#%d\n" % place for place in found)


def uses_told(state, path, offset):
    code, body = uses_of(state.workspace, state.texts, path, offset)
    if code is not None:
        raise Refusal(code, body)
    return body


def words_of(line, verbs):
    """The words of a line by its first, as many as the verb has. A line is text of at most 1,024 bytes."""
    if len(line) > 1024:
        raise Refusal(2)
    try:
        words = line.decode().split(" ")
    except UnicodeDecodeError:
        raise Refusal(2) from None
    if words[0] not in verbs or len(words) - 1 != verbs[words[0]] or "" in words:
        raise Refusal(2)
    return words


VERBS = {
    "look": 0,
    "put": 3,
    "del": 2,
    "rename": 3,
    "move": 3,
    "undo": 1,
    "redo": 1,
    "cat": 1,
    "list": 0,
    "faults": 0,
    "uses": 1,
    "object": 1,
    "objects": 1,
    "work": 0,
    "log": 1,
    "status": 0,
    "end": 0,
}


def body_of(history, words, body):
    """The body of the reply to a command that was read whole."""
    verb, *rest = words
    basis = a_number(rest[0]) if verb in ("put", "del", "rename", "move", "undo", "redo") else None
    since = a_number(rest[0]) if verb == "objects" else None
    if verb == "put":
        a_number(rest[2], 32)
    place = a_place(rest[0] if verb == "uses" else rest[1]) if verb in ("uses", "rename") else None
    if verb == "log":
        return history.log(a_number(rest[0]))
    if verb == "status":
        return history.status()
    history.enter("look")
    if basis is not None:
        history.meant_for(basis)
    texts = history.current.texts
    if verb in ("put", "del", "cat"):
        path = rest[-1] if verb == "cat" else rest[1]
        if not is_path(path):
            raise Refusal(3)
        if verb != "put" and path not in texts:
            raise Refusal(4)
    if verb == "put":
        if texts.get(path) == body:
            raise Refusal(13)
        history.change({**texts, path: body}, len(body))
    elif verb == "del":
        history.change({other: text for other, text in texts.items() if other != path})
    elif verb == "rename":
        edits = plan_rename(history.current.workspace, texts, *place, rest[2])
        history.change(edits.edited(texts), edits.bytes_put())
    elif verb == "move":
        edits = plan_move(history.current.workspace, texts, rest[1], rest[2])
        history.change(edits.edited(texts), edits.bytes_put())
    elif verb == "undo":
        history.move(verb, -1, 7)
    elif verb == "redo":
        history.move(verb, 1, 8)
    elif verb == "cat":
        return texts[path]
    elif verb == "look":
        return f"undo {history.cursor} redo {len(history.states) - 1 - history.cursor}\n"
    elif verb == "list":
        return "".join(f"{other} {len(texts[other])}\n" for other in sorted(texts, key=str.encode))
    elif verb == "faults":
        return fault_lines(history.current.workspace.faults())
    elif verb == "uses":
        return uses_told(history.current, *place)
    elif verb == "object":
        return history.object(rest[0])
    elif verb == "objects":
        return history.objects(since)
    elif verb == "work":
        return history.work()
    return ""


def reply(history, line, body=None):
    """The reply to one command, which is not `end`, on a book with this history."""
    try:
        told = body_of(history, words_of(line, VERBS), body)
        told = told if isinstance(told, bytes) else told.encode()
        return f"ok {history.current.number} {len(told)}\n".encode() + told
    except Refusal as refusal:
        told = refusal.body.encode()
        return f"no {refusal.code} {len(told)}\n".encode() + told


def size_of(line):
    """How many bytes a line asks for behind it."""
    try:
        words = words_of(line, VERBS)
        if words[0] != "put":
            return 0
        a_number(words[1])
        return a_number(words[3], 32)
    except Refusal:
        return 0


def answered(history, sent, answer=reply):
    """What a session writes to an input, each of whose commands is answered so on this history."""
    written = b""
    while sent:
        line, _, sent = sent.partition(b"\n")
        if line == b"end":
            break
        size = size_of(line)
        body, sent = sent[:size], sent[size:]
        if len(body) < size:
            return written + b"no 24 0\n"
        written += answer(history, line, body)
    return written


def replies(sent, journal=None, interfaces=True):
    """What a session on a new book writes to an input."""
    return answered(History(journal, interfaces), sent)
