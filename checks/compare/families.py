"""Workspaces of families, and a model of them that is fast: what it tells of a family is kept by the texts of its files.

A family is what lies below one of the folders s0 to s9. Its packages import none but one another, so faults, renames and moves of a family are
those of a workspace that has nothing else. All families have the same few texts, but for their names: so each is seen as if it were s0.
"""

import collections
import functools
import re

from checks.model import history as model
from checks.model.refusals import fault_lines

NAMES = tuple(f"s{n}" for n in range(10))
OF_FAMILY = re.compile(rb"(?<![^ ])(s[0-9])/")
NAME = re.compile(rb"[A-Za-z_][A-Za-z_0-9]*")
KEYWORDS = {b"package", b"import", b"var", b"func", b"type", b"struct", b"return"}
PREDECLARED = b"int"

FOLDERS = ("s0/a", "s0/b", "s0/m", "s0/q")
OTHER_NAMES = {b"x": "v", b"v": "x", b"F": "G", b"G": "F", b"y": "z", b"z": "y", b"U": "V", b"V": "U"}
NAMES_REFUSED = ("func", "1x", "x")

Told = collections.namedtuple("Told", "ok code body after put")


class Family:
    """The files of a family, with what the model tells of them, as it is asked for."""

    def __init__(self, files):
        self.texts = dict(files)
        self.told = {}
        self.size = sum(map(len, self.texts.values()))

    def state(self):
        return states(self)

    @functools.cached_property
    def order(self):
        return self.state().workspace.order

    @functools.cached_property
    def closures(self):
        """The files of what each package is built from, itself among them."""
        return {package: self.state().closure_texts(package) for package in self.order}

    @functools.cached_property
    def faults(self):
        return fault_lines(self.state().workspace.faults()).encode()

    @functools.cached_property
    def predeclared(self):
        """The places where the predeclared name stands."""
        for path, text in self.texts.items():
            at = re.search(rb"\b%s\b" % PREDECLARED, text) if path.endswith(".go") else None
            if at:
                return self.ask(b"uses %s:#%d" % (path.encode(), at.start())).body
        return b""

    def ask(self, line, body=b""):
        """What the model tells of a command; a change has the basis 0. An object is asked for as if all packages were finished."""
        found = self.told.get((line, body))
        if found is None:
            found = self.told[line, body] = self.asked(line, body)
        return found

    def asked(self, line, body):
        history = model.History()
        state = self.state()
        history.states = [state]
        if line.startswith(b"object "):
            state.finished = set(self.order)
        head, _, told = model.reply(history, line, body).partition(b"\n")
        state.finished = set()
        word, code, _ = head.split()
        after = family_of(history.current.texts) if history.current is not state else None
        return Told(word == b"ok", int(code), told, after, history.kept)


@functools.lru_cache(maxsize=2_000)
def states(family):
    return model.State(0, family.texts, set())


@functools.lru_cache(maxsize=30_000)
def family_with(files):
    return Family(files)


def family_of(texts):
    """The family that has these files. One with Go files is the same where the files are."""
    files = tuple(sorted(texts.items()))
    return family_with(files) if any(path.endswith(".go") for path in texts) else Family(files)


NONE = family_of({})


def as_first(name, text):
    """A line or a text of a family, as if its name were s0."""
    return text.replace(name + b"/", b"s0/")


def as_named(name, text):
    return text.replace(b"s0/", name + b"/")


class State:
    """A state of the workspace: its families by their names, and which packages may be finished, and which are for certain."""

    def __init__(self, number, families, finished, sure):
        self.number, self.families, self.finished, self.sure = number, families, finished, sure

    def family(self, name):
        return self.families.get(name, NONE)

    @functools.cached_property
    def order(self):
        return [as_named(name, package.encode()).decode() for name in sorted(self.families) for package in self.families[name].order]

    @property
    def size(self):
        return sum(family.size for family in self.families.values())

    def texts(self):
        """All files, by their paths."""
        return {
            as_named(name, path.encode()): as_named(name, text) for name, family in self.families.items() for path, text in family.texts.items()
        }

    def faults(self):
        return b"".join(as_named(name, self.families[name].faults) for name in sorted(self.families))

    def change(self, line, body):
        """What the model tells of a change, the basis aside, and the families behind it."""
        name, told = self.ask_family(line, body)
        if not told.ok:
            return told, None
        families = self.families | {name: told.after}
        return told, families

    def ask_family(self, line, body=b""):
        found = OF_FAMILY.search(line)
        name = found[1] if found else b"s0"
        verb, rest = line.split(b" ", 1)
        if verb in (b"put", b"del", b"rename", b"move"):
            line = b"%s 0 %s" % (verb, rest.split(b" ", 1)[1])
        told = self.family(name).ask(as_first(name, line), as_first(name, body))
        return name, told._replace(body=as_named(name, told.body))

    def carried(self, name, after, packages):
        """Of these packages those that stay finished where a family becomes another one."""
        before = self.family(name).closures
        prefix = name.decode() + "/"
        kept = set()
        for package in packages:
            if package.startswith(prefix):
                first = "s0/" + package[len(prefix) :]
                if first not in after.closures or after.closures[first] != before[first]:
                    continue
            kept.add(package)
        return kept

    def question(self, line):
        """The head of the reply, without its size, and the body of a question, as if all packages were finished."""
        verb = line.split(b" ")[0]
        if verb == b"list":
            texts = self.texts()
            return b"ok %d" % self.number, b"".join(b"%s %d\n" % (path, len(texts[path])) for path in sorted(texts))
        if verb == b"faults":
            return b"ok %d" % self.number, self.faults()
        name, told = self.ask_family(line)
        if verb == b"uses" and (told.ok or told.code >= 9):
            faults = self.faults()
            if faults:
                return b"no 9", faults[: faults.index(b"\n") + 1]
            if told.ok and self.is_predeclared(name, line):
                return b"ok %d" % self.number, b"".join(as_named(n, self.families[n].predeclared) for n in sorted(self.families))
        return (b"ok %d" % self.number if told.ok else b"no %d" % told.code), told.body

    def is_predeclared(self, name, line):
        path, _, offset = as_first(name, line.split(b" ")[1]).rpartition(b":#")
        text, offset = self.family(name).texts[path.decode()], int(offset)
        return any(found.start() <= offset < found.end() for found in re.finditer(rb"\b%s\b" % PREDECLARED, text))


class History:
    """The states that undo and redo reach, by the model."""

    def __init__(self):
        self.states = [State(0, {}, set(), set())]
        self.cursor, self.numbers = 0, 1

    @property
    def current(self):
        return self.states[self.cursor]

    def change(self, line, body):
        """Makes a change. It answers the head of the reply and its body, and how many bytes it puts into files."""
        old = self.current
        told, families = old.change(line, body)
        if families is None:
            return b"no %d" % told.code, told.body, 0
        name = OF_FAMILY.search(line)[1]
        finished, sure = (old.carried(name, told.after, packages) for packages in (old.finished, old.sure))
        state = State(self.numbers, families, finished, sure)
        self.states = (self.states[: self.cursor + 1] + [state])[-model.UNDO_DEPTH - 1 :]
        self.cursor = len(self.states) - 1
        self.numbers += 1
        return b"ok %d" % state.number, b"", told.put

    def steps(self, by):
        """Whether there is a state so many steps on."""
        return 0 <= self.cursor + by < len(self.states)

    def looked(self):
        return b"undo %d redo %d\n" % (self.cursor, len(self.states) - 1 - self.cursor)


@functools.lru_cache(maxsize=20_000)
def places(text):
    """Offsets in a text where a name stands, or the path of an import, or none."""
    found = [at.start() for at in NAME.finditer(text) if at[0] not in KEYWORDS]
    renamed = [at.start() for at in NAME.finditer(text) if at[0] in OTHER_NAMES]
    return [*found, *renamed * 3, 0]


PATHS = ("s0/a/a.go", "s0/b/b.go")
TAIL = re.compile(rb"\n(var [ab] int|var u nothing)\n$")


def some_text(generator, path, texts):
    """A text for a file of the family s0 which has these files."""
    one = generator.choice
    name = path.split("/")[-2]
    if path.endswith("/b.go"):
        declared = re.findall(rb"\nfunc ([FG])\(", texts.get("s0/a/a.go", b"")) if generator.random() < 0.97 else []
        called = declared[0].decode() if declared else one("FG")
        return f'package {name}\n\nimport "s0/a"\n\nfunc U(n int) int {{\n\treturn a.{called}(n)\n}}\n'.encode()
    return f"package {name}\n\nvar x int = 3\n\nfunc F(y int) int {{\n\treturn x + y\n}}\n".encode()


def changed_text(generator, path, text):
    """Another text of a file: with another last declaration, now and then with a fault."""
    least = TAIL.sub(b"", text)
    if least != text and generator.random() < 0.9:
        return least
    return least + (b"\nvar u nothing\n" if generator.random() < 0.03 else b"\nvar %s int\n" % path.split("/")[-1][:1].encode())


def any_put(generator, texts):
    """A path and a text for it, in the family s0 which has these files."""
    go = sorted(texts)
    if go and generator.random() < 0.7:
        path = generator.choice(go)
        return path, changed_text(generator, path, texts[path])
    path = PATHS["s0/a/a.go" in texts and generator.random() < 0.6 or "s0/m/a.go" in texts]
    return path, some_text(generator, path, texts)


def any_move(generator):
    """Where a package of the family s0 is moved from and to."""
    source = generator.choice(["s0/a", "s0/m"])
    return source, generator.choice(["s0/a", "s0/m", "s0/m", source + "/q"])


def any_name(generator, text, offset):
    """A new name for what stands at an offset."""
    at = next((at[0] for at in NAME.finditer(text) if at.start() <= offset < at.end()), b"")
    return OTHER_NAMES[at] if at in OTHER_NAMES and generator.random() < 0.9 else generator.choice(NAMES_REFUSED)
