"""Compares what the model with interface types and Go's own type checker refuse, and what their renames of methods leave.

    python3 -m checks.compare.interfaces_beside_go [SECONDS [SEED [gorename | gopls]]]

It needs `go`. First come statements: each operator between each two operands, each operation on each operand, and each value where each type
is wanted, with interfaces among them. It prints by forms what one of the two alone refuses. Then come random workspaces, with and without
slips: the model finds a fault exactly where Go has an error, but for forms that docs/GO.md lists. In those without faults it renames methods:
behind each rename that the model admits Go's checker has no error, and each name is bound to the corresponding declaration, as Go tells
it. With the name of a tool it also gives the renames to it, and counts them by both answers.
"""

import collections
import os
import random
import re
import subprocess
import sys
import tempfile
import time

from checks.compare.beside_go import HERE, form, in_files, operations, show
from checks.compare.beside_gorename import Folder, form_of, planned
from checks.generate import interfaces
from checks.model.identifiers import Identifiers
from checks.model.implementing import is_asked
from checks.model.renames import plan_rename
from checks.model.workspace import Workspace

OTHER = """package b

type I interface {
	M() int
}

type H interface {
	m() int
}

type T struct {
	X int
}

func (t T) M() int {
	return 1
}

func (t T) m() int {
	return 1
}

var V I

var W H
"""
DECLARED = """package a

import "b"

type I interface {
	M() int
}

type J I

type K interface {
	M() int
	N(x int) (I, bool)
}

type L interface {
	M() int
}

type E interface{}

type B b.H

type T struct {
	i I
	e E
	s []I
}

func (t T) M() int {
	return 1
}

type U int

func (u *U) M() int {
	return 1
}

func (u U) N(x int) (I, bool) {
	return nil, true
}

type W int

func (w W) M() string {
	return "s"
}

type R I

func f1() T {
	return T{}
}

func f2() (I, T) {
	return nil, T{}
}

func fi(i I) {
}

func fe(e E, i I) E {
	return e
}

func f3() (int, I) {
	return 1, nil
}

"""
PARAMETERS = (
    "i I, j J, k K, l L, e E, bb B, t T, pt *T, u U, pu *U, w W, pi *I, si []I, se []E, n int, g string, h bool, bi b.I, bh b.H, bt b.T, pb *b.T, ppu **U"
)
VARIABLES = [parameter.split()[0] for parameter in PARAMETERS.split(", ")]
VALUES = VARIABLES + '1 "a" true nil (1<2) f1() f2() T{} &T{} []I{} b.V b.W I(t) E(1) i.M() t.i t.e si[0] fe(1,nil) U(1) i.M fi I b.I'.split()
TYPES = "I J K L E B T *T U *U W int string bool *I []I []E b.I b.H b.T *b.T".split()
PLACES = (
    "{0}|({0})|_ = {0}|_, _ = {0}|_ = len({0})|print({0})|panic({0})|_ = append(si, {0})|_ = append(se, {0})|_ = append(se, {0}, 1)|fi({0})|_ = fe({0}, {0})|"
    "_ = T{{i: {0}}}|_ = T{{e: {0}}}|_ = T{{s: {0}}}|_ = []I{{{0}}}|_ = []E{{{0}, {0}}}|_ = [][]I{{{0}}}|{0} = {0}|{0} = nil|i = {0}|e = {0}|i, e = {0}, {0}|"
    "i, e = {0}|{{ var x, y I = {0}; _ = x; _ = y }}|{{ var x, y E = {0}; _ = x; _ = y }}|{{ x := {0}; _ = x }}|{{ var x = {0}; _ = x }}|_ = -{0}|_ = !{0}|_ = *{0}|"
    "if ({0}) {{ }}|{0}++|{0} += 1|_ = n + {0}|return {0}|return {0}, {0}|{{ var x E; x, y := {0}, 1; _ = x; _ = y }}"
).split("|")
LINKS = "_ = {0}.M()|{0}.M()|_, _ = {0}.N(1)|{0}.N(nil)|_ = {0}.m()|_ = {0}.X|_ = {0}.x|_ = {0}.i|_ = {0}.i.M()|_ = {0}[0]|_ = {0}()|_ = {0}(1)".split("|")
EXCUSED = re.compile("declared but not used|missing return")


def statements():
    yield from operations(VALUES)
    for value in VALUES:
        yield from (place.format(value) for place in PLACES)
        if value != "1":
            yield from (link.format(value) for link in LINKS if value != "&T{}")
        for typ in TYPES:
            yield f"{{ var x {typ} = {value}; _ = x }}"
            if typ[0] not in "*[":
                yield f"_ = {typ}({value})"
            if typ[0] != "*":
                yield f"_ = {typ}{{{value}}}"
                yield f"_ = {typ}{{M: {value}}}" if typ[0] != "[" else "{}"


def texts():
    """The files of all statements."""
    head = DECLARED + f"func F({PARAMETERS}) (I, E) {{\n"
    return in_files(statements(), head, "\n_ = b.V\nreturn i, e\n}\n", 400)


def refused_by_model(workspace):
    """The lines at which the model finds faults, each with its kind."""
    return {
        (path, workspace.files[path].source[:offset].count(b"\n") + 1): kind for path, offset, kind in workspace.faults()
    }


class Checker:
    """Go's own type checker, built once."""

    def __init__(self, root):
        self.program = os.path.join(root, "checker")
        environment = dict(os.environ, GO111MODULE="off", GOFLAGS="", GOCACHE=os.path.join(root, "cache"))
        source = os.path.join(HERE, "go_types", "main.go")
        subprocess.run(["go", "build", "-o", self.program, source], env=environment, check=True)

    def told(self, texts, *words):
        with tempfile.TemporaryDirectory() as folder:
            for path, text in texts.items():
                whole = os.path.join(folder, path)
                os.makedirs(os.path.dirname(whole), exist_ok=True)
                with open(whole, "wb") as file:
                    file.write(text)
            return subprocess.run([self.program, *words, folder], stdout=subprocess.PIPE, check=True).stdout.decode()

    def refused(self, texts):
        """The lines at which Go has errors, each with its first."""
        lines = {}
        for path, line, message in re.findall(r"^([^#:\s]+):(\d+) (.*)$", self.told(texts), re.M):
            if not EXCUSED.search(message):
                lines.setdefault((path, int(line)), message)
        return lines

    def bindings(self, texts):
        """For each identifier that is bound in some file its place and that of its declaration."""
        lines = re.findall(r"^([^#:\s]+):#(\d+) is (\S+):#(\d+)$", self.told(texts, "-bindings"), re.M)
        return {(path, int(at)): (other, int(where)) for path, at, other, where in lines}


def of_form(statement):
    """A statement with the same sign for each operand that is a variable."""
    return re.sub(r"(?<![\w.])(%s)(?![\w(])" % "|".join(VARIABLES), "v", form(statement))


def compare_statements(checker):
    narrower, wider = collections.defaultdict(list), collections.defaultdict(list)
    count = 0
    for some, first, text in texts():
        count += len(some)
        files = {"a/a.go": text.encode(), "b/b.go": OTHER.encode()}
        model, go = refused_by_model(Workspace(files, interfaces=True)), checker.refused(files)
        other = {place: kind for place, kind in model.items() if kind != "type" or place[0] != "a/a.go"}
        if other:
            sys.exit(f"{other}: no faults of types")
        for line, statement in enumerate(some, first):
            place = ("a/a.go", line)
            if place in model and place not in go:
                narrower[of_form(statement)].append(statement)
            if place in go and place not in model:
                wider[go[place]].append(f"{statement}    ({go[place]})")
    print(f"{count} statements")
    show("refused by the model and not by Go", narrower)
    show("refused by Go and not by the model", wider)


def compare_texts(checker, texts, counts):
    """Whether the model finds a fault exactly where Go has an error."""
    workspace = Workspace(texts, interfaces=True)
    model = {place: kind for place, kind in refused_by_model(workspace).items() if kind != "import"}
    go = checker.refused(texts)
    counts["workspaces without faults" if not model else "workspaces with faults"] += 1
    if bool(model) == bool(go):
        return workspace
    title = "refused by the model alone" if model else "refused by Go alone"
    counts[title] += 1
    if counts[title] <= 3:
        print(title, model or go)
        for path, text in texts.items():
            print(f"--- {path}\n{text.decode()}")
    return workspace


def compare_renames(checker, generator, workspace, texts, counts, folder):
    """Some renames of members; whether Go agrees with each that the model admits."""
    identifiers = Identifiers(workspace)
    members = [i for i in identifiers.all if i.declaration is not None and i.declaration.kind in ("method", "field")]
    names = sorted({i.name for i in members}) + ["Z", "z"]
    before = None
    for use in generator.sample(members, min(len(members), 12)):
        name = generator.choice(names)
        way = "of an interface" if is_asked(use.declaration) else f"of a {use.declaration.kind}"
        after, refusal = planned(plan_rename, workspace, texts, use.path, use.offset, name)
        counts[f"renames {way}: " + ("admitted" if refusal is None else refusal.split(" ")[0])] += 1
        if folder is not None and name != use.name and generator.random() < 0.3:
            compare_with_tool(folder, texts, use, name, after, refusal, way, counts)
        if after is None:
            continue
        before = checker.bindings(texts) if before is None else before
        wrong = checker.refused(after) or wrong_bindings(before, checker.bindings(after), texts, after)
        if wrong:
            print(f"{use.path}:#{use.offset} to {name}: {wrong}")
            for path, text in texts.items():
                print(f"--- {path}\n{text.decode()}")
            sys.exit(1)


def moved(texts, after):
    """The places of the words of each file, by those that they had: a rename changes no other piece."""
    found = {}
    for path, text in texts.items():
        pairs = zip(re.finditer(rb"\w+|[^\w\s]", text), re.finditer(rb"\w+|[^\w\s]", after[path]))
        found.update({(path, old.start()): (path, new.start()) for old, new in pairs})
    return found


def wrong_bindings(before, then, texts, after):
    """The first bindings that don't correspond, by Go."""
    places = moved(texts, after)
    wanted = {places[use]: places[declared] for use, declared in before.items()}
    return sorted(set(wanted.items()) ^ set(then.items()))[:4]


def compare_with_tool(folder, texts, use, name, after, refusal, way, counts):
    folder.put(texts)
    place = f"{os.path.join(folder.sources, use.path)}:#{use.offset}"
    words = ["gopls", "rename", "-w", place, name] if folder.by_gopls else ["gorename", "-offset", place, "-to", name]
    lines, status = folder.run(*words)
    tool = "gopls" if folder.by_gopls else "gorename"
    if after is not None and not status:
        same = {p: re.findall(rb"\w+", t) for p, t in folder.texts().items()} == {p: re.findall(rb"\w+", t) for p, t in after.items()}
        counts[f"{tool} {way}: both admit, " + ("the same files" if same else "other files")] += 1
        key = None if same else f"{tool} {way}: other files"
    elif after is None and status:
        counts[f"{tool} {way}: both refuse"] += 1
        key = None
    else:
        key = f"{tool} {way}: " + (f"refused by the model alone, {refusal.split(' ')[0]}" if after is None else "refused by the tool alone")
        key += "" if after is None else ": " + form_of(lines)[:160]
        counts[key] += 1
    if key is not None and counts[key] <= 1:
        print(f"{key}: {use.path}:#{use.offset} {use.name} to {name} ({refusal or lines})")
        for path, text in texts.items():
            print(f"--- {path}\n{text.decode()}")


def main():
    seconds = int(sys.argv[1]) if len(sys.argv) > 1 else 60
    generator = random.Random(int(sys.argv[2]) if len(sys.argv) > 2 else 0)
    counts = collections.Counter()
    with tempfile.TemporaryDirectory() as root:
        checker = Checker(root)
        tools = [word for word in sys.argv[3:] if word in ("gorename", "gopls")]
        folder = Folder(os.path.join(root, "tree"), tools == ["gopls"]) if tools else None
        if folder is not None:
            os.makedirs(folder.sources)
        compare_statements(checker)
        end = time.monotonic() + seconds
        while time.monotonic() < end:
            found = interfaces.any_implementing(generator, generator.choice([0.0, 0.0, 0.01, 0.05]))
            workspace = compare_texts(checker, found, counts)
            if not workspace.faults():
                compare_renames(checker, generator, workspace, found, counts, folder)
    for title, count in sorted(counts.items()):
        print(count, title)


if __name__ == "__main__":
    main()
