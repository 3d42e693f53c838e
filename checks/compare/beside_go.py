"""Compares which statements a built program and Go's own type checker refuse.

    python3 -m checks.compare.beside_go PROGRAM

It needs `go`. The statements have each operator between each two operands, each operation on each operand, and each value where each type
is wanted. It prints by forms what only the program refuses, which docs/GO.md calls narrower, and what only Go refuses, which it calls wider.

It gives each example of docs/GO.md to both. The program has to find the faults that the document shows. Go has to build an example that is
narrower here, and to refuse one that is wider.
"""

import collections
import os
import pathlib
import re
import subprocess
import sys
import tempfile

from checks import TOP
from checks.gate.documents import examples, files_of
from checks.tools.puts import session

HERE = os.path.dirname(os.path.abspath(__file__))
OTHER = """package b

type T struct {
	X, y int
}

type I int

func (i I) M() int {
	return 1
}

func F(n int) I {
	return 1
}

var V I
"""
DECLARED = """package a

import "b"

type T struct {
	x int
	p *T
	s []T
	i I
}

type U T

type W struct {
	x int
	p *T
	s []T
	i I
}

type (
	I int
	J I
	R string
	Q bool
	P *T
	S []int
	L []T
)

func (t T) v() int {
	return t.x
}

func (t *T) w() int {
	return t.x
}

func (s S) v() int {
	return 1
}

func (i *I) w() {
}

func f0() {
}

func f1() int {
	return 1
}

func f2() (int, string) {
	return 1, "s"
}

func ft() T {
	return T{}
}

func fp() *T {
	return nil
}

"""
PARAMETERS = (
    "t T, u U, w W, n int, i I, j J, r R, g string, q Q, h bool, p *T, o P, pp **T, s S, l L, m []int, k []T, "
    "pi *I, bt b.T, bi b.I, pb *b.T, sb []b.I"
)
VARIABLES = [parameter.split()[0] for parameter in PARAMETERS.split(", ")]
VALUES = VARIABLES + (
    '1 "a" true nil (1<2) f0() f1() f2() ft() fp() T{} &T{} S{1} []int{} b.V b.F(1) f1 T len b I(1) t.x p.p m[0] *p t.v b.F b.I'
).split()
TYPES = "T U W int I J R string Q bool *T P **T S L []int []T *I b.T b.I *b.T []b.I".split()
OPERATORS = "+ - * / % == != < <= > >= && ||".split()
PLACES = (
    "{0}|({0})|_ = m[{0}]|_, _ = {0}, {0}|_, _ = {0}|_ = len({0})|print({0}, 1)|panic({0})|"
    "_ = append({0}, 1)|_ = append({0})|_ = append(m, {0})|_ = append(k, {0}, t)|return {0}|_ = T{{x: {0}}}|"
    "_ = T{{p: {0}, s: {0}}}|_ = []T{{{0}, {0}}}|{0} = {0}|_, {0} = 1, {0}|{0}, _ = f2()|{0}++|{0} += 1|"
    "{{ x := {0}; _ = x }}|{{ var x = {0}; _ = x }}|_ = - {0}|_ = !{0}|_ = *{0}|_ = + {0}|if ({0}) {{ }}|for ({0}) {{ }}"
).split("|")
LINKS = "_ = {0}(1)|{0}()|_ = {0}()|_ = {0}[0]|_ = {0}.x|_ = {0}.X|_ = {0}.y|_ = {0}.M()|_ = {0}.v()|{0}.w()|_ = {0}.p.s[0].i|{0}.x = 1".split("|")


def operations(values):
    """Each operator between each two of these values."""
    for left in values:
        for right in values:
            yield from (f"_ = {left} {operator} {right}" for operator in OPERATORS)


def statements():
    """Each stands on a line of its own, and none has a fault before the stage of types."""
    yield from operations(VALUES)
    for value in VALUES:
        yield from (place.format(value) for place in PLACES)
        # no number before a point, no link behind `&T{}`, no name behind a package that it does not export
        if value not in ("1", "&T{}", "b"):
            yield from (link.format(value) for link in LINKS)
        for typ in TYPES:
            yield f"{{ var x {typ} = {value}; _ = x }}"
            if typ[0] not in "*[":
                yield f"_ = {typ}({value})"
            if typ[0] == "[":
                yield f"_ = {typ}{{{value}}}"


def in_files(every, head, end, size):
    """Files of so many of these statements each, behind a head and before an end, and the number of the line of the first."""
    every = list(dict.fromkeys(every))
    for at in range(0, len(every), size):
        some = every[at : at + size]
        yield some, head.count("\n") + 1, head + "\n".join(some) + end


def texts():
    """The files of all statements."""
    head = DECLARED + f"func F({PARAMETERS}) (int, string) {{\n"
    return in_files(statements(), head, "\n_ = b.V\nreturn 1, g\n}\n", 500)


def put(basis, path, text):
    return b"put %d %s %d\n" % (basis, path.encode(), len(text)) + text.encode()


def refused_by_program(program, text):
    """The lines of a file at which the program finds faults of types."""
    sent = put(0, "b/b.go", OTHER) + put(1, "a/a.go", text) + b"faults\n"
    told = subprocess.run([program, "run"], input=sent, stdout=subprocess.PIPE, check=True).stdout.decode()
    lines = set()
    for path, offset, kind in re.findall(r"^(\S+):#(\d+) (\w+)$", told, re.M):
        line = text.encode()[: int(offset)].count(b"\n") + 1
        if path != "a/a.go" or kind != "type":
            sys.exit(f"{path}:{line} {kind}: {text.splitlines()[line - 1]}")
        lines.add(line)
    return lines


def refused_by_go(checker, text):
    """The lines at which Go's checker has errors, each with its first."""
    with tempfile.TemporaryDirectory() as folder:
        for path, source in (("a", text), ("b", OTHER)):
            os.mkdir(os.path.join(folder, path))
            with open(os.path.join(folder, path, "x.go"), "w", encoding="utf-8") as file:
                file.write(source)
        told = subprocess.run([checker, folder], stdout=subprocess.PIPE, check=True).stdout.decode()
    lines = {}
    for line, message in re.findall(r"^a/x\.go:(\d+) (.*)$", told, re.M):
        lines.setdefault(int(line), message)
    return lines


def form(statement):
    """A statement with the same sign for each operand that is a variable."""
    return re.sub(r"(?<![\w.])(%s)(?![\w(])" % "|".join(VARIABLES), "v", statement)


def kinds_by_program(program, files):
    """The kinds of faults that the program finds, as docs/GO.md has them."""
    texts = {path: text for path, text in sorted(files.items())}
    told = subprocess.run([program, "run"], input=session(texts, ["faults"]), stdout=subprocess.PIPE, check=True).stdout.decode()
    return ", ".join(dict.fromkeys(re.findall(r"^\S+:#\d+ (\w+)$", told, re.M))) or "none"


def is_built_by_go(files, environment):
    """Whether Go builds the package of `a/a.go`."""
    with tempfile.TemporaryDirectory() as folder:
        for path, text in files.items():
            file = pathlib.Path(folder, "src", path)
            file.parent.mkdir(parents=True)
            file.write_bytes(text)
        command = ["go", "build", "-o", os.devnull, "a"]
        return subprocess.run(command, cwd=folder, env=dict(environment, GOPATH=folder), capture_output=True).returncode == 0


def wrong_examples(program, environment):
    """The examples of docs/GO.md of which what it tells is not so, and how many there are."""
    wrong, count = [], 0
    for section, package, example, here in examples((TOP / "docs" / "GO.md").read_text()):
        count += 1
        files = files_of(package, example)
        told, is_wider = kinds_by_program(program, files), section.startswith("Wider")
        if told != here or is_wider != (here == "none"):
            wrong.append(f"{example}: {told} here, and not {here}")
        if is_built_by_go(files, environment) == is_wider:
            wrong.append(f"{example}: Go {'builds' if is_wider else 'refuses'} it")
    return wrong, count


def show(title, found):
    print(f"{title}: {sum(len(examples) for examples in found.values())}")
    for examples in sorted(found.values(), key=len, reverse=True):
        print(f"  {len(examples):5d}  {examples[0]}")


def main():
    if len(sys.argv) != 2:
        sys.exit("usage: python3 -m checks.compare.beside_go PROGRAM")
    narrower, wider = collections.defaultdict(list), collections.defaultdict(list)
    count = 0
    with tempfile.TemporaryDirectory() as folder:
        checker = os.path.join(folder, "checker")
        source = os.path.join(HERE, "go_types", "main.go")
        environment = dict(os.environ, GO111MODULE="off", GOFLAGS="", GOCACHE=os.path.join(folder, "cache"))
        subprocess.run(["go", "build", "-o", checker, source], env=environment, check=True)
        for some, first, text in texts():
            count += len(some)
            program, go = refused_by_program(sys.argv[1], text), refused_by_go(checker, text)
            for line, statement in enumerate(some, first):
                if line in program and line not in go:
                    narrower[form(statement)].append(statement)
                if line in go and line not in program:
                    wider[go[line]].append(f"{statement}    ({go[line]})")
        wrong, told = wrong_examples(sys.argv[1], environment)
    print(f"{count} statements")
    show("refused here and not by Go", narrower)
    show("refused by Go and not here", wider)
    print(f"{told} examples of docs/GO.md, of which {len(wrong)} are told wrongly", *wrong, sep="\n  ")
    sys.exit(1 if wrong else 0)


if __name__ == "__main__":
    main()
