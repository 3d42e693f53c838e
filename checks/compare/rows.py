"""Compares worked renames and moves, with answers written by hand, with the model.

    python3 -m checks.compare.rows [FOLDER ..]

It also compares the sessions NAME.in, NAME.out of the folders that rename or move.
"""

import pathlib
import re
import sys

from checks.model.history import replies


def put(number, path, size, text):
    """A put of a text of so many bytes, and its answer."""
    assert len(text) == size, (path, len(text), size)
    return f"put {number} {path} {size}\n{text}", f"ok {number + 1} 0\n"


def ask(line, answer, body=""):
    """A command and its answer, whose length is that of the body."""
    assert int(answer.split(" ")[2]) == len(body), (line, len(body))
    return line + "\n", answer + "\n" + body


def refused(line, code):
    return ask(line, f"no {code} 0")


A = put(0, "a/a.go", 58, "package a\n\nvar x int\n\nfunc F(y int) int {\n\treturn x + y\n}\n")
OBJECT = "object a a\nvar a#x int\nfunc a#F (int) (int) 1 5\nglobal a#x\nlocal 0\nop +\nret 1\nend\n"
ASSIGNED = put(
    0,
    "a/a.go",
    144,
    "package a\n\nfunc f() (int, int) {\n\treturn 1, 2\n}\n\nfunc G() int {\n\tvar x int\n\tx, z := f()\n\tif z > 0 {\n"
    "\t\tx, w := f()\n\t\treturn x + w\n\t}\n\treturn x\n}\n",
)
LEN = put(0, "a/a.go", 66, "package a\n\nvar n int\n\nfunc F(s string) int {\n\treturn len(s) + n\n}\n")
MOVED = [
    put(0, "a/a.go", 21, "package a\n\nvar X int\n"),
    put(1, "a/s/s.go", 21, "package s\n\nvar Y int\n"),
    put(
        2,
        "m/m.go",
        90,
        'package m\n\nimport "a"\nimport k `a`\nimport "a/s"\n\nfunc F() int {\n\treturn a.X + k.X + s.Y\n}\n',
    ),
]

ROWS = {
    "the renamed use is captured": [A, ask("rename 1 a/a.go:#15 y", "no 14 25", "a/a.go:#50 by a/a.go:#29\n")],
    "the use of another is captured": [A, ask("rename 1 a/a.go:#29 x", "no 14 25", "a/a.go:#50 by a/a.go:#29\n")],
    "an object over a rename and its undo": [
        A,
        ask("work", "ok 1 2", "a\n"),
        ask("object a", "ok 1 82", OBJECT),
        ask("rename 1 a/a.go:#15 z", "ok 2 0"),
        ask("uses a/a.go:#50", "ok 2 22", "a/a.go:#15\na/a.go:#50\n"),
        ask("object a", "no 20 2", "a\n"),
        ask("undo 2", "ok 1 0"),
        ask("object a", "ok 1 82", OBJECT),
        ask("cat a/a.go", "ok 1 58", A[0].split("\n", 1)[1]),
        refused("work", 23),
    ],
    "the assigned name of a definition follows": [
        ASSIGNED,
        ask("uses a/a.go:#69", "ok 1 34", "a/a.go:#69\na/a.go:#76\na/a.go:#140\n"),
        ask("uses a/a.go:#102", "ok 1 24", "a/a.go:#102\na/a.go:#123\n"),
        ask("rename 1 a/a.go:#69 v", "ok 2 0"),
        ask(
            "cat a/a.go",
            "ok 2 144",
            "package a\n\nfunc f() (int, int) {\n\treturn 1, 2\n}\n\nfunc G() int {\n\tvar v int\n\tv, z := f()\n\tif z > 0 {\n"
            "\t\tx, w := f()\n\t\treturn x + w\n\t}\n\treturn v\n}\n",
        ),
    ],
    "an import without a name gets one": [
        put(0, "b/b.go", 21, "package b\n\nvar T int\n"),
        put(1, "a/a.go", 51, 'package a\n\nimport"b"\n\nfunc F() int {\n\treturn b.T\n}\n'),
        ask("rename 2 a/a.go:#17 q", "ok 3 0"),
        ask("cat a/a.go", "ok 3 54", 'package a\n\nimport q "b"\n\nfunc F() int {\n\treturn q.T\n}\n'),
        ask("uses a/a.go:#20", "ok 3 22", "a/a.go:#18\na/a.go:#48\n"),
    ],
    "a field takes a method's name": [
        put(
            0,
            "a/a.go",
            82,
            "package a\n\ntype A struct {\n\tx int\n}\n\ntype B A\n\nfunc (b B) y() int {\n\treturn b.x\n}\n",
        ),
        ask("rename 1 a/a.go:#28 y", "no 15 11", "a/a.go:#58\n"),
    ],
    "a field is no longer exported": [
        put(0, "a/a.go", 36, "package a\n\ntype T struct {\n\tX int\n}\n"),
        put(1, "b/b.go", 57, 'package b\n\nimport "a"\n\nfunc F(t a.T) int {\n\treturn t.X\n}\n'),
        ask("rename 2 a/a.go:#28 x", "no 15 11", "b/b.go:#53\n"),
    ],
    "the second of one name is lost": [
        put(0, "a/a.go", 46, "package a\n\nfunc F() {\n\tvar p int\n\tvar q int\n}\n"),
        ask("rename 1 a/a.go:#27 q", "no 15 11", "a/a.go:#38\n"),
    ],
    "a predeclared name is captured": [LEN, ask("rename 1 a/a.go:#15 len", "no 14 25", "a/a.go:#53 by a/a.go:#15\n")],
    "names and places that are refused": [
        LEN,
        *(refused(f"rename 1 a/a.go:#{place}", code) for place, code in {"15 func": 12, "15 _": 12, "15 n": 13}.items()),
        refused("rename 1 a/a.go:#27 main", 12),
        *(refused(f"rename 1 a/a.go:#{offset} q", code) for offset, code in {0: 10, 66: 10, 8: 11, 17: 11}.items()),
    ],
    "a folder moves with what lies below": [
        *MOVED,
        ask("move 3 a c", "ok 4 0"),
        ask(
            "cat m/m.go",
            "ok 4 90",
            'package m\n\nimport "c"\nimport k "c"\nimport "c/s"\n\nfunc F() int {\n\treturn c.X + k.X + s.Y\n}\n',
        ),
        ask("cat c/a.go", "ok 4 21", "package c\n\nvar X int\n"),
        ask("list", "ok 4 32", "c/a.go 21\nc/s/s.go 21\nm/m.go 90\n"),
        ask("undo 4", "ok 3 0"),
        ask("list", "ok 3 32", "a/a.go 21\na/s/s.go 21\nm/m.go 90\n"),
    ],
    "moves that are refused": [
        *MOVED,
        refused("move 3 a a/b", 18),
        refused("move 3 a m", 17),
        refused("move 3 z c", 16),
        refused("move 3 a a", 13),
    ],
    "a move in a workspace with a fault": [
        put(0, "a/a.go", 21, "package a\n\nvar X int\n"),
        put(1, "m/m.go", 33, 'package m\n\nimport "c"\n\nvar V c.T\n'),
        ask("move 2 a c", "no 9 19", "m/m.go:#18 missing\n"),
    ],
    "a type is captured and no member is named": [
        put(
            0,
            "a/a.go",
            109,
            "package a\n\nfunc F() int {\n\treturn v.m()\n}\n\nvar v T\n\ntype U int\n\ntype T int\n\nfunc (t T) m() int {\n"
            "\treturn 1\n}\n",
        ),
        ask("rename 1 a/a.go:#69 U", "no 14 25", "a/a.go:#49 by a/a.go:#57\n"),
    ],
    "a definition would assign": [
        put(0, "a/a.go", 43, "package a\n\nfunc F() {\n\tvar p int\n\tq := p\n}\n"),
        ask("rename 1 a/a.go:#27 q", "no 14 25", "a/a.go:#34 by a/a.go:#27\n"),
    ],
    "a parameter captures what follows a package's name": [
        put(0, "a/a.go", 21, "package a\n\nvar X int\n"),
        put(1, "m/m.go", 61, 'package m\n\nimport "a"\n\nfunc F(b int) int {\n\treturn a.X + b\n}\n'),
        ask("move 2 a b", "no 14 25", "m/m.go:#51 by m/m.go:#30\n"),
        ask("move 2 a c", "ok 3 0"),
    ],
    "the object of another parameter's name": [
        A,
        ask("rename 1 a/a.go:#29 w", "ok 2 0"),
        ask("work", "ok 2 2", "a\n"),
        ask("object a", "ok 2 82", OBJECT),
    ],
    "the object of another variable's name": [
        A,
        ask("rename 1 a/a.go:#15 z", "ok 2 0"),
        ask("work", "ok 2 2", "a\n"),
        ask("object a", "ok 2 82", OBJECT.replace("a#x", "a#z")),
    ],
}

I = put(
    0,
    "a/a.go",
    138,
    "package a\n\ntype I interface {\n\tM() int\n}\n\ntype T struct {\n\tx int\n}\n\nfunc (t T) M() int {\n\treturn t.x\n}\n\n"
    "func F(i I) int {\n\treturn i.M()\n}\n",
)
PI = put(0, "p/p.go", 36, "package p\n\ntype I interface { M() }\n")

# of a subset with interface types, which no built program has yet
INTERFACE_ROWS = {
    "one method of a coupled set, all of it, and its undo": [
        I,
        ask("rename 1 a/a.go:#79 N", "no 25 11", "a/a.go:#16\n"),
        ask("rename 1 a/a.go:#31 x", "no 15 11", "a/a.go:#79\n"),
        ask("rename 1 a/a.go:#31 N", "ok 2 0"),
        ask("cat a/a.go", "ok 2 138", I[0].split("\n", 1)[1].replace("M()", "N()")),
        ask("uses a/a.go:#31", "ok 2 23", "a/a.go:#31\na/a.go:#132\n"),
        ask("undo 2", "ok 1 0"),
    ],
    "an interface in an object": [
        I,
        ask("work", "ok 1 2", "a\n"),
        ask(
            "object a",
            "ok 1 175",
            "object a a\ntype a#I interface{a#I#M()(int)}\ntype a#T struct{int}\nfunc a#T#M (a#T) (int) 1 4\nlocal 0\nfield 0\nret 1\n"
            "end\nfunc a#F (a#I) (int) 1 4\nlocal 0\nicall a#I#M 1\nret 1\nend\n",
        ),
    ],
    "another type would implement the interface": [
        put(0, "a/a.go", 184, I[0].split("\n", 1)[1] + "\ntype U int\n\nfunc (u U) N() int {\n\treturn 1\n}\n"),
        ask("rename 1 a/a.go:#31 N", "no 25 11", "a/a.go:#16\n"),
    ],
    "a definition by an interface is the first that is named": [
        put(0, "a/a.go", 78, "package a\n\ntype J I\n\ntype I interface { M() }\n\ntype T int\n\nfunc (t T) M() {\n}\n"),
        ask("rename 1 a/a.go:#70 N", "no 25 11", "a/a.go:#16\n"),
        ask("rename 1 a/a.go:#40 N", "ok 2 0"),
        ask("uses a/a.go:#40", "ok 2 11", "a/a.go:#40\n"),
        ask("uses a/a.go:#70", "ok 2 11", "a/a.go:#70\n"),
    ],
    "a parameter of a method of an interface twice": [
        put(0, "a/a.go", 50, "package a\n\ntype I interface {\n\tM(x, x int)\n\tM()\n}\n"),
        ask("faults", "ok 1 20", "a/a.go:#36 repeated\n"),
    ],
    "a method of an interface twice": [
        put(0, "a/a.go", 67, "package a\n\ntype I interface {\n\tM(x int)\n\tM()\n}\n\nfunc (i I) N() {\n}\n"),
        ask("faults", "ok 1 20", "a/a.go:#41 repeated\n"),
    ],
    "an interface as receiver, and a parameter that is called like its type": [
        put(0, "a/a.go", 78, "package a\n\ntype I interface {\n\tM(int int) T\n}\n\ntype T int\n\nfunc (i I) N() {\n}\n"),
        ask("faults", "ok 1 16", "a/a.go:#67 type\n"),
    ],
    "one of several results enters no interface": [
        put(
            0,
            "a/a.go",
            99,
            "package a\n\ntype E interface{}\n\nfunc f() (E, int) {\n\treturn 1, 2\n}\n\nfunc F() (E, E) {\n\treturn f()\n}\n",
        ),
        ask("faults", "ok 1 16", "a/a.go:#93 type\n"),
    ],
    "packages that do not import each other": [
        PI,
        put(1, "q/q.go", 42, "package q\n\ntype T int\n\nfunc (t T) M() {\n}\n"),
        ask("rename 2 p/p.go:#30 N", "ok 3 0"),
        ask("cat q/q.go", "ok 3 42", "package q\n\ntype T int\n\nfunc (t T) N() {\n}\n"),
        ask("rename 3 p/p.go:#30 n", "no 25 11", "p/p.go:#16\n"),
    ],
    "a type of a package with a fault": [
        PI,
        put(1, "q/q.go", 52, "package q\n\ntype T int\n\nfunc (t T) M() {\n\treturn 1\n}\n"),
        ask("rename 2 p/p.go:#30 N", "ok 3 0"),
        ask("cat q/q.go", "ok 3 52", "package q\n\ntype T int\n\nfunc (t T) M() {\n\treturn 1\n}\n"),
    ],
    "what a value enters an interface as": [
        put(
            0,
            "a/a.go",
            271,
            "package a\n\ntype E interface{}\n\ntype I interface { M(x int) (int, string); n() }\n\ntype T int\n\n"
            'func (t *T) M(x int) (int, string) {\n\treturn x, "s"\n}\n\nfunc (t T) n() {\n}\n\nvar G E = 1\n\n'
            'func F(t *T, e E) E {\n\tvar i I = t\n\ti.M(1)\n\te = "s"\n\te = I(t)\n\te = E(1 < 2)\n\treturn nil\n}\n',
        ),
        ask("work", "ok 1 2", "a\n"),
        ask(
            "object a",
            "ok 1 442",
            "object a a\ntype a#E interface{}\ntype a#I interface{a#I#M(int)(int,string);a#I#n()()}\ntype a#T int\n"
            "func a#T#M (*a#T,int) (int,string) 2 4\nlocal 1\nstr x73\nret 2\nend\nfunc a#T#n (a#T) () 1 1\nend\nvar a#G a#E 1\n"
            "func a#F (*a#T,a#E) (a#E) 3 25\nlocal 0\niface *a#T\nset 2\nlocal 2\nint 1\nicall a#I#M 2\npop\npop\naddrlocal 1\n"
            "str x73\niface string\nassign 1\naddrlocal 1\nlocal 0\niface *a#T\nassign 1\naddrlocal 1\nint 1\nint 2\nop <\n"
            "iface bool\nassign 1\nnil\nret 1\nend\n",
        ),
    ],
}


def whole(rows):
    """Each row by its name, as sent and answered."""
    return [(name, "".join(r[0] for r in row).encode(), "".join(r[1] for r in row).encode()) for name, row in rows.items()]


def sessions_of(folder):
    """The sessions of a folder that rename or move, each as sent and answered."""
    for path in sorted(pathlib.Path(folder).glob("*.in")):
        sent = path.read_bytes()
        if re.search(rb"^(rename|move) ", sent, re.M):
            yield path.stem, sent, path.with_suffix(".out").read_bytes()


def main():
    rows = whole(ROWS)
    rows += [session for folder in sys.argv[1:] for session in sessions_of(folder)]
    wrong = [name for name, sent, answered in rows if replies(sent) != answered]
    rows += whole(INTERFACE_ROWS)
    wrong += [name for name, sent, answered in whole(INTERFACE_ROWS) if replies(sent, interfaces=True) != answered]
    for name in wrong:
        print(f"{name}: the model answers otherwise")
    print(f"{len(rows)} rows, {len(wrong)} differ")
    sys.exit(1 if wrong else 0)


if __name__ == "__main__":
    main()
