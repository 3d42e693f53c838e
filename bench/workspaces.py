"""The families of families.py: of each a name, a size n, and a function that makes the workspace and the steps for a size.

The function returns the files, pairs of a path and a text in the order in which they are put, and the steps. A step is one command,
or a name with several commands; the step `work` alone is sent once for each package. A command is written without the number of the
state, with `PATH@WORD` for the first place of a word in a file, and with ` => ANSWER` behind it where the answer has to be another
than `ok`.
"""


def package(name, lines):
    return f"package {name}\n\n" + "\n".join(lines) + "\n"


def alone(*parts):
    """One file of one package: lines, or lists of lines."""
    return [("a/a.go", package("a", [line for part in parts for line in ([part] if isinstance(part, str) else part)]))]


def inside(*parts):
    """One file with these lines in a function."""
    return alone("func f(p int) {", *parts, "}")


def each(n, form):
    return [form.format(i=i, next=i + 1, ring=(i + 1) % n, back=n - i) for i in range(n)]


def renamed(place, name="renamed"):
    return [f"uses {place}", f"rename {place} {name}"]


def judged(files, *more):
    """With the faults, of which there are none, and the objects of all packages."""
    return files, ["faults", "work", *more]


def faulty(files):
    return files, [("faults", ["faults => faults"])]


def deep(n, functions, head, tail, middle="", before="", beside=""):
    """Functions, in each of which something is nested so deep."""
    body = "\n".join([before, head * (n - 2) + middle + tail * (n - 2)])
    return alone(beside, [f"func f{i}(p int) {{{body}\n}}" for i in range(functions)])


def imports(names):
    return [f'import "{name}"' for name in names]


def chain(n, below=lambda i: [i - 1] if i else [], lowest="var X int"):
    """Packages that import those below them, and use what these declare."""
    def text(i):
        uses = "".join(f" + p{other}.F(n)" for other in below(i))
        lines = [*imports(f"p{other}" for other in below(i)), "", f"func F(n int) int {{\n\tlocal := n{uses}\n\treturn local\n}}"]
        return package(f"p{i}", lines + ([lowest] if i == 0 else []))
    return [(f"p{i}/p.go", text(i)) for i in range(n)]


def taken_back(place, name):
    """A rename and its undo."""
    return [(f"rename and undo of {place}", [f"rename {place} {name}", "undo"])]


def moving(n):
    """A package that n others import, and a folder with n files."""
    users = [(f"u{i}/u.go", package(f"u{i}", ['import "t/a"', "var X a.T"])) for i in range(n)]
    return [("t/a/a.go", package("a", ["type T int"])), *users]


def spread(n):
    """n files of one package, with a local each."""
    function = "func f{i}() int {{\n\tlocal := x{i}\n\treturn local\n}}"
    return [(f"a/f{i}.go", package("a", [f"var x{i} int", function.format(i=i)])) for i in range(n)]


def hub(n):
    """Packages that all use one function of another."""
    function = "func F() int {\n\tlocal := h.Hub()\n\treturn local + h.Hub()\n}"
    users = [(f"u{i}/u.go", package(f"u{i}", ['import "h"', function])) for i in range(n)]
    return [("h/h.go", package("h", ["func Hub() int {\n\treturn 1\n}"])), *users]


def users(n):
    """n files of one package, each of which imports another."""
    function = "func f{i}() int {{\n\treturn b.X\n}}"
    files = [(f"a/f{i}.go", package("a", ['import "b"', function.format(i=i)])) for i in range(n)]
    return [("b/b.go", package("b", ["var X int"])), *files]


def mixed(n):
    """n functions with a local each, in one file."""
    return alone("var first int", each(n, "func f{i}(n int) int {{\n\tl{i} := n + first\n\treturn l{i}\n}}"))


def texts(n, form="a/f{i}.txt"):
    return [(form.format(i=i), f"text {i}\n") for i in range(n)]


def versions(n):
    return [("a/a.go", package("a", [f"var x int = {i}"])) for i in range(n)]


def mixed_files():
    return [(f"m{i}/m.go", text) for i in range(100) for _, text in mixed(10)]


FAMILIES = [
    # declarations
    ("variables of one name", 24000, lambda n: faulty(alone(["var x int"] * n))),
    ("functions of one name", 20000, lambda n: faulty(alone(["func f() {}"] * n))),
    ("types of one name", 22000, lambda n: faulty(alone(["type t int"] * n))),
    ("names in two files", 17000, lambda n: faulty([(f"a/{f}.go", package("a", each(n, "var x{i} int"))) for f in "bc"])),
    ("imports of one name", 4000, lambda n: faulty([("b/b.go", package("b", [])), *alone(['import x "b"'] * n)])),
    ("parameters of one name", 32000, lambda n: faulty(alone("func f(" + ", ".join(["p int"] * n) + ") {}"))),
    ("variables", 8000, lambda n: judged(alone(each(n, "var x{i} int")), *renamed("a/a.go@x0"))),
    ("functions", 4000, lambda n: judged(mixed(n), "object a", *renamed("a/a.go@l0"), *renamed("a/a.go@first", "then"))),
    ("functions that call the next", 4000, lambda n: judged(
        alone(each(n, "func f{i}() {{\n\tf{ring}()\n}}")), *renamed("a/a.go@f0"))),
    ("functions init", 16000, lambda n: judged(alone(["func init() {}"] * n))),
    ("parameters and arguments", 4000, lambda n: judged(alone(
        "func f(" + ", ".join(each(n, "p{i} int")) + ") {\n\tf(" + ", ".join(["1"] * n) + ")\n}"), *renamed("a/a.go@p1"))),
    ("results", 30000, lambda n: judged(alone(
        "func f() (" + ", ".join(["int"] * n) + ") {\n\treturn " + ", ".join(["1"] * n) + "\n}"))),
    # types
    ("a ring of type definitions", 2000, lambda n: faulty(alone(each(n, "type T{i} T{ring}")))),
    ("a ring of structs", 2000, lambda n: faulty(alone(each(n, "type T{i} struct {{\n\tf T{ring}\n}}")))),
    ("a ring of pointers", 2000, lambda n: judged(
        alone(each(n, "type T{i} struct {{\n\tf *T{ring}\n}}")), *renamed("a/a.go@T0"))),
    ("rings of two structs", 4000, lambda n: faulty(alone(
        each(n, "type A{i} struct {{\n\tf B{i}\n}}"), each(n, "type B{i} struct {{\n\tf A{i}\n}}")))),
    ("a chain of type definitions", 14000, lambda n: judged(alone(each(n, "type T{i} T{next}"), f"type T{n} int"))),
    ("the same backwards", 12000, lambda n: judged(alone("type T0 int", each(n, "type T{next} T{i}")))),
    ("a chain of structs", 8000, lambda n: judged(alone(each(n, "type T{i} struct {{\n\tf T{next}\n}}"), f"type T{n} int"))),
    ("structs backwards", 7500, lambda n: judged(alone("type T0 int", each(n, "type T{next} struct {{\n\tf T{i}\n}}")))),
    ("a chain that ends in a ring", 2000, lambda n: faulty(alone(
        each(n, "type T{i} struct {{\n\tf T{next}\n}}"), f"type T{n} struct {{\n\tf T{n}\n}}"))),
    ("a ring with a chain before it", 2000, lambda n: faulty(alone(
        "type T0 struct {\n\tf T0\n}", each(n, "type T{next} struct {{\n\tf T{i}\n}}")))),
    ("uses of what holds itself", 4000, lambda n: faulty(alone(
        "type T struct {\n\tf T\n}", each(n, "func f{i}(t T) T {{\n\treturn t.f\n}}")))),
    ("fields of a chain of types", 4000, lambda n: judged(alone(
        each(n, "type T{i} struct {{\n\tf{i} *T{next}\n}}"), f"type T{n} int",
        f"func g(t T0) *T{n} {{\n\treturn t" + "".join(each(n, ".f{i}")) + "\n}"))),
    ("types with one field", 2000, lambda n: judged(alone(
        each(n, "type T{i} struct {{\n\tf int\n}}\nfunc g{i}() int {{\n\treturn T{i}{{f: 1}}.f\n}}")), *renamed("a/a.go@f"))),
    ("fields", 5000, lambda n: judged(alone("type T struct {", each(n, "\tf{i} int"), "}"), *renamed("a/a.go@f0"))),
    ("fields of one name", 20000, lambda n: faulty(alone("type T struct {", ["\tf int"] * n, "}"))),
    ("uses of many fields", 2000, lambda n: judged(alone(
        "type T struct {", each(n, "\tf{i} int"), "}", "func g(t T) {", each(n, "\tprint(t.f{i})"), "}"), *renamed("a/a.go@f0"))),
    ("keys of a literal", 10000, lambda n: judged(alone(
        "type T struct {", each(n, "\tf{i} int"), "}", "func g() T {\n\treturn T{", each(n, "\t\tf{i}: 1,"), "\t}\n}"))),
    ("methods", 2000, lambda n: judged(alone("type T int", each(n, "func (t T) m{i}() {{}}")), *renamed("a/a.go@m0"))),
    ("methods of one name", 13000, lambda n: faulty(alone("type T int", ["func (t T) m() {}"] * n))),
    ("methods of many types", 1500, lambda n: judged(alone(
        each(n, "type T{i} int\nfunc (t T{i}) m() {{}}\nfunc f{i}(t T{i}) {{\n\tt.m()\n}}")), *renamed("a/a.go@m()"))),
    ("calls of many methods", 7500, lambda n: judged(alone(
        "type T int", each(n, "func (t T) m{i}() {{}}"), "func g(t T) {", each(n, "\tt.m{i}()"), "}"))),
    # statements
    (":= that declares nothing", 16000, lambda n: faulty(inside(["\tx, y := 1, 2"] * n))),
    (":= that declares one of two", 4000, lambda n: judged(inside(each(n, "\tx, y{i} := 1, 2")), *renamed("a/a.go@x,"))),
    ("locals of one block", 4000, lambda n: judged(inside(each(n, "\tx{i} := 1\n\tprint(x{i})")), *renamed("a/a.go@x0"))),
    ("locals of one name in blocks", 4000, lambda n: judged(
        inside(["\t{\n\t\tx := 1\n\t\tprint(x)\n\t}"] * n), *renamed("a/a.go@x"))),
    ("names of one :=", 8000, lambda n: judged(inside(
        "\t" + ", ".join(each(n, "x{i}")) + " := " + ", ".join(["1"] * n)), *renamed("a/a.go@x0"))),
    ("operands of one =", 30000, lambda n: judged(inside("\t" + ", ".join(["p"] * n) + " = " + ", ".join(["1"] * n)))),
    ("uses of a local", 8000, lambda n: judged(inside("\tx := 1", ["\tprint(x)"] * n), *renamed("a/a.go@x"))),
    ("uses of a function", 8000, lambda n: judged(
        alone("func g() {}", "func f() {", ["\tg()"] * n, "}"), *renamed("a/a.go@g()"))),
    ("uses of a type", 5000, lambda n: judged(alone("type T int", each(n, "var x{i} T")), *renamed("a/a.go@T"))),
    ("uses of an import", 5000, lambda n: judged(
        [("b/b.go", package("b", ["func F() {}"])), *alone('import "b"', "func f() {", ["\tb.F()"] * n, "}")],
        *renamed("b/b.go@F()", "Renamed"), ("move", ["move b c/d"]))),
    ("names of another package", 2500, lambda n: judged(
        [("b/b.go", package("b", each(n, "func F{i}() {{}}"))), *alone('import "b"', "func f() {", each(n, "\tb.F{i}()"), "}")],
        *renamed("b/b.go@F0", "Renamed"), ("move", ["move b c/d"]))),
    ("names that are not exported", 8000, lambda n: faulty(
        [("b/b.go", package("b", ["func f() {}"])), *alone('import "b"', "func g() {", ["\tb.f()"] * n, "}")])),
    ("uses of a field", 4000, lambda n: judged(alone(
        "type T struct {\n\tfield int\n}", "func f(t T) {", ["\tprint(t.field)"] * n, "}"), *renamed("a/a.go@field"))),
    ("names that nothing declares", 26000, lambda n: faulty(inside(each(n, "\tx{i}()")))),
    ("types that do not fit", 24000, lambda n: faulty(inside(["\tp = true"] * n))),
    ("ifs one behind another", 11000, lambda n: judged(inside(["\tif p > 0 {\n\t\tp++\n\t}"] * n))),
    ("loops one behind another", 6000, lambda n: judged(inside(["\tfor i := 0; i < p; i++ {\n\t\tp++\n\t}"] * n))),
    ("captured by each use", 4000, lambda n: judged(inside("\tx := 1", ["\tprint(x, p)"] * n), "rename a/a.go@x p => no 14")),
    ("captured by the last use", 4000, lambda n: judged(inside(
        "\tx := 1", ["\tprint(x)"] * n, "\t{\n\t\ty := 2\n\t\tprint(x, y)\n\t}"), "rename a/a.go@x y => no 14")),
    ("lost at the last of them", 5000, lambda n: judged(alone(each(n, "var x{i} int")), f"rename a/a.go@x{n - 1} x0 => no 15")),
    # expressions
    ("a chain of +", 60000, lambda n: judged(inside("\tp = " + " + ".join(["p"] * n)))),
    ("a chain of + and *", 27000, lambda n: judged(inside("\tp = " + " + ".join(["p * p"] * n)))),
    ("a chain of &&", 24000, lambda n: judged(inside("\tif " + " && ".join(["p == p"] * n) + " {\n\t}"))),
    ("a chain of strings", 40000, lambda n: judged(inside("\tprint(" + " + ".join(['"a"'] * n) + ")"))),
    ("a chain of fields", 15000, lambda n: judged(alone(
        "type T struct {\n\tf *T\n}", "func g(t *T) *T {\n\treturn t" + ".f" * n + "\n}"), *renamed("a/a.go@f"))),
    ("a chain of methods", 36000, lambda n: judged(alone(
        "type T int", "func (t T) m() T {\n\treturn t\n}", "func g(t T) T {\n\treturn t" + ".m()" * n + "\n}"))),
    ("elements of a slice", 60000, lambda n: judged(inside("\tprint(len([]int{" + ", ".join(["p"] * n) + "}))"))),
    ("arguments of print", 60000, lambda n: judged(inside("\tprint(" + ", ".join(["p"] * n) + ")"))),
    # nesting, up to its limit
    ("blocks in blocks", 49, lambda n: judged(deep(n, 1600, "{", "}", "print(p)"))),
    ("variables of blocks in blocks", 49, lambda n: judged(
        deep(n, 160, "{\nx := p\nprint(x)\n", "}", "print(x)", "x := p"), *renamed("a/a.go@x", "y"))),
    ("if in if", 49, lambda n: judged(deep(n, 400, "if p > 0 {", "}"))),
    ("for in for", 49, lambda n: judged(deep(n, 160, "for x := p; x > 0; x++ {", "}"))),
    ("else if", 49, lambda n: judged(deep(n, 250, "if p > 0 {} else ", "", "{}"))),
    ("parentheses", 49, lambda n: judged(deep(n, 1600, "(", ")", "p", "p = "))),
    ("calls in calls", 49, lambda n: judged(deep(n, 1000, "g(", ")", "p", "p = ", beside="func g(n int) int {\n\treturn n\n}"))),
    ("prefix operators", 49, lambda n: judged(deep(n, 2400, "- ", "", "p", "p = "))),
    ("operators in parentheses", 49, lambda n: judged(deep(n, 1000, "(1+", ")", "p", "p = "))),
    ("slices of slices", 49, lambda n: judged(alone(each(
        600, "var x{i} " + "[]" * n + "int\nfunc f{i}() int {{ return x{i}" + "[0]" * n + "\n}}")))),
    ("pointers to pointers", 49, lambda n: judged(alone(each(
        600, "var x{i} " + "*" * n + "int\nfunc f{i}() int {{ return " + "*" * n + "x{i}\n}}")))),
    # text
    ("escapes of a string", 120000, lambda n: judged(alone('var x string = "' + "\\n" * n + '"'))),
    ("letters of a string", 240000, lambda n: judged(alone('var x string = "' + "a" * n + '"'))),
    ("letters of a raw string", 240000, lambda n: judged(alone("var x string = `" + "a" * n + "`"))),
    ("strings", 20000, lambda n: judged(inside(['\tprint("a")'] * n))),
    ("letters of a name", 240000, lambda n: judged(alone("var " + "x" * n + " int"))),
    ("digits of a number", 240000, lambda n: faulty(alone("var x int = " + "9" * n))),
    ("a comment", 240000, lambda n: judged(alone("/*" + "a" * n + "*/"))),
    ("comments", 18000, lambda n: judged(alone(["// a comment"] * n))),
    ("blanks", 240000, lambda n: judged(alone(" " * n))),
    ("blank lines", 240000, lambda n: judged(alone([""] * n))),
    ("empty statements", 100000, lambda n: judged(inside(";" * n))),
    # packages
    ("packages without imports", 250, lambda n: judged(
        chain(n, lambda i: []), *renamed("p0/p.go@F", "G"), *renamed("p1/p.go@local"),
        *taken_back("p2/p.go@local", "other"))),
    ("a chain of imports", 128, lambda n: judged(
        chain(n), *renamed("p0/p.go@F", "G"), *renamed("p1/p.go@local"), *taken_back("p2/p.go@local", "other"),
        "faults", ("move", ["move p0 q/p0"]))),
    ("a chain of imports, the top put first", 128, lambda n: judged(chain(n)[::-1])),
    ("a chain whose lowest is faulty", 128, lambda n: faulty(chain(n, lowest="var X Missing"))),
    ("a cycle of imports", 128, lambda n: faulty(chain(n, lambda i: [(i - 1) % n]))),
    ("layers of two packages", 64, lambda n: judged(
        chain(2 * n, lambda i: [i // 2 * 2 - 2, i // 2 * 2 - 1] if i > 1 else []),
        *renamed("p0/p.go@F", "G"), *renamed("p1/p.go@local"))),
    ("packages that import one", 250, lambda n: judged(
        hub(n), "uses h/h.go@int", *renamed("h/h.go@Hub", "Hob"), *renamed("u0/u.go@local"), *taken_back("h/h.go@Hub()", "Hib"),
        "rename u0/u.go@local h => no 14", "rename h/h.go@Hub hub => no 15", ("move", ["move h g/h"]))),
    ("imports of one package", 250, lambda n: judged(
        [*chain(n, lambda i: []), *alone(imports(each(n, "p{i}")), "func f(n int) {", each(n, "\tprint(p{i}.F(n))"), "}")],
        *renamed("p0/p.go@F", "G"))),
    ("names of one import", 2000, lambda n: judged(
        [("b/b.go", package("b", ["var X int"])),
         *alone(each(n, 'import b{i} "b"'), "func f() {", each(n, "\tprint(b{i}.X)"), "}")],
        *renamed("b/b.go@X", "Y"), *renamed("a/a.go@b0", "c"))),
    ("imports that nothing uses", 2000, lambda n: faulty([("b/b.go", package("b", [])), *alone(each(n, 'import b{i} "b"'))])),
    ("imports of nothing", 2000, lambda n: faulty(alone(each(n, 'import "b{i}"')))),
    ("a folder of packages that moves", 128, lambda n: (
        [(f"t/{path}", text.replace('"p', '"t/p')) for path, text in chain(n)], ["faults", ("move", ["move t/p0 q", "undo"])])),
    ("importers of what moves", 250, lambda n: (moving(n), ["faults", ("move", ["move t/a q/b"])])),
    # files
    ("packages with faults", 250, lambda n: faulty([(f"p{i}/p.go", package("p", ["var x Missing"])) for i in range(n)])),
    ("files of one package", 500, lambda n: judged(spread(n), *renamed("a/f0.go@x0"), *renamed("a/f1.go@local"), "list",
        ("del", [f"del a/f{i}.go" for i in range(n) if i > 1]))),
    ("files that import one", 500, lambda n: judged(
        users(n), *renamed("b/b.go@X", "Y"), ("move", ["move b c/d", "undo"]), ("move of the files", ["move a e/f"]))),
    ("text files", 500, lambda n: (texts(n), ["list", ("del", [f"del a/f{i}.txt" for i in range(n)])])),
    ("text files in folders", 500, lambda n: (texts(n, "a{i}/f.txt"), ["list"])),
    ("text files that move", 500, lambda n: ([*alone("var x int"), *texts(n)], [("move", ["move a b"])])),
    ("files with a fault of syntax", 500, lambda n: faulty([(f"a/f{i}.go", "package a\n}\n") for i in range(n)])),
    ("files with another clause", 500, lambda n: faulty([(f"a/f{i}.go", f"package a{i}\n") for i in range(n)])),
    # the history
    ("puts of one file", 4000, lambda n: (versions(n), [])),
    ("undo and redo", 8000, lambda n: (versions(3), [("undo and redo", ["undo", "redo"] * n), ("log", ["log 0"] * n)])),
    ("undos", 25, lambda n: ([*mixed_files(), *versions(n)], [("undos and redos", (["undo"] * n + ["redo"] * n) * 20)])),
    ("renames", 16, lambda n: judged(mixed(400), ("renames", ["rename a/a.go@l0 k0", "rename a/a.go@l0 l0"] * n))),
    ("renames refused", 16, lambda n: judged(mixed(400), ("renames", ["rename a/a.go@l0 n => no 14"] * n))),
]
