"""Workspaces without faults in which a few names are declared again and again: in blocks one in another, as parameters,
fields, methods and imports, and over the names of the language itself.

What stands for a value is an int, or a struct whose fields and methods are ints. A name is known by what it stands for:
("int",), ("struct", definition), ("func",) without parameters, ("other",) with some, ("type", definition) or
("import", package).
"""

from checks.model.workspace import Workspace

TOP = ["a", "b", "c", "x", "y", "X", "Y", "T", "U", "V", "len", "nil", "p", "q"]
LOCAL = ["a", "b", "c", "x", "y", "X", "len", "int", "p", "q", "T"]
MEMBERS = ["x", "y", "a", "X", "Y", "b"]
FOLDERS = ["p", "q", "k/p", "k/q", "r", "c-d"]


class Definition:
    """A type: its package, its name, the fields of its struct, its methods."""

    def __init__(self, package, name, fields, written):
        self.package = package
        self.name = name
        self.fields = fields
        self.written = written
        self.methods = []

    def members(self, package):
        """What can stand behind a value of it in a package, as it is written, all ints."""
        found = [name for owner, name in self.fields if owner is package or name[0].isupper()]
        return found + [name + "()" for name in self.methods if self.package is package or name[0].isupper()]


class Package:
    def __init__(self, generator, path, others):
        self.generator = generator
        self.path = path
        self.name = path.split("/")[-1] if path != "c-d" else "c"
        self.others = others
        self.top = {}
        self.types = []
        self.declare()
        self.files = self.written()

    def declare(self):
        generator = self.generator
        for name in generator.sample(TOP, generator.randrange(2, 6)):
            kind = generator.choice(["int", "int", "func", "other", "type", "type"])
            self.top[name] = (kind,) if kind != "type" else ("type", None)
        for name in [name for name, kind in self.top.items() if kind[0] == "type"]:
            self.top[name] = ("type", self.definition(name))

    def definition(self, name):
        generator = self.generator
        known = [d for d in self.types] + [
            d for other in self.others for n, (kind, *d) in other.top.items() if kind == "type" and n[0].isupper() for d in d
        ]
        if known and generator.random() < 0.6:
            base = generator.choice(known)
            found = Definition(self, name, base.fields, base)
        else:
            names = generator.sample(MEMBERS, generator.randrange(1, 3))
            found = Definition(self, name, [(self, field) for field in names], None)
        taken = {field for owner, field in found.fields if owner is self or field[0].isupper()}
        free = [member for member in MEMBERS if member not in taken]
        found.methods = generator.sample(free, min(len(free), generator.randrange(3)))
        self.types.append(found)
        return found

    def written(self):
        """The texts of one or two files."""
        generator = self.generator
        names = ["a.go", "b.go"][: generator.choice([1, 1, 2])]
        parts = {name: [] for name in names}
        files = {name: File(self, generator) for name in names}
        for name, kind in self.top.items():
            where = generator.choice(names)
            parts[where] += files[where].top(name, kind)
        return {f"{self.path}/{name}": files[name].text(parts[name]) for name in names}


class File:
    """One file: the names of its imports, and those of them that are used."""

    def __init__(self, package, generator):
        self.package = package
        self.generator = generator
        self.imports = {}
        self.used = set()
        for other in package.others:
            name = other.name if generator.random() < 0.6 else generator.choice(LOCAL)
            if name not in package.top and name not in self.imports and name != "int" and generator.random() < 0.9:
                self.imports[name] = other
        self.blocks = []

    def text(self, parts):
        lines = [
            "import " + ("" if name == other.name and self.generator.random() < 0.7 else name + " ") + f'"{other.path}"\n'
            for name, other in self.imports.items()
            if name in self.used
        ]
        return "".join([f"package {self.package.name}\n\n", *lines, *parts]).encode()

    def find(self, name):
        for block in [*reversed(self.blocks), self.package.top]:
            if name in block:
                return block[name]
        return ("import", self.imports[name]) if name in self.imports else None

    def known(self, kind):
        names = {name for block in [*self.blocks, self.package.top] for name in block} | set(self.imports)
        return [name for name in sorted(names) if self.find(name)[0] == kind]

    # declarations

    def top(self, name, kind):
        if kind[0] == "int":
            return [f"var {name} int\n\n"]
        if kind[0] in ("func", "other"):
            return [self.function(name, self.params() if kind[0] == "other" else {})]
        return self.type_and_methods(name, kind[1])

    def type_and_methods(self, name, definition):
        base = definition.written
        if base is None:
            fields = [field for _, field in definition.fields]
            body = ", ".join(fields) + " int" if self.generator.random() < 0.5 else "; ".join(f + " int" for f in fields)
            written = f"type {name} struct {{ {body} }}\n\n"
        else:
            reached = self.type_name(base)
            if reached is None:
                definition.fields = [(self.package, "x")]
                definition.methods = [method for method in definition.methods if method != "x"]
                reached = "struct { x int }"
            written = f"type {name} {reached}\n\n"
        star = self.generator.choice(["", "*"])
        return [written, *(self.method(method, f"{star}{name}", definition) for method in definition.methods)]

    def type_name(self, definition):
        """How a type is written where it stands now, or None."""
        if definition.package is self.package:
            return definition.name if self.find(definition.name) == ("type", definition) else None
        for name, other in self.imports.items():
            if other is definition.package and self.find(name) == ("import", other):
                self.used.add(name)
                return f"{name}.{definition.name}"
        return None

    def all_types(self):
        there = [d for d in self.package.types]
        return there + [d for other in self.imports.values() for d in other.types if d.name[0].isupper()]

    def params(self):
        """Names of parameters, with what they stand for and how their types are written."""
        generator = self.generator
        found = {}
        for name in generator.sample([n for n in LOCAL if n != "int"], generator.randrange(1, 3)):
            typ = generator.choice(self.all_types()) if self.all_types() and generator.random() < 0.5 else None
            reached = self.type_name(typ) if typ is not None else None
            found[name] = (("struct", typ), reached) if reached else (("int",), "int")
        return found

    def function(self, name, params):
        written = ", ".join(f"{param} {typ}" for param, (_, typ) in params.items())
        return f"func {name}({written}) {self.body({param: kind for param, (kind, _) in params.items()})}"

    def method(self, name, receiver, definition):
        own = self.generator.choice(LOCAL)
        return f"func ({own} {receiver}) {name}() {self.body({own: ('struct', definition)})}"

    def body(self, names):
        self.blocks = [names]
        text = f"int {{\n{self.statements(2)}return {self.value(1)}\n}}\n\n"
        self.blocks = []
        return text

    # statements

    def statements(self, depth):
        return "".join(self.statement(depth) + "\n" for _ in range(self.generator.randrange(1, 5)))

    def inner(self, depth):
        self.blocks.append({})
        text = "{\n" + self.statements(depth - 1) + "}"
        self.blocks.pop()
        return text

    def new_names(self):
        free = [name for name in LOCAL if name not in self.blocks[-1]]
        return self.generator.sample(free, min(len(free), 2))

    def statement(self, depth):
        generator = self.generator
        way = generator.randrange(10)
        names = self.new_names()
        if way < 2 and names:
            return self.local(names[0])
        if way == 2 and names:
            return self.definition(names)
        if way == 3 and self.known("int"):
            return f"{generator.choice(self.known('int'))} {generator.choice(['=', '+='])} {self.value(1)}"
        if way == 4 and depth:
            return self.inner(depth)
        if way == 5 and depth:
            return self.branch(depth)
        if way == 6 and depth:
            return self.loop(depth)
        return f"_ = {self.value(2)}"

    def local(self, name):
        generator = self.generator
        typ = generator.choice(self.all_types()) if self.all_types() else None
        reached = self.type_name(typ) if typ is not None else None
        if reached and generator.random() < 0.5:
            kind = ("struct", typ)
            text = f"var {name} {reached}" if generator.random() < 0.5 else f"{name} := {self.struct(typ, reached)}"
        else:
            kind = ("int",)
            text = f"{name} := {self.value(2)}" if generator.random() < 0.7 else f"var {name} = {self.value(2)}"
        self.blocks[-1][name] = kind
        return text

    def struct(self, typ, reached):
        keys = [name for owner, name in typ.fields if owner is self.package or name[0].isupper()]
        keys = self.generator.sample(keys, self.generator.randrange(len(keys) + 1))
        return f"{reached}{{{', '.join(f'{key}: {self.value(1)}' for key in keys)}}}"

    def definition(self, names):
        """Two names, maybe one that is assigned."""
        old = [name for name, kind in self.blocks[-1].items() if kind == ("int",)]
        if old and self.generator.random() < 0.6:
            names = [names[0], self.generator.choice(old)]
        values = ", ".join(self.value(1) for _ in names)
        self.generator.shuffle(names)
        self.blocks[-1].update({name: ("int",) for name in names})
        return f"{', '.join(names)} := {values}"

    def branch(self, depth):
        self.blocks.append({})
        name = self.generator.choice(LOCAL)
        value = self.value(1)
        header = f"{name} := {value}; " if self.generator.random() < 0.6 else ""
        if header:
            self.blocks[-1][name] = ("int",)
        text = f"if {header}({self.value(1)}) == 1 {self.inner(depth)}"
        if self.generator.random() < 0.4:
            text += f" else {self.inner(depth)}"
        self.blocks.pop()
        return text

    def loop(self, depth):
        self.blocks.append({})
        name = self.generator.choice(LOCAL)
        text = f"for {name} := ({self.value(1)}); "
        self.blocks[-1][name] = ("int",)
        text += f"({self.value(1)}) < 2; {name}++ {self.inner(depth)}"
        self.blocks.pop()
        return text

    # values

    def value(self, depth):
        generator = self.generator
        options = self.known("int") * 2 + [name + "()" for name in self.known("func")] + ["1"]
        for name in self.known("struct"):
            options += [f"{name}.{member}" for member in self.find(name)[1].members(self.package)]
        for name in self.known("import"):
            other = self.imports[name]
            there = [(n, kind) for n, (kind, *_) in other.top.items() if n[0].isupper() and kind in ("int", "func")]
            options += [(name, f"{name}.{n}" + ("()" if kind == "func" else "")) for n, kind in there] * 3
        found = generator.choice(options)
        if isinstance(found, tuple):
            self.used.add(found[0])
            found = found[1]
        return f"{found} + {self.value(depth - 1)}" if depth and generator.random() < 0.3 else found


def shadowed(generator):
    """A workspace of one to three packages, whose texts have no fault."""
    while True:
        packages = []
        texts = {}
        for path in generator.sample(FOLDERS, generator.choice([1, 2, 2, 3])):
            packages.append(Package(generator, path, list(packages)))
            texts.update(packages[-1].files)
        if not Workspace(texts).faults():
            return texts
