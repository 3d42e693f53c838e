"""Workspaces of types that implement interfaces or nearly do: few names of methods and few signatures, in packages that import one another.

A type is "int", "string" or "bool", a definition, or ("*", type) or ("[]", type). A slip is a random departure from the rules.
"""

from checks.model.workspace import Workspace

BASIC = {"int": "1", "string": '"s"', "bool": "true"}
TYPES = "T U V W t u I J K L i j".split()
METHODS = ["M", "N", "m", "n", "X"]
FIELDS = ["x", "y", "X", "N", "m"]
PARAMETERS = ["a", "b", "c", "x", "_"]
# nothing is bound to a parameter of a method of an interface, so it may have any name
ASKED = [*PARAMETERS, "T", "int", "M", "I"]
FOLDERS = ["p", "q", "k/r"]


class Definition:
    """A type: a struct with fields, an interface with methods, an int, or another definition; and methods with a receiver of it."""

    def __init__(self, package, name, kind, base=None):
        self.package = package
        self.name = name
        self.kind = kind
        self.base = base
        self.fields = {}
        self.asked = {}
        self.methods = {}

    def written(self):
        """The definition that writes the underlying type."""
        return self if self.base is None else self.base.written()


def is_interface(typ):
    return isinstance(typ, Definition) and typ.written().kind == "interface"


def is_seen(name, owner, package):
    return name[0].isupper() or owner is package


class Package:
    def __init__(self, generator, path, others, slips):
        self.generator = generator
        self.path = path
        self.name = path.split("/")[-1]
        self.others = others
        self.slips = slips
        self.types = []
        self.functions = {}
        self.variables = {}
        self.used = set()
        self.declare()

    def slip(self):
        return self.generator.random() < self.slips

    # what there is

    def seen_types(self):
        return self.types + [d for other in self.others for d in other.types if d.name[0].isupper()]

    def a_type(self, depth=1):
        generator = self.generator
        if depth and generator.random() < 0.3:
            return (generator.choice(["*", "[]"]), self.a_type(depth - 1))
        return generator.choice(self.seen_types() + ["int", "int", "string", "bool"])

    def declare(self):
        generator = self.generator
        for name in generator.sample(TYPES, generator.randrange(2, 6)):
            known = self.seen_types()
            way = generator.random()
            kind = "interface" if way < 0.4 else "struct" if way < 0.7 else "int"
            base = generator.choice(known) if known and generator.random() < 0.2 else None
            self.types.append(Definition(self, name, kind, base))
        for found in self.types:
            if found.base is None and found.kind == "interface":
                for name in generator.sample(METHODS, generator.choice([0, 1, 1, 2])):
                    found.asked[name] = self.signature()
            elif found.base is None and found.kind == "struct":
                for name in generator.sample(FIELDS, generator.randrange(3)):
                    found.fields[name] = self.field_type()
        for found in self.types:
            if not is_interface(found) or self.slip():
                self.give_methods(found)
        for name in generator.sample(["f", "g", "F"], generator.randrange(1, 4)):
            self.functions[name] = self.signature(2)
        for name in generator.sample(["h", "H"], generator.randrange(2)):
            self.variables[name] = self.a_type()

    def field_type(self):
        """A type that contains no struct, so that none contains itself."""
        typ = self.a_type()
        return typ if is_interface(typ) or isinstance(typ, (str, tuple)) else ("*", typ)

    def signature(self, most=1):
        """Few of them, so that they often agree."""
        generator = self.generator
        if most == 1 and generator.random() < 0.6:
            return generator.choice([([], ["int"]), ([], []), (["int"], ["int"]), ([], ["string"])])
        params = [self.a_type() for _ in range(generator.randrange(most + 1))]
        return params, [self.a_type() for _ in range(generator.randrange(most + 1))]

    def give_methods(self, found):
        """Often all that an interface asks for, so that the type implements it."""
        generator = self.generator
        wanted = [d for d in self.seen_types() if is_interface(d)]
        for interface in generator.sample(wanted, min(len(wanted), generator.randrange(3))):
            for name, signature in interface.written().asked.items():
                if generator.random() < 0.93:
                    found.methods[name] = (generator.choice(["", "", "*"]), signature)
        for name in generator.sample(METHODS, generator.randrange(2)):
            found.methods.setdefault(name, (generator.choice(["", "*"]), self.signature()))
        fields = {n for n in found.written().fields if is_seen(n, found.written().package, self)}
        for name in fields & set(found.methods):
            if not self.slip():
                del found.methods[name]

    def method_set(self, typ):
        """The names of methods that can be called by a value, with their signatures."""
        if is_interface(typ):
            owner = typ.written().package
            return {n: s for n, s in typ.written().asked.items() if is_seen(n, owner, self)}
        base = typ[1] if isinstance(typ, tuple) and typ[0] == "*" else typ
        if not isinstance(base, Definition) or is_interface(base):
            return {}
        return {
            n: s for n, (star, s) in base.methods.items() if is_seen(n, base.package, self) and (not star or base is not typ)
        }

    def implements(self, typ, interface):
        base = typ[1] if isinstance(typ, tuple) and typ[0] == "*" else typ
        owner = interface.written().package
        if is_interface(typ):
            has = typ.written().asked
            home = typ.written().package
        elif isinstance(base, Definition) and not is_interface(base):
            has = {n: s for n, (star, s) in base.methods.items() if not star or base is not typ}
            home = base.package
        else:
            has, home = {}, None
        return all(has.get(n) == s and (n[0].isupper() or home is owner) for n, s in interface.written().asked.items())

    # texts

    def text_of(self, typ):
        if isinstance(typ, str):
            return typ
        if isinstance(typ, tuple):
            return typ[0] + self.text_of(typ[1])
        if typ.package is self:
            return typ.name
        self.used.add(typ.package)
        return f"{typ.package.name}.{typ.name}"

    def results_text(self, results):
        texts = [self.text_of(typ) for typ in results]
        return "" if not texts else texts[0] if len(texts) == 1 else f"({', '.join(texts)})"

    def asked_text(self, name, signature):
        names = self.names(len(signature[0]), ASKED)
        params = ", ".join(f"{n} {self.text_of(typ)}" for n, typ in zip(names, signature[0]))
        return f"{name}({params}) {self.results_text(signature[1])}".strip()

    def names(self, count, among):
        found = []
        while len(found) < count:
            name = self.generator.choice(among)
            if name == "_" or name not in found or self.slip():
                found.append(name)
        return found

    def definition_text(self, found):
        if found.base is not None:
            return f"type {found.name} {self.text_of(found.base)}\n\n"
        if found.kind == "interface":
            asked = [self.asked_text(n, s) for n, s in found.asked.items()]
            if asked and self.slip():
                asked.append(self.generator.choice(asked))
            body = "; ".join(asked) if self.generator.random() < 0.4 else "\n" + "".join(f"\t{a}\n" for a in asked)
            return f"type {found.name} interface {{{body}}}\n\n"
        if found.kind == "struct":
            return f"type {found.name} struct {{ {'; '.join(f'{n} {self.text_of(t)}' for n, t in found.fields.items())} }}\n\n"
        return f"type {found.name} int\n\n"

    def function_text(self, header, own, signature):
        params, results = signature
        names = self.names(len(params), [n for n in PARAMETERS if n not in own])
        self.blocks = [{**own, **{n: typ for n, typ in zip(names, params) if n != "_"}}]
        listed = ", ".join(f"{n} {self.text_of(typ)}" for n, typ in zip(names, params))
        body = "".join(f"\t{self.statement(results)}\n" for _ in range(self.generator.randrange(4)))
        return f"func {header}({listed}) {self.results_text(results)} {{\n{body}{self.returned(results)}}}\n\n"

    def returned(self, results):
        return f"\treturn {', '.join(self.value(typ, 1) for typ in results)}\n" if results else ""

    def files(self):
        """One or two files."""
        parts = [self.definition_text(found) for found in self.types]
        parts += [f"var {name} {self.text_of(typ)}\n\n" for name, typ in self.variables.items()]
        parts = [(self.used, part) for part in parts]
        for name, signature in self.functions.items():
            parts.append(self.apart(lambda n=name, s=signature: self.function_text(n, {}, s)))
        for found in self.types:
            for name, (star, signature) in found.methods.items():
                own = ("*", found) if star else found
                parts.append(
                    self.apart(lambda n=name, s=signature, o=own, f=found, r=star: self.function_text(f"(r {r}{f.name}) {n}", {"r": o}, s))
                )
        self.generator.shuffle(parts)
        cut = self.generator.randrange(len(parts) + 1) if self.generator.random() < 0.4 else len(parts)
        found = {f"{self.path}/a.go": self.file(parts[:cut])}
        if cut < len(parts):
            found[f"{self.path}/b.go"] = self.file(parts[cut:])
        return found

    def apart(self, make):
        """A part with the packages that it uses."""
        before, self.used = self.used, set()
        text = make()
        used, self.used = self.used, before
        return used, text

    def file(self, parts):
        body = "".join(text for _, text in parts)
        lines = [f'import "{other.path}"\n' for other in self.others if f"{other.name}." in body]
        return "".join([f"package {self.name}\n\n", *lines, body]).encode()

    # statements and values

    def known(self):
        return {**self.variables, **self.blocks[0]}

    def statement(self, results):
        generator = self.generator
        known = self.known()
        way = generator.randrange(9)
        typ = self.a_type()
        free = [name for name in ["v", "w", "z"] if name not in self.blocks[0]]
        if way < 3 and free:
            text = f"var {free[0]} {self.text_of(typ)} = {self.value(typ, 2)}"
            self.blocks[0][free[0]] = typ
            # a variable is used, since Go's tools ask for that
            return f"{text}\n\t_ = {free[0]}"
        if way == 3 and free:
            text = f"{free[0]} := {self.named_value(typ)}"
            self.blocks[0][free[0]] = typ
            return f"{text}\n\t_ = {free[0]}"
        if way == 4 and known:
            name = generator.choice(sorted(known))
            return f"{name} = {self.value(known[name], 2)}"
        if way == 5:
            typ = generator.choice([d for d in self.seen_types() if is_interface(d)] or ["int"])
            names = [name for name, own in known.items() if own is typ]
            if names:
                return f"if {generator.choice(names)} {generator.choice(['==', '!='])} nil {{\n\t{self.returned(results) or 'return'}\t}}"
        if way == 6:
            calls = [c for name in known for c in self.calls(name, known[name])]
            if calls:
                return generator.choice(calls)[1]
        if way == 7 and generator.random() < 0.5:
            return f"_, _ = {self.value(typ, 1)}, {self.named_value('int')}" if not is_interface(typ) else f"_ = {self.named_value(typ)}"
        return f"_ = {self.named_value(typ)}"

    def calls(self, name, typ):
        return [
            (results, f"{name}.{method}({', '.join(self.value(param, 0) for param in params)})")
            for method, (params, results) in self.method_set(typ).items()
        ]

    def named_value(self, typ):
        """A value that is known to be of that type where it stands alone."""
        if isinstance(typ, Definition):
            return f"{self.text_of(typ)}({self.value(typ, 0)})"
        if isinstance(typ, tuple):
            names = [name for name, own in self.known().items() if own == typ]
            return self.generator.choice(names) if names else "1"
        return BASIC[typ]

    def value(self, typ, depth):
        generator = self.generator
        if self.slip():
            typ = self.a_type()
        known = self.known()
        options = [name for name, own in known.items() if own == typ] * 2
        if is_interface(typ):
            options += [name for name, own in known.items() if self.implements(own, typ)]
            fitting = [t for d in self.seen_types() for t in (d, ("*", d)) if t != typ and self.implements(t, typ)]
            if fitting and depth:
                other = generator.choice(fitting)
                options += [self.value(other, depth - 1)] * 2 if not is_interface(other) else [self.value(other, 0)]
            if not typ.written().asked and depth:
                options += list(BASIC.values()) + ["(1 < 2)"]
        if depth:
            for name, (params, results) in self.functions.items():
                if results == [typ] and name not in self.blocks[0]:
                    options.append(f"{name}({', '.join(self.value(p, 0) for p in params)})")
            for name, own in known.items():
                options += [text for results, text in self.calls(name, own) if results == [typ]]
                options += self.selections(name, own, typ)
        return generator.choice(options + [self.plain(typ, depth)])

    def selections(self, name, own, typ):
        base = own[1] if isinstance(own, tuple) and own[0] == "*" else own
        if not isinstance(base, Definition) or base.written().kind != "struct":
            return []
        owner = base.written().package
        return [f"{name}.{field}" for field, inner in base.written().fields.items() if inner == typ and is_seen(field, owner, self)]

    def plain(self, typ, depth):
        if isinstance(typ, str):
            return BASIC[typ]
        if is_interface(typ):
            return "nil"
        text = self.text_of(typ)
        if isinstance(typ, tuple):
            if typ[0] == "[]" and depth:
                return f"{text}{{{self.value(typ[1], depth - 1)}}}"
            inner = typ[1].written() if isinstance(typ[1], Definition) else None
            return f"&{self.text_of(typ[1])}{{}}" if typ[0] == "*" and inner is not None and inner.kind == "struct" else "nil"
        if typ.written().kind == "int":
            return f"{text}(1)"
        fields = [n for n in typ.written().fields if is_seen(n, typ.written().package, self)]
        if not depth or not fields:
            return f"{text}{{}}"
        name = self.generator.choice(fields)
        return f"{text}{{{name}: {self.value(typ.written().fields[name], depth - 1)}}}"


def any_implementing(generator, slips=0.0):
    """A workspace of one to three packages."""
    packages, texts = [], {}
    for path in FOLDERS[: generator.choice([1, 2, 2, 3])]:
        packages.append(Package(generator, path, list(packages), slips))
        texts.update(packages[-1].files())
    return texts


def implementing(generator):
    """One without faults."""
    while True:
        texts = any_implementing(generator)
        if not Workspace(texts, interfaces=True).faults():
            return texts
