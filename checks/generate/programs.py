"""Random Go source texts: of any tokens, of the grammar with few names, and mostly well typed ones."""

from checks.model.grammar import GRAMMAR
from checks.model.lexer import KEYWORDS, OPERATORS

WORDS = "a b c x y T U f main len int _x é ß Ω 日本 ǅ ʰ".split()
INTEGERS = "0 1 42 0x1F 0b1 0o7 07 1_000 9223372036854775807".split()
STRINGS = ['"a"', "`b`", '"\\n"', '"\\u00e9"', "`x\ny`", '""']
ODD = (
    ["_", "0", '"s"', "`r`", "1.", ".5", "08", "0x", "1_", '"\\q"', "'", "#", "$", "?", "@", "\\", "..", "..."]
    + ["1e5", "é1", "\u0660", "1\u0660", "5.", "0b2", "0_", '"ab', "`x", "/*", "//", "\ufeff", "&^=", "<-"]
)
FEW = "a b x y T len int init F é".split()


def derived(symbol, depth, random):
    """A random list of tokens of the grammar."""
    if symbol not in GRAMMAR:
        choices = {"name": WORDS, "int": INTEGERS, "string": STRINGS}
        return [random.choice(choices.get(symbol, [symbol]))]
    bodies = GRAMMAR[symbol]
    if depth <= 0:
        bodies = sorted(bodies, key=len)[: max(1, len(bodies) // 3)]
    return [token for part in random.choice(bodies) for token in derived(part, depth - 1, random)]


def spaced(tokens, random):
    """The tokens with random trivia between them."""
    text = ""
    for token in tokens:
        text += random.choice([";", "\n", "\n", " ;\n"]) if token == ";" else token
        trivia = [" ", " ", " ", " ", "", "\t", "/*c*/", "\r "]
        trivia += ["// l\n"] if random.random() < 0.01 else []
        trivia += ["/*\n*/"] if random.random() < 0.01 else []
        text += random.choice(trivia)
    return text


def any_text(random):
    """Tokens of a file with a few changed, and maybe a byte."""
    while True:
        tokens = derived("File", random.choice([6, 8, 10, 12]), random)
        if len(tokens) < 120:
            break
    for _ in range(random.choice([0, 0, 1, 1, 1, 2, 3])):
        place = random.randrange(len(tokens) + 1)
        change = random.randrange(3)
        odd = random.choice(list(KEYWORDS) + OPERATORS + WORDS + ODD)
        tokens[place : place + min(change, 1)] = [] if change == 1 else [odd]
    if random.random() < 0.1:
        tokens = tokens[: random.randrange(len(tokens) + 1)]
    text = spaced(tokens, random).encode()
    if random.random() < 0.05 and text:
        place = random.randrange(len(text))
        odd = bytes([random.choice([0, 0xFF, 0xC3, 0xE2, 0xF0, 0x80, 0xED])])
        text = text[:place] + odd + text[place + 1 :]
    return text


STATEMENTS = {"var": 4, "Simple": 8, "Block": 2, "If": 3, "For": 3, "break": 0.2, "continue": 0.2, "return": 1}


def weights(symbol, bodies, deep, random):
    if symbol == "Imports":
        return [55, 45]
    if symbol == "Tops":
        return [28, 72]
    if symbol == "Top":
        return [2, 2, 6]
    if symbol == "Stmts":
        return [70, 30] if deep else [22, 78]
    if symbol == "Stmt":
        inner = ("Block", "If", "For")
        return [
            0.4 if not body else 0 if deep and body[0] in inner else STATEMENTS[body[0]] for body in bodies
        ]
    if symbol in ("Simple", "SimpleH"):
        return [8 if ":=" in body else 3 if "=" in body else 1 for body in bodies]
    if symbol.startswith(("Expr", "Unary", "Primary", "Elements")):
        found = [1 / len(body) ** (3 if deep else 1.2) for body in bodies]
        return [6 * w if body == ("ident",) else w for w, body in zip(found, bodies)]
    return [1 / (1 + len(body)) ** (2 if deep else 0.3) for body in bodies]


def scoped(symbol, depth, random):
    """Tokens of the grammar with statements and few names, so that names are declared and used."""
    if symbol not in GRAMMAR:
        choices = {"name": FEW, "int": ["1"], "string": ['"a"', "`b`"]}
        return [random.choice(choices.get(symbol, [symbol]))]
    bodies = GRAMMAR[symbol]
    body = random.choices(bodies, weights(symbol, bodies, depth <= 0, random))[0]
    if ":=" in body:
        names = [random.choice(FEW + ["_"]) for _ in range(random.choice([1, 1, 2, 3]))]
        left = [token for name in names for token in (",", name)][1:]
        return left + [":="] + scoped(body[2], 2, random)
    return [token for part in body for token in scoped(part, depth - 1, random)]


def scoped_text(random):
    while True:
        tokens = scoped("File", random.choice([9, 10, 11, 12, 13]), random)
        if 20 < len(tokens) < 220:
            return spaced(tokens, random).encode()


def deep_expression(depth, random):
    """An expression that opens that many levels, one in another."""
    text, behind = "", ""
    for _ in range(depth):
        front, back = random.choice(
            [("(", ")"), ("-", ""), ("!", ""), ("f(", ")"), ("s[", "]"), ("T{", "}"), ("f(1, ", ",)")]
            + [("x + (", ")"), ("T{a: ", "}"), ("+", ""), ("*", "")]
        )
        text += front
        behind = back + behind
    return text + random.choice(["1", "x", "&T{}", "[]*T{}", "[][]T{1}"]) + behind


def deep_text(random):
    """A file of about as many levels as there may be."""
    depth = random.randrange(190, 203)
    kind = random.randrange(4)
    if kind == 0:
        body = deep_expression(depth, random)
        return f"package a\nfunc F() {{\n\tx = {body}\n}}\n".encode()
    if kind == 1:
        levels = "".join(random.choice(["*", "[]"]) for _ in range(depth))
        return f"package a\nvar (\nx {levels}int\n)\nfunc (t T) F(a, b {levels}int) ({levels}T, int) {{}}\n".encode()
    if kind == 2:
        blocks = "".join(random.choice(["{\n", "for {\n", "if x {\n"]) for _ in range(depth))
        return ("package a\nfunc F() {\n" + blocks + "x = -1\n" + "}\n" * (depth + 1)).encode()
    chain = " else ".join(["if x {}"] * depth)
    inner = deep_expression(random.randrange(4), random)
    return f"package a\nfunc F() {{\n{chain} else {{ x = {inner} }}\n}}\n".encode()


class Typed:
    """A mostly well typed package: declarations of few names, then bodies over what is in scope. A slip is a random
    departure from the rules."""

    BASIC = ["int", "bool", "string"]
    PLAIN = {"int": "1", "bool": "true", "string": '"s"'}

    def __init__(self, random, imports, slips):
        self.random = random
        self.imports = imports
        self.slips = slips
        self.types = {}  # name: its fields, or the type that it is written as
        self.functions = {}
        self.variables = {}
        self.locals = []

    def slip(self):
        return self.random.random() < self.slips

    def written(self, typ):
        """The type behind names: a dict of fields, or a type that begins with `*` or `[]` or is basic."""
        for _ in self.types:
            if not isinstance(typ, str) or typ[0] in "*[" or typ in self.BASIC:
                break
            if "." in typ:
                package, name = typ.split(".")
                typ = self.imports[package].written(name)
                return typ if typ in self.BASIC else None
            typ = self.types[typ]
        return typ if isinstance(typ, dict) or typ[0] in "*[" or typ in self.BASIC else None

    def type_name(self, depth=2, later=True):
        random = self.random
        if depth and random.random() < 0.35:
            return random.choice(["*", "[]"]) + self.type_name(depth - 1)
        others = [
            f"{name}.{typ}" for name, package in self.imports.items() for typ in package.types if typ[0].isupper()
        ]
        own = [name for name, typ in self.types.items() if later or typ is not None]
        return random.choice(self.BASIC + own + others + ["int"])

    def struct(self):
        random = self.random
        fields = {}
        for number in range(random.randrange(1, 4)):
            name = random.choice("XYxyz") + ("" if self.slip() else str(number))
            fields[name] = self.type_name(1, later=self.slip())
        return fields

    def declare(self):
        random = self.random
        text = ""
        for number in range(random.randrange(1, 4)):
            self.types[random.choice("TUVtu") + ("" if self.slip() else str(number))] = None
        for name in list(self.types):
            if random.random() < 0.6:
                self.types[name] = fields = self.struct()
                body = "; ".join(f"{field} {typ}" for field, typ in fields.items())
                text += f"type {name} struct {{ {body} }}\n"
            else:
                self.types[name] = typ = self.type_name(1, later=self.slip())
                text += f"type {name} {typ}\n"
        for name in random.sample(["g", "h", "G", "H"], random.randrange(4)):
            self.variables[name] = typ = self.type_name()
            text += f"var {name} {typ}\n"
        for name in random.sample(["f", "k", "F", "K", "init"], random.randrange(2, 5)):
            params = [self.type_name() for _ in range(random.randrange(3))]
            results = [self.type_name() for _ in range(random.choice([0, 1, 1, 2]))]
            if name == "init" and not self.slip():
                params, results = [], []
            self.functions[name] = (params, results)
        return text

    def function(self, header, own, results, depth):
        self.locals = [own]
        return f"func {header} ({', '.join(results)}) {{\n{self.block(results, depth)}}}\n"

    def bodies(self):
        random = self.random
        text = ""
        for name, (params, results) in self.functions.items():
            own = dict(zip("pqr", params))
            header = ", ".join(f"{n} {t}" for n, t in own.items())
            text += self.function(f"{name}({header})", own, results, 3)
        for name in self.types:
            written = self.written(name)
            if isinstance(written, str) and written[0] == "*" and not self.slip():
                continue
            for method in random.sample(["m", "M", "X0" if self.slip() else "w"], random.randrange(3)):
                results = [self.type_name(1)] if random.random() < 0.7 else []
                star = random.choice(["", "*"])
                text += self.function(f"(s {star}{name}) {method}()", {"s": star + name}, results, 2)
        return text

    def block(self, results, depth):
        random = self.random
        text = ""
        self.locals.append({})
        for _ in range(random.randrange(1, 5)):
            text += self.statement(results, depth) + "\n"
        text += "return " + ", ".join(self.value(typ, 2) for typ in results) + "\n"
        self.locals.pop()
        return text

    def known(self):
        found = dict(self.variables)
        for block in self.locals:
            found.update(block)
        return found

    def new_name(self):
        taken = set() if self.slip() else set(self.locals[-1]) | (set(self.locals[0]) if len(self.locals) == 2 else set())
        free = [name for name in "abcgfh" if name not in taken]
        return self.random.choice(free or ["a"])

    def statement(self, results, depth):
        random = self.random
        choice = random.randrange(9)
        typ = self.type_name()
        known = self.known()
        if choice in (0, 1, 2):
            value = self.value(typ, 2)
            name = self.new_name()
            self.locals[-1][name] = typ
            untyped = value.startswith("nil") or not self.written(typ) in self.BASIC or typ != self.written(typ)
            if choice == 0 or untyped and not self.slip():
                return f"var {name} {typ}" + (f" = {value}" if random.random() < 0.6 else "")
            return f"{name} := {value}" if random.random() < 0.7 else f"var {name} = {value}"
        if choice == 3 and known:
            left = random.choice(list(known))
            return f"{left} = {self.value(known[left], 2)}"
        if choice == 4 and depth:
            other = f" else {{\n{self.block(results, depth - 1)}}}" if random.random() < 0.4 else ""
            return f"if ({self.value('bool', 2)}) {{\n{self.block(results, depth - 1)}}}{other}"
        if choice == 5 and depth:
            name = random.choice("abc")
            self.locals.append({name: "int"})
            text = f"for {name} := 0; ({self.value('bool', 1)}); {name}++ {{\n{self.block(results, depth - 1)}}}"
            self.locals.pop()
            return text
        if choice == 6:
            return random.choice(["print", "println", "panic"]) + f"({self.value(random.choice(self.BASIC), 2)})"
        left = [name for name, typ in known.items() if typ == "int"]
        if choice == 7 and left:
            return f"{random.choice(left)} {random.choice(['+=', '-=', '*='])} {self.value('int', 2)}"
        called = random.choice(list(self.functions))
        if (called != "init" or self.slip()) and called not in known:
            params, _ = self.functions[called]
            return f"{called}({', '.join(self.value(typ, 1) for typ in params)})"
        return f"_ = {self.value('int', 2)}"

    def value(self, typ, depth):
        """An expression of that type, mostly."""
        random = self.random
        if self.slip():
            typ = self.type_name()
        known = self.known()
        names = [name for name, own in known.items() if own == typ]
        options = [random.choice(names)] * 3 if names else []
        if depth > 0:
            options += self.deep(typ, depth, known)
        options.append(self.plain(typ, depth))
        return random.choice(options)

    def deep(self, typ, depth, known):
        random = self.random
        found = []
        for name, (params, results) in self.functions.items():
            if results == [typ] and name != "init" and name not in known:
                found.append(f"{name}({', '.join(self.value(own, depth - 1) for own in params)})")
        for name, own in known.items():
            fields = self.written(own.removeprefix("*"))
            for field, inner in fields.items() if isinstance(fields, dict) else ():
                if inner == typ:
                    found.append(f"{name}.{field}")
            if own == "[]" + typ:
                found.append(f"{name}[{self.value('int', depth - 1)}]")
            if own == "*" + typ:
                found.append(f"*{name}")
        if typ in self.BASIC:
            found += self.operation(typ, depth)
        names = [name for name, own in known.items() if own == typ]
        if typ.startswith("[]") and names:
            found.append(f"append({random.choice(names)}, {self.value(typ[2:], depth - 1)})")
        return found

    def operation(self, typ, depth):
        random = self.random
        a, b = self.value(typ, depth - 1), self.value(typ, depth - 1)
        if typ == "string":
            return [f"{a} + {b}"]
        if typ == "int":
            return [f"{a} {random.choice('+-*/%')} {b}", f"len({self.value('string', depth - 1)})", f"-({a})"]
        other = random.choice(["int", "string", "int", "*" + self.type_name(1)])
        x, y = self.value(other, depth - 1), self.value(other, depth - 1)
        pairs = [f"!({a})", f"({a}) {random.choice(['&&', '||'])} ({b})"]
        if x == "nil" and y == "nil":
            return pairs
        return pairs + [f"({x} {random.choice(['==', '!='])} {y})"]

    def plain(self, typ, depth):
        random = self.random
        if typ in self.BASIC:
            return self.PLAIN[typ]
        written = self.written(typ)
        if written is None:
            return random.choice([f"{typ}{{}}", f"{typ}(1)"])
        if isinstance(written, dict):
            if depth < 0:
                return f"{typ}{{}}"
            field = random.choice(list(written))
            return f"{typ}{{{field}: {self.value(written[field], -1)}}}"
        if written in self.BASIC:
            return f"{typ}({self.PLAIN[written]})"
        if written.startswith("*"):
            inner = self.written(written[1:])
            return f"&{written[1:]}{{}}" if isinstance(inner, dict) and typ == written else "nil"
        if depth < 0:
            return f"{typ}{{}}"
        return random.choice(["nil", f"{typ}{{}}", f"{typ}{{{self.value(written[2:], -1)}}}"])


def typed_text(random, path, imports, slips):
    """A file of a package that imports the given packages by their names, and what it declares."""
    typed = Typed(random, imports, slips)
    text = f"package {path}\n" + "".join(f'import "{name}"\n' for name in imports)
    text += typed.declare()
    return (text + typed.bodies()).encode(), typed
