"""The object of a package without faults, as text: its imports, types, variables, and functions with their code.

An instruction is a list of words; a jump is a list whose second word is put in when its target is known.
"""

from checks.model import lexer


def type_text(typ):
    if typ[0] == "named":
        return f"{typ[1].package}#{typ[1].name}"
    if typ[0] == "pointer":
        return "*" + type_text(typ[1])
    if typ[0] == "slice":
        return "[]" + type_text(typ[1])
    return typ[0]


def list_text(types):
    return "(" + ",".join(type_text(typ) for typ in types) + ")"


def asked_symbol(method):
    """The symbol of a method of an interface."""
    return f"{method.interface.package}#{method.interface.name}#{method.name}"


def asked_text(method):
    return asked_symbol(method) + list_text(method.params) + list_text(method.results)


def hexadecimal(value):
    return "x" + value.hex()


class Function:
    """The code of one function."""

    def __init__(self, emitter, node, slots):
        self.emitter = emitter
        self.checker = emitter.checker
        self.node = node
        self.slots = slots
        self.lines = []
        self.loops = []

    def emit(self, *words):
        self.lines.append(list(words))
        return self.lines[-1], len(self.lines)

    def land(self, jump):
        """The target of a jump is the next line."""
        line, after = jump
        line[1:] = [len(self.lines) - after]

    def back(self, target):
        self.lines.append(["jump", target - len(self.lines) - 1])

    def slot(self, token):
        return self.slots[id(self.checker.bound[id(token)])]

    # values

    def operand(self, node):
        return self.checker.operands[id(node)]

    def values(self, nodes):
        for node in nodes:
            self.value(node)

    def value(self, node):
        """A value that isn't nil, whose type is no interface and that fits an interface has behind it the type that it enters as, its
        own or its default type."""
        getattr(self, "value_" + node.kind)(node)
        if id(node) in self.checker.wrapped:
            self.emit("iface", type_text(self.checker.wrapped[id(node)]))

    def value_int(self, node):
        self.emit("int", lexer.integer_value(node.first.text))

    def value_string(self, node):
        self.emit("str", hexadecimal(lexer.string_value(node.first.text)))

    def value_ident(self, node):
        declaration = self.checker.bound[id(node.name)]
        if declaration.kind == "local":
            self.emit("local", self.slots[id(declaration)])
        elif declaration.kind == "universe":
            self.emit(*{"true": ("bool", 1), "false": ("bool", 0), "nil": ("nil",)}[declaration.name])
        else:
            self.emit("global", self.symbol(declaration))

    def value_paren(self, node):
        self.value(node.parts[0])

    def value_prefix(self, node):
        self.value(node.parts[0])
        word = {"*": "load", "-": "neg", "!": "not", "+": None}[node.at.kind]
        if word is not None:
            self.emit(word)

    def value_address(self, node):
        self.value(node.parts[0])
        self.emit("new")

    def value_binary(self, node):
        operator = node.at.kind
        self.value(node.parts[0])
        if operator in ("&&", "||"):
            self.emit("dup")
            jump = self.emit("jz" if operator == "&&" else "jnz")
            self.emit("pop")
            self.value(node.parts[1])
            self.land(jump)
        else:
            self.value(node.parts[1])
            self.emit("op", operator)

    def value_index(self, node):
        self.values(node.parts)
        self.emit("index")

    def is_pointer(self, node):
        return self.checker.underlying(self.operand(node).kind[1])[0] == "pointer"

    def field_number(self, node):
        typ = self.checker.underlying(self.operand(node.parts[0]).kind[1])
        if typ[0] == "pointer":
            typ = self.checker.underlying(typ[1])
        return typ[1].fields.index(self.checker.bound[id(node.name)])

    def value_selector(self, node):
        inner = node.parts[0]
        if self.operand(inner).mode == "package":
            self.emit("global", self.symbol(self.checker.bound[id(node.name)]))
            return
        self.value(inner)
        self.emit("ptrfield" if self.is_pointer(inner) else "field", self.field_number(node))

    def value_call(self, node):
        callee = self.operand(node.parts[0])
        if callee.mode == "type":
            self.value(node.other[0])
            return
        count = len(node.other)
        if callee.mode == "builtin":
            self.values(node.other)
            self.emit("builtin", callee.declaration.name, count)
            return
        word = "call"
        if callee.declaration.kind == "method":
            self.receiver(node.parts[0].parts[0], callee.declaration)
            count += 1
            # a call through an interface names the method as the interface has it
            word = "call" if callee.declaration.interface is None else "icall"
        self.values(node.other)
        self.emit(word, self.symbol(callee.declaration), count)

    def receiver(self, node, method):
        pointer = self.operand(node).kind[1][0] == "pointer"
        if method.on_pointer and not pointer:
            self.address(node)
            return
        self.value(node)
        if pointer and not method.on_pointer:
            self.emit("load")

    def value_literal(self, node):
        typ = self.operand(node).kind[1]
        under = self.checker.underlying(typ)
        if under[0] == "slice":
            self.values([element.parts[0] for element in node.parts])
            self.emit("slice", len(node.parts))
            return
        self.emit("zero", type_text(typ))
        for element in node.parts:
            self.value(element.parts[0])
            self.emit("with", under[1].fields.index(self.checker.bound[id(element.name)]))

    def symbol(self, declaration):
        if declaration.kind != "method":
            return f"{declaration.package}#{declaration.name}"
        if declaration.interface is not None:
            return asked_symbol(declaration)
        typ = declaration.receiver
        typ = typ[1] if typ[0] == "pointer" else typ
        return f"{type_text(typ)}#{declaration.name}"

    # addresses

    def address(self, node):
        if node.kind == "paren":
            self.address(node.parts[0])
        elif node.kind == "ident":
            self.address_of_name(node.name)
        elif node.kind == "prefix":
            self.value(node.parts[0])
        elif node.kind == "index":
            self.values(node.parts)
            self.emit("addrindex")
        elif self.operand(node.parts[0]).mode == "package":
            self.emit("addrglobal", self.symbol(self.checker.bound[id(node.name)]))
        else:
            if self.is_pointer(node.parts[0]):
                self.value(node.parts[0])
            else:
                self.address(node.parts[0])
            self.emit("addrfield", self.field_number(node))

    def address_of_name(self, name):
        if name.text == "_":
            self.emit("blank")
            return
        declaration = self.checker.bound[id(name)]
        if declaration.kind == "local":
            self.emit("addrlocal", self.slots[id(declaration)])
        else:
            self.emit("addrglobal", self.symbol(declaration))

    # statements

    def statements(self, nodes):
        for node in nodes:
            self.statement(node)

    def statement(self, node):
        getattr(self, "do_" + node.kind)(node)

    def do_empty(self, node):
        pass

    def do_block(self, node):
        self.statements(node.parts)

    def set_names(self, tokens):
        for token in reversed(tokens):
            if token.text == "_":
                self.emit("pop")
            else:
                self.emit("set", self.slot(token))

    def do_var(self, node):
        for spec in node.parts:
            self.values(spec.other)
            if not spec.other:
                for _ in spec.parts:
                    self.emit("zero", type_text(self.checker.type_of(spec.typ)))
            self.set_names(spec.parts)

    def do_define(self, node):
        self.values(node.other)
        self.set_names([left.name for left in node.parts])

    def do_assign(self, node):
        for left in node.parts:
            self.address(left)
        self.values(node.other)
        self.emit("assign", len(node.parts))

    def update(self, node, operator):
        self.address(node.parts[0])
        self.emit("dup")
        self.emit("load")
        if node.kind == "update":
            self.value(node.other)
        else:
            self.emit("int", 1)
        self.emit("op", operator)
        self.emit("assign", 1)

    def do_update(self, node):
        self.update(node, node.at.kind[0])

    def do_step(self, node):
        self.update(node, node.at.kind[0])

    def do_expression(self, node):
        inner = node.parts[0]
        self.value(inner)
        operand = self.operand(inner)
        for _ in operand.results if operand.mode == "results" else [None]:
            self.emit("pop")

    def do_if(self, node):
        if node.package is not None:
            self.statement(node.package)
        self.value(node.parts[0])
        over = self.emit("jz")
        self.do_block(node.body)
        if node.other is not None:
            end = self.emit("jump")
            self.land(over)
            self.statement(node.other)
            over = end
        self.land(over)

    def do_for(self, node):
        init, condition, post = node.parts
        if init is not None:
            self.statement(init)
        begin = len(self.lines)
        ends, nexts = [], []
        if condition is not None:
            self.value(condition)
            ends.append(self.emit("jz"))
        self.loops.append((ends, nexts))
        self.do_block(node.body)
        self.loops.pop()
        for jump in nexts:
            self.land(jump)
        if post is not None:
            self.statement(post)
        self.back(begin)
        for jump in ends:
            self.land(jump)

    def do_break(self, node):
        self.loops[-1][0].append(self.emit("jump"))

    def do_continue(self, node):
        self.loops[-1][1].append(self.emit("jump"))

    def do_return(self, node):
        self.values(node.parts)
        self.emit("ret", len(self.node.declaration.results))


class Emitter:
    def __init__(self, package):
        self.package = package
        self.checker = package.checker
        self.lines = []
        self.inits = 0

    def line(self, *words):
        self.lines.append(" ".join(str(word) for word in words))

    def text(self):
        self.line("object", self.package.path, self.package.name())
        paths = {value for file in self.package.files for _, value in file.imports()}
        for path in sorted(paths, key=str.encode):
            self.line("import", path)
        for self.checker.file in self.package.files:
            for node in self.checker.file.tree.other:
                getattr(self, "of_" + node.kind)(node)
        return "".join(line + "\n" for line in self.lines)

    def of_type(self, node):
        if node.flag:
            types = [self.checker.type_of(part.typ) for part in node.parts for _ in part.parts]
            text = "struct{" + ";".join(type_text(typ) for typ in types) + "}"
        elif node.body is not None:
            # the methods in the order of the source
            text = "interface{" + ";".join(asked_text(method) for method in node.declarations[0].asked) + "}"
        else:
            text = type_text(self.checker.type_of(node.typ))
        self.line("type", f"{self.package.path}#{node.name.text}", text)

    def of_global(self, node):
        text = type_text(self.checker.type_of(node.typ))
        for number, token in enumerate(node.parts):
            words = ["var", f"{self.package.path}#{token.text}", text]
            if node.other:
                literal = node.other[number]
                if literal.kind == "int":
                    words.append(lexer.integer_value(literal.text))
                else:
                    words.append(hexadecimal(lexer.string_value(literal.text)))
            self.line(*words)

    def locals_of(self, node):
        """The slots of a function's receiver, parameters and locals, by declaration, and their count."""
        slots, count = {}, 0
        tokens = [node.typ.name] if node.typ is not None else []
        tokens += [token for param in node.parts for token in param.parts]
        for token in tokens:
            declaration = self.checker.bound.get(id(token))
            if declaration is not None:
                slots[id(declaration)] = count
            count += 1
        for token in sorted(declared(node.body.parts), key=lambda token: token.offset):
            declaration = self.checker.bound.get(id(token))
            if declaration is not None and declaration.token is token:
                slots[id(declaration)] = count
                count += 1
        return slots, count

    def of_func(self, node):
        declaration = node.declaration
        params = list(declaration.params)
        if node.typ is not None:
            params.insert(0, declaration.receiver)
            base = declaration.receiver[1] if declaration.receiver[0] == "pointer" else declaration.receiver
            symbol = f"{type_text(base)}#{node.name.text}"
        elif declaration.kind == "init":
            symbol = f"{self.package.path}#init.{self.inits}"
            self.inits += 1
        else:
            symbol = f"{self.package.path}#{node.name.text}"
        slots, count = self.locals_of(node)
        function = Function(self, node, slots)
        function.statements(node.body.parts)
        function.emit("end")
        self.line("func", symbol, list_text(params), list_text(declaration.results), count, len(function.lines))
        for words in function.lines:
            self.line(*words)


def declared(nodes):
    """The tokens that may declare locals in some statements."""
    for node in nodes:
        if node is None:
            continue
        if node.kind == "var":
            for spec in node.parts:
                yield from spec.parts
        elif node.kind == "define":
            yield from (left.name for left in node.parts)
        elif node.kind == "block":
            yield from declared(node.parts)
        elif node.kind == "if":
            yield from declared([node.package, node.body, node.other])
        elif node.kind == "for":
            yield from declared([node.parts[0], node.parts[2], node.body])


def object_of(workspace, path):
    """The object of a package of a workspace, None where it has faults."""
    if workspace.package_faults(path):
        return None
    return Emitter(workspace.packages[path]).text()
