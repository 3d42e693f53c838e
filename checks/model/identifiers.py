"""The identifiers of a workspace without faults: of each its role, its block and what it is bound to.

Blocks and scopes are found here as intervals of a file, by a walk of the trees, and not as the stack of tables of
`scopes.py`; `bound_lexically` resolves a name by these intervals alone. A declaration is an object of `scopes.py`.
"""

from checks.model.scopes import UNIVERSE, asked_methods

LEXICAL = ("use", "declares", "defines")


def in_order(place):
    """The order of places: by the bytes of the path, then by offset."""
    return place[0].encode(), place[1]


def place_of(declaration):
    """Where a declaration stands, an import at its path literal; None of the universe."""
    if declaration.kind == "universe":
        return None
    token = declaration.node.at if declaration.kind == "import" else declaration.token
    return declaration.path, token.offset


class Block:
    """Kind: package, file, local, or parameters of a method of an interface; of a local one its file and where it begins and ends."""

    def __init__(self, kind, outer, owner, start=None, end=None):
        self.kind = kind
        self.outer = outer
        self.owner = owner
        self.start = start
        self.end = end


class Scope:
    """Where a name that is no member can be used: the block of its declaration, of a local one from a place on."""

    def __init__(self, declaration, block, start=None):
        self.declaration = declaration
        self.block = block
        self.start = start

    def holds(self, package, path, offset):
        kind = self.block.kind
        if kind == "package":
            return self.block.owner == package
        if kind == "parameters":
            # to such a variable nothing but its own identifier is bound
            return False
        if self.block.owner != path:
            return False
        return kind == "file" or self.start <= offset < self.block.end

    def depth(self):
        """Greater the further in; of two scopes that share a place the greater lies within the other."""
        rank = {"package": 1, "file": 2, "local": 3}[self.block.kind]
        return rank, self.start or 0


class Identifier:
    """Role: use, declares, defines (on the left of `:=`), qualified, member, declares member, or none."""

    def __init__(self, package, path, token, role, block=None, declaration=None, before=None):
        self.package = package
        self.path = path
        self.offset = token.offset
        self.name = token.text
        self.role = role
        self.block = block
        self.declaration = declaration
        # of a qualified use the import's declaration, of a member use the type before it
        self.before = before

    @property
    def place(self):
        return self.path, self.offset


def last_token_end(node):
    """Behind the last identifier or literal of a node."""
    ends = [0]
    for value in vars(node).values():
        for part in value if isinstance(value, list) else [value]:
            if part is None or isinstance(part, (str, bool)):
                continue
            ends.append(part.offset + len(part.text) if hasattr(part, "offset") else last_token_end(part))
    return max(ends)


class Walk:
    """The identifiers of one file."""

    def __init__(self, found, package, file):
        self.found = found
        self.package = package
        self.file = file
        self.checker = package.checker
        self.block = found.files[file.path]

    def add(self, token, role, before=None):
        declaration = self.checker.bound[id(token)]
        self.found.add(Identifier(self.package.path, self.file.path, token, role, self.block, declaration, before))
        return declaration

    def declare(self, token, block, start=None, role="declares"):
        declaration = self.add(token, role)
        if declaration is not None:
            self.found.enter(Scope(declaration, block, start))

    def walk(self):
        self.add(self.file.tree.name, "none")
        for node in self.file.tree.parts:
            declaration = self.checker.bound[id(node.at)]
            if node.name is not None:
                self.add(node.name, "declares")
            self.found.enter(Scope(declaration, self.block))
        for node in self.file.tree.other:
            getattr(self, "top_" + node.kind)(node)

    def top_global(self, node):
        for token in node.parts:
            self.declare(token, self.block.outer)
        self.type(node.typ)

    def top_type(self, node):
        self.declare(node.name, self.block.outer)
        owner = node.declarations[0]
        for part in node.parts:
            for token in part.parts:
                self.add(token, "declares member", ("named", owner))
            self.type(part.typ)
        if node.typ is not None:
            self.type(node.typ)
        for method in asked_methods(node):
            self.add(method.name, "declares member", ("named", owner))
            self.asked(method)

    def asked(self, method):
        block = Block("parameters", self.block, self.file.path)
        for param in method.parts:
            self.type(param.typ)
            for token in param.parts:
                if token.text == "_":
                    self.add(token, "none")
                else:
                    self.declare(token, block, token.offset)
        for result in method.other:
            self.type(result)

    def top_func(self, node):
        if node.typ is not None:
            owner = self.add(node.typ.at, "use")
            self.add(node.name, "declares member", ("named", owner))
        elif node.name.text == "init":
            self.add(node.name, "none")
        else:
            self.declare(node.name, self.block.outer)
        for param in node.parts:
            self.type(param.typ)
        for result in node.other:
            self.type(result)
        self.inside(node.body.first.offset, node.body.at.offset, lambda: self.parameters_and_body(node))

    def inside(self, start, end, walk):
        """What is walked stands in a block of its own."""
        outer = self.block
        self.block = Block("local", outer, self.file.path, start, end)
        walk()
        self.block = outer

    def parameters_and_body(self, node):
        tokens = [node.typ.name] if node.typ is not None else []
        for token in tokens + [token for param in node.parts for token in param.parts]:
            self.local(token, node.body.first.offset)
        self.statements(node.body.parts)

    def local(self, token, start, role="declares"):
        if token.text == "_":
            self.add(token, "none")
        else:
            self.declare(token, self.block, start, role)

    # types

    def type(self, node):
        if node.kind in ("pointer", "slice"):
            self.type(node.typ)
        elif node.kind == "named":
            self.add(node.name, "use")
        else:
            declaration = self.add(node.package, "use")
            self.add(node.name, "qualified", declaration)

    # statements

    def statements(self, nodes):
        for node in nodes:
            self.statement(node)

    def statement(self, node):
        getattr(self, "state_" + node.kind, self.plain)(node)

    def plain(self, node):
        """A statement that declares nothing and opens no block: its expressions."""
        self.expressions(node.parts)
        for part in node.other if isinstance(node.other, list) else [node.other] if node.other else []:
            self.expression(part)

    def state_var(self, node):
        for spec in node.parts:
            if spec.typ is not None:
                self.type(spec.typ)
            self.expressions(spec.other)
            for token in spec.parts:
                self.local(token, last_token_end(spec))

    def state_block(self, node):
        self.inside(node.first.offset, node.at.offset, lambda: self.statements(node.parts))

    def state_if(self, node):
        self.inside(node.first.offset, end_of(node), lambda: self.branch(node))

    def branch(self, node):
        if node.package is not None:
            self.statement(node.package)
        self.expressions(node.parts)
        self.statement(node.body)
        if node.other is not None:
            self.statement(node.other)

    def state_for(self, node):
        self.inside(node.first.offset, end_of(node), lambda: self.loop(node))

    def loop(self, node):
        init, condition, post = node.parts
        for statement in (init, post):
            if statement is not None:
                self.statement(statement)
        if condition is not None:
            self.expression(condition)
        self.statement(node.body)

    def state_define(self, node):
        self.expressions(node.other)
        for left in node.parts:
            bound = self.checker.bound[id(left.name)]
            if left.name.text == "_":
                self.add(left.name, "none")
            elif bound.token is left.name:
                self.declare(left.name, self.block, last_token_end(node), "defines")
            else:
                self.add(left.name, "use")

    def state_assign(self, node):
        for left in node.parts:
            if left.kind == "ident" and left.name.text == "_":
                self.add(left.name, "none")
            else:
                self.expression(left)
        self.expressions(node.other)

    # expressions

    def expressions(self, nodes):
        for node in nodes:
            self.expression(node)

    def expression(self, node):
        kind = node.kind
        if kind == "ident":
            self.add(node.name, "use")
        elif kind == "selector":
            self.selector(node)
        elif kind == "literal":
            self.literal(node)
        else:
            self.expressions(node.parts)
            self.expressions(node.other if kind == "call" else [])

    def selector(self, node):
        inner = node.parts[0]
        self.expression(inner)
        operand = self.checker.operands[id(inner)]
        if operand.mode == "package":
            self.add(node.name, "qualified", operand.declaration)
        else:
            self.add(node.name, "member", operand.kind[1])

    def literal(self, node):
        self.type(node.typ)
        typ = self.checker.type_of(node.typ)
        for element in node.parts:
            if element.name is not None:
                self.add(element.name, "member", typ)
            self.expression(element.parts[0])


def end_of(node):
    """Where the last block of an `if` or `for` ends."""
    while node.kind == "if" and node.other is not None:
        node = node.other
    return (node if node.kind == "block" else node.body).at.offset


class Identifiers:
    """All identifiers of a workspace without faults, in the order of places, and the scopes of its declarations."""

    def __init__(self, workspace):
        assert not workspace.faults()
        self.workspace = workspace
        self.all = []
        self.scopes = {}
        self.named = {}
        self.files = {}
        self.types = []
        for package in (workspace.packages[path] for path in workspace.order):
            block = Block("package", None, package.path)
            self.types += [(package, node.declarations[0]) for node in package.checker.type_nodes()]
            for file in package.files:
                self.files[file.path] = Block("file", block, file.path)
                Walk(self, package, file).walk()
        self.all.sort(key=lambda identifier: in_order(identifier.place))
        self.of = {}
        for identifier in self.all:
            self.of.setdefault(identifier.declaration, []).append(identifier)

    def add(self, identifier):
        self.all.append(identifier)

    def enter(self, scope):
        self.scopes[scope.declaration] = scope
        self.named.setdefault(scope.declaration.name, []).append(scope)

    def bound_lexically(self, name, identifier):
        """What a name is bound to where an identifier stands, by the scopes alone."""
        around = [s for s in self.named.get(name, ()) if s.holds(identifier.package, identifier.path, identifier.offset)]
        if around:
            return max(around, key=Scope.depth).declaration
        return UNIVERSE.get(name)

    def check(self):
        """That each identifier stands here once, and is bound by its scopes as the tables of `scopes.py` bind it."""
        told = {(b[0], b[1]): b[3] for b in self.workspace.bindings() if b[4]}
        assert len(self.all) == len({i.place for i in self.all})
        assert told == {i.place: i.declaration for i in self.all}
        for identifier in self.all:
            if identifier.role == "use":
                assert self.bound_lexically(identifier.name, identifier) is identifier.declaration, identifier.place
        return len(self.all)
