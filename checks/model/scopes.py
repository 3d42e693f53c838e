"""Declarations, blocks and scopes of one package, and the members of its types.

A declaration is an object; an identifier is bound to one or to none.
"""

import unicodedata

from checks.model import lexer

BOOL, INT, STRING = ("bool",), ("int",), ("string",)
BASIC = {"bool": BOOL, "int": INT, "string": STRING}
BUILTINS = ("append", "len", "panic", "print", "println")
VALUES = {"true": ("untyped", BOOL), "false": ("untyped", BOOL), "nil": ("nil",)}


class Declaration:
    """Kind: var, type, func, import, local, field, method or universe."""

    def __init__(self, kind, name, path=None, token=None, node=None):
        self.kind = kind
        self.name = name
        self.path = path
        self.token = token
        self.node = node
        self.package = None
        self.uses = 0
        self.counts = True
        # of variables and fields: the type, or None where it is broken
        self.type = None
        # of functions and methods
        self.params = []
        self.results = []
        self.broken = False
        # of methods: whether the receiver is a pointer; of those of interfaces the definition that writes them, else None
        self.on_pointer = False
        self.interface = None
        # of types: the fields or the methods that the definition writes, and the methods with a receiver of the type
        self.fields = []
        self.asked = []
        self.methods = []
        # of imports
        self.imported = None


UNIVERSE = {
    name: Declaration("universe", name) for name in [*BASIC, *VALUES, *BUILTINS]
}


def is_exported(name):
    return unicodedata.category(name[0]) == "Lu"


def asked_methods(node):
    """The methods of an interface that a type definition writes, none where it writes no interface."""
    return node.body.parts if node.body is not None else []


def written_types(node):
    """All that stands as a type in a type definition, in order."""
    found = [part.typ for part in node.parts] if node.typ is None else [node.typ]
    for method in asked_methods(node):
        found += [param.typ for param in method.parts] + method.other
    return found


class Scopes:
    """Stages 4 and 5: bindings and members. A token is told by its identity."""

    def __init__(self, package, packages):
        self.package = package
        self.packages = packages
        self.found = []
        self.bindings = []
        self.block = {}
        self.imports = {}
        self.environment = []
        self.file = None
        self.bound = {}
        self.loops = 0
        self.operands = {}

    def fault(self, token, kind, path=None):
        self.found.append((path or self.file.path, token.offset, kind))

    def faults(self):
        self.scopes()
        if self.found:
            return self.found
        self.members()
        return self.found

    # stage 4: scopes

    def bind(self, token, declaration, identifier=True):
        self.bound[id(token)] = declaration
        self.bindings.append(
            (self.file.path, token.offset, len(token.text.encode()), declaration, identifier)
        )

    def declaring(self, token, declaration, block):
        """Enters a declaration; where it doesn't count it is repeated, and its identifier bound to none."""
        declaration.package = self.package.path
        if declaration.name in block:
            declaration.counts = False
            self.fault(token, "repeated")
            self.bind(token, None)
        else:
            block[declaration.name] = declaration
            self.bind(token, declaration)
        return declaration

    def scopes(self):
        for self.file in self.package.files:
            for node in self.file.tree.other:
                self.package_level(node)
        for self.file in self.package.files:
            self.imports[self.file.path] = self.file_block()
        for self.file in self.package.files:
            self.environment = []
            self.bind(self.file.tree.name, None)
            for node in self.file.tree.other:
                self.declaration(node)
            for declaration in self.all_imports:
                if declaration.path == self.file.path and declaration.uses == 0:
                    self.fault(declaration.node.at, "unused")

    def package_level(self, node):
        if node.kind == "global":
            for token in node.parts:
                self.top(Declaration("var", token.text, self.file.path, token, node), token)
        elif node.kind == "type":
            self.top(Declaration("type", node.name.text, self.file.path, node.name, node), node.name)
        else:
            declaration = Declaration("func", node.name.text, self.file.path, node.name, node)
            declaration.package = self.package.path
            node.declaration = declaration
            if node.typ is None and node.name.text != "init":
                self.top(declaration, node.name)
            else:
                declaration.kind = "method" if node.typ is not None else "init"

    def top(self, declaration, token):
        self.declaring(token, declaration, self.block)
        if token.text == "init" and declaration.kind in ("var", "type"):
            self.fault(token, "repeated")
        declaration.node.declarations = getattr(declaration.node, "declarations", []) + [declaration]

    def file_block(self):
        block = {}
        self.all_imports = getattr(self, "all_imports", [])
        for node in self.file.tree.parts:
            path = lexer.string_value(node.at.text).decode("utf-8", "replace")
            token = node.name or node.at
            name = node.name.text if node.name else self.packages[path].name()
            declaration = Declaration("import", name, self.file.path, token, node)
            declaration.imported = self.packages[path]
            declaration.package = self.package.path
            self.all_imports.append(declaration)
            declaration.counts = name not in self.block and name not in block
            if declaration.counts:
                block[name] = declaration
            else:
                self.fault(token, "repeated")
            bound = declaration if declaration.counts else None
            if node.name:
                self.bind(node.name, bound)
            self.bind(node.at, bound, False)
        return block

    def lookup(self, name):
        for block in reversed(self.environment):
            if name in block:
                return block[name]
        for block in (self.block, self.imports[self.file.path], UNIVERSE):
            if name in block:
                return block[name]
        return None

    def use(self, token):
        if token.text == "_":
            self.bind(token, None)
            self.fault(token, "undeclared")
            return None
        declaration = self.lookup(token.text)
        self.bind(token, declaration)
        if declaration is None:
            self.fault(token, "undeclared")
        else:
            declaration.uses += 1
        return declaration

    def qualified(self, declaration, token):
        """The name behind an import's name and a dot."""
        block = declaration.imported.checker.block
        if not is_exported(token.text):
            self.bind(token, None)
            self.fault(token, "unexported")
            return
        self.bind(token, block.get(token.text))
        if token.text not in block:
            self.fault(token, "undeclared")

    def declaration(self, node):
        if node.kind == "global":
            self.scope_type(node.typ)
        elif node.kind == "type":
            for typ in written_types(node):
                self.scope_type(typ)
            for method in asked_methods(node):
                self.scope_asked(method)
        else:
            self.scope_function(node)

    def scope_asked(self, method):
        """A parameter of a method of an interface is a variable to which nothing but its own identifier is bound. Of two with one
        name in one method the later is repeated."""
        self.environment = [{}]
        for param in method.parts:
            for token in param.parts:
                self.local(token)
        self.environment = []

    def scope_type(self, node):
        if node.kind in ("pointer", "slice"):
            self.scope_type(node.typ)
        elif node.kind == "named":
            self.use(node.name)
        else:
            declaration = self.use(node.package)
            if declaration is not None and declaration.kind == "import":
                self.qualified(declaration, node.name)

    def scope_function(self, node):
        block = {}
        if node.typ is not None:
            self.use(node.typ.at)
        elif node.name.text == "init":
            self.bind(node.name, None)
        for param in node.parts:
            self.scope_type(param.typ)
        for result in node.other:
            self.scope_type(result)
        self.environment = [block]
        if node.typ is not None:
            self.local(node.typ.name)
        for param in node.parts:
            for token in param.parts:
                self.local(token)
        self.scope_statements(node.body.parts)
        self.environment = []

    def local(self, token):
        if token.text == "_":
            self.bind(token, None)
            return
        self.declaring(token, Declaration("local", token.text, self.file.path, token), self.environment[-1])

    def scope_block(self, node):
        self.environment.append({})
        self.scope_statements(node.parts)
        self.environment.pop()

    def scope_statements(self, statements):
        for statement in statements:
            self.scope_statement(statement)

    def scope_statement(self, node):
        kind = node.kind
        if kind == "var":
            for spec in node.parts:
                if spec.typ is not None:
                    self.scope_type(spec.typ)
                for value in spec.other:
                    self.scope_expression(value)
                for token in spec.parts:
                    self.local(token)
        elif kind == "block":
            self.scope_block(node)
        elif kind == "if":
            self.environment.append({})
            if node.package is not None:
                self.scope_statement(node.package)
            self.scope_expression(node.parts[0])
            self.scope_block(node.body)
            if node.other is not None:
                self.scope_statement(node.other)
            self.environment.pop()
        elif kind == "for":
            self.environment.append({})
            init, condition, post = node.parts
            if init is not None:
                self.scope_statement(init)
            if condition is not None:
                self.scope_expression(condition)
            if post is not None:
                self.scope_statement(post)
            self.loops += 1
            self.scope_block(node.body)
            self.loops -= 1
            self.environment.pop()
        elif kind in ("break", "continue"):
            if self.loops == 0:
                self.fault(node.first, "loop")
        elif kind == "return":
            for value in node.parts:
                self.scope_expression(value)
        elif kind == "define":
            self.scope_define(node)
        elif kind == "assign":
            for left in node.parts:
                if left.kind == "ident" and left.name.text == "_":
                    self.bind(left.name, None)
                else:
                    self.scope_expression(left)
            for value in node.other:
                self.scope_expression(value)
        elif kind == "update":
            self.scope_expression(node.parts[0])
            self.scope_expression(node.other)
        elif kind in ("step", "expression"):
            self.scope_expression(node.parts[0])

    def scope_define(self, node):
        for value in node.other:
            self.scope_expression(value)
        block = self.environment[-1]
        before = set(block)
        new = False
        for left in node.parts:
            if left.kind != "ident":
                self.scope_expression(left)
            elif left.name.text == "_":
                self.bind(left.name, None)
            elif left.name.text in before:
                self.use(left.name)
            else:
                new = True
        for left in node.parts:
            if left.kind == "ident" and left.name.text != "_" and left.name.text not in before:
                self.local(left.name)
        if not new:
            self.fault(node.at, "nonew")

    def scope_expression(self, node):
        kind = node.kind
        if kind == "ident":
            self.use(node.name)
        elif kind == "selector":
            inner = node.parts[0]
            self.scope_expression(inner)
            if inner.kind == "ident":
                declaration = self.bound[id(inner.name)]
                if declaration is not None and declaration.kind == "import":
                    self.qualified(declaration, node.name)
        elif kind in ("literal", "address"):
            self.scope_literal(node if kind == "literal" else node.parts[0])
        else:
            for part in node.parts:
                self.scope_expression(part)
            if kind == "call":
                for part in node.other:
                    self.scope_expression(part)

    def scope_literal(self, node):
        self.scope_type(node.typ)
        for element in node.parts:
            self.scope_expression(element.parts[0])

    # stage 5: members and recursive types

    def same_name(self, name, package, other):
        return name == other.name and (is_exported(name) or package == other.package)

    def type_nodes(self):
        for self.file in self.package.files:
            for node in self.file.tree.other:
                if node.kind == "type":
                    yield node

    def members(self):
        for node in self.type_nodes():
            declaration = node.declarations[0]
            for part in node.parts:
                for token in part.parts:
                    field = Declaration("field", token.text, self.file.path, token, part)
                    field.package = self.package.path
                    taken = any(token.text == other.name for other in declaration.fields)
                    self.bind(token, None if taken else field)
                    if taken:
                        self.fault(token, "repeated")
                    else:
                        declaration.fields.append(field)
            for method in asked_methods(node):
                self.asked_method(method, declaration)
        for self.file in self.package.files:
            for node in self.file.tree.other:
                if node.kind == "func" and node.typ is not None:
                    self.method(node)
        for node in self.type_nodes():
            if self.contains(node.declarations[0], node.declarations[0], set()):
                self.fault(node.name, "recursive")

    def asked_method(self, node, owner):
        """A method of an interface is a member of it. Of two with one name the first counts, the other is repeated."""
        method = Declaration("method", node.name.text, self.file.path, node.name, node)
        method.package = self.package.path
        method.interface = owner
        method.counts = all(method.name != other.name for other in owner.asked)
        node.declaration = method
        self.bind(node.name, method if method.counts else None)
        if method.counts:
            owner.asked.append(method)
        else:
            self.fault(node.name, "repeated")

    def method(self, node):
        """It counts where no earlier one of its type has the name, and no field of its type's struct."""
        method = node.declaration
        method.on_pointer = node.typ.flag
        base = self.bound[id(node.typ.at)]
        if base.kind != "type" or base.package != self.package.path:
            self.bind(node.name, method)
            return
        written = self.written_by(base, set())
        beside = base.methods + (written.fields if written is not None else [])
        taken = any(self.same_name(method.name, method.package, other) for other in beside)
        self.bind(node.name, None if taken else method)
        if taken:
            method.counts = False
            self.fault(node.name, "repeated")
        else:
            base.methods.append(method)

    def named(self, node):
        """The type definition that a Type node names, or None."""
        if node.kind == "named":
            declaration = self.bound_anywhere(node.name)
        elif node.kind == "imported":
            declaration = self.bound_anywhere(node.name)
        else:
            return None
        return declaration if declaration is not None and declaration.kind == "type" else None

    def bound_anywhere(self, token):
        if id(token) in self.bound:
            return self.bound[id(token)]
        for package in self.packages.values():
            if package.checker is not None and id(token) in package.checker.bound:
                return package.checker.bound[id(token)]
        return None

    def written_by(self, declaration, seen):
        """The definition that writes the struct or interface which is the underlying type, or None. So `type J I` has the methods
        of I, as `type B A` has the fields of A."""
        if declaration in seen:
            return None
        seen.add(declaration)
        if declaration.node.typ is None:
            return declaration
        inner = self.named(declaration.node.typ)
        return None if inner is None else self.written_by(inner, seen)

    def contains(self, declaration, target, seen):
        """Whether a type contains another through names and fields of structs. It isn't looked for in methods."""
        node = declaration.node
        parts = [part.typ for part in node.parts] if node.typ is None else [node.typ]
        for part in parts:
            inner = self.named(part)
            if inner is target:
                return True
            if inner is not None and inner not in seen:
                seen.add(inner)
                if self.contains(inner, target, seen):
                    return True
        return False
