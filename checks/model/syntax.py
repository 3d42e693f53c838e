"""Syntax trees of files without a syntax fault, by recursive descent. A node keeps its tokens, so their offsets."""

import sys
from dataclasses import dataclass, field
from typing import Optional

from checks.model import grammar

sys.setrecursionlimit(20000)

LEVELS = ({"*", "/", "%"}, {"+", "-"}, {"==", "!=", "<", "<=", ">", ">="}, {"&&"}, {"||"})
LIMIT = 200
UPDATES = ("+=", "-=", "*=", "/=", "%=")


@dataclass
class Node:
    """Kind, the tokens or nodes that it is made of, and its first token."""

    kind: str
    first: object
    name: object = None  # a token
    package: object = None  # a token
    parts: list = field(default_factory=list)
    typ: Optional["Node"] = None
    body: Optional["Node"] = None
    other: Optional["Node"] = None
    at: object = None  # a token: of an operator, a bracket
    flag: bool = False


class Misplaced(Exception):
    """Some token is no part of a file here. Which one is first at fault, the grammar tells."""


class Parser:
    def __init__(self, tokens, interfaces):
        self.tokens = tokens
        self.interfaces = interfaces
        self.at = 0
        self.levels = 0
        self.deep = None  # the number of the first token that opens a level over the limit

    def kind(self, ahead=0):
        place = self.at + ahead
        return self.tokens[place].kind if place < len(self.tokens) else None

    def take(self, *kinds):
        if self.kind() not in kinds:
            raise Misplaced
        self.at += 1
        return self.tokens[self.at - 1]

    def open(self, number):
        """A level opened by the token of that number."""
        self.levels += 1
        if self.levels > LIMIT and self.deep is None:
            self.deep = number

    def close(self):
        self.levels -= 1

    def opening(self, kind):
        self.take(kind)
        self.open(self.at - 1)

    def closing(self, kind):
        self.close()
        return self.take(kind)

    def maybe_opening(self, kind):
        if self.kind() != kind:
            return False
        self.opening(kind)
        return True

    def maybe(self, kind):
        if self.kind() == kind:
            return self.take(kind)
        return None

    def here(self):
        if self.at == len(self.tokens):
            raise Misplaced
        return self.tokens[self.at]

    def listed(self, item, end):
        """Items with commas, the last comma may stand before the end."""
        found = []
        while self.kind() != end:
            found.append(item())
            if not self.maybe(","):
                break
        return found

    def group(self, item):
        if not self.maybe_opening("("):
            return [item()]
        found = []
        while self.kind() != ")":
            found.append(item())
            if not self.maybe(";"):
                break
        self.closing(")")
        return found

    # files and declarations

    def file(self):
        first = self.take("package")
        file = Node("file", first, name=self.take("name"))
        self.take(";")
        imports = []
        while self.maybe("import"):
            imports += self.group(self.import_spec)
            self.take(";")
        declarations = []
        while self.kind() is not None:
            if self.maybe("var"):
                declarations += self.group(self.global_spec)
            elif self.maybe("type"):
                declarations += self.group(self.type_spec)
            else:
                declarations.append(self.function())
            self.take(";")
        file.parts = imports
        file.other = declarations
        return file

    def import_spec(self):
        name = self.maybe("name")
        path = self.take("string")
        return Node("import", name or path, name=name, at=path)

    def names(self, *kinds):
        found = [self.take(*kinds)]
        while self.maybe(","):
            found.append(self.take(*kinds))
        return found

    def global_spec(self):
        names = self.names("name")
        node = Node("global", names[0], parts=names, typ=self.type_use())
        values = []
        if self.maybe("="):
            values.append(self.take("int", "string"))
            while self.maybe(","):
                values.append(self.take("int", "string"))
        node.other = values
        return node

    def type_spec(self):
        name = self.take("name")
        if self.interfaces and self.kind() == "interface":
            return Node("type", name, name=name, body=self.interface())
        if not self.maybe("struct"):
            return Node("type", name, name=name, typ=self.type_use())
        self.opening("{")
        fields = []
        while self.kind() != "}":
            names = self.names("name")
            fields.append(Node("field", names[0], parts=names, typ=self.type_use()))
            if not self.maybe(";"):
                break
        self.closing("}")
        return Node("type", name, name=name, parts=fields, flag=True)

    def interface(self):
        """Its parts are its methods: each a name, parameters with names, and results."""
        first = self.take("interface")
        self.opening("{")
        methods = []
        while self.kind() != "}":
            name = self.take("name")
            params, results = self.signature(";", "}")
            methods.append(Node("method", name, name=name, parts=params, other=results))
            if not self.maybe(";"):
                break
        self.closing("}")
        return Node("interface", first, parts=methods)

    def type_use(self):
        first = self.here()
        for kind, begins in (("pointer", "*"), ("slice", "[")):
            if self.maybe_opening(begins):
                if kind == "slice":
                    self.take("]")
                node = Node(kind, first, typ=self.type_use())
                self.close()
                return node
        name = self.take("name")
        if self.maybe("."):
            return Node("imported", first, package=name, name=self.take("name"))
        return Node("named", first, name=name)

    def function(self):
        first = self.take("func")
        receiver = None
        if self.maybe_opening("("):
            ident = self.take("name", "_")
            star = self.maybe("*")
            receiver = Node("receiver", ident, name=ident, at=self.take("name"), flag=star is not None)
            self.maybe(",")
            self.closing(")")
        name = self.take("name")
        params, results = self.signature("{")
        node = Node("func", first, name=name, parts=params, other=results)
        node.typ = receiver
        node.body = self.block()
        return node

    def signature(self, *behind):
        """Parameters and results; without results one of these tokens stands behind the parameters."""
        self.opening("(")
        params = self.listed(self.param, ")")
        self.closing(")")
        results = []
        if self.maybe_opening("("):
            results = self.listed(self.type_use, ")")
            self.closing(")")
        elif self.kind() not in behind:
            results = [self.type_use()]
        return params, results

    def param(self):
        names = self.names("name", "_")
        return Node("param", names[0], parts=names, typ=self.type_use())

    # statements

    def block(self):
        first = self.here()
        self.opening("{")
        statements = [self.statement()]
        while self.maybe(";"):
            statements.append(self.statement())
        return Node("block", first, parts=statements, at=self.closing("}"))

    def statement(self):
        kind = self.kind()
        first = self.here()
        if kind in (";", "}"):
            return Node("empty", first)
        if self.maybe("var"):
            return Node("var", first, parts=self.group(self.local_spec))
        if kind == "{":
            return self.block()
        if kind == "if":
            return self.branch()
        if kind == "for":
            return self.loop()
        if kind in ("break", "continue"):
            return Node(kind, self.take(kind))
        if self.maybe("return"):
            values = [] if self.kind() in (";", "}") else self.expressions(False)
            return Node("return", first, parts=values)
        return self.simple(False)

    def local_spec(self):
        names = self.names("name", "_")
        typ = None if self.kind() == "=" else self.type_use()
        values = self.expressions(False) if self.maybe("=") else []
        return Node("local", names[0], parts=names, typ=typ, other=values)

    def simple(self, header):
        first = self.here()
        left = self.expressions(header)
        kind = self.kind()
        if kind in ("=", ":="):
            at = self.take(kind)
            node = Node("assign" if kind == "=" else "define", first, parts=left, at=at)
            node.other = self.expressions(header)
            return node
        if len(left) != 1:
            raise Misplaced
        if kind in ("++", "--"):
            return Node("step", first, parts=left, at=self.take(kind))
        if kind in UPDATES:
            return Node("update", first, parts=left, at=self.take(kind), other=self.expression(header))
        return Node("expression", first, parts=left)

    def branch(self):
        node = Node("if", self.take("if"))
        if self.maybe(";"):
            node.package = None
            condition = self.expression(True)
        else:
            init = self.simple(True)
            if self.maybe(";"):
                node.package = init
                condition = self.expression(True)
            else:
                if init.kind != "expression":
                    raise Misplaced
                condition = init.parts[0]
        node.parts = [condition]
        node.body = self.block()
        if self.maybe("else"):
            if self.kind() == "if":
                self.open(self.at)
                node.other = self.branch()
                self.close()
            else:
                node.other = self.block()
        return node

    def loop(self):
        """Parts: init, condition, post, each None where it isn't there."""
        node = Node("for", self.take("for"), parts=[None, None, None])
        if self.kind() != "{":
            init = None if self.kind() == ";" else self.simple(True)
            if self.maybe(";"):
                condition = None if self.kind() == ";" else self.expression(True)
                self.take(";")
                post = None if self.kind() == "{" else self.simple(True)
                if post is not None and post.kind == "define":
                    raise Misplaced
                node.parts = [init, condition, post]
            else:
                if init is None or init.kind != "expression":
                    raise Misplaced
                node.parts = [None, init.parts[0], None]
        node.body = self.block()
        return node

    # expressions

    def expressions(self, header):
        found = [self.expression(header)]
        while self.maybe(","):
            found.append(self.expression(header))
        return found

    def expression(self, header, level=4):
        if level < 0:
            return self.unary(header)
        left = self.expression(header, level - 1)
        while self.kind() in LEVELS[level]:
            at = self.take(self.kind())
            right = self.expression(header, level - 1)
            left = Node("binary", left.first, parts=[left, right], at=at)
        return left

    def unary(self, header):
        first = self.here()
        if self.kind() in ("+", "-", "!", "*"):
            self.opening(self.kind())
            node = Node("prefix", first, parts=[self.unary(header)], at=first)
            self.close()
            return node
        if self.maybe_opening("&"):
            if not self.begins_literal(header):
                raise Misplaced
            node = Node("address", first, parts=[self.literal()])
            self.close()
            return node
        return self.primary(header)

    def begins_literal(self, header):
        if self.kind() == "[":
            return True
        if header or self.kind() != "name":
            return False
        if self.kind(1) == "{":
            return True
        return self.kind(1) == "." and self.kind(2) == "name" and self.kind(3) == "{"

    def literal(self):
        first = self.here()
        typ = self.type_use()
        self.opening("{")
        elements = self.listed(self.element, "}")
        self.closing("}")
        return Node("literal", first, typ=typ, parts=elements)

    def element(self):
        first = self.here()
        key = None
        if self.kind() == "name" and self.kind(1) == ":":
            key = self.take("name")
            self.take(":")
        return Node("element", first, name=key, parts=[self.expression(False)])

    def operand(self, header):
        first = self.here()
        if self.begins_literal(header):
            return self.literal()
        if self.maybe_opening("("):
            inner = self.expression(False)
            self.closing(")")
            return Node("paren", first, parts=[inner])
        if self.kind() in ("int", "string"):
            return Node(self.kind(), self.take(self.kind()))
        name = self.take("name", "_")
        return Node("ident", first, name=name)

    def primary(self, header):
        node = self.operand(header)
        while True:
            if self.maybe("."):
                node = Node("selector", node.first, parts=[node], name=self.take("name"))
            elif self.maybe_opening("["):
                node = Node("index", node.first, parts=[node, self.expression(False)])
                self.closing("]")
            elif self.maybe_opening("("):
                arguments = self.listed(lambda: self.expression(False), ")")
                self.closing(")")
                node = Node("call", node.first, parts=[node], other=arguments)
            else:
                return node


def first_fault(tokens, interfaces=True):
    """The tree and None; or None and the number of the token at fault, their count at the end, with its kind."""
    parser = Parser(tokens, interfaces)
    try:
        tree = parser.file()
        number = len(tokens) + 1
    except Misplaced:
        tree = None
        number = grammar.first_fault([token.kind for token in tokens], interfaces)
    if parser.deep is not None and parser.deep < number:
        return None, (parser.deep, "nesting")
    return (tree, None) if tree is not None else (None, (number, "syntax"))
