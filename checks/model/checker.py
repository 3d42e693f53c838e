"""The checker of one package: types of expressions, and the stages of faults behind the imports.

Types are tuples: ('bool',), ('int',), ('string',), ('named', declaration), ('pointer', type), ('slice', type), and
('struct', declaration) and ('interface', declaration) for underlying types alone. So two interface types are identical only where they
are the same interface of the source, as two structs are.
"""

from checks.model.scopes import BASIC, BOOL, INT, STRING, VALUES, Scopes, asked_methods, written_types


class Operand:
    """Mode: value, type, func, builtin, package, results, broken."""

    def __init__(self, mode, kind=None, addressable=False, declaration=None, results=None, typ=None):
        self.mode = mode
        self.kind = kind
        self.addressable = addressable
        self.declaration = declaration
        self.results = results
        self.type = typ


BROKEN = Operand("broken")


def typed(typ, addressable=False):
    return Operand("value", ("typed", typ), addressable)

class Checker(Scopes):
    def faults(self):
        if not super().faults():
            self.types()
        return self.found

    # stage 6: types

    def types(self):
        self.broken_types = self.least_broken()
        self.wrapped = {}
        for node in self.type_nodes():
            for part in node.parts:
                typ = self.type_of(part.typ)
                for field in node.declarations[0].fields:
                    if field.node is part:
                        field.type = typ
            for method in asked_methods(node):
                self.check_signature(method)
            if node.typ is not None:
                node.declarations[0].type = self.type_of(node.typ)
        for self.file in self.package.files:
            for node in self.file.tree.other:
                if node.kind == "global":
                    self.check_global(node)
                elif node.kind == "func":
                    self.check_header(node)
        for self.file in self.package.files:
            for node in self.file.tree.other:
                if node.kind == "func":
                    self.check_body(node)

    def least_broken(self):
        nodes = [(self.file, node) for node in self.type_nodes()]
        broken = set()
        while True:
            more = {
                node.declarations[0]
                for _, node in nodes
                for part in written_types(node)
                if self.type_is_broken(part, broken)
            }
            if more == broken:
                return broken
            broken = more

    def type_is_broken(self, node, broken):
        if node.kind in ("pointer", "slice"):
            return self.type_is_broken(node.typ, broken)
        if node.kind == "imported":
            base = self.bound[id(node.package)]
            if base.kind != "import":
                return True
        declaration = self.bound[id(node.name)]
        if declaration.kind == "universe":
            return declaration.name not in BASIC
        return declaration.kind != "type" or declaration in broken

    def type_of(self, node):
        """The type that a Type node is, None where it is broken; adds its faults."""
        if node.kind in ("pointer", "slice"):
            inner = self.type_of(node.typ)
            return None if inner is None else (node.kind, inner)
        if node.kind == "imported":
            base = self.bound[id(node.package)]
            if base.kind != "import":
                is_variable = base.kind in ("var", "local") or base.name in VALUES and base.kind == "universe"
                self.fault(node.name if is_variable else node.package, "type")
                return None
        return self.named_type(node.name)

    def named_type(self, token):
        declaration = self.bound[id(token)]
        if declaration.kind == "universe" and declaration.name in BASIC:
            return BASIC[declaration.name]
        if declaration.kind != "type":
            self.fault(token, "type")
            return None
        return None if declaration in self.broken_types else ("named", declaration)

    def underlying(self, typ):
        while typ[0] == "named":
            declaration = typ[1]
            if declaration.node.flag:
                return ("struct", declaration)
            if declaration.node.body is not None:
                return ("interface", declaration)
            typ = declaration.type
        return typ

    def check_global(self, node):
        typ = self.type_of(node.typ)
        for declaration in node.declarations:
            declaration.type = typ
        if not node.other:
            return
        if len(node.other) != len(node.parts):
            self.fault(node.parts[0], "type")
            return
        for literal in node.other:
            kind = ("untyped", INT if literal.kind == "int" else STRING)
            if typ is not None and not self.fits(kind, typ):
                self.fault(literal, "type")

    def check_header(self, node):
        declaration = node.declaration
        if node.typ is not None:
            declaration.receiver = self.receiver(node.typ)
        self.check_signature(node)
        if node.typ is None and node.name.text == "init" and (node.parts or node.other):
            self.fault(node.name, "type")

    def check_signature(self, node):
        declaration = node.declaration
        declaration.params = []
        for param in node.parts:
            typ = self.type_of(param.typ)
            declaration.params += [typ] * len(param.parts)
        declaration.results = [self.type_of(result) for result in node.other]
        declaration.broken = None in declaration.params or None in declaration.results

    def receiver(self, node):
        """The receiver's type, None where it is broken. Its underlying type is neither a pointer nor an interface."""
        typ = self.named_type(node.at)
        if typ is None:
            return None
        own = typ[0] == "named" and typ[1].package == self.package.path
        if not own or self.underlying(typ)[0] in ("pointer", "interface"):
            self.fault(node.at, "type")
            return None
        return ("pointer", typ) if node.flag else typ

    def check_body(self, node):
        declaration = node.declaration
        self.results = declaration.results
        if node.typ is not None:
            self.set_local(node.typ.name, declaration.receiver)
        types = iter(declaration.params)
        for param in node.parts:
            for token in param.parts:
                self.set_local(token, next(types))
        self.statements(node.body.parts)

    def set_local(self, token, typ):
        declaration = self.bound.get(id(token))
        if declaration is not None:
            declaration.type = typ

    # statements

    def statements(self, nodes):
        for node in nodes:
            self.statement(node)

    def statement(self, node):
        kind = node.kind
        if kind == "var":
            for spec in node.parts:
                self.local_spec(spec)
        elif kind == "block":
            self.statements(node.parts)
        elif kind == "if":
            if node.package is not None:
                self.statement(node.package)
            self.condition(node.parts[0])
            self.statements(node.body.parts)
            if node.other is not None:
                self.statement(node.other)
        elif kind == "for":
            init, condition, post = node.parts
            if init is not None:
                self.statement(init)
            if condition is not None:
                self.condition(condition)
            if post is not None:
                self.statement(post)
            self.statements(node.body.parts)
        elif kind == "return":
            self.check_return(node)
        elif kind == "define":
            self.check_define(node)
        elif kind == "assign":
            self.check_assign(node)
        elif kind == "update":
            self.check_update(node)
        elif kind == "step":
            operand = self.value(node.parts[0])
            if operand.mode == "value" and not (operand.addressable and self.is_class(operand.kind, INT)):
                self.fault(self.place(node.parts[0]), "type")
        elif kind == "expression":
            self.check_call_statement(node.parts[0])

    def condition(self, node):
        operand = self.value(node)
        if operand.mode == "value" and not self.is_class(operand.kind, BOOL):
            self.fault(self.place(node), "type")

    def rights(self, nodes):
        """The values on the right: each place's node and kind, None where broken."""
        if len(nodes) == 1:
            operand = self.expression(nodes[0])
            if operand.mode == "results":
                return [(nodes[0], ("typed", typ)) for typ in operand.results]
            operand = self.as_value(nodes[0], operand)
            return [(nodes[0], operand.kind if operand.mode == "value" else None)]
        found = []
        for node in nodes:
            operand = self.value(node)
            found.append((node, operand.kind if operand.mode == "value" else None))
        return found

    def default(self, kind):
        """The type of a variable of such a value, None for nil."""
        return None if kind == ("nil",) else kind[1]

    def give(self, values, wanted):
        """Asks each value to fit; wanted: a type, None where it is broken, or 'any' for a new name or `_`."""
        refused = set()
        for (node, kind), want in zip(values, wanted):
            if kind is None or want is None:
                continue
            fits = kind != ("nil",) if want == "any" else self.fits(kind, want)
            if fits and want != "any" and self.is_interface(want):
                fits = self.enters(node, kind)
            if not fits and id(node) not in refused:
                refused.add(id(node))
                self.fault(self.place(node), "type")

    def enters(self, node, kind):
        """Whether a value that fits an interface may stand there, and keeps as which type it enters the interface. A result of a call
        of several results may only where its own type is an interface. Nil and values of interfaces enter as they are."""
        if kind == ("nil",) or self.is_interface(kind[1]):
            return True
        if self.operands[id(node)].mode == "results":
            return False
        self.wrapped[id(node)] = kind[1]
        return True

    def local_spec(self, spec):
        typ = None if spec.typ is None else self.type_of(spec.typ)
        count = len(spec.parts)
        values = self.rights(spec.other) if spec.other else []
        whole = all(kind is not None for _, kind in values)
        if spec.typ is not None:
            for token in spec.parts:
                self.set_local(token, typ)
            if not spec.other:
                return
            if len(values) != count:
                if whole and typ is not None:
                    self.fault(spec.parts[0], "type")
                return
            self.give(values, [typ] * count)
            return
        if len(values) != count:
            if whole:
                self.fault(spec.parts[0], "type")
            for token in spec.parts:
                self.set_local(token, None)
            return
        self.give(values, ["any"] * count)
        for token, (_, kind) in zip(spec.parts, values):
            self.set_local(token, None if kind is None else self.default(kind))

    def check_define(self, node):
        wanted = []
        fine = True
        new = []
        for left in node.parts:
            if left.kind != "ident":
                if self.value(left).mode == "value":
                    self.fault(self.place(left), "type")
                wanted.append(None)
                fine = False
            elif left.name.text == "_":
                wanted.append("any")
            elif self.bound.get(id(left.name)) is not None and self.bound[id(left.name)].token is left.name:
                wanted.append("any")
                new.append((len(wanted) - 1, left.name))
            else:
                wanted.append(self.bound[id(left.name)].type)
                fine &= wanted[-1] is not None
        values = self.rights(node.other)
        whole = fine and all(kind is not None for _, kind in values)
        if len(values) != len(wanted):
            if whole:
                self.fault(node.first, "type")
            for _, token in new:
                self.set_local(token, None)
            return
        self.give(values, wanted)
        for number, token in new:
            kind = values[number][1]
            self.set_local(token, None if kind is None else self.default(kind))

    def check_assign(self, node):
        wanted = []
        fine = True
        for left in node.parts:
            if left.kind == "ident" and left.name.text == "_":
                wanted.append("any")
                continue
            operand = self.value(left)
            if operand.mode == "value" and not operand.addressable:
                self.fault(self.place(left), "type")
                operand = BROKEN
            wanted.append(operand.kind[1] if operand.mode == "value" else None)
            fine &= operand.mode == "value"
        values = self.rights(node.other)
        if len(values) != len(wanted):
            if fine and all(kind is not None for _, kind in values):
                self.fault(node.first, "type")
            return
        self.give(values, wanted)

    def check_update(self, node):
        left = self.value(node.parts[0])
        right = self.value(node.other)
        if left.mode == "value" and not left.addressable:
            self.fault(self.place(node.parts[0]), "type")
            return
        if left.mode == "value" and right.mode == "value":
            if self.operate(node.at.kind[0], left.kind, right.kind) is None:
                self.fault(node.first, "type")

    def check_return(self, node):
        values = self.rights(node.parts) if node.parts else []
        if len(values) != len(self.results):
            if all(kind is not None for _, kind in values):
                self.fault(node.first, "type")
            return
        self.give(values, self.results)

    def check_call_statement(self, node):
        if node.kind == "call":
            callee = self.callee(node.parts[0])
            operand = self.note(node, self.call(node, callee))
            stands = callee.mode == "func" or callee.mode == "builtin" and callee.declaration.name not in ("len", "append")
            if operand.mode != "broken" and not stands:
                self.fault(self.place(node), "type")
            return
        bare = node
        while bare.kind == "paren":
            bare = bare.parts[0]
        operand = self.expression(bare)
        if operand.mode != "broken":
            self.fault(self.place(node), "type")

    # expressions

    def place(self, node):
        return node.name if node.kind == "selector" else node.first

    def as_value(self, node, operand):
        if operand.mode in ("value", "broken"):
            return operand
        self.fault(self.place(node), "type")
        return BROKEN

    def value(self, node):
        return self.as_value(node, self.expression(node))

    def expression(self, node):
        return self.note(node, getattr(self, "judge_" + node.kind)(node))

    def note(self, node, operand):
        """Keeps what an expression is, by its node."""
        self.operands[id(node)] = operand
        return operand

    def judge_int(self, node):
        return Operand("value", ("untyped", INT))

    def judge_string(self, node):
        return Operand("value", ("untyped", STRING))

    def judge_ident(self, node):
        return self.meaning(self.bound[id(node.name)])

    def meaning(self, declaration):
        kind = declaration.kind
        if kind in ("var", "local"):
            return BROKEN if declaration.type is None else typed(declaration.type, True)
        if kind == "type":
            if declaration in self.broken_types:
                return BROKEN
            return Operand("type", typ=("named", declaration))
        if kind == "func":
            return BROKEN if declaration.broken else Operand("func", declaration=declaration)
        if kind == "import":
            return Operand("package", declaration=declaration)
        if declaration.name in BASIC:
            return Operand("type", typ=BASIC[declaration.name])
        if declaration.name in VALUES:
            return Operand("value", VALUES[declaration.name])
        return Operand("builtin", declaration=declaration)

    def judge_paren(self, node):
        return self.value(node.parts[0])

    def judge_prefix(self, node):
        operand = self.value(node.parts[0])
        if operand.mode != "value":
            return BROKEN
        kind = operand.kind
        if node.at.kind == "*":
            if kind[0] == "typed":
                under = self.underlying(kind[1])
                if under[0] == "pointer":
                    return typed(under[1], True)
        elif self.is_class(kind, BOOL if node.at.kind == "!" else INT):
            return Operand("value", kind)
        self.fault(node.first, "type")
        return BROKEN

    def judge_address(self, node):
        operand = self.expression(node.parts[0])
        if operand.mode != "value":
            return BROKEN
        return typed(("pointer", operand.kind[1]))

    def judge_binary(self, node):
        left = self.value(node.parts[0])
        right = self.value(node.parts[1])
        if left.mode != "value" or right.mode != "value":
            return BROKEN
        kind = self.operate(node.at.kind, left.kind, right.kind)
        if kind is None:
            self.fault(node.first, "type")
            return BROKEN
        return Operand("value", kind)

    def judge_index(self, node):
        base = self.value(node.parts[0])
        index = self.value(node.parts[1])
        if index.mode == "value" and not self.is_class(index.kind, INT):
            self.fault(self.place(node.parts[1]), "type")
            index = BROKEN
        if base.mode != "value" or index.mode != "value":
            return BROKEN
        if base.kind[0] == "typed":
            under = self.underlying(base.kind[1])
            if under[0] == "slice":
                return typed(under[1], True)
        self.fault(node.first, "type")
        return BROKEN

    def judge_selector(self, node):
        operand = self.expression(node.parts[0])
        if operand.mode == "package":
            return self.meaning(self.bound[id(node.name)])
        operand = self.as_value(node.parts[0], operand)
        if operand.mode != "value":
            if id(node.name) not in self.bound:
                self.bind(node.name, None)
            return BROKEN
        member = self.member(operand.kind, node.name.text)
        self.bind(node.name, member)
        if member is None:
            self.fault(node.name, "type")
            return BROKEN
        if member.kind == "field":
            through = self.underlying(operand.kind[1])[0] == "pointer"
            return BROKEN if member.type is None else typed(member.type, operand.addressable or through)
        if member.on_pointer and not operand.addressable and operand.kind[1][0] != "pointer":
            self.fault(node.name, "type")
            return BROKEN
        return BROKEN if member.broken else Operand("func", declaration=member)

    def member(self, kind, name):
        if kind[0] != "typed":
            return None
        typ = kind[1]
        under = self.underlying(typ)
        if under[0] == "pointer":
            under = self.underlying(under[1])
        if under[0] == "struct":
            for field in under[1].fields:
                if self.same_name(name, self.package.path, field):
                    return field
        # an interface has its methods, a pointer to one has none
        for method in self.asked(typ):
            if self.same_name(name, self.package.path, method):
                return method
        base = typ[1] if typ[0] == "pointer" else typ
        if base[0] == "named":
            for method in base[1].methods:
                if self.same_name(name, self.package.path, method):
                    return method
        return None

    def callee(self, node):
        return self.expression(node)

    def judge_call(self, node):
        return self.call(node, self.callee(node.parts[0]))

    def call(self, node, callee):
        values = []
        for argument in node.other:
            operand = self.value(argument)
            values.append((argument, operand.kind if operand.mode == "value" else None))
        whole = all(kind is not None for _, kind in values)
        if callee.mode == "broken":
            return BROKEN
        if callee.mode in ("package", "results"):
            self.fault(self.place(node.parts[0]), "type")
            return BROKEN
        if callee.mode == "value":
            if whole:
                self.fault(node.first, "type")
            return BROKEN
        if callee.mode == "builtin":
            return self.call_builtin(node, callee.declaration.name, values, whole)
        if callee.mode == "type":
            if not whole:
                return BROKEN
            if len(values) != 1 or not self.converts(values[0][1], callee.type):
                self.fault(node.first, "type")
                return BROKEN
            if self.is_interface(callee.type):
                self.enters(*values[0])
            return typed(callee.type)
        function = callee.declaration
        if len(values) != len(function.params):
            if whole:
                self.fault(node.first, "type")
            return BROKEN
        before = len(self.found)
        self.give(values, function.params)
        if not whole or len(self.found) != before:
            return BROKEN
        if len(function.results) == 1:
            return typed(function.results[0])
        return Operand("results", results=function.results)

    def call_builtin(self, node, name, values, whole):
        def wrong():
            if whole:
                self.fault(node.first, "type")
            return BROKEN

        if name == "append":
            if not values:
                return wrong()
            kind = values[0][1]
            if kind is None:
                return BROKEN
            under = self.underlying(kind[1]) if kind[0] == "typed" else ("none",)
            if under[0] != "slice":
                return wrong()
            before = len(self.found)
            self.give(values[1:], [under[1]] * (len(values) - 1))
            return typed(kind[1]) if whole and len(self.found) == before else BROKEN
        if not whole:
            return BROKEN
        kinds = [kind for _, kind in values]
        if name == "len":
            fine = len(kinds) == 1 and (
                self.is_class(kinds[0], STRING)
                or kinds[0][0] == "typed" and self.underlying(kinds[0][1])[0] == "slice"
            )
            return typed(INT) if fine else wrong()
        if name == "panic":
            return Operand("results", results=[]) if len(kinds) == 1 else wrong()
        fine = all(any(self.is_class(kind, basic) for basic in (BOOL, INT, STRING)) for kind in kinds)
        return Operand("results", results=[]) if fine else wrong()

    def judge_literal(self, node):
        typ = self.type_of(node.typ)
        under = None if typ is None else self.underlying(typ)
        before = len(self.found)
        whole = True
        seen = set()
        unkeyed = False
        fields = under is not None and under[0] == "struct"
        for element in node.parts:
            want = None
            if element.name is not None:
                want, fine = self.key(element.name, typ, under, seen)
                whole &= fine
                if under is not None and under[0] == "slice":
                    want = under[1]
            elif fields:
                unkeyed = True
            elif under is not None and under[0] == "slice":
                want = under[1]
            operand = self.value(element.parts[0])
            whole &= operand.mode == "value"
            if operand.mode == "value" and want is not None:
                self.give([(element.parts[0], operand.kind)], [want])
        if typ is None:
            return BROKEN
        whole &= len(self.found) == before
        if under[0] not in ("struct", "slice") or unkeyed:
            if whole:
                self.fault(node.first, "type")
            return BROKEN
        return typed(typ) if whole else BROKEN

    def key(self, token, typ, under, seen):
        """The type that a key's value has to fit, and whether the key is right."""
        if under is None:
            self.bind(token, None)
            return None, False
        field = self.member(("typed", typ), token.text) if under[0] == "struct" else None
        if field is not None and field.kind != "field":
            self.bind(token, field)
            if not field.broken:
                self.fault(token, "type")
            return None, False
        self.bind(token, field)
        if field is None or field in seen:
            self.fault(token, "type")
            return None, False
        seen.add(field)
        return field.type, field.type is not None

    # rules

    def is_class(self, kind, basic):
        if kind[0] == "typed":
            return self.underlying(kind[1]) == basic
        return kind == ("untyped", basic)

    def is_interface(self, typ):
        return self.underlying(typ)[0] == "interface"

    def asked(self, typ):
        """The methods of an interface type, none of another."""
        under = self.underlying(typ)
        return under[1].asked if under[0] == "interface" else []

    def method_set(self, typ):
        """That of T has the methods with receiver T; that of `*T` has these and those with receiver `*T`; that of an interface has its
        methods."""
        if self.is_interface(typ):
            return self.asked(typ)
        base = typ[1] if typ[0] == "pointer" else typ
        if base[0] != "named" or self.is_interface(base):
            return []
        return [method for method in base[1].methods if typ[0] == "pointer" or not method.on_pointer]

    def implements(self, typ, interface):
        """Whether a type's method set holds each method of an interface, with the same name and identical parameter and result
        types. No type is identical to what is broken."""
        return all(any(self.is_as_asked(has, asked) for has in self.method_set(typ)) for asked in self.asked(interface))

    def is_as_asked(self, has, asked):
        if not self.same_name(asked.name, asked.package, has) or has.broken:
            return False
        return has.params == asked.params and has.results == asked.results

    def fits(self, kind, typ):
        """A value fits an interface that its type implements, nil fits any, and an untyped int, string or bool fits one without
        methods, as its default."""
        under = self.underlying(typ)
        if kind[0] == "nil":
            return under[0] in ("pointer", "slice", "interface")
        if kind[0] == "untyped":
            return under == kind[1] or under[0] == "interface" and not under[1].asked
        own = kind[1]
        if under[0] == "interface" and self.implements(own, typ):
            return True
        unnamed = own[0] in ("pointer", "slice") or typ[0] in ("pointer", "slice")
        return own == typ or unnamed and self.underlying(own) == under

    def converts(self, kind, typ):
        if self.fits(kind, typ):
            return True
        return kind[0] == "typed" and self.underlying(kind[1]) == self.underlying(typ)

    def operate(self, operator, left, right):
        """The kind of a binary operation, None where it breaks a rule."""
        if left[0] == "typed" and right[0] == "typed":
            kind = left if left == right else None
        elif left[0] == "typed":
            kind = left if self.fits(right, left[1]) else None
        elif right[0] == "typed":
            kind = right if self.fits(left, right[1]) else None
        else:
            kind = left if left == right and left[0] == "untyped" else None
        if kind is None:
            return None
        is_int, is_string = self.is_class(kind, INT), self.is_class(kind, STRING)
        if operator == "+":
            return kind if is_int or is_string else None
        if operator in ("-", "*", "/", "%"):
            return kind if is_int else None
        boolean = ("untyped", BOOL)
        if operator in ("<", "<=", ">", ">="):
            return boolean if is_int or is_string else None
        if operator in ("&&", "||"):
            return kind if self.is_class(kind, BOOL) else None
        basic = is_int or is_string or self.is_class(kind, BOOL)
        under = self.underlying(kind[1])[0] if kind[0] == "typed" else None
        with_nil = left[0] == "nil" or right[0] == "nil"
        if basic or under == "pointer" or under in ("slice", "interface") and with_nil:
            return boolean
        return None
