"""The grammar of the subset as productions, and the first syntax fault of a list of tokens.

An Earley recogniser finds after each token whether some file begins with the tokens so far. Productions whose names end in H are those between
`if` or `for` and the block, outside any brackets, where no literal begins with a name.

WITH_INTERFACES is the grammar with interface types, as programs have it.
"""

GRAMMAR = {}


def rule(name, *alternatives):
    GRAMMAR[name] = [tuple(alternative.split()) for alternative in alternatives]


def group(name, item):
    rule(name, item, "( )", f"( {name}List )", f"( {name}List ; )")
    rule(f"{name}List", item, f"{name}List ; {item}")


def expressions(h):
    """Expressions and simple statements; h is '' or 'H'."""
    update = [f"Expr{h} {operator} Expr{h}" for operator in ("+=", "-=", "*=", "/=", "%=")]
    steps = [f"Expr{h}", f"Expr{h} ++", f"Expr{h} --", f"Exprs{h} = Exprs{h}", *update]
    rule(f"Simple{h}", f"Exprs{h} := Exprs{h}", *steps)
    rule(f"Post{h}", *steps)
    rule(f"Exprs{h}", f"Expr{h}", f"Exprs{h} , Expr{h}")
    rule(f"Expr{h}", f"Unary{h}", f"Expr{h} binary Unary{h}")
    rule(f"Unary{h}", *[f"{operator} Unary{h}" for operator in "+-!*"], f"& Literal{h}", f"Primary{h}")
    behind = [". name", "[ Expr ]", "( )", "( Exprs )", "( Exprs , )"]
    rule(
        f"Primary{h}",
        "int",
        "string",
        "ident",
        f"Literal{h}",
        "( Expr )",
        *[f"Primary{h} {link}" for link in behind],
    )


rule("File", "package name ; Imports Tops")
rule("Imports", "", "Imports import ImportGroup ;")
rule("Tops", "", "Tops Top ;")
group("ImportGroup", "Import")
group("VarGroup", "Global")
group("TypeGroup", "TypeDef")
group("LocalGroup", "Local")
rule("Import", "string", "name string")
rule("Top", "var VarGroup", "type TypeGroup", "Func")
rule("Names", "name", "Names , name")
rule("Idents", "ident", "Idents , ident")
rule("ident", "name", "_")
rule("Lits", "lit", "Lits , lit")
rule("lit", "int", "string")
rule("Global", "Names Type", "Names Type = Lits")
rule("TypeDef", "name Type", "name struct { }", "name struct { Fields }", "name struct { Fields ; }")
rule("Fields", "Field", "Fields ; Field")
rule("Field", "Names Type")
rule("Type", "name", "name . name", "* Type", "[ ] Type")
rule("Func", "func Receiver name Params Result Block")
rule("Receiver", "", "( ident name )", "( ident * name )", "( ident name , )", "( ident * name , )")
rule("Params", "( )", "( ParamList )", "( ParamList , )")
rule("ParamList", "Param", "ParamList , Param")
rule("Param", "Idents Type")
rule("Result", "", "Type", "( )", "( TypeList )", "( TypeList , )")
rule("TypeList", "Type", "TypeList , Type")
rule("Block", "{ Stmts }")
rule("Stmts", "Stmt", "Stmts ; Stmt")
rule(
    "Stmt",
    "",
    "var LocalGroup",
    "Simple",
    "Block",
    "If",
    "For",
    "break",
    "continue",
    "return",
    "return Exprs",
)
rule("Local", "Idents Type", "Idents Type = Exprs", "Idents = Exprs")
expressions("")
expressions("H")
rule("binary", *"* / % + - == != < <= > >= && ||".split())
LITERAL_ENDS = ("{ }", "{ Elements }", "{ Elements , }")
rule("Literal", *[f"{head} {end}" for head in ("name", "name . name", "[ ] Type") for end in LITERAL_ENDS])
rule("LiteralH", *[f"[ ] Type {end}" for end in LITERAL_ENDS])
rule("Elements", "Element", "Elements , Element")
rule("Element", "Expr", "name : Expr")
rule("If", "if Init ExprH Block", "if Init ExprH Block else If", "if Init ExprH Block else Block")
rule("Init", "", ";", "SimpleH ;")
rule("For", "for Block", "for ExprH Block", "for MaybeSimple ; MaybeExpr ; MaybePost Block")
rule("MaybeSimple", "", "SimpleH")
rule("MaybeExpr", "", "ExprH")
rule("MaybePost", "", "PostH")

# A definition of an interface writes its methods, each with named parameters, and nothing else.
WITH_INTERFACES = {
    **GRAMMAR,
    "TypeDef": [
        *GRAMMAR["TypeDef"],
        *[tuple(f"name interface {{ {methods} }}".split()) for methods in ("", "Methods", "Methods ;")],
    ],
    "Methods": [("Method",), ("Methods", ";", "Method")],
    "Method": [("name", "Params", "Result")],
}


class Recogniser:
    """An Earley recogniser of one grammar."""

    def __init__(self, rules):
        self.rules = rules
        self.productions = [(name, body) for name, bodies in rules.items() for body in bodies]
        self.of_name = {}
        for number, (name, _) in enumerate(self.productions):
            self.of_name.setdefault(name, []).append(number)
        self.nullable = self.nullable_names()

    def nullable_names(self):
        found = set()
        while True:
            more = {n for n, body in self.productions if all(symbol in found for symbol in body)}
            if more == found:
                return found
            found = more

    def closed(self, items, sets):
        """An Earley set from its kernel, with the items that wait for a name, by name."""
        here = len(sets)
        seen = set(items)
        agenda = list(items)
        waiting = {}

        def add(item):
            if item not in seen:
                seen.add(item)
                agenda.append(item)

        while agenda:
            production, dot, origin = agenda.pop()
            name, body = self.productions[production]
            if dot == len(body):
                source = waiting if origin == here else sets[origin][1]
                for waited, at, since in list(source.get(name, ())):
                    add((waited, at + 1, since))
            elif body[dot] in self.rules:
                waiting.setdefault(body[dot], []).append((production, dot, origin))
                for number in self.of_name[body[dot]]:
                    add((number, 0, here))
                if body[dot] in self.nullable:
                    add((production, dot + 1, origin))
        return seen, waiting

    def first_fault(self, kinds):
        """The number of the first token such that no file begins with the tokens up to it; their count where all could be
        continued and are no file; None where they are a file."""
        sets = []
        sets.append(self.closed([(number, 0, 0) for number in self.of_name["File"]], sets))
        for number, kind in enumerate(kinds):
            items = []
            for production, dot, origin in sets[-1][0]:
                body = self.productions[production][1]
                if dot < len(body) and body[dot] == kind:
                    items.append((production, dot + 1, origin))
            if not items:
                return number
            sets.append(self.closed(items, sets))
        whole = any(
            self.productions[production][0] == "File" and dot == len(self.productions[production][1])
            for production, dot, _ in sets[-1][0]
        )
        return None if whole else len(kinds)


WITHOUT = Recogniser(GRAMMAR)
WITH = Recogniser(WITH_INTERFACES)


def first_fault(kinds, interfaces=True):
    return (WITH if interfaces else WITHOUT).first_fault(kinds)
