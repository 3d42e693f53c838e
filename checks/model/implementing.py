"""Which types implement which interfaces, and which methods are coupled, in a workspace without faults.

`checker.py` asks for itself whether a value fits an interface. Here the methods can have the names that a rename gives them.
"""

from collections import namedtuple

from checks.model.identifiers import in_order, place_of
from checks.model.members import Members, is_interface, underlying

# the name of the first type definition whose underlying type is an interface and whose implementing types change
Coupled = namedtuple("Coupled", "place")


def definitions_of(workspace):
    """All type definitions, in order of packages."""
    return [node.declarations[0] for path in workspace.order for node in workspace.packages[path].checker.type_nodes()]


def methods_of_interface(definition):
    """The methods of a type that is an interface: those of the definition that writes it."""
    return underlying(("named", definition))[1].asked


def method_set(definition, through_pointer):
    """The method set of T has the methods with receiver T; that of `*T` has these and those with receiver `*T`; that of an interface
    has its methods, and that of a pointer to an interface none."""
    if is_interface(("named", definition)):
        return [] if through_pointer else methods_of_interface(definition)
    return [method for method in definition.methods if through_pointer or not method.on_pointer]


class Implementing:
    """The types that implement each interface, where some members have one new name."""

    def __init__(self, definitions, members=Members()):
        self.definitions = definitions
        self.members = members
        self.interfaces = [d for d in definitions if is_interface(("named", d))]

    def has(self, methods, asked):
        """Whether a method set holds a method of an interface: the same name, and identical parameter and result types."""
        name = self.members.name_of(asked)
        return any(
            self.members.is_called(method, name, asked.package)
            and method.params == asked.params
            and method.results == asked.results
            for method in methods
        )

    def implements(self, definition, through_pointer, interface):
        """Whether T, or `*T`, implements an interface: its method set holds each of its methods."""
        methods = method_set(definition, through_pointer)
        return all(self.has(methods, asked) for asked in methods_of_interface(interface))

    def types_of(self, interface):
        """The types that implement an interface, each as a definition and whether a pointer to it is meant."""
        return {
            (definition, through_pointer)
            for definition in self.definitions
            for through_pointer in (False, True)
            if self.implements(definition, through_pointer, interface)
        }


def coupled_set(definitions, method):
    """The least set with a method that is closed under coupling: methods of one name are coupled where T or `*T` implements I and they
    are methods of T and I, which may both be interfaces."""
    implementing = Implementing(definitions)
    pairs = []
    for interface in implementing.interfaces:
        asked = methods_of_interface(interface)
        for definition, _ in implementing.types_of(interface):
            own = methods_of_interface(definition) if is_interface(("named", definition)) else definition.methods
            pairs += [(one, other) for one in own for other in asked if Members().is_called(one, other.name, other.package)]
    found = {method}
    while True:
        more = {m for pair in pairs for m in pair if found & set(pair)} | found
        if more == found:
            return found
        found = more


def renamed_set(definitions, declaration):
    """What a rename that begins at a declaration renames: at a method of an interface its coupled set, else the declaration alone."""
    return coupled_set(definitions, declaration) if is_asked(declaration) else {declaration}


def is_asked(declaration):
    return declaration is not None and declaration.kind == "method" and declaration.interface is not None


def first_changed(definitions, renamed, name):
    """Where a rename of methods would change the implementing types of an interface: the first such interface, or None."""
    before = Implementing(definitions)
    after = Implementing(definitions, Members(renamed, name))
    changed = [i for i in before.interfaces if before.types_of(i) != after.types_of(i)]
    return Coupled(min(map(place_of, changed), key=in_order)) if changed else None
