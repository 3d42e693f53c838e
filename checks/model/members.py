"""The members of types, under the names that a rename gives some of them, in a workspace without faults."""

from checks.model.identifiers import in_order, place_of
from checks.model.scopes import is_exported


def underlying(typ):
    """Behind names; a struct or an interface is told as the name of the definition that writes it."""
    while typ[0] == "named" and typ[1].node.typ is not None:
        typ = typ[1].type
    return typ


def is_interface(typ):
    under = underlying(typ)
    return under[0] == "named" and under[1].node.body is not None


def written_before(typ):
    """The definition that writes the struct whose fields a value of this type has, or the interface whose methods it has, or None. A
    pointer leads to a struct alone."""
    under = underlying(typ)
    if under[0] == "pointer" and not is_interface(under[1]):
        under = underlying(under[1])
    return under[1] if under[0] == "named" else None


def definition_before(typ):
    """The definition whose methods a value of this type has by their receivers, or None."""
    base = typ[1] if typ[0] == "pointer" else typ
    return base[1] if base[0] == "named" else None


def is_same_name(name, package, other, other_package):
    return name == other and (is_exported(name) or package == other_package)


def in_source(members):
    return sorted(members, key=lambda member: in_order(place_of(member)))


class Members:
    """What counts, and what a name is bound to, where some members have one new name."""

    def __init__(self, renamed=(), name=None):
        self.renamed = frozenset(renamed)
        self.name = name

    def name_of(self, member):
        return self.name if member in self.renamed else member.name

    def is_called(self, member, name, package):
        return is_same_name(name, package, self.name_of(member), member.package)

    def counting_written(self, definition):
        """Of the fields of a struct, or of the methods of an interface, that have one name the first."""
        found = []
        for member in in_source(definition.fields + definition.asked):
            if not any(self.is_called(other, self.name_of(member), member.package) for other in found):
                found.append(member)
        return found

    def counting_methods(self, definition):
        """Those that neither a field nor an earlier method has the name of."""
        struct = underlying(("named", definition))
        found = list(struct[1].fields) if struct[0] == "named" else []
        fields = len(found)
        for method in in_source(definition.methods):
            if not any(self.is_called(other, self.name_of(method), method.package) for other in found):
                found.append(method)
        return found[fields:]

    def find(self, typ, name, package):
        """The member of this name that a value of this type has in a package, or None."""
        written = written_before(typ)
        definition = definition_before(typ)
        found = self.counting_written(written) if written is not None else []
        found += self.counting_methods(definition) if definition is not None else []
        named = [member for member in found if self.is_called(member, name, package)]
        assert len(named) <= 1
        return named[0] if named else None
