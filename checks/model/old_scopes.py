"""The first conflict of a rename or a move by the bindings before it alone: by roles, scopes and members, with no edited text.

It asks which of two declarations with one name in one block counts, and what would lie between a use and its declaration. `conflicts.py`,
which resolves the edited workspace, has to agree.
"""

from checks.model.conflicts import Conflict
from checks.model.identifiers import Scope, in_order, place_of
from checks.model.implementing import first_changed, renamed_set
from checks.model.members import definition_before, is_same_name, underlying, written_before
from checks.model.scopes import UNIVERSE, is_exported


class ByIdentifier:
    """Asks `conflict_at` of the identifiers, in their order."""

    def conflict(self):
        for identifier in self.identifiers.all:
            conflict = self.conflict_at(identifier)
            if conflict is not None:
                return conflict
        return None


class ByScope(ByIdentifier):
    """A variable, function, type or import of another name."""

    def __init__(self, identifiers, declaration, name):
        self.identifiers = identifiers
        self.declaration = declaration
        self.name = name
        self.own = identifiers.scopes[declaration]
        self.named = identifiers.named.get(name, [])
        rivals = [scope for scope in self.named if self.meets(scope)]
        self.winner = next((scope for scope in rivals if self.is_first(scope, self.own)), None)
        self.losers = [scope for scope in rivals if scope is not self.winner]
        assert self.winner is None or not self.losers

    def meets(self, scope):
        """Whether both may not have one name: they stand in one block, or one is an import of a file of the other's package."""
        one, other = self.own.block, scope.block
        return one is other or (one.kind == "file" and one.outer is other) or (other.kind == "file" and other.outer is one)

    def is_first(self, scope, other):
        if scope.block is other.block:
            return in_order(place_of(scope.declaration)) < in_order(place_of(other.declaration))
        return scope.block.kind == "package"

    def conflict_at(self, identifier):
        bound = identifier.declaration
        if bound is not self.declaration and identifier.name != self.name:
            return None
        if identifier.role == "use":
            return self.conflict_of_use(identifier)
        if identifier.role in ("declares", "defines", "qualified"):
            winner = self.winner_over(bound)
            if identifier.role == "qualified" and bound is self.declaration and not is_exported(self.name):
                return lost(identifier)
            if winner is None:
                return None
            if identifier.role == "qualified" or identifier.role == "defines" and winner.start <= identifier.offset:
                return captured(identifier, winner.declaration)
            return lost(identifier)
        return None

    def winner_over(self, declaration):
        """The scope whose declaration counts in the place of this one, or None."""
        if declaration is self.declaration:
            return self.winner
        return self.own if any(scope.declaration is declaration for scope in self.losers) else None

    def conflict_of_use(self, use):
        there = [scope for scope in self.named if scope not in self.losers]
        there += [self.own] if self.winner is None else []
        there = [scope for scope in there if scope.holds(use.package, use.path, use.offset)]
        found = max(there, key=Scope.depth).declaration if there else UNIVERSE.get(self.name)
        if found is use.declaration:
            return None
        return lost(use) if found is None else captured(use, found)


class ByMember(ByIdentifier):
    """Fields or methods of another name: one member, or a coupled set of methods. Each type has one of them at most."""

    def __init__(self, identifiers, members, name):
        self.identifiers = identifiers
        self.members = members
        self.name = name
        self.displaced = {}
        for member, rival in self.rivals():
            first = self.first_of(member, rival)
            self.displaced[rival if first is member else member] = first

    def rivals(self):
        """The members of the new name that stand beside one of these in some type, each with it."""
        beside = []
        for _, definition in self.identifiers.types:
            written = underlying(("named", definition))
            found = definition.methods + (written[1].fields + written[1].asked if written[0] == "named" else [])
            own = [member for member in found if member in self.members]
            assert len(own) <= 1
            beside += [(member, other) for member in own for other in found if self.is_rival(member, other)]
        return beside

    def is_rival(self, member, other):
        return is_same_name(self.name, member.package, other.name, other.package)

    def first_of(self, member, rival):
        """Which of the two counts: a field before a method, else the earlier."""
        if rival.kind == member.kind:
            return min((rival, member), key=lambda one: in_order(place_of(one)))
        return rival if rival.kind == "field" else member

    def conflict_at(self, identifier):
        bound = identifier.declaration
        if identifier.role == "declares member":
            return lost(identifier) if bound in self.displaced else None
        if identifier.role != "member" or (bound not in self.members and identifier.name != self.name):
            return None
        return self.conflict_of_use(identifier)

    def conflict_of_use(self, use):
        bound = use.declaration
        if bound not in self.members:
            first = self.displaced.get(bound)
            return None if first is None else captured(use, first)
        if bound in self.displaced:
            return captured(use, self.displaced[bound]) if self.is_visible(use, bound) else self.otherwise(use)
        return None if self.is_visible(use, bound) else self.otherwise(use)

    def is_visible(self, use, member):
        return is_same_name(self.name, use.package, self.name, member.package)

    def otherwise(self, use):
        """A use from a package that doesn't see the new name: another member of that name may stand there."""
        written, definition = written_before(use.before), definition_before(use.before)
        members = written.fields + written.asked if written is not None else []
        members = members + (definition.methods if definition is not None else [])
        seen = [m for m in members if is_same_name(self.name, use.package, m.name, m.package) and m not in self.members]
        return captured(use, seen[0]) if seen else lost(use)


def lost(identifier):
    return Conflict(identifier.place, None)


def captured(identifier, declaration):
    return Conflict(identifier.place, place_of(declaration) or "universe")


def obstacle_of(identifiers, declaration, name):
    """The obstacle of renaming a declaration, or None: the first conflict, else the first interface whose implementing types change."""
    if declaration.kind not in ("field", "method"):
        return ByScope(identifiers, declaration, name).conflict()
    definitions = [definition for _, definition in identifiers.types]
    renamed = renamed_set(definitions, declaration)
    conflict = ByMember(identifiers, renamed, name).conflict()
    return conflict or first_changed(definitions, renamed, name)


def conflict_of_move(identifiers, imports, name):
    """The first conflict of those of the imports without a name that follow a package's name to another."""
    found = [ByScope(identifiers, declaration, name).conflict() for declaration in imports]
    return min((c for c in found if c is not None), key=lambda conflict: in_order(conflict.place), default=None)
