"""What an edit of a workspace without faults does to its bindings, by resolving the edited workspace again.

`is_preserved` asks whether the edited workspace has no fault, each identifier is bound there as before, and each type implements the
interfaces that it did. `first_conflict` judges each identifier alone, and finds the first that would be lost or captured.
`first_obstacle` is that, or else the first interface whose implementing types would change.
"""

from collections import namedtuple

from checks.model.identifiers import LEXICAL, Identifiers, place_of
from checks.model.implementing import Coupled, definitions_of, first_changed
from checks.model.members import Members
from checks.model.refusals import Refusal
from checks.model.scopes import Scopes, is_exported

# the place of an identifier; by what it is captured: a place, "universe", or None where it is lost
Conflict = namedtuple("Conflict", "place by")


class Tables(Scopes):
    """The scopes of one package of an edited workspace, whatever faults it has."""

    def __init__(self, package, packages):
        super().__init__(package, packages)
        self.scopes()
        self.told = {(b[0], b[1]): b[3] for b in self.bindings if b[4]}

    def qualified(self, declaration, token):
        """What stands behind an import's name is judged by the import that it had."""


def is_moved(old, new, edits):
    """Whether a declaration of the edited workspace is the one that an old one has become."""
    if old is None or new is None:
        return old is new
    if old.kind == "universe" or new.kind == "universe":
        return old is new
    return place_of(new) == edits.moved(place_of(old))


def is_preserved(identifiers, edited, edits):
    """Whether the edited workspace has no fault, all bindings of the old one, and its types implement the interfaces that they did."""
    if edited.faults():
        return False
    told = {(b[0], b[1]): b[3] for b in edited.bindings() if b[4]}
    if not all(is_moved(i.declaration, told[edits.moved(i.place)], edits) for i in identifiers.all):
        return False
    before = {(edits.moved(t), pointer, edits.moved(i)) for t, pointer, i in implementing_places(identifiers.workspace)}
    return before == implementing_places(edited)


def implementing_places(workspace):
    """For each type and each interface that it implements their places, by the rules of the checker."""
    definitions = definitions_of(workspace)
    found = set()
    for one in definitions:
        checker = workspace.packages[one.package].checker
        for interface in definitions:
            if not checker.is_interface(("named", interface)):
                continue
            for pointer, typ in ((False, ("named", one)), (True, ("pointer", ("named", one)))):
                if checker.implements(typ, ("named", interface)):
                    found.add((place_of(one), pointer, place_of(interface)))
    return found


class Judge:
    """What becomes of each identifier, of which the edited workspace tells the scopes and the old one the members."""

    def __init__(self, identifiers, texts, edits, renamed, name):
        self.edits = edits
        self.renamed = frozenset(renamed)
        self.name = name
        self.members = Members(renamed, name)
        self.old_places = {edits.moved(place): place for place in map(place_of, identifiers.scopes)}
        edited = identifiers.workspace.of(edits.edited(texts))
        self.tables = {path: Tables(package, edited.packages) for path, package in edited.packages.items()}

    def name_of(self, identifier):
        return self.name if identifier.declaration in self.renamed else identifier.name

    def table_of(self, file):
        """The scopes of the package in which a file of the old workspace stands behind the edits."""
        return self.tables[self.edits.moved((file, 0))[0].rsplit("/", 1)[0]]

    def becomes(self, identifier):
        """What an identifier would be bound to: a declaration of the edited workspace, a member of the old one, or None."""
        name = self.name_of(identifier)
        if identifier.role in LEXICAL:
            return self.table_of(identifier.path).told[self.edits.moved(identifier.place)]
        if identifier.role == "qualified":
            imported = identifier.before.imported.files[0].path
            return self.table_of(imported).block.get(name) if is_exported(name) else None
        if identifier.role == "member":
            return self.members.find(identifier.before, name, identifier.package)
        return identifier.declaration if self.member_counts(identifier) else None

    def member_counts(self, identifier):
        definition = identifier.before[1]
        if identifier.declaration in definition.fields + definition.asked:
            return identifier.declaration in self.members.counting_written(definition)
        return identifier.declaration in self.members.counting_methods(definition)

    def conflict_at(self, identifier):
        old, new = identifier.declaration, self.becomes(identifier)
        if identifier.role in LEXICAL or identifier.role == "qualified":
            stays = is_moved(old, new, self.edits)
        else:
            stays = old is new
        if stays:
            return None
        return Conflict(identifier.place, None if new is None else self.place_before(new))

    def place_before(self, new):
        """Where the capturing declaration stands in the old workspace."""
        if new.kind == "universe":
            return "universe"
        if new.kind in ("field", "method"):
            return place_of(new)
        return self.old_places[place_of(new)]


def first_conflict(identifiers, texts, edits, renamed=(), name=None):
    """The first identifier by path and offset that is lost or captured, or None."""
    judge = Judge(identifiers, texts, edits, renamed, name)
    for identifier in identifiers.all:
        if identifier.role != "none":
            conflict = judge.conflict_at(identifier)
            if conflict is not None:
                return conflict
    return None


def first_obstacle(identifiers, texts, edits, renamed=(), name=None):
    """The first conflict; where no identifier is lost or captured, the first interface whose implementing types would change."""
    conflict = first_conflict(identifiers, texts, edits, renamed, name)
    return conflict or first_changed(definitions_of(identifiers.workspace), renamed, name)


def obstacle_of_edits(workspace, texts, edits, renamed=(), name=None):
    """The obstacle of the edits, None exactly where bindings and implementing types are preserved."""
    identifiers = Identifiers(workspace)
    obstacle = first_obstacle(identifiers, texts, edits, renamed, name)
    if obstacle is None and not is_preserved(identifiers, workspace.of(edits.edited(texts)), edits):
        return Conflict(identifiers.all[0].place, None)
    return obstacle


def obstacle_line(obstacle):
    by = getattr(obstacle, "by", None)
    behind = "" if by is None else " by universe" if by == "universe" else " by %s:#%d" % by
    return "%s:#%d" % obstacle.place + behind + "\n"


def refuse_obstacle(obstacle):
    if isinstance(obstacle, Coupled):
        raise Refusal(25, obstacle_line(obstacle))
    if obstacle is not None:
        raise Refusal(15 if obstacle.by is None else 14, obstacle_line(obstacle))
