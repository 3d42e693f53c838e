"""Compares the model's two ways to find conflicts, on random renames and moves, and the objects of packages before and after renames.

    python3 -m checks.compare.agreement [SECONDS [SEED [interfaces]]]
    python3 -m checks.compare.agreement objects PROGRAM [RENAMES [SEED]]

It gives each declaration many new names and moves packages, in generated workspaces and in those of the stored sessions. Three answers
have to agree on each edit: whether the edited workspace keeps all bindings and has no fault; the first conflict, by resolving the edited
workspace; the first conflict, by the scopes before the change alone. The identifier that a conflict names has to be bound otherwise in
the edited workspace, wherever that can be found out. Of a rename without a conflict it also compares the objects before and after.
It prints a disagreement with a workspace that is as small as possible, and ends with status 1.

With the word `interfaces` the workspaces have interface types. Then a rename may also change which types implement one, and all ways to
find that out have to agree.

With the word `objects` it makes RENAMES renames without a conflict (500) by a built program, each in a workspace whose packages are built,
and of each workspace one of each kind of declaration at most.
It asks for the objects before and after, and how they compare. It puts the edited files into a session of their own, and builds them from
nothing. All replies have to be the model's. Each object has to be the one that is built from nothing, and the old one with the symbols
changed. It prints the first rename of which that is not so, and ends with status 1.
"""

import random
import re
import subprocess
import sys
import time

from checks.generate import changes, interfaces, sessions, shadows
from checks.generate.sessions import Talk, build_and_show
from checks.model.conflicts import first_obstacle, implementing_places, is_moved, is_preserved
from checks.model.identifiers import Identifiers, in_order, place_of
from checks.model.implementing import Coupled, definitions_of, renamed_set
from checks.model.moves import following_imports, move_edits
from checks.model.objects import object_of
from checks.model.old_scopes import conflict_of_move, obstacle_of
from checks.model.renames import is_renamable, may_be_called, rename_edits
from checks.model.workspace import Workspace

FRESH = ["x", "y", "q", "Q", "len", "int", "nil", "init", "main", "b", "T", "X"]
TARGETS = ["x", "b", "T", "k/len", "k/q-r", "q/init", "z/main", "y/a", "Q/s"]


class Edit:
    """A rename or a move of one workspace, with how it is judged in each way."""

    def __init__(self, texts, workspace, identifiers, way, argument, name):
        self.texts = texts
        self.workspace = workspace
        self.identifiers = identifiers
        self.way = way
        self.argument = argument
        self.name = name

    def told(self):
        return "%s %s to %s" % (self.way, self.argument, self.name)

    def judged(self):
        """By preservation, by resolving again, by the old scopes."""
        if self.way == "rename":
            declaration = next(d for d in renamable(self.identifiers) if place_of(d) == self.argument)
            edits = rename_edits(self.workspace, self.texts, declaration, self.name)
            renamed = renamed_set(definitions_of(self.workspace), declaration)
            again = first_obstacle(self.identifiers, self.texts, edits, renamed, self.name)
            old = obstacle_of(self.identifiers, declaration, self.name)
        else:
            edits = move_edits(self.workspace, self.texts, self.argument, self.name)
            again = first_obstacle(self.identifiers, self.texts, edits)
            imports, name = following_imports(self.workspace, self.argument, self.name)
            old = conflict_of_move(self.identifiers, imports, name)
        self.edits = edits
        self.edited = self.workspace.of(edits.edited(self.texts))
        return is_preserved(self.identifiers, self.edited, edits), again, old

    def is_agreed(self):
        preserved, again, old = self.judged()
        self.conflict = again
        if preserved != (again is None) or again != old:
            return False
        if isinstance(again, Coupled):
            return self.is_first_changed(again.place)
        return again is None or self.is_bound_otherwise(again.place)

    def is_first_changed(self, place):
        """Whether an interface is the first whose implementing types are others in the edited workspace, or not all is told there."""
        if any(package.checker is None or not hasattr(package.checker, "wrapped") for package in self.edited.packages.values()):
            return True
        before = {(self.edits.moved(t), pointer, self.edits.moved(i)) for t, pointer, i in implementing_places(self.workspace)}
        changed = {triple[2] for triple in before ^ implementing_places(self.edited)}
        return bool(changed) and min(changed, key=in_order) == self.edits.moved(place)

    def is_bound_otherwise(self, place):
        """Whether what the edited workspace tells of an identifier isn't the binding that it had, or nothing is told."""
        old = next(i.declaration for i in self.identifiers.all if i.place == place)
        new = self.edits.moved(place)
        checker = self.edited.packages[new[0].rsplit("/", 1)[0]].checker
        told = [b[3] for b in checker.bindings if b[4] and b[:2] == new] if checker is not None else []
        return not told or not is_moved(old, told[0], self.edits)


def renamable(identifiers):
    found = {id(i.declaration): i.declaration for i in identifiers.all if is_renamable(i.declaration)}
    found.update({id(d): d for d in identifiers.scopes if is_renamable(d)})
    return list(found.values())


def edits_of(generator, texts, count, interfaces=False):
    """Some renames and moves of a workspace; none where it has a fault."""
    workspace = Workspace(texts, interfaces)
    if workspace.faults():
        return
    identifiers = Identifiers(workspace)
    names = sorted({i.name for i in identifiers.all} - {"_"}) + FRESH
    renames = [
        ("rename", place_of(declaration), name)
        for declaration in renamable(identifiers)
        for name in names
        if name != declaration.name and may_be_called(declaration, name)
    ]
    moves = [
        ("move", source, target)
        for source in workspace.order
        for target in TARGETS + [f"{generator.choice(TARGETS)}/{name}" for name in names * 2 if name.isascii()]
        if source != target and not any((path + "/").startswith(target + "/") for path in texts)
        if not target.startswith(source + "/")
    ]
    for ways, most in ((renames, count), (moves, count // 4)):
        for way in generator.sample(ways, min(most, len(ways))):
            yield Edit(texts, workspace, identifiers, *way)


def renamed_object(text, edit):
    """An object with the symbols that a rename changes."""
    declaration = next(d for d in renamable(edit.identifiers) if place_of(d) == edit.argument)
    old = f"{declaration.package}#{declaration.name}"
    if declaration.kind in ("var", "type", "func"):
        return re.sub(rf"(?<![\w/~+.-]){re.escape(old)}(?![\w])", f"{declaration.package}#{edit.name}", text)
    if declaration.kind == "method":
        for method in renamed_set(definitions_of(edit.workspace), declaration):
            owner = next(d for _, d in edit.identifiers.types if method in d.methods + d.asked)
            symbol = f"{owner.package}#{owner.name}#"
            text = re.sub(rf"(?<![\w/~+.-]){re.escape(symbol + method.name)}(?![\w])", symbol + edit.name, text)
    return text


def keeps_objects(edit):
    """Whether after an admitted rename each object is the old one with the symbols changed."""
    return all(
        object_of(edit.edited, path) == renamed_object(object_of(edit.workspace, path), edit) for path in edit.workspace.order
    )


def smaller(texts):
    """The workspaces with one file, or one run of lines, less."""
    for path in texts:
        yield {other: text for other, text in texts.items() if other != path}
    for path, text in texts.items():
        lines = text.split(b"\n")
        for length in (8, 4, 2, 1):
            for at in range(1, len(lines), length):
                yield {**texts, path: b"\n".join(lines[:at] + lines[at + length :])}


def shows_disagreement(texts, interfaces):
    """An edit of a workspace about which there is disagreement, or None."""
    try:
        return next((e for e in edits_of(random.Random(0), texts, 400, interfaces) if not e.is_agreed()), None)
    except (KeyError, AttributeError):
        return None


def smallest(edit):
    """The same disagreement in a workspace of which no part can go."""
    again = True
    while again:
        again = False
        for texts in smaller(edit.texts):
            other = shows_disagreement(texts, edit.workspace.interfaces)
            if other is not None:
                edit, again = other, True
                break
    return edit


def generated(generator):
    """Packages that import one another, mostly well typed."""
    packages = sessions.Packages(generator, 0.0)
    for _ in range(generator.randrange(1, 7)):
        chosen = packages.chosen()
        if chosen is not None:
            packages.texts[chosen[0]] = chosen[1]
    return dict(packages.texts)


def workspaces(generator):
    """Workspaces without end, of the stored sessions and generated ones."""
    stored = changes.workspaces()
    while True:
        yield generator.choice(stored)
        yield changes.changed(generator, generator.choice(stored))
        for _ in range(4):
            yield shadows.shadowed(generator)
        yield generated(generator)


def interface_workspaces(generator):
    """Workspaces without end, of types that implement interfaces or nearly do."""
    while True:
        yield interfaces.implementing(generator)


def run(seconds, seed, with_interfaces=False):
    generator = random.Random(seed)
    began = time.monotonic()
    counts = {"workspaces": 0, "renames": 0, "moves": 0, "conflicts": 0, "captured": 0, "by the universe": 0, "coupled": 0}
    for texts in interface_workspaces(generator) if with_interfaces else workspaces(generator):
        counts["workspaces"] += 1
        for edit in edits_of(generator, texts, 60, with_interfaces):
            if not edit.is_agreed():
                return edit, counts
            counts[edit.way + "s"] += 1
            counts["conflicts"] += edit.conflict is not None
            by = getattr(edit.conflict, "by", None)
            counts["captured"] += by is not None
            counts["by the universe"] += by == "universe"
            counts["coupled"] += isinstance(edit.conflict, Coupled)
            if edit.conflict is None and edit.way == "rename" and not keeps_objects(edit):
                return edit, counts
        if time.monotonic() - began > seconds:
            return None, counts


def bodies_of(program, session):
    """The bodies of a program's replies to a session, or None where it answers otherwise than the model."""
    rest = subprocess.run([program, "run"], input=session.sent, stdout=subprocess.PIPE, check=True).stdout
    if rest != session.answered:
        return None
    bodies = []
    while rest:
        head, _, rest = rest.partition(b"\n")
        size = int(head.split(b" ")[2])
        bodies.append(rest[:size].decode())
        rest = rest[size:]
    return bodies


def fault_of_objects(program, edit):
    """What is wrong with the objects behind a rename of a workspace whose packages are built, or None."""
    talk = Talk()
    talk.change_to(edit.texts)
    packages = build_and_show(talk)
    number = talk.history.current.number
    talk.send("rename %d %s:#%d %s" % (number, *edit.argument, edit.name))
    build_and_show(talk)
    talk.send(f"objects {number}")
    anew = Talk()
    anew.change_to(edit.edits.edited(edit.texts))
    build_and_show(anew)
    told, told_anew = bodies_of(program, talk.session), bodies_of(program, anew.session)
    if told is None or told_anew is None:
        return "the model answers otherwise"
    count = len(packages)
    old, new, compared = told[-3 * count - 2 : -2 * count - 2], told[-count - 1 : -1], told[-1]
    if new != told_anew[-count:]:
        return "built from nothing they are others"
    if new != [renamed_object(text, edit) for text in old]:
        return "they are not the old ones with the symbols changed"
    wanted = "".join(f"{'equal' if a == b else 'differs'} {path}\n" for path, a, b in zip(packages, old, new))
    return None if compared == wanted else "they compare otherwise"


def kind_of(edit):
    """What a rename renames; imports without a name are a kind of their own."""
    declaration = next(d for d in renamable(edit.identifiers) if place_of(d) == edit.argument)
    return "bare import" if declaration.kind == "import" and declaration.node.name is None else declaration.kind


def run_objects(program, renames, seed):
    """The first rename with wrong objects, if there is one, with what is wrong; and how many were tried of each kind of declaration."""
    generator = random.Random(seed)
    counts = {}
    for texts in workspaces(generator):
        kinds = set()
        for edit in edits_of(generator, texts, 80):
            if edit.way != "rename" or kind_of(edit) in kinds or not edit.is_agreed() or edit.conflict is not None:
                continue
            wrong = fault_of_objects(program, edit)
            if wrong is not None:
                return edit, wrong, counts
            kinds.add(kind_of(edit))
            counts[kind_of(edit)] = counts.get(kind_of(edit), 0) + 1
            if sum(counts.values()) == renames:
                return None, None, counts


def main_objects(program, renames=500, seed=0):
    edit, wrong, counts = run_objects(program, int(renames), int(seed))
    print(", ".join(f"{count} of kind {kind}" for kind, count in sorted(counts.items())))
    if edit is not None:
        print(edit.told(), wrong)
        for path, text in edit.texts.items():
            print(f"--- {path}\n{text.decode()}")
        sys.exit(1)


def main():
    if sys.argv[1:2] == ["objects"]:
        return main_objects(*sys.argv[2:])
    seconds = int(sys.argv[1]) if len(sys.argv) > 1 else 60
    seed = int(sys.argv[2]) if len(sys.argv) > 2 else 0
    edit, counts = run(seconds, seed, "interfaces" in sys.argv[3:])
    print(", ".join(f"{count} {what}" for what, count in counts.items()))
    if edit is None:
        return
    edit = smallest(edit)
    print(edit.told(), edit.judged())
    for path, text in edit.texts.items():
        print(f"--- {path}\n{text.decode()}")
    sys.exit(1)


if __name__ == "__main__":
    main()
