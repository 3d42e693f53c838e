"""Moves a package's folder with its subpackages: the refusals in their order, and the edits.

    plan_move(workspace, texts, source, target)

returns the edit set, or raises the first refusal.
"""

from checks.model import lexer
from checks.model.conflicts import obstacle_of_edits, refuse_obstacle
from checks.model.edits import EditSet
from checks.model.refusals import Refusal, is_identifier, is_path, is_too_large, refuse_faults


def moved_path(path, source, target):
    """A package's or a file's path behind the move."""
    if path == source or path.startswith(source + "/"):
        return target + path[len(source) :]
    return path


def new_package_name(name, source, target):
    """What the package is called behind the move: the last element of its path, where it was called so before."""
    last = target.split("/")[-1]
    follows = name == source.split("/")[-1] and name != "main" and is_identifier(last) and last not in ("main", "init")
    return last if follows else name


def following_imports(workspace, source, target):
    """The imports without a name of a package whose name changes, and that name."""
    old = workspace.packages[source].name()
    new = new_package_name(old, source, target)
    if new == old:
        return [], new
    return [
        declaration
        for path in workspace.order
        for declaration in workspace.packages[path].checker.all_imports
        if declaration.imported.path == source and declaration.node.name is None
    ], new


def move_edits(workspace, texts, source, target):
    """Path literals, the package clauses of the folder's own files, and the uses through imports without a name."""
    spans = {path: [] for path in workspace.files}
    for file in workspace.files.values():
        for node, value in file.imports():
            if moved_path(value, source, target) != value:
                start = node.at.offset
                new = '"' + moved_path(value, source, target) + '"'
                spans[file.path].append((start, start + len(node.at.text.encode()), new.encode()))
    imports, name = following_imports(workspace, source, target)
    if name != workspace.packages[source].name():
        for file in workspace.packages[source].files:
            clause = file.tree.name
            spans[file.path].append((clause.offset, clause.offset + len(clause.text.encode()), name.encode()))
    for path, offset, length, bound, is_use in workspace.bindings():
        if bound in imports and is_use:
            spans[path].append((offset, offset + length, name.encode()))
    paths = {path: moved_path(path, source, target) for path in texts if path.startswith(source + "/")}
    return EditSet(spans, paths)


def starts_of_move(workspace, source, target):
    """The packages that move, and those with an import literal whose value is an old path of the move, or a package's new one."""
    moved = {path for path in workspace.packages if moved_path(path, source, target) != path}
    new = {moved_path(path, source, target) for path in moved}
    return moved | {
        path
        for path, package in workspace.packages.items()
        for file in package.trees
        for _, value in file.imports()
        if moved_path(value, source, target) != value or value in new
    }


def plan_move(workspace, texts, source, target):
    if not is_path(source, 1) or not is_path(target, 1):
        raise Refusal(3)
    if source not in workspace.packages:
        raise Refusal(16)
    if source == target:
        raise Refusal(13)
    if target.startswith(source + "/"):
        raise Refusal(18)
    if any(path.startswith(target + "/") for path in texts):
        raise Refusal(17)
    refuse_faults(workspace, workspace.affected(starts_of_move(workspace, source, target)))
    sound, sound_texts = workspace.without_faulty(texts)
    edits = move_edits(sound, sound_texts, source, target)
    refuse_obstacle(obstacle_of_edits(sound, sound_texts, edits))
    if is_too_large(edits.edited(texts)):
        raise Refusal(5)
    return edits
