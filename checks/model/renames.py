"""Renames a declaration: what can be renamed, the refusals in their order, and the edits.

    plan_rename(workspace, texts, path, offset, name)

returns the edit set, or raises the first refusal.
"""

from checks.model.conflicts import obstacle_of_edits, refuse_obstacle
from checks.model.edits import EditSet
from checks.model.implementing import definitions_of, renamed_set
from checks.model.refusals import Refusal, is_new_name, is_path, is_too_large, refuse_faults

OF_THE_PACKAGE = ("var", "type", "func")


def declaration_at(workspace, path, offset):
    """What is declared or used at a byte of a file; raises the refusal where there is nothing, or nothing declared."""
    at = [b for b in workspace.bindings() if b[0] == path and b[1] <= offset < b[1] + b[2]]
    if not at:
        raise Refusal(10)
    return at[0][3]


def is_renamable(declaration):
    """Whether a declaration, or None, may have another name."""
    if declaration is None or declaration.kind == "universe":
        return False
    return not (declaration.kind in OF_THE_PACKAGE and declaration.name == "main")


def may_be_called(declaration, name):
    """Whether a new name that is one at all is one for this declaration."""
    return not (declaration.kind in (*OF_THE_PACKAGE, "import") and name in ("init", "main"))


def rename_edits(workspace, texts, declaration, name):
    """Each identifier bound to the declaration is replaced, or to one of its coupled set where the declaration is a method of an
    interface; an import without a name gets one before its literal."""
    renamed = renamed_set(definitions_of(workspace), declaration)
    spans = {}
    for path, offset, length, bound, is_identifier in workspace.bindings():
        if bound in renamed and is_identifier:
            spans.setdefault(path, []).append((offset, offset + length, name.encode()))
    if declaration.kind == "import" and declaration.node.name is None:
        path, offset = declaration.path, declaration.node.at.offset
        behind_keyword = texts[path][:offset].endswith(b"import")
        new = (" " if behind_keyword else "") + name + " "
        spans.setdefault(path, []).append((offset, offset, new.encode()))
    return EditSet(spans)


def plan_rename(workspace, texts, path, offset, name):
    if not is_path(path):
        raise Refusal(3)
    if not is_new_name(name):
        raise Refusal(12)
    if path not in texts:
        raise Refusal(4)
    refuse_faults(workspace, [path.rsplit("/", 1)[0]])
    sound, sound_texts = workspace.without_faulty(texts)
    declaration = declaration_at(sound, path, offset)
    if not is_renamable(declaration):
        raise Refusal(11)
    if not may_be_called(declaration, name):
        raise Refusal(12)
    if declaration.name == name:
        raise Refusal(13)
    renamed = renamed_set(definitions_of(sound), declaration)
    refuse_faults(workspace, workspace.affected({other.path.rsplit("/", 1)[0] for other in renamed}))
    edits = rename_edits(sound, sound_texts, declaration, name)
    refuse_obstacle(obstacle_of_edits(sound, sound_texts, edits, renamed, name))
    if is_too_large(edits.edited(texts)):
        raise Refusal(5)
    return edits
