"""The small module that the checks of the language server change, and what the model answers for it."""

from checks.model.moves import plan_move
from checks.model.refusals import Refusal
from checks.model.renames import plan_rename
from checks.model.workspace import Workspace

MODULE = "shop"
GO_MOD = "module shop\n\ngo 1.19\n"
TAX = "package tax\n\n// Rate is used below.\nvar Rate int = 2\n\nfunc Net(price int) int {\n\treturn price + Rate\n}\n"
SHOP = 'package shop\n\nimport "shop/tax"\n\nfunc Total(n int) int {\n\treturn tax.Net(n) * tax.Rate\n}\n'
FILES = {"go.mod": GO_MOD, "tax/tax.go": TAX, "shop.go": SHOP}
# A character of one unit in UTF-16 and two bytes, one of two units and four bytes, and line ends of two bytes.
WIDE = 'package wide\n\n// \u00e9\nvar a string = "\u00e9\U0001f600"; var b int = 1\n\nfunc f() int {\n\treturn b /* \U0001f600 */ + b\n}\n'
RETURNS = "package back\r\n\r\nvar x int = 1\r\n\r\nfunc f() int {\r\n\treturn x\r\n}\r\n"


def texts_of(files):
    """The Go files as the model has them: by the path of their package, and as bytes."""
    return {f"{MODULE}/{path}": text.encode("utf-8") for path, text in files.items() if path.endswith(".go")}


def path_of(path):
    return path[len(MODULE) + 1 :]


def bytes_before(text, offset):
    return len(text[:offset].encode("utf-8"))


def characters_before(text, offset):
    """The offset in a str of an offset in its bytes."""
    return len(text.encode("utf-8")[:offset].decode("utf-8"))


def asked(text, offset):
    """The begin of the identifier in or behind which an offset stands, or else the offset: an editor's cursor may stand behind a name."""
    begin = offset
    while begin and (not text[begin - 1].isascii() or text[begin - 1].isalnum() or text[begin - 1] == "_"):
        begin -= 1
    return begin


def renamed(files, path, offset, name):
    """The texts of the files that a rename changes, by the model."""
    texts = texts_of(files)
    edits = plan_rename(Workspace(texts), texts, f"{MODULE}/{path}", bytes_before(files[path], offset), name)
    return {path_of(p): edits.edited_text(p, texts[p]).decode("utf-8") for p in edits.spans}


def moved(files, source, target):
    """The texts of the files that a move changes, by their old paths, by the model."""
    texts = texts_of(files)
    edits = plan_move(Workspace(texts), texts, f"{MODULE}/{source}", f"{MODULE}/{target}")
    return {path_of(p): edits.edited_text(p, texts[p]).decode("utf-8") for p in edits.spans if edits.spans[p]}


def refused(files, path, offset, name):
    """The number of the refusal of a rename, and its text, by the model."""
    try:
        renamed(files, path, offset, name)
    except Refusal as refusal:
        return refusal.code, refusal.body
    raise AssertionError("the model refuses nothing here")


def uses(files, path, offset):
    """The places of the identifiers bound to the same declaration as one: pairs of path and offset in the str, by the model."""
    told = Workspace(texts_of(files)).uses(f"{MODULE}/{path}", bytes_before(files[path], offset))
    return [(path_of(p), characters_before(files[path_of(p)], at)) for p, at in told]


def faults(files):
    """The faults: path, offset in the str and kind, by the model."""
    return [(path_of(p), characters_before(files[path_of(p)], at), kind) for p, at, kind in Workspace(texts_of(files)).faults()]
