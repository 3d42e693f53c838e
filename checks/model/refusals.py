"""Refusals of commands, and the forms and limits of their arguments and of files."""

from checks.model.lexer import KEYWORDS, is_digit, is_letter

FILE_BYTES = 1_048_576
FILES = 4_096
ALL_BYTES = 67_108_864
PACKAGES = 1_024
PATH_BYTES = 255
NAME_BYTES = 255

PLAIN = set("abcdefghijklmnopqrstuvwxyzABCDEFGHIJKLMNOPQRSTUVWXYZ0123456789_-.~+")


class Refusal(Exception):
    def __init__(self, code, body=""):
        super().__init__(code)
        self.code = code
        self.body = body


def is_path(path, least=2):
    """Whether it is a path of so many segments at least: two of a file, one of a package."""
    segments = path.split("/")
    return (
        len(path) <= PATH_BYTES
        and len(segments) >= least
        and all(set(s) <= PLAIN and s not in ("", ".", "..") for s in segments)
    )


def is_identifier(name):
    """Whether it is an identifier other than `_`, and no keyword."""
    return (
        name not in ("", "_")
        and name not in KEYWORDS
        and is_letter(name[0])
        and all(is_letter(character) or is_digit(character) for character in name)
    )


def is_new_name(name):
    return is_identifier(name) and len(name.encode()) <= NAME_BYTES


def is_too_large(texts):
    """Whether a workspace passes a limit."""
    packages = {path.rsplit("/", 1)[0] for path in texts if path.endswith(".go")}
    return (
        len(texts) > FILES
        or len(packages) > PACKAGES
        or any(len(text) > FILE_BYTES for text in texts.values())
        or sum(len(text) for text in texts.values()) > ALL_BYTES
        or any(len(path) > PATH_BYTES for path in texts)
    )


def fault_lines(faults):
    return "".join("%s:#%d %s\n" % fault for fault in faults)


def refuse_faults(workspace, packages):
    """Refuses where one of these packages has a fault, with the first one."""
    faults = [fault for path in workspace.order if path in packages for fault in workspace.package_faults(path)]
    if faults:
        raise Refusal(9, fault_lines(faults[:1]))
