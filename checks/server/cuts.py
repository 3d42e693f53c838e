"""Cuts off runs of `gorefd rename` and `gorefd move` at each call of the system, one after another, by `strace`.

    python3 -m checks.server.cuts PROGRAM

At each call the run is killed, or the call fails. Then each file is old or new, and what the next run tells and does is right: it leaves all
files new, and nothing beside them. What a run that was cut off in a folder above has left stays. It fails too where no run could be cut off.
The last checks look at the calls of whole runs: all that a journal promises is flushed before it says so, and before it is removed.
"""

import re
import signal
import subprocess

from checks.server.server import PROGRAM, check_program
from checks.server.tools import ABOVE, ABOVE_JOURNAL, FILES, LOW_NET, MARK, RENAMED, SHOP, TAX, Folder, bare

CALLS = ("openat", "open", "write", "fsync", "fchmod", "rename", "renameat", "renameat2", "unlink", "unlinkat", "mkdir", "mkdirat")
RENAME = ("rename", "tax/tax.go:4:5", "Share")
MOVE = ("move", "tax", "money/vat")
NEW_SHOP = SHOP.replace("shop/tax", "shop/money/vat").replace("tax.", "vat.")
NEW_TAX = TAX.replace("package tax", "package vat")
JOURNALS = (".gorefd-prepare", ".gorefd-commit")
RENAME_LOW = ("rename", "--root", "low", "a/a.go:5:6", "Gross")
MOVED = {"go.mod": FILES["go.mod"], "shop.go": NEW_SHOP, "money/vat/tax.go": NEW_TAX}


def cut_at(folder, words, call, how, number):
    """Runs the program, and cuts it off at the call of this number. It tells whether there was such a call."""
    trace = folder.top.parent / (folder.top.name + ".trace")
    strace = ["strace", "-f", "-o", str(trace), "-e", f"trace={call}", "-e", f"inject={call}:{how}:when={number}"]
    ran = subprocess.run([*strace, *PROGRAM, *words], cwd=folder.top, stdin=subprocess.DEVNULL, stdout=subprocess.PIPE, stderr=subprocess.PIPE)
    text = trace.read_text()
    trace.unlink()
    return "INJECTED" in text or ran.returncode == -signal.SIGKILL or "SIGKILL" in text


def each_is_old_or_new(texts, old, new):
    """Whether each file is as it was or as it is to be."""
    for path, text in bare(texts).items():
        if text not in (old.get(path), new.get(path), new.get(path.replace("tax/", "money/vat/"))):
            raise AssertionError(f"{path} is neither old nor new: {text!r}")


def all_stay(texts, left):
    """Whether what a run above has left is there."""
    for path, text in left.items():
        if texts.get(path) != text:
            raise AssertionError(f"{path}, which a run above has left, is {texts.get(path)!r}")


def cut_everywhere(words, files, new, how, left=None):
    """Cuts a run off at each call, and starts it again. What was left by a run above stays. It tells how often."""
    cuts, left = 0, left or {}
    for call in CALLS:
        for number in range(1, 1000):
            with Folder(files | left) as folder:
                if not cut_at(folder, words, call, how, number):
                    break
                cuts += 1
                each_is_old_or_new(folder.texts(), files, new)
                all_stay(folder.texts(), left)
                status, out, err = folder.told(*words)
                if folder.texts() != dict(sorted((new | left).items())):
                    raise AssertionError(f"{call} {number}: {status} {out!r} {err!r} leaves {folder.texts()!r}")
    if cuts < 20:
        raise AssertionError(f"only {cuts} runs were cut off")
    return f"{cuts} cuts"


def renames_killed():
    """A rename that is killed at any call is finished or taken back by the next."""
    return cut_everywhere(RENAME, FILES, RENAMED, "signal=KILL")


def moves_killed():
    """A move that is killed at any call is finished or taken back by the next."""
    return cut_everywhere(MOVE, FILES, MOVED, "signal=KILL")


def renames_failed():
    """A rename of which any call fails is finished or taken back by the next."""
    return cut_everywhere(RENAME, FILES, RENAMED, "error=EIO")


def moves_failed():
    """A move of which any call fails is finished or taken back by the next."""
    return cut_everywhere(MOVE, FILES, MOVED, "error=EIO")


LOW_FILE = "low/a/a.go"
LOW_OLD = {LOW_FILE: ABOVE[LOW_FILE]}
LOW_NEW = {LOW_FILE: LOW_NET}
LEFT_ABOVE = {path: text for path, text in ABOVE.items() if path != LOW_FILE}


def below_killed():
    """A rename below a run that was cut off, killed at any call, leaves what that run has left."""
    told = [cut_everywhere(RENAME_LOW, LOW_OLD, LOW_NEW, "signal=KILL", LEFT_ABOVE | {name: ABOVE_JOURNAL}) for name in JOURNALS]
    return ", ".join(told)


def below_failed():
    """A rename below a run that was cut off, of which any call fails, leaves what that run has left."""
    told = [cut_everywhere(RENAME_LOW, LOW_OLD, LOW_NEW, "error=EIO", LEFT_ABOVE | {name: ABOVE_JOURNAL}) for name in JOURNALS]
    return ", ".join(told)


def calls_of(folder, words):
    """The calls of a run that write, rename, flush and remove: each with its paths below the folder."""
    trace = folder.top.parent / (folder.top.name + ".trace")
    calls = "write,fsync,fdatasync,rename,renameat,renameat2,unlink,unlinkat,mkdir,mkdirat"
    ran = subprocess.run(
        ["strace", "-f", "-y", "-s", "4096", "-o", str(trace), "-e", f"trace={calls}", *PROGRAM, *words],
        cwd=folder.top, stdin=subprocess.DEVNULL, stdout=subprocess.PIPE, stderr=subprocess.PIPE,
    )
    lines = trace.read_text().splitlines()
    trace.unlink()
    told = [calls_in(line, str(folder.top.resolve())) for line in lines]
    return ran.returncode, [call for call in told if call]


def calls_in(line, top):
    """The call of a line of a trace, with its paths below the folder; nothing where it failed or is about nothing there."""
    call = re.match(r"\d+ +(\w+)\((.*)\) += 0|\d+ +(write)\((.*)\) += \d+", line)
    if not call:
        return None
    name, text = call[1] or call[3], call[2] or call[4]
    places = re.findall(r"^\d+<(.*?)>", text) or re.findall(r'"(.*?)"', text)
    paths = tuple(place_below(place, top) for place in places)
    return None if None in paths else (name.replace("at2", "").replace("at", ""), *paths)


def place_below(place, top):
    """The path below the folder of a path that the program names."""
    if place.startswith("/"):
        return place[len(top) :].strip("/") if (place + "/").startswith(top + "/") else None
    return "/".join(part for part in place.split("/") if part not in ("", "."))


def in_order(calls, *wanted):
    """Whether these calls come in this order, each behind the one before it."""
    at = 0
    for call in wanted:
        if call not in calls[at:]:
            raise AssertionError(f"{call} does not follow {wanted[: wanted.index(call)]} in {calls}")
        at += calls[at:].index(call) + 1


def flushed_renames():
    """All new texts are written before one of them is flushed. All are flushed, and their folders, before the journal says that all are
    written, and again before it is removed."""
    with Folder(FILES) as folder:
        status, calls = calls_of(folder, RENAME)
        if (status, folder.texts()) != (0, dict(sorted(RENAMED.items()))):
            raise AssertionError(f"{status} {folder.texts()}")
        new = [call[1] for call in calls if call[0] == "rename" and call[1].endswith(".gorefd")]
        if len(new) != 2 or ".gorefd-prepare" in new:
            raise AssertionError(f"{new} in {calls}")
        writes, flushes = [[calls.index((name, path)) for path in new] for name in ("write", "fsync")]
        if max(writes) > min(flushes):
            raise AssertionError(f"a new text is flushed before all are written: {calls}")
        promised = ("rename", ".gorefd-prepare", ".gorefd-commit")
        removed = ("unlink", ".gorefd-commit")
        in_order(calls, ("write", ".gorefd-prepare"), ("fsync", ".gorefd-prepare"), ("fsync", ""), ("write", new[0]))
        for path, place in zip(new, ("shop.go", "tax/tax.go")):
            own = place.rpartition("/")[0]
            in_order(calls, ("fsync", path), ("fsync", own), promised, ("fsync", ""), ("rename", path, place), ("fsync", own), removed, ("fsync", ""))


def flushed_moves():
    """The folders above both paths are flushed before the journal is removed, also where the run before was cut off behind the rename."""
    removed = ("unlink", ".gorefd-commit")
    with Folder(FILES) as folder:
        status, calls = calls_of(folder, MOVE)
        if (status, folder.texts()) != (0, dict(sorted(MOVED.items()))):
            raise AssertionError(f"{status} {folder.texts()}")
        for path in ("", "money"):
            in_order(calls, ("mkdir", "money"), ("fsync", path), ("rename", "tax", "money/vat"), ("fsync", path), removed)
    with Folder(MOVED | {".gorefd-commit": f"shop.go\ntax/tax.go\ntax\nmoney/vat\n{MARK}\n"}) as folder:
        status, calls = calls_of(folder, ("rename", "shop.go:5:6", "Sum"))
        for path in ("", "money"):
            in_order(calls, ("fsync", path), removed, ("write", ".gorefd-prepare"))


def main():
    check_program(
        (renames_killed, moves_killed, renames_failed, moves_failed, below_killed, below_failed, flushed_renames, flushed_moves), __doc__
    )


if __name__ == "__main__":
    main()
