"""Runs the commands of a built `gorefd` over folders with each allocation refused in turn:

    python3 -m checks.attack.folders PROGRAM

A run in which one is refused is done as where none is, or it tells a memory fault and its status is 1. Then each file is old or new, and the
same command, where nothing is refused, leaves all files new and nothing beside them. Where the first run left all as it was, the second tells
what it tells at first. A run that tells a memory fault has not done all, but where it has finished a run that was cut off.

Then it tries journals that no run has written, as a folder from elsewhere may have.
"""

import contextlib
import itertools
import os
import random
import subprocess
from concurrent.futures import ThreadPoolExecutor

from checks.attack.refusing import Library
from checks.server.cuts import MOVE, MOVED, RENAME, each_is_old_or_new
from checks.server.server import DEADLINE, PROGRAM, check_program, same
from checks.server.tools import FILES, MARK, RENAMED, SHOP, Folder, beside

# Where a plan is refused, it is told as each refusal is: at the place that was asked for.
MEMORY = "memory fault\n"
PREPARED = FILES | {".gorefd-prepare": f"shop.go\ntax/tax.go\n\n\n{MARK}\n", beside("shop.go"): "package"}
COMMITTED = FILES | {beside(path): RENAMED[path] for path in ("shop.go", "tax/tax.go")}
COMMITTED |= {".gorefd-commit": f"shop.go\ntax/tax.go\n\n\n{MARK}\n"}
HALF_MOVED = FILES | {beside("shop.go"): MOVED["shop.go"], beside("tax/tax.go"): MOVED["money/vat/tax.go"]}
HALF_MOVED |= {".gorefd-commit": f"shop.go\ntax/tax.go\ntax\nmoney/vat\n{MARK}\n"}
FAULTY = FILES | {"shop.go": SHOP.replace("tax.Rate", "rate")}
BUILT = FILES | {"other_windows.go": SHOP, "_left.go": SHOP, "low/go.mod": "module low\n", "low/low.go": "package low\n"}
KINDS = ("told", "done all the same")


def told_of(folder, words, environment=None):
    """The status of a run in a folder, and what it wrote."""
    ran = subprocess.run([*PROGRAM, *words], cwd=folder.top, stdin=subprocess.DEVNULL, capture_output=True, env=environment, timeout=DEADLINE)
    return ran.returncode, ran.stdout.decode(), ran.stderr.decode()


class Attacked:
    """A command over a folder, with what it tells and leaves where nothing is refused."""

    def __init__(self, words, files, new):
        self.words, self.files, self.new = words, files, dict(sorted(new.items()))
        self.was_cut_off = not {".gorefd-prepare", ".gorefd-commit"}.isdisjoint(files)
        with Folder(files) as folder:
            self.wanted = told_of(folder, words)
            same(folder.texts(), self.new)

    def is_right(self, told, texts):
        """Whether a run that was refused memory has told and left what it may."""
        status, out, err = told
        each_is_old_or_new(texts, self.files, self.new)
        same((status, out, MEMORY in err), (1, "", True))

    def point(self, library, number):
        """Refuses a run its call of this number. What came of it, or None where there was no such call."""
        page = library.page(number)
        with contextlib.closing(page), Folder(self.files) as folder:
            told, texts = told_of(folder, self.words, os.environ | page.environment), folder.texts()
            if not page.get("hits"):
                same((told, texts), (self.wanted, self.new))
                return None
            if told == self.wanted:
                same(texts, self.new)
                return "done all the same"
            self.is_right(told, texts)
            again = told_of(folder, self.words)
            same(folder.texts(), self.new)
            if texts == dict(sorted(self.files.items())):
                same(again, self.wanted)
            elif not self.was_cut_off:
                same(texts == self.new, False)
            return "told"

    def points(self, library, pool):
        """What came of each call that is refused."""
        numbers, told = itertools.count(1), []
        while None not in told:
            told += pool.map(lambda number: self.at(library, number), itertools.islice(numbers, 64))
        return [how for how in told if how]

    def at(self, library, number):
        try:
            return self.point(library, number)
        except AssertionError as fault:
            raise AssertionError(f"{' '.join(self.words)}, call {number} refused: {fault}") from fault


def tried(words, files=None, new=None):
    """Refuses a command each of its calls."""
    files = FILES if files is None else files
    with Library() as library, ThreadPoolExecutor(len(os.sched_getaffinity(0))) as pool:
        told = Attacked(words, files, files if new is None else new).points(library, pool)
    same((told.count("told") > 0, set(told) <= set(KINDS)), (True, True))
    return ", ".join(f"{told.count(kind)} {kind}" for kind in KINDS)


def renames():
    """A rename."""
    return tried(RENAME, new=RENAMED)


def moves():
    """A move."""
    return tried(MOVE, new=MOVED)


def shown():
    """A dry run of a rename, and one of a move."""
    return [tried((words[0], "--dry-run", *words[1:])) for words in (RENAME, MOVE)]


def asked():
    """Questions: uses, no faults, faults, and the faults of a folder of which files are left out."""
    return [
        tried(("uses", "tax/tax.go:4:5")),
        tried(("faults",)),
        tried(("faults",), FAULTY),
        tried(("faults",), BUILT),
    ]


def refused():
    """A rename that captures a use, and a move that finds its place taken."""
    return [tried(("rename", "tax/tax.go:4:5", "price")), tried(("move", "tax", "tax"))]


def taken_back():
    """A rename where a run was cut off that is taken back."""
    return tried(RENAME, PREPARED, RENAMED)


def finished():
    """A rename, which is done already, where a run was cut off that is finished."""
    return tried(RENAME, COMMITTED, RENAMED)


def moves_finished():
    """The same behind a move."""
    return tried(("rename", "shop.go:5:6", "Total"), HALF_MOVED, MOVED)


LINES = [b"shop.go", b"tax/tax.go", b"tax", b"money/vat", b"go.mod", b"", b"", b"link/file", b"link/kept", b"link/new", b"link", b"link/kept/deep"]
LINES += [b"..", b"../x", b"/etc", b".", b"./tax", b"tax/", b"tax//tax.go", b"x" * 300, b"a\0b", b"\xff", b"none.go", b"none/none.go", b".gorefd-commit"]
MARKS = [MARK.encode()] * 4 + [b"", b"1", b"../1", b"1/2", b"-", b"x"]
ELSEWHERE = {"file": "mine\n", beside("file"): "theirs\n", "kept/deep/file": "mine too\n", beside("kept/deep/file"): "theirs too\n"}


def journal(choose):
    """Some lines, a mark and an end, or some of these bytes."""
    lines = choose.choices(LINES, k=choose.randrange(6)) + [choose.choice(MARKS)]
    text = b"\n".join(lines) + choose.choice([b"\n"] * 4 + [b"", b"\n\n", b"\r\n"])
    return text[: choose.randrange(len(text) + 1)] if choose.randrange(8) == 0 else text


def contents(folder):
    """The bytes of all files of a folder, wherever they lie. None is looked for behind a link."""
    return {path.read_bytes() for path in folder.top.rglob("*") if path.is_file() and not path.is_symlink()}


def forms(path):
    """The texts that a file may have: the old one, that of a rename, and that of a move."""
    texts = {FILES[path], RENAMED[path], MOVED["money/vat/tax.go" if path == "tax/tax.go" else path]}
    return {text.encode() for text in texts | {text.replace("Rate", "Share") for text in texts}}


def strange(seed):
    """A run in a folder that has this journal, new texts, and a link to a folder elsewhere. Each file is there and old or new, wherever it is
    then, and nothing elsewhere changes."""
    choose = random.Random(seed)
    new = {beside(path): RENAMED[path] for path in ("shop.go", "tax/tax.go") if choose.randrange(2)}
    with Folder(FILES | new) as folder, Folder(ELSEWHERE) as elsewhere:
        (folder.top / "link").symlink_to(elsewhere.top)
        name, text = choose.choice((".gorefd-commit", ".gorefd-prepare")), journal(choose)
        (folder.top / name).write_bytes(text)
        told = told_of(folder, choose.choice((RENAME, MOVE, ("faults",))))
        same((seed, text, told[0] in (0, 1), elsewhere.texts()), (seed, text, True, dict(sorted(ELSEWHERE.items()))))
        lost = [path for path in FILES if not forms(path) & contents(folder)]
        same((seed, text, told, lost), (seed, text, told, []))
    return told[0]


def journals(first=0, count=500):
    """Journals that no run has written."""
    with ThreadPoolExecutor(len(os.sched_getaffinity(0))) as pool:
        told = list(pool.map(strange, range(first, first + count)))
    return f"{count} journals from seed {first} on, {told.count(1)} runs with status 1"


CHECKS = (renames, moves, shown, asked, refused, taken_back, finished, moves_finished, journals)

if __name__ == "__main__":
    check_program(CHECKS, __doc__)
