"""Measures how much is checked a second time, on the Go files of a folder, as chain.py does on chains.

Measured are `faults` after all files were put, and again; `faults` after a put inside a function of the package that most others
import, and of one that none imports; `uses` of the targets, and again; and in another session the build of all packages by repeated
`work`, without a command before it. Each has its ratio to the first `faults` beside it. Times are the program's processor time.
TARGETS is a JSON file that maps names to pairs of a file, by its path below the folder, and an offset.
With `--count`, valgrind counts the instructions of the first `faults` and of the build.

    usage: python3 bench/kept.py PROGRAM FOLDER TARGETS
           python3 bench/kept.py --count PROGRAM FOLDER
"""
import collections
import json
import pathlib
import re
import sys

import build
from chain import Session, print_counted, put_all

IMPORT = re.compile(rb'^\s*(?:import\s+)?"([^"\n]+)"', re.M)
NUMBER = re.compile(rb"(?<![\w\"`])\d+\b")


def read(folder):
    """The Go files below a folder, by path."""
    return {str(file.relative_to(folder)): file.read_bytes() for file in sorted(folder.rglob("*.go"))}


def most_and_least(files):
    """A file of the package that most others import, and one of a package that none imports."""
    importers = collections.Counter(path.decode() for text in files.values() for path in set(IMPORT.findall(text)))
    folders = sorted({path.rpartition("/")[0] for path in files})
    most, least = max(folders, key=importers.__getitem__), min(folders, key=importers.__getitem__)
    return [next(path for path in files if path.rpartition("/")[0] == folder) for folder in (most, least)]


def edited(text):
    """The same file with another number inside a function, if it has one."""
    found = NUMBER.search(text, text.index(b"{", text.index(b"\nfunc ")))
    return text[: found.start()] + b"1" + text[found.start() :] if found else text


def measure(program, folder, targets):
    files = read(folder)
    session = Session(program)
    number = put_all(session, files)
    first = session.faults()
    rows = [("faults", first), ("faults again", session.faults())]
    for what, path in zip(("package that most import", "package that none imports"), most_and_least(files)):
        if edited(files[path]) == files[path]:
            sys.exit(f"{path}: no number to change")
        number, _ = session.put(number, path, edited(files[path]))
        rows.append((f"faults behind a put in a {what}", session.faults()))
        number, _ = session.put(number, path, files[path])
    session.faults()
    for name, (path, offset) in targets.items():
        question = b"uses %s:#%d" % (path.encode(), offset)
        for again in ("", " again"):
            word, told, body, seconds = session.ask(question)
            rows.append((f"uses of {name}{again}: {word.decode()}, {len(body)} bytes", seconds))
    session.child.stdin.close()
    session.child.wait()
    session = Session(program)
    put_all(session, files)
    begin = session.spent()
    build.build(session, packages_of(files))
    rows.append(("work over all", session.spent() - begin))
    session.child.stdin.close()
    session.child.wait()
    print(f"{len(files)} files, {sum(text.count(10) for text in files.values())} lines:")
    for what, seconds in rows:
        print(f"  {what:56} {seconds:9.4f} s  {seconds / first:7.4f}")


def packages_of(files):
    return len({path.rpartition("/")[0] for path in files})


if __name__ == "__main__":
    if len(sys.argv) == 4 and sys.argv[1] == "--count":
        files = read(pathlib.Path(sys.argv[3]))
        sys.exit(print_counted(sys.argv[2], files, packages_of(files)))
    if len(sys.argv) != 4:
        sys.exit(__doc__)
    measure(sys.argv[1], pathlib.Path(sys.argv[2]), json.loads(pathlib.Path(sys.argv[3]).read_text()))
