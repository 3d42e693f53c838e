"""Measures the build of all packages behind a rename, by repeated `work`.

The workspace has 500 packages in layers, and one more, which all others import. All are built. Then a local variable of that package is
renamed, and all are built; its function is renamed, and all are built; and so once more, without an undo between. Behind each rename each
object is that of a build in another session, of the files as they are then. Times are the program's processor time. The exit status is 1
if a build takes more than 0.08 s, or if an object differs.

    usage: python3 bench/behind.py PROGRAM
"""
import sys

import build
import check
from chain import Session, put_all

PACKAGES = 500
BOUND = 0.08
HUB = "gen/base/base.go"
TEXT = "package base\n\nfunc Hub(n int) int {\n\tlocal := n\n\treturn local + 1\n}\n"

check.FILES = 2
check.FUNCTIONS = 6


def workspace():
    """Files by path, and how many packages they have."""
    files = {HUB: TEXT.encode()}
    for number in range(PACKAGES):
        path = check.package_path(number)
        for file in range(check.FILES):
            files[f"{path}/f{file}.go"] = check.file_text(number, file).encode()
        files[f"{path}/hub.go"] = f'package p{number}\n\nimport "gen/base"\n\nfunc FromHub(n int) int {{\n\treturn n + base.Hub(n)\n}}\n'.encode()
    return files, PACKAGES + 1


def answer(session, line):
    word, number, body, _ = session.ask(line.encode())
    if word != b"ok":
        sys.exit(f"{line}: {word} {number} {body[:200]}")
    return number, body


def paths(files):
    return sorted({path.rpartition("/")[0] for path in files})


def objects(session, folders):
    return [answer(session, f"object {path}")[1] for path in folders]


def built_anew(program, session, files, packages):
    """The objects of a build in another session, of the files that this one has now."""
    other = Session(program)
    put_all(other, {path: answer(session, f"cat {path}")[1] for path in files})
    build.build(other, packages)
    found = objects(other, paths(files))
    other.end()
    return found


def measure(program):
    files, packages = workspace()
    session = Session(program)
    number = put_all(session, files)
    begin = session.spent()
    build.build(session, packages)
    print(f"{len(files)} files, {packages} packages:")
    print(f"  the first build                    {session.spent() - begin:8.4f} s")
    bad = 0
    for what, name, new in (("a local", "local", "inner"), ("the hub", "Hub", "Hib"), ("a local", "inner", "local"), ("the hub", "Hib", "Hub")):
        text = answer(session, f"cat {HUB}")[1]
        number, _ = answer(session, f"rename {number} {HUB}:#{text.index(name.encode())} {new}")
        begin = session.spent()
        build.build(session, packages)
        spent = session.spent() - begin
        same = objects(session, paths(files)) == built_anew(program, session, files, packages)
        bad += spent > BOUND or not same
        print(f"  behind a rename of {what:15} {spent:8.4f} s  (at most {BOUND}){'  OVER' if spent > BOUND else ''}{'' if same else '  AN OBJECT DIFFERS'}")
    session.end()
    sys.exit(bad > 0)


if __name__ == "__main__":
    if len(sys.argv) != 2:
        sys.exit(__doc__)
    measure(sys.argv[1])
