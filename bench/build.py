"""Builds all packages of a generated workspace by repeated `work`, beside `go build -p 1` and `go vet` on the same files.

The workspace is that of check.py, with one more package, which all others import. Three builds are measured: the first; one after a
put in a top package, which builds that package alone; and one after a put in the package that all import, which builds all packages.

    usage: python3 bench/build.py PROGRAM
"""
import sys
import time

import check

BASE = "gen/base/base.go"
STEP = "package base\n\nvar Step int = 1\n"


def workspace(lines):
    """Files by path, of about `lines` lines; how many lines and how many packages they have."""
    files, count, packages = check.workspace(lines)
    found = {BASE: STEP.encode()}
    for number in range(packages):
        path = f"{check.package_path(number)}/base.go"
        found[path] = f'package p{number}\n\nimport "gen/base"\n\nfunc FromBase(n int) int {{\n\treturn n + base.Step\n}}\n'.encode()
    return {**files, **found}, count + sum(text.count(b"\n") for text in found.values()), packages + 1


def build(session, wanted):
    """The seconds in which all unfinished packages are built. There have to be `wanted` of them."""
    begin, count = time.perf_counter(), 0
    while True:
        word, number, body, _ = session.ask(b"work")
        if word == b"no" and number == 23:
            break
        if word != b"ok":
            sys.exit(f"work: {word} {number} {body}")
        count += 1
    if count != wanted:
        sys.exit(f"{count} packages were built, and not {wanted}")
    return time.perf_counter() - begin


def measure(program, lines):
    files, count, packages = workspace(lines)
    print(f"{count} lines, {len(files)} files, {packages} packages:")
    session = check.Session(program)
    basis, loading = session.put_all(files)
    print(f"  all files put           {loading:8.3f} s")
    print(f"  all packages built      {build(session, packages):8.3f} s")
    top = f"{check.package_path(packages - 2)}/base.go"
    basis, _ = session.put(basis, top, files[top].replace(b"FromBase", b"AboveBase"))
    print(f"  a top package again     {build(session, 1):8.3f} s")
    basis, _ = session.put(basis, BASE, STEP.replace("1", "2").encode())
    print(f"  all packages once more  {build(session, packages):8.3f} s")
    session.end()
    for words in ("build -p 1", "vet"):
        seconds = check.go(files, *words.split(), "gen/...")
        if seconds is not None:
            print(f"  {'go ' + words:22}  {seconds:8.3f} s")


if __name__ == "__main__":
    check.main(__doc__, measure)
