"""Renames in a generated workspace: a variable that all files use, a local variable, and renames that are refused.

The workspace is that of check.py, with one more package, whose variable each other file uses three times. Measured are, after one
`faults`, `uses` of that variable, its rename, the rename of a local variable, a rename refused as captured and one refused as lost.
Where they are installed, `gorename` makes the first two renames on the same files, and a running `gopls` answers the uses and makes
both.

    usage: python3 bench/rename.py PROGRAM
"""
import sys

import check
import go_tools

BASE = "gen/base/base.go"
STEP = b"package base\n\nvar Step int = 1\n"


def workspace(lines):
    """Files by path, of more than `lines` lines; how many lines check.py made of them, and how often the variable is used."""
    files, count, packages = check.workspace(lines)
    found = {BASE: STEP}
    for path, text in files.items():
        name = path.split("/")[-1][:-3]
        more = (
            f"\nfunc Base{name}(n int) int {{\n\tlocal := n + base.Step\n"
            "\tfor local < base.Step {\n\t\tlocal = local + base.Step\n\t}\n\treturn local\n}\n"
        )
        head, rest = text.split(b"\n", 1)
        found[path] = head + b'\n\nimport "gen/base"\n' + rest + more.encode()
    return found, count, 3 * len(files)


def measure(program, lines):
    files, count, uses = workspace(lines)
    print(f"{count} lines, {len(files)} files, {uses} uses:")
    session = check.Session(program)
    basis, _ = session.put_all(files)
    session.faults()
    place = f"{BASE}:#{STEP.index(b'Step')}"
    path = list(files)[-1]
    local = f"{path}:#{files[path].index(b'local')}"
    _, body = session.timed("uses of what all use", f"uses {place}", ("ok", 0))
    listed = body.count(b"\n")
    if listed != uses + 1:
        sys.exit(f"uses lists {listed} lines")
    basis, _ = session.timed("what all use, renamed", f"rename {basis} {place} Stride", ("ok", 0))
    basis, _ = session.timed("a local variable, renamed", f"rename {basis} {local} here", ("ok", 0))
    session.timed("refused as captured", f"rename {basis} {local} n", ("no", 14))
    session.timed("refused as lost", f"rename {basis} {place} stride", ("no", 15))
    session.end()
    go_tools.once(files, "gorename", "-offset", place, "-to", "Stride")
    go_tools.once(files, "gorename", "-offset", local, "-to", "here")
    everywhere, within = STEP.index(b"Step"), files[path].index(b"local")
    go_tools.running(
        files,
        "gen",
        [
            ("uses of what all use", BASE, everywhere, None),
            ("what all use, renamed", BASE, everywhere, "Stride"),
            ("a local variable, renamed", path, within, "here"),
        ],
    )


if __name__ == "__main__":
    check.main(__doc__, measure)
