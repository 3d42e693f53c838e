"""Moves the package that all others import, in the workspace of rename.py.

Measured are, after one `faults`, a move by which the package keeps its name, one by which it gets the name of its new folder, one
refused because a use would be captured, and one refused because files lie in the new folder. Where `gomvpkg` is installed, it makes
the first two moves on the same files.

    usage: python3 bench/move.py PROGRAM
"""
import check
import go_tools
from rename import workspace


def measure(program, lines):
    files, count, uses = workspace(lines)
    print(f"{count} lines, {len(files)} files, {uses} uses of the package that moves:")
    session = check.Session(program)
    basis, _ = session.put_all(files)
    session.faults()
    basis, _ = session.timed("its name stays", f"move {basis} gen/base other/base", ("ok", 0))
    basis, _ = session.timed("its name follows", f"move {basis} other/base gen/steps", ("ok", 0))
    session.timed("refused as captured", f"move {basis} gen/steps gen/local", ("no", 14))
    session.timed("refused as taken", f"move {basis} gen/steps gen", ("no", 17))
    session.end()
    # gomvpkg does not make the folder above the new one.
    files["other/note.txt"] = b""
    go_tools.once(files, "gomvpkg", "-from", "gen/base", "-to", "other/base")
    go_tools.once(files, "gomvpkg", "-from", "gen/base", "-to", "gen/steps")


if __name__ == "__main__":
    check.main(__doc__, measure)
