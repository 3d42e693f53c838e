"""Measures the memory of a session in the large workspace, or in one at the limits.

Printed are, behind all puts, behind the first `faults` and behind the build of all packages by `work`, the seconds of the step, the MiB that
the program has, and the most that it has had. In the large workspace a running `gopls`, where it is installed, answers the uses of `Hub`.

    usage: python3 bench/memory.py PROGRAM [SIZE]

SIZE is one of large.py's, `large` if it is left out.
"""
import sys

import build
import go_tools
import large
from families import packages_of


def steps(session, files):
    """Pairs of a step and its seconds."""
    yield "all puts", session.load(files)
    yield "the first faults", session.faults()
    yield "build of all by work", build.build(session, packages_of(files))


def main(program, size="large"):
    files = large.workspace(size)
    session = large.Session(program)
    for name, seconds in steps(session, files):
        held, most = session.memory()
        print(f"  {name:25} {seconds:8.3f} s; {held:.0f} MiB, at most {most:.0f} MiB", flush=True)
    session.end()
    if size != "limits":
        path, offset = large.targets(files)["hub"]
        go_tools.running(files, "w", [("uses of Hub", path, offset, None)])


if __name__ == "__main__":
    if not 2 <= len(sys.argv) <= 3:
        sys.exit(__doc__)
    main(*sys.argv[1:])
