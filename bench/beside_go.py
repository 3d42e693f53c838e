"""Measures one session in the large workspace, beside go/scanner, go/parser and go/types on the same files.

In each of ROUNDS (3) rounds a session puts all files and asks for `faults`, twice. It puts a file of the top package, undoes that put and
redoes it. It puts the file of `Hub` twice: with another number inside `Hub`, and with one more exported function. Behind the puts it asks for
`faults`, and then for the uses of a local variable and of `Hub`. Last, it builds all packages by `work`.
Then the program of beside_types scans, parses and type-checks the files on one processor, where go is installed. go/parser scans too.
Printed are the median seconds of each step, the least and the greatest, and the most memory of the program of beside_types.

    usage: python3 bench/beside_go.py PROGRAM [ROUNDS [SIZE]]

SIZE is one of large.py's, `large` if it is left out.
"""
import os
import shutil
import statistics
import subprocess
import sys
import tempfile

import build
import go_tools
import large
from families import packages_of

HERE = os.path.dirname(os.path.abspath(__file__))


def steps(session, files):
    """Pairs of a step and its seconds."""
    top, at = list(files)[-1], large.places(files)
    yield "all puts", session.load(files)
    yield "the first faults", session.faults()
    yield "faults again", session.faults()
    yield "put in the top package", session.edit(top, files[top] + b"\nvar extra int = 1\n")
    yield "faults behind it", session.faults()
    yield "undo of the put", session.seconds("undo")
    yield "redo of the put", session.seconds("redo")
    yield "put inside Hub", session.edit(large.HUB, files[large.HUB].replace(b"n > 9", b"n > 8"))
    yield "faults behind a put inside Hub", session.faults()
    yield "put of a new exported function", session.edit(large.HUB, files[large.HUB] + b"\nfunc Added() int {\n\treturn 1\n}\n")
    yield "faults behind a new exported function", session.faults()
    yield "uses of a local variable", session.seconds(f"uses {at['local']}")
    yield "uses of Hub", session.seconds(f"uses {at['hub']}")
    yield "build of all by work", build.build(session, packages_of(files))


def beside_types(top, files):
    """Builds the program of beside_types in a folder, with the files. Returns the command, or None without go."""
    if shutil.which("go") is None:
        return None
    go_tools.laid(top, files)
    words = ["go", "build", "-o", os.path.join(top, "beside_types"), os.path.join(HERE, "beside_types", "main.go")]
    subprocess.run(words, cwd=top, env=go_tools.environment_in(top, "off"), check=True)
    return [words[3], os.path.join(top, "src")]


def beside_steps(words):
    """Triples of a step of Go's libraries, its seconds, and the most MiB until its end."""
    told = subprocess.run(words, env=dict(os.environ, GOMAXPROCS="1"), check=True, capture_output=True, text=True).stdout
    for line in told.splitlines():
        name, seconds, mebibytes = line.split()
        yield name, float(seconds), float(mebibytes)


def one_round(program, files, words, times, memory):
    """Adds the seconds of each step to those in `times`, and the memory of Go's to that in `memory`."""
    session = large.Session(program)
    for name, seconds in steps(session, files):
        times.setdefault(name, []).append(seconds)
    session.end()
    for name, seconds, mebibytes in beside_steps(words) if words else ():
        times.setdefault(name, []).append(seconds)
        memory.setdefault(name, []).append(mebibytes)


def main(program, rounds="3", size="large"):
    files, times, memory = large.workspace(size), {}, {}
    with tempfile.TemporaryDirectory() as top:
        words = beside_types(top, files)
        for _ in range(int(rounds)):
            one_round(program, files, words, times, memory)
    large.print_times(times, {name: f"; at most {statistics.median(found):.0f} MiB" for name, found in memory.items()})
    if words is None:
        print("  go/scanner, go/parser, go/types: skipped, since go is not there")


if __name__ == "__main__":
    if not 2 <= len(sys.argv) <= 4:
        sys.exit(__doc__)
    main(*sys.argv[1:])
