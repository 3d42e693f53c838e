"""Measures a put and a rename in `run`, where a session has the files for itself, and in `serve`, where sessions share them.

The workspace is the large one. One session of `run`, and one of a server with one worker, put a file of the top package ROUNDS (60) times, and
rename a local variable of that file as often. Behind each change all packages are built, by `work` or by the worker, and `faults` is
asked. Printed are the median milliseconds of the puts and renames, the least and the greatest. Those of `serve` include its socket.

    usage: python3 bench/shared.py PROGRAM [ROUNDS [SIZE]]

SIZE is one of large.py's, `large` if it is left out.
"""
import statistics
import sys

import large
import workers


class Shared(workers.Session, large.Session):
    """A session with a server on a socket."""


def build_alone(session):
    while session.ask(b"work")[0] == b"ok":
        pass


def wait(session):
    session.seconds("wait")


def measure(session, files, settle, rounds, name):
    """Prints what puts and renames take. `settle` builds all packages, or waits until they are built."""
    top, offset = large.targets(files)["local"]
    session.load(files)
    session.faults()
    settle(session)
    found = {"put": [], "rename of a local": []}
    for what, times in found.items():
        for turn in range(rounds):
            text = files[top] + b"\nvar extra%d int = 1\n" % turn
            times.append(session.edit(top, text) if what == "put" else session.seconds(f"rename {top}:#{offset} other{turn}"))
            settle(session)
            session.faults()
    for what, times in found.items():
        middle, least, most = (1000 * seconds for seconds in (statistics.median(times), min(times), max(times)))
        print(f"  {name}, {what:20} {middle:8.3f} ms ({least:.3f} to {most:.3f})", flush=True)


def main(program, rounds="60", size="large"):
    files = large.workspace(size)
    session = large.Session(program)
    measure(session, files, build_alone, int(rounds), "run")
    session.end()
    with workers.Server(program, 1) as server:
        measure(Shared(server.path), files, wait, int(rounds), "serve")


if __name__ == "__main__":
    if not 2 <= len(sys.argv) <= 4:
        sys.exit(__doc__)
    main(*sys.argv[1:])
