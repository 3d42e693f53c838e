"""Measures `faults` behind a put after which all packages are judged again: in `run`, and in `serve` with 4 workers.

The workspace is the large one. A session puts the file of `Hub` with one exported variable more, and asks for `faults` at once, ROUNDS (9)
times. Before each put all packages are built. Printed are the median milliseconds of `faults`, the least and the greatest.

    usage: python3 bench/judging.py PROGRAM [ROUNDS [SIZE]]

SIZE is one of large.py's, `large` if it is left out.
"""
import statistics
import sys

import large
import shared
import workers


def measure(session, files, settle, rounds, name):
    """Prints what `faults` takes. `settle` builds all packages, or waits until they are built."""
    hub, _ = large.targets(files)["hub"]
    session.load(files)
    times = []
    for turn in range(rounds):
        settle(session)
        session.edit(hub, files[hub] + b"\nvar Extra%d int = 1\n" % turn)
        times.append(1000 * session.faults())
    print(f"  {name}: {statistics.median(times):8.3f} ms ({min(times):.3f} to {max(times):.3f})", flush=True)


def main(program, rounds="9", size="large"):
    files = large.workspace(size)
    session = large.Session(program)
    measure(session, files, shared.build_alone, int(rounds), "run")
    session.end()
    with workers.Server(program, 4) as server:
        measure(shared.Shared(server.path), files, shared.wait, int(rounds), "serve with 4 workers")


if __name__ == "__main__":
    if not 2 <= len(sys.argv) <= 4:
        sys.exit(__doc__)
    main(*sys.argv[1:])
