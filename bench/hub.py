"""Renames in the large workspace: of `Hub`, which all files use, of its parameter, and of a field of its package; and a move of that package.

Measured in ROUNDS (3) sessions are the first `faults`, then each change, `faults` behind it and its undo. Then a rename of `Hub` is refused,
since its package declares the new name. Printed are the median seconds of each step, the least and the greatest.
With `--history`, one session renames `Hub` N times to and fro, undoes all of it and redoes all of it. N is 100 at most, as many undos as
the server keeps. Printed are the memory behind the puts, behind the first rename and behind the last, and the median seconds of each
rename, undo and redo.

    usage: python3 bench/hub.py PROGRAM [ROUNDS [SIZE]]
           python3 bench/hub.py --history N PROGRAM [SIZE]

SIZE is one of large.py's, `large` if it is left out.
"""
import sys

import large

LOST = 15


def steps(session, files):
    """Pairs of a step and its seconds."""
    at = large.places(files)
    session.load(files)
    yield "the first faults", session.faults()
    for what, line in (
        ("Hub renamed", f"rename {at['hub']} Hob"),
        ("its parameter renamed", f"rename {at['parameter']} other"),
        ("a field renamed", f"rename {at['field']} other"),
        ("the package moved", "move w/hub w/hob"),
    ):
        yield what, session.seconds(line)
        yield f"{what}: faults", session.faults()
        yield f"{what}: undo", session.seconds("undo")
    yield "Hub's rename refused", session.seconds(f"rename {at['hub']} Taken", refusal=LOST)


def main(program, rounds="3", size="large"):
    files, times = large.workspace(size), {}
    for _ in range(int(rounds)):
        session = large.Session(program)
        for name, seconds in steps(session, files):
            times.setdefault(name, []).append(seconds)
        session.end()
    large.print_times(times)


def history(count, program, size="large"):
    files, number = large.workspace(size), int(count)
    hub, session = large.places(files)["hub"], large.Session(program)
    session.load(files)
    session.faults()
    held, renames = [session.memory()[0]], []
    for turn in range(number):
        renames.append(session.seconds(f"rename {hub} {('Hob', 'Hub')[turn % 2]}"))
        held.append(session.memory()[0])
    session.faults()
    undos = [session.seconds("undo") for _ in range(number)]
    session.faults()
    redos = [session.seconds("redo") for _ in range(number)]
    session.end()
    each = (held[-1] - held[1]) / max(1, number - 1)
    print(f"  {held[0]:.0f} MiB behind `faults`, {held[1]:.0f} behind the first rename, {held[-1]:.0f} behind {number}: {each:.2f} MiB each")
    large.print_times({"rename": renames, "undo": undos, "redo": redos})


if __name__ == "__main__":
    if sys.argv[1:2] == ["--history"] and len(sys.argv) in (4, 5):
        sys.exit(history(*sys.argv[2:]))
    if not 2 <= len(sys.argv) <= 4 or sys.argv[1] == "--history":
        sys.exit(__doc__)
    main(*sys.argv[1:])
