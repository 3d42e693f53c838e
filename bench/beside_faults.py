"""Renames and moves beside a package with faults, and the same ones in the workspace without it.

The workspace is that of rename.py. Three sessions have it: one as it is, one with a broken package that imports nothing, and one with a
broken package that imports the package whose variable all others use. So in the last one this variable cannot be renamed, and its package
cannot be moved. Each step is done in the three sessions in turn, several times, and undone. The least time of each is compared with that
of the workspace without faults. The exit status is 1 if one is more than 1.25 times that.

    usage: python3 bench/beside_faults.py PROGRAM [LINES [ROUNDS]]
"""
import sys

import check
from rename import BASE, STEP, workspace

BOUND = 1.25
BROKEN = "gen/broken/broken.go"
SESSIONS = (
    ("without faults", None),
    ("beside one that imports nothing", b'package broken\n\nvar s string = "ab'),
    ("beside one that imports the package", b'package broken\n\nimport "gen/base"\n\nfunc step() string {\n\treturn base.Step\n}\n'),
)
OK, FAULTY, CAPTURED, LOST = (b"ok", 0), (b"no", 9), (b"no", 14), (b"no", 15)


def session_with(program, files, text):
    """A session with these files and a broken one, whose faults are known, and the number of its state."""
    session = check.Session(program)
    basis, _ = session.put_all(files if text is None else {**files, BROKEN: text})
    session.ask(b"faults")
    return session, basis


def steps_in(files):
    """What is done: a label, the command without its basis, and the answers that the three sessions give."""
    path = list(files)[-1]
    local = f"{path}:#{files[path].index(b'local')}"
    base = f"{BASE}:#{STEP.index(b'Step')}"
    return [
        ("a local variable, renamed", f"rename %d {local} here", (OK, OK, OK)),
        ("what all use, renamed", f"rename %d {base} Stride", (OK, OK, FAULTY)),
        ("refused as captured", f"rename %d {local} n", (CAPTURED, CAPTURED, CAPTURED)),
        ("refused as lost", f"rename %d {base} stride", (LOST, LOST, FAULTY)),
        ("the package that all use, moved", "move %d gen/base other/base", (OK, OK, FAULTY)),
    ]


def seconds_of(session, basis, command, wanted):
    """The seconds that a command takes. An admitted one is undone."""
    word, number, body, seconds = session.ask((command % basis).encode())
    if (word, 0 if word == b"ok" else number) != wanted:
        sys.exit(f"{command % basis}: {word} {number} {body[:200]}")
    if word == b"ok":
        session.ask(b"undo %d" % number)
    return seconds


def measure(program, lines, rounds):
    """Whether a step takes too long beside faults."""
    files, count, _ = workspace(lines)
    print(f"{count} lines, {len(files)} files, the least of {rounds} times:")
    sessions = [session_with(program, files, text) for _, text in SESSIONS]
    over = False
    for label, command, answers in steps_in(files):
        times = [[], [], []]
        for _ in range(rounds):
            for (session, basis), wanted, found in zip(sessions, answers, times):
                found.append(seconds_of(session, basis, command, wanted))
        least = [min(found) for found in times]
        print(f"  {label}: {least[0]:.4f} s {SESSIONS[0][0]}")
        for (beside, _), seconds in list(zip(SESSIONS, least))[1:]:
            ratio = seconds / least[0]
            over = over or ratio > BOUND
            print(f"    {beside}: {seconds:.4f} s, {ratio:.2f} times{', over the bound' if ratio > BOUND else ''}")
    for session, _ in sessions:
        session.end()
    return over


if __name__ == "__main__":
    if not 2 <= len(sys.argv) <= 4:
        sys.exit(__doc__)
    sys.exit(measure(sys.argv[1], *[int(word) for word in (sys.argv[2:] + ["200000", "7"][len(sys.argv) - 2:])]))
