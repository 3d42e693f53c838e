"""Tells where a session spends its time in the large workspace, by `perf` (linux-perf in Debian).

Recorded are all puts, the first `faults`, undos and redos of a rename of `Hub`, and moves of its package to and fro. Printed for each are its
seconds of processor time, and the percentage of it that each crate and each function takes by itself, without what it calls. The system,
`malloc` and the copies of the C library stand apart. Behind the puts stand the seconds that the scanner and the parser take so.

    usage: python3 bench/perf.py PROGRAM [SIZE]

SIZE is one of large.py's, `large` if it is left out.
"""
import collections
import re
import signal
import subprocess
import sys
import tempfile
import time

import large

TIMES = 20  # an undo and a redo, or two moves
MOST = 12  # crates, and functions, that are printed
ROW = re.compile(r"^\s+([\d.]+)%.*?\[([.k])\] (.*?)\s*$", re.M)
CRATE = re.compile(r"(\w+)::")
SCANNER, PARSER = ("go_scanner",), ("go_scanner", "go_parser", "go_ast")


def steps(session, files):
    """Pairs of a name and a function that does the step."""
    hub = large.places(files)["hub"]

    def repeat(*lines):
        return lambda: [session.seconds(line) for line in lines * TIMES]

    yield "all puts", lambda: session.load(files)
    yield "the first faults", session.faults
    session.seconds(f"rename {hub} Hob")
    yield f"{TIMES} undos and redos of a rename of Hub", repeat("undo", "redo")
    yield f"{2 * TIMES} moves of the package", repeat("move w/hub w/hob", "move w/hob w/hub")


def recorded(session, act):
    """The processor time of a step, and the percentage that each function takes by itself, by kind (`k` is the system) and name."""
    with tempfile.NamedTemporaryFile() as file:
        words = ["perf", "record", "-q", "-F", "4000", "-e", "cpu-clock", "-o", file.name, "-p", str(session.child.pid)]
        recorder = subprocess.Popen(words, stderr=subprocess.DEVNULL)
        time.sleep(1)
        begin = session.spent()
        act()
        seconds = session.spent() - begin
        recorder.send_signal(signal.SIGINT)
        recorder.wait()
        told = subprocess.run(["perf", "report", "-i", file.name, "--stdio"], capture_output=True, text=True).stdout
    return seconds, {(kind, name): float(share) for share, kind, name in ROW.findall(told)}


def by_crate(shares):
    """The percentages of the crates, of the system and of the C library."""
    found = collections.Counter()
    for (kind, name), share in shares.items():
        crate = CRATE.match(name)
        found["the system" if kind == "k" else crate.group(1) if crate else "the C library"] += share
    return found


def main(program, size="large"):
    files = large.workspace(size)
    session = large.Session(program)
    for name, act in steps(session, files):
        seconds, shares = recorded(session, act)
        crates = by_crate(shares)
        print(f"  {name}: {seconds:.3f} s", flush=True)
        if name == "all puts":
            scan, both = (seconds * sum(crates[crate] for crate in some) / 100 for some in (SCANNER, PARSER))
            print(f"    the scanner {scan:.3f} s, the scanner and the parser {both:.3f} s")
        print("    " + ", ".join(f"{crate} {share:.1f}" for crate, share in crates.most_common(MOST)))
        for (_, function), share in sorted(shares.items(), key=lambda row: -row[1])[:MOST]:
            print(f"    {share:6.2f}  {function[:110]}")
    session.end()


if __name__ == "__main__":
    if not 2 <= len(sys.argv) <= 3:
        sys.exit(__doc__)
    main(*sys.argv[1:])
