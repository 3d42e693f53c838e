"""Runs built programs on the stored sessions, and names each session that one answers otherwise or ends badly.

    python3 -m checks.gate.replay PROGRAM..

gate.py runs it on both builds of `gorefd`. The stored answers come from the rules, by hand or by the model, and never from a program:
checks/compare/stored.py compares them with the model. It ends with status 1 where a session differs or none is stored.
"""

import os
import pathlib
import subprocess
import sys
from concurrent.futures import ThreadPoolExecutor

from checks import TOP

FOLDER = TOP / "crates" / "gorefd" / "sessions"
SECONDS = 60


def lacking(folder=FOLDER):
    """The files that a folder of sessions lacks: a session is a pair of NAME.in and NAME.out."""
    names = sorted({path.stem for path in pathlib.Path(folder).glob("*")})
    return [f"{name}.{kind}" for name in names for kind in ("in", "out") if not pathlib.Path(folder, f"{name}.{kind}").is_file()]


def stored(folder=FOLDER):
    """The sessions of a folder by their names, each as what is sent and what has to be answered. A file that has no other is an error."""
    names = sorted({path.stem for path in pathlib.Path(folder).glob("*")})
    return {name: tuple(pathlib.Path(folder, f"{name}.{kind}").read_bytes() for kind in ("in", "out")) for name in names}


def common(first, second):
    """How many bytes two texts have in common at their beginning."""
    return next((at for at, (a, b) in enumerate(zip(first, second)) if a != b), min(len(first), len(second)))


def difference(words, sent, wanted):
    """How the program of these words answers a session otherwise than is stored, or None."""
    try:
        ran = subprocess.run(words, input=sent, stdout=subprocess.PIPE, stderr=subprocess.PIPE, timeout=SECONDS)
    except subprocess.TimeoutExpired:
        return f"had not ended after {SECONDS} seconds"
    if ran.stdout != wanted:
        return f"otherwise from byte {common(ran.stdout, wanted)} on"
    return f"ended with status {ran.returncode}: {ran.stderr.decode(errors='replace').strip()}" if ran.returncode else None


def differences(words, sessions):
    """A line for each session that the program of these words does not answer as is stored."""
    with ThreadPoolExecutor(len(os.sched_getaffinity(0))) as pool:
        found = pool.map(lambda it: difference(words, *it), sessions.values())
        return [f"stored session {name}: {told}" for name, told in zip(sessions, found) if told]


def main():
    if not sys.argv[1:]:
        sys.exit(__doc__)
    sessions, wrong = stored(), 0
    for program in sys.argv[1:]:
        lines = differences([os.path.abspath(program), "run"], sessions)
        print("\n".join([*lines, f"{program}: {len(sessions)} sessions, {len(lines)} differ"]))
        wrong += len(lines)
    sys.exit(1 if wrong or not sessions else 0)


if __name__ == "__main__":
    main()
