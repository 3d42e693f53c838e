"""Compares the replies of a built program to random sessions with the model's.

    python3 -m checks.compare.sessions PROGRAM [FIRST LAST [KIND]]

It runs sessions FIRST to LAST (0 to 99), each of a few dozen commands, of one KIND:

- `faults` (without a word): the first fault of scanning or parsing of each text;
- `uses`: the uses of identifiers, mostly in files with faults of types;
- `checked`: packages that import one another, with faults of all stages, and uses of all identifiers;
- `objects`: packages that are built, with changes, undo, redo and entries of the journal in between;
- `changed`: small changes of the workspaces of the stored sessions, with faults, uses and objects;
- `interfaces`: workspaces of types that implement interfaces or nearly do, with faults, uses and objects;
- `renames`, `moves`: mostly of workspaces without faults, with questions, undo, redo, objects and entries of the journal in between.

It writes each session that is answered otherwise to a file, and ends with status 1 where there is one.
"""

import random
import subprocess
import sys

from checks.generate.sessions import KINDS


def compare(program, seed, kind):
    make, count = KINDS[kind]
    session = make(random.Random(seed), count)
    result = subprocess.run([program, "run"], input=session.sent, stdout=subprocess.PIPE, check=False)
    if result.stdout == session.answered and result.returncode == 0:
        return True
    print(f"session {seed}: the program answers otherwise")
    with open(f"session-{seed}.in", "wb") as file:
        file.write(session.sent)
    with open(f"session-{seed}.expected", "wb") as file:
        file.write(session.answered)
    return False


def main():
    if not sys.argv[1:]:
        sys.exit(__doc__)
    first, last = (int(word) for word in sys.argv[2:4]) if len(sys.argv) > 3 else (0, 99)
    kind = sys.argv[4] if len(sys.argv) > 4 else "faults"
    differences = sum(not compare(sys.argv[1], seed, kind) for seed in range(first, last + 1))
    print(f"{last - first + 1 - differences} sessions agree, {differences} differ")
    sys.exit(1 if differences else 0)


if __name__ == "__main__":
    main()
