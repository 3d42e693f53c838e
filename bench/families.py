"""Measures whether the cost of a command grows faster than the workspace.

A family is a workspace for each size n, and commands on it; all families stand in workspaces.py. At n, 2n and 4n the script puts all
files and sends the commands in their order. It measures the program's processor time of each step, in three sessions, and keeps the
least. It prints the seconds at n, and the ratios of 2n to n and of 4n to 2n. A step whose ratio is over 2.6 grows faster than n log n:
its family is measured again, and the smaller times are kept. The steps that are still over stand at the end, and the exit status is
1 if there is one.
With `--count`, valgrind counts instructions in place of seconds, once, at a twentieth of each size but at least at 64. Other programs
do not change these counts, so on a busy machine their ratios are better.

    usage: python3 bench/families.py [--count] PROGRAM [WORD..]

With words, only the families whose names contain one of them are measured.
"""
import re
import subprocess
import sys
import time

import check
from workspaces import FAMILIES

MOST = 2.6
CHANGES = ("put", "del", "rename", "move", "undo", "redo")


class Session(check.Session):
    state = 0
    unit = "s"
    tries = 3
    least = 0.01  # below, a ratio tells nothing

    @staticmethod
    def size(of):
        return of

    def spent(self):
        """The processor time that the program has taken, in seconds. The number of a process gives that of its clock."""
        return time.clock_gettime(~self.child.pid << 3 | 2)

    def told(self, line, body=b""):
        """Sends a line, with the current state's number where it needs one, and checks the answer: `ok`, or what `=>` ends the line with."""
        line, _, wanted = line.partition(" => ")
        word, _, rest = line.partition(" ")
        if word in CHANGES:
            line = f"{word} {self.state} {rest}".strip()
        got, number, answer, _ = self.ask(line.encode(), body)
        told = {"ok": "faults" if line == "faults" and answer else "ok"}.get(got.decode(), f"no {number}")
        if told != (wanted or "ok"):
            sys.exit(f"{line[:200]}: {told} {answer[:200]}")
        if got == b"ok":
            self.state = number

    def taken(self, lines):
        """What the lines take, and a look behind them, by which all that the last line dropped is freed."""
        begin = self.spent()
        for line, body in lines:
            self.told(line, body)
        self.told("look")
        return self.spent() - begin


class Counted(Session):
    unit = "M"
    tries = 1
    least = 1

    @staticmethod
    def size(of):
        return max(of // 20, min(of, 64))

    def __init__(self, program):
        tool = ["valgrind", "-q", "--tool=callgrind", "--callgrind-out-file=/dev/null"]
        self.child = subprocess.Popen([*tool, program, "run"], stdin=subprocess.PIPE, stdout=subprocess.PIPE, stderr=subprocess.DEVNULL)
        self.told("look")

    def spent(self):
        """How many million instructions the program has taken."""
        asked = ["vgdb", f"--pid={self.child.pid}", "status", "internal"]
        status = subprocess.run(asked, stdout=subprocess.PIPE, stderr=subprocess.DEVNULL, text=True).stdout
        return int(re.search(r"^events-1: (\d+)", status, re.MULTILINE)[1]) / 1e6


def placed(files, word):
    """`PATH:#OFF` for `PATH@WORD`."""
    path, at, name = word.partition("@")
    return f"{path}:#{files[path].index(name.encode())}" if at else word


def packages_of(files):
    return len({path.rpartition("/")[0] for path in files if path.endswith(".go")})


def steps_of(pairs, asked):
    """The lines of each step by its name, each with the bytes that follow it: all puts, then the commands in their order."""
    files = dict(pairs)
    steps = {"put": [(f"put {path} {len(text)}", text) for path, text in pairs]}
    for step in asked:
        name, lines = step if isinstance(step, tuple) else (step, [step])
        lines = lines * packages_of(files) if name == "work" else lines
        steps[name] = [(" ".join(placed(files, word) for word in line.split(" ")), b"") for line in lines]
    return steps


def once(kind, program, steps):
    session = kind(program)
    taken = {name: session.taken(lines) for name, lines in steps.items()}
    session.end()
    return taken


def least(kind, program, make, size):
    """What each step takes."""
    pairs, asked = make(size)
    steps = steps_of([(path, text.encode()) for path, text in pairs], asked)
    taken = [once(kind, program, steps) for _ in range(kind.tries)]
    return {name: min(each[name] for each in taken) for name in steps}


def rows_of(kind, program, make, size):
    """What each step takes at n, 2n and 4n, by the steps' names at n."""
    found = [least(kind, program, make, size * times) for times in (1, 2, 4)]
    return dict(zip(found[0], zip(*(each.values() for each in found))))


def over(kind, row):
    return any(more > MOST * less and more > kind.least for less, more in zip(row, row[1:]))


def rows_twice(kind, program, make, size):
    """As `rows_of`; where a step is over, the smaller of two measures."""
    rows = rows_of(kind, program, make, size)
    if kind.tries == 1 or not any(over(kind, row) for row in rows.values()):
        return rows
    again = rows_of(kind, program, make, size)
    return {name: tuple(map(min, row, again[name])) for name, row in rows.items()}


def measure(kind, program, family, size, make):
    """Prints the family's rows, and returns those that are over."""
    rows = rows_twice(kind, program, make, size)
    print(f"{family}, {size}:")
    for name, row in rows.items():
        ratios = " ".join(f"{more / less:6.2f}" for less, more in zip(row, row[1:]))
        print(f"  {name[:44]:44} {row[0]:9.4f} {kind.unit} {ratios}{'  OVER' if over(kind, row) else ''}", flush=True)
    return [(family, name, row) for name, row in rows.items() if over(kind, row)]


def main(kind, program, words):
    found = []
    for family, size, make in FAMILIES:
        if not words or any(word in family for word in words):
            found += measure(kind, program, family, kind.size(size), make)
    print(f"{len(found)} over {MOST}:")
    for family, name, row in found:
        print(f"  {family}, {name}: " + ", ".join(f"{each:.3f} {kind.unit}" for each in row))
    sys.exit(1 if found else 0)


if __name__ == "__main__":
    words = sys.argv[1:]
    kind = Counted if words[:1] == ["--count"] else Session
    words = words[1:] if kind is Counted else words
    if not words:
        sys.exit(__doc__)
    main(kind, words[0], words[1:])
