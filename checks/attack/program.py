"""Attacks that the gate makes on each build of the program: python3 -m checks.attack.program PROGRAM

Each point of the worked rows: each allocation that is refused in a session, and each byte behind which an input or an output fails. Each allocation
from the start on, under `run` and under `serve`, of a few of them. And the attacks on a server that take seconds. It needs `cc`. The other
sessions, and what needs `strace`, the right to mount or more time, is tried by hand: docs/ATTACKS.md.
"""

import os
from concurrent.futures import ThreadPoolExecutor

from checks.attack import clients, devices, memory, serving
from checks.attack.refusing import Library
from checks.attack.rows import BUILT, FEW, WORKED, worked
from checks.server.server import PROGRAM, check_program, same


def on_processors(work):
    with Library() as library, ThreadPoolExecutor(len(os.sched_getaffinity(0))) as pool:
        return work(library, pool)


def told_of(way, names):
    def tried(library, pool):
        wrong, counts = memory.tried(PROGRAM, way, worked(names), library, pool)
        same(wrong, [])
        same(counts["refused"] > 0, True)
        return ", ".join(f"{count} {kind}" for kind, count in counts.items())

    return on_processors(tried)


def each_allocation():
    """Each allocation of a few rows, from the program's start on."""
    return told_of("fresh", FEW)


def each_allocation_in_turn():
    """Each allocation of each command of each row, in one session."""
    return told_of("climbing", WORKED)


def each_start():
    """Each allocation of a server's start."""
    return on_processors(lambda library, pool: serving.counted(serving.starts(library, pool)))


def each_allocation_of_servers():
    """Each allocation of each command of some rows, and of what is built behind it, by a server."""

    def tried(library, pool):
        told = list(pool.map(lambda row: serving.climbed(library, row[0], row[1][0]), worked(BUILT).items()))
        return "{} runs, {} calls, {} commands refused".format(*(sum(numbers) for numbers in zip(*told)))

    return on_processors(tried)


def wants():
    """What workers do where memory is wanting once, or for a while."""
    return on_processors(lambda library, pool: f"{serving.want_that_passes(library, pool)} calls, {serving.want_that_lasts(library)} tries")


CHECKS = (
    each_allocation,
    each_allocation_in_turn,
    each_start,
    each_allocation_of_servers,
    wants,
    *devices.CHECKS,
    *clients.CHECKS,
)

if __name__ == "__main__":
    check_program(CHECKS, __doc__)
