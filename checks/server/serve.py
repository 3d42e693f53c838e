"""Drives a built `gorefd` with clients on its socket, and compares what it answers.

    python3 -m checks.server.serve [WORD..] PROGRAM

The words, if any, are those of a command that runs the program, as `taskset -c 0`. Each check prints a line, and the run ends with status 1
where one fails. The answers are those of the protocol, by hand or by the model. Nothing is measured, but a check that waits longer than a
minute fails.
"""

from checks.server import chapters, connections, editors, entries, journal, late, limits, standing, statuses, story, streams, tools
from checks.server.server import check_program

CHECKS = (
    statuses.CHECKS
    + limits.CHECKS
    + editors.CHECKS
    + entries.CHECKS
    + chapters.CHECKS
    + standing.CHECKS
    + journal.CHECKS
    + late.CHECKS
    + connections.CHECKS
    + streams.CHECKS
    + story.CHECKS
    + tools.CHECKS
)


def main(checks=CHECKS):
    check_program(checks, __doc__)


if __name__ == "__main__":
    main()
