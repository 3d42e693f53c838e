"""Prints what the model answers to the session on standard input: python3 -m checks.tools.answers < session.in"""

import sys

from checks.model.history import replies


def main():
    sys.stdout.buffer.write(replies(sys.stdin.buffer.read()))


if __name__ == "__main__":
    main()
