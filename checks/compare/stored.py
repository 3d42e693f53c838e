"""Compares the stored sessions, those of `crates/gorefd/sessions` or of another folder, with the model.

    python3 -m checks.compare.stored [FOLDER]

It names each session that the model answers otherwise, and ends with status 1 where there is one.
"""

import sys

from checks.gate.replay import FOLDER, stored
from checks.model.history import replies


def main():
    sessions = stored(sys.argv[1] if len(sys.argv) > 1 else FOLDER)
    wrong = [name for name, (sent, wanted) in sessions.items() if replies(sent) != wanted]
    for name in wrong:
        print(f"{name}: the model answers otherwise")
    print(f"{len(sessions)} sessions, {len(wrong)} differ")
    sys.exit(1 if wrong else 0)


if __name__ == "__main__":
    main()
