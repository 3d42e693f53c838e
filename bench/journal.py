"""Measures how many bytes the journal keeps for an entry, in a workspace of many files.

A session puts FILES (4096) files of 59 bytes each. Then it puts one of them ENTRIES (4000) times, each time with 59 other bytes, so
that only the journal grows once the history has its greatest depth. The script reads how much memory the program has behind the
first puts, which reach that depth, and behind the last, and prints the difference in bytes for each entry. It does so too with
undos and redos in turn, and with looks.

    usage: python3 bench/journal.py PROGRAM [FILES ENTRIES]
"""
import sys

import check

FILLED = 400


def text_of(number):
    """A file of 59 bytes, another for each number below 1,000,000."""
    return b"package a\n\nfunc F() int {\n\treturn %06d + %013d\n}\n" % (number % 900000 + 100000, 1000000000000)


class Held(check.Session):
    def held(self):
        """The bytes of memory that the program has now."""
        with open(f"/proc/{self.child.pid}/status") as status:
            return 1024 * next(int(line.split()[1]) for line in status if line.startswith("VmRSS"))

    def growth(self, entries, step):
        """The bytes that each of `entries` entries adds, behind the first ones."""
        for number in range(FILLED):
            step(number)
        before = self.held()
        for number in range(FILLED, FILLED + entries):
            step(number)
        return (self.held() - before) / entries


def main(program, files, entries):
    session = Held(program)
    state, seconds = session.put_all({f"p{n // 64}/f{n}.txt": text_of(n) for n in range(files)})
    print(f"{files} files, {len(text_of(0))} bytes each; {session.held() / files:.0f} bytes held for each; put in {seconds:.1f} s")

    def put(number):
        nonlocal state
        state, _ = session.put(state, "p0/f0.txt", text_of(number + files))

    def undo_or_redo(number):
        nonlocal state
        word, state, _, _ = session.ask(b"%s %d" % ((b"undo", b"redo")[number % 2], state))
        if word != b"ok":
            sys.exit(f"step {number}: {word} {state}")

    for what, step in (("a put of a file", put), ("an undo or a redo", undo_or_redo), ("a look", lambda _: session.ask(b"look"))):
        print(f"  {what:20} {session.growth(entries, step):8.1f} bytes an entry, of {entries} entries")
    session.end()


if __name__ == "__main__":
    if len(sys.argv) not in (2, 4):
        sys.exit(__doc__)
    main(sys.argv[1], *[int(word) for word in sys.argv[2:4]] or [4096, 4000])
