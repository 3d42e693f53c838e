"""Measures how much is checked a second time, on chains of packages, each of which imports the one below.

Measured for each length of a chain are `faults` after all files were put, and again; `faults` after a put inside a function of the
top package, and of the lowest; `uses` of a function, and again; and in another session the build of all packages by repeated `work`,
without a command before it. Each has its ratio to the first `faults` beside it. Times are the program's processor time as the
kernel counts it, so other programs on the machine hardly change them.
With `--count`, valgrind counts the instructions of the first `faults` and of the build. These counts hardly vary, even where the
machine's host is shared.

    usage: python3 bench/chain.py [--count] PROGRAM [LENGTH..]
"""
import sys

import check
import build

check.FILES = 2
check.FUNCTIONS = 6
check.package_path = lambda number: f"gen/p{number}"
check.imports_of = lambda number: [number - 1] if number else []


class Session(check.Session):
    """A session whose seconds are the program's processor time."""

    def spent(self):
        with open(f"/proc/{self.child.pid}/schedstat") as file:
            return int(file.read().split()[0]) / 1e9

    def ask(self, line, body=b""):
        begin = self.spent()
        word, number, body, _ = super().ask(line, body)
        return word, number, body, self.spent() - begin


def chain(length):
    return {f"gen/p{n}/f{f}.go": check.file_text(n, f).encode() for n in range(length) for f in range(check.FILES)}


def put_all(session, files):
    number = 0
    for path, text in files.items():
        number, _ = session.put(number, path, text)
    return number


def edited(text):
    """The same file with another number inside a function."""
    return text.replace(b"total := 0", b"total := 10", 1)


def uses(session, files):
    """The seconds of the uses of a function of the lowest package."""
    path = "gen/p0/f1.go"
    offset = files[path].index(b"Sum1x0")
    word, number, body, seconds = session.ask(b"uses %s:#%d" % (path.encode(), offset))
    if word != b"ok":
        sys.exit(f"uses: {word} {number} {body[:200]}")
    return seconds


def measure(program, length):
    files = chain(length)
    session = Session(program)
    number = put_all(session, files)
    first = session.faults()
    rows = [("faults", first), ("faults again", session.faults())]
    for what, path in (("top", f"gen/p{length - 1}/f1.go"), ("lowest", "gen/p0/f1.go")):
        number, seconds = session.put(number, path, edited(files[path]))
        rows += [(f"put in the {what} package", seconds), ("faults then", session.faults())]
    session.put(number, "gen/p0/f1.go", files["gen/p0/f1.go"])
    rows += [("uses", uses(session, files)), ("uses again", uses(session, files))]
    session.child.stdin.close()
    session.child.wait()
    session = Session(program)
    put_all(session, files)
    begin = session.spent()
    build.build(session, length)
    rows += [("work over all", session.spent() - begin), ("faults behind it", session.faults())]
    session.child.stdin.close()
    session.child.wait()
    lines = sum(text.count(b"\n") for text in files.values())
    print(f"{length} packages, {lines} lines:")
    for what, seconds in rows:
        print(f"  {what:28} {seconds:9.4f} s  {seconds / first:7.3f}")


def counted(program, files, packages):
    """Millions of instructions of the first `faults` and of the build of all, each in a session of its own."""
    from families import Counted

    puts = [(f"put {path} {len(text)}", text) for path, text in files.items()]
    for lines in ([("faults", b"")], [("work", b"")] * packages):
        session = Counted(program)
        session.taken(puts)
        yield session.taken(lines)
        session.end()


def print_counted(program, files, packages):
    first, work = counted(program, files, packages)
    print(f"{packages} packages: faults {first:.1f} M, work over all {work:.1f} M  {work / first:7.3f}")


def count(program, length):
    print_counted(program, chain(length), length)


if __name__ == "__main__":
    words = sys.argv[1:]
    one = count if words[:1] == ["--count"] else measure
    words = words[1:] if one is count else words
    if not words:
        sys.exit(__doc__)
    for length in [int(word) for word in words[1:]] or [25, 50, 100]:
        one(words[0], length)
