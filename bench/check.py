"""Checks a generated workspace without faults, and compares the time with that of `go vet` on the same files.

The packages of the workspace lie in layers, and each imports two packages of the layer below. Measured are `faults` after all files
were put, `faults` again, and `faults` after one put in a top package and after one in a package of the lowest layer.

    usage: python3 bench/check.py PROGRAM
"""
import os
import shutil
import subprocess
import sys
import tempfile
import time

FILES = 8  # of a package
FUNCTIONS = 12  # of a file
WIDTH = 10  # packages of a layer


def package_path(number):
    return f"gen/l{number // WIDTH}/p{number}"


def imports_of(number):
    layer, place = divmod(number, WIDTH)
    if layer == 0:
        return []
    below = (layer - 1) * WIDTH
    return [below + place, below + (place + 3) % WIDTH]


def file_text(number, file):
    """One file of a package: functions that use the package's type and the packages below. File 0 declares the type and its methods."""
    lines = [f"package p{number}", ""]
    below = imports_of(number)
    for other in below:
        lines.append(f'import "{package_path(other)}"')
    if below:
        lines.append("")
    if file == 0:
        lines += [
            "type Item struct {",
            "\tCount int",
            "\tName string",
            "\tNext *Item",
            "}",
            "",
            "func (i *Item) Add(n int) {",
            "\ti.Count += n",
            "}",
            "",
            "func (i Item) Total() int {",
            "\treturn i.Count + len(i.Name)",
            "}",
            "",
            "var Size int = 7",
            "",
        ]
    for function in range(FUNCTIONS):
        name = f"Sum{file}x{function}"
        lines += [
            f"func {name}(values []int, limit int) int {{",
            "\ttotal := 0",
            f"\titem := &Item{{Count: limit, Name: \"n{function}\"}}",
            "\tfor i := 0; i < len(values) && i <= limit; i++ {",
            f"\t\tif values[i]%2 == 0 || values[i] >= {function} {{",
            f"\t\t\ttotal += values[i] * {function}",
            "\t\t} else {",
            "\t\t\titem.Add(values[i])",
            "\t\t}",
            "\t}",
        ]
        for other in below:
            lines.append(f"\ttotal += p{other}.{name}(values, p{other}.Size)")
        lines += [
            "\tif item.Next != nil {",
            "\t\ttotal = total + item.Next.Count",
            "\t}",
            "\treturn total + item.Total() + Size",
            "}",
            "",
        ]
    return "\n".join(lines)


def workspace(lines):
    """Files by path, of at least `lines` lines; how many lines and how many packages they have."""
    found, count, number = {}, 0, 0
    while count < lines:
        for file in range(FILES):
            text = file_text(number, file)
            found[f"{package_path(number)}/f{file}.go"] = text.encode()
            count += text.count("\n")
        number += 1
    return found, count, number


class Session:
    def __init__(self, program):
        self.child = subprocess.Popen([program, "run"], stdin=subprocess.PIPE, stdout=subprocess.PIPE)

    def ask(self, line, body=b""):
        """The reply's first word, its number and its body, and the seconds until it was read."""
        begin = time.perf_counter()
        self.child.stdin.write(line + b"\n" + body)
        self.child.stdin.flush()
        word, number, size = self.child.stdout.readline().split()
        body = self.child.stdout.read(int(size))
        return word, int(number), body, time.perf_counter() - begin

    def put(self, basis, path, text):
        word, number, body, seconds = self.ask(b"put %d %s %d" % (basis, path.encode(), len(text)), text)
        if word != b"ok":
            sys.exit(f"{path}: {word} {number} {body}")
        return number, seconds

    def put_all(self, files):
        """The number of the state with all these files, and the seconds that the puts took."""
        basis, loading = 0, 0.0
        for path, text in files.items():
            basis, seconds = self.put(basis, path, text)
            loading += seconds
        return basis, loading

    def timed(self, label, line, wanted):
        """Sends a line and prints its seconds. `wanted` is the reply's first word and the number of a refusal, or 0."""
        word, number, body, seconds = self.ask(line.encode())
        if (word.decode(), number if word == b"no" else 0) != wanted:
            sys.exit(f"{line}: {word} {number} {body[:200]}")
        print(f"  {label:25} {seconds:8.3f} s")
        return number, body

    def end(self):
        self.child.stdin.close()
        self.child.wait()

    def faults(self):
        word, number, body, seconds = self.ask(b"faults")
        if word != b"ok" or body:
            sys.exit(f"faults: {word} {number} {body[:200]}")
        return seconds


def go(files, *words):
    """The seconds of a command of go on these files in a new folder with an empty cache, or None without go."""
    if shutil.which("go") is None:
        return None
    with tempfile.TemporaryDirectory() as top:
        for path, text in files.items():
            name = os.path.join(top, "src", path)
            os.makedirs(os.path.dirname(name), exist_ok=True)
            with open(name, "wb") as file:
                file.write(text)
        environment = dict(os.environ, GO111MODULE="off", GOPATH=top, GOCACHE=os.path.join(top, "cache"), GOFLAGS="")
        begin = time.perf_counter()
        subprocess.run(["go", *words], cwd=os.path.join(top, "src"), env=environment, check=True)
        return time.perf_counter() - begin


def vet(files):
    """The seconds of `go vet` on these files."""
    return go(files, "vet", "gen/...")


def measure(program, lines):
    files, count, packages = workspace(lines)
    print(f"{count} lines, {len(files)} files, {packages} packages:")
    session = Session(program)
    basis, loading = session.put_all(files)
    print(f"  put, all files: {loading:.2f} s")
    fresh = session.faults()
    print(f"  faults: {fresh:.2f} s, once more {session.faults():.2f} s")
    for label, path in (("top", list(files)[-1]), ("bottom", list(files)[0])):
        basis, seconds = session.put(basis, path, files[path] + b"\nvar more int\n")
        print(f"  one put in a {label} package: {seconds:.3f} s, then faults: {session.faults():.2f} s")
    session.end()
    beside = vet(files)
    if beside is None:
        print("  go vet: skipped, since go is not there")
    else:
        print(f"  go vet: {beside:.2f} s; faults takes {fresh / beside:.2f} of it")


def main(usage, measure_at):
    """Measures the program of the command line on workspaces of 20,000 and of 200,000 lines, or ends with the usage text."""
    if len(sys.argv) != 2:
        sys.exit(usage)
    for lines in (20_000, 200_000):
        measure_at(sys.argv[1], lines)


if __name__ == "__main__":
    main(__doc__, measure)
