"""Makes the large workspace, and those of other sizes: generated Go without faults, in layers of packages.

Each function calls `Hub`, of the package `w/hub`, which all others import. It also calls a function of each of a few packages of the
layers below, and half the functions call one of their own package. What is called is chosen at random, by the same numbers each time.

    tiny        2,174 lines in    20 files and  10 packages, to try a script
    small       8,797 lines in    80 files and  40 packages
    large     222,572 lines in 2,000 files and 500 packages
    larger    772,299 lines in 4,000 files and 500 packages
    limits  2,780,960 lines in 4,000 files and 500 packages: near the server's limits

The script writes the files below FOLDER, where kept.py and workers.py read them. FOLDER/targets.json has the targets of kept.py; the FILE of
workers.py is w/hub/f0.go.

    usage: python3 bench/large.py FOLDER [tiny|small|large|larger|limits]
"""
import json
import os
import random
import statistics
import sys
import typing

import families


class Size(typing.NamedTuple):
    packages: int
    files: int  # of a package
    functions: int  # of a file
    imports: int  # of a package, besides the hub
    layers: int


SIZES = {
    "tiny": Size(10, 2, 6, 4, 8),
    "small": Size(40, 2, 6, 4, 8),
    "large": Size(500, 4, 6, 5, 12),
    "larger": Size(500, 8, 12, 3, 10),
    "limits": Size(500, 8, 48, 3, 10),
}
HUB = "w/hub/f0.go"
HUB_TEXT = """
var Taken int

func Hub(n int) int {
	if n > 9 {
		return n - 9
	}
	return n + Taken
}
"""
RECORD = """
type Rec% struct {
	idx int
	lab string
	nxt *Rec%
	vec []int
}

func (r Rec%) Get(i int) int {
	return r.idx + i
}

func (r *Rec%) Put(v int) {
	r.idx = v
	r.vec = append(r.vec, v)
}
"""


def name_of(package):
    return f"p{package:03}" if package else "hub"


def sum_text(file, number, calls, first, most):
    """A function that adds the first half of some calls to its sum, and puts the sum of the other half into a record."""
    half = (len(calls) + 1) // 2
    rest = f"\t\tr.Put({' + '.join(calls[half:])})\n" if calls[half:] else ""
    return (
        f"\nfunc Fn{file}x{number}(n int, s string) int {{\n\tacc := n + total{file}\n"
        f'\tr := &Rec{file}{{idx: n, lab: s + "{number}", nxt: nil, vec: []int{{{first}, n}}}}\n'
        f"\tfor i := 0; i < n; i++ {{\n\t\tif acc > {most} {{\n\t\t\tacc = acc - r.Get(i)\n\t\t\tcontinue\n\t\t}}\n"
        f"\t\tacc = acc + {' + '.join(calls[:half])}\n{rest}\t}}\n\treturn acc + len(r.lab) + r.vec[0]\n}}\n"
    )


class Workspace:
    """Makes the files one by one. A function calls some of those that were made before it."""

    def __init__(self, size):
        self.size, self.chance = size, random.Random(1)
        self.files, self.functions = {}, [[] for _ in range(size.packages)]
        for package in range(size.packages):
            below = self.below(package)
            for file in range(size.files):
                self.files[f"w/{name_of(package)}/f{file}.go"] = self.file_text(package, file, below).encode()

    def layer(self, package):
        return 1 + (package - 1) * self.size.layers // (self.size.packages - 1)

    def below(self, package):
        """The packages of lower layers that one imports besides the hub."""
        lower = [other for other in range(1, package) if self.layer(other) < self.layer(package)]
        return sorted(self.chance.sample(lower, min(self.size.imports, len(lower))))

    def file_text(self, package, file, below):
        clauses = "".join(f'\t"w/{name_of(other)}"\n' for other in [0, *below])
        text = f"package {name_of(package)}\n" + (f"\nimport (\n{clauses})\n" if package else "")
        text += f"\nvar total{file} int = {self.chance.randrange(1000)}\n"
        text += HUB_TEXT if (package, file) == (0, 0) else ""
        text += RECORD.replace("%", str(file))
        return text + "".join(self.function_text(package, file, number, below) for number in range(self.size.functions))

    def function_text(self, package, file, number, below):
        own = self.functions[package]
        calls = [f"{name_of(other)}.{self.chance.choice(self.functions[other])}(i, s)" for other in below]
        if own and self.chance.random() < 0.5:
            calls.append(f"{self.chance.choice(own)}(i, s)")
        calls.append("hub.Hub(i)" if package else "Hub(i)")
        own.append(f"Fn{file}x{number}")
        return sum_text(file, number, calls, self.chance.randrange(100), self.chance.randrange(50, 900))


def workspace(size):
    """The files by path of the workspace of a size, which a word names. Prints how many they are."""
    if size not in SIZES:
        sys.exit(f"{size}: no size; these are {', '.join(SIZES)}")
    files = Workspace(SIZES[size]).files
    count, length = sum(text.count(b"\n") for text in files.values()), sum(map(len, files.values()))
    print(f"{count} lines, {length} bytes, {len(files)} files, {SIZES[size].packages} packages:", flush=True)
    return files


def targets(files):
    """The hub's function, its parameter, a field of the hub, and a local variable of the top package: a file and an offset by name."""
    top = list(files)[-1]
    marked = {"hub": (HUB, b"func @Hub("), "parameter": (HUB, b"func Hub(@n"), "field": (HUB, b"\t@idx int"), "local": (top, b"\t@acc := ")}
    return {name: (path, files[path].index(text.replace(b"@", b"")) + text.index(b"@")) for name, (path, text) in marked.items()}


def places(files):
    """The targets as commands write them."""
    return {name: f"{path}:#{offset}" for name, (path, offset) in targets(files).items()}


class Session(families.Session):
    """A session that keeps the number of its state. Its seconds are those of the clock; `spent` tells processor time."""

    def load(self, files):
        """The seconds of the puts of all files."""
        self.state, seconds = self.put_all(files)
        return seconds

    def seconds(self, line, body=b"", refusal=None):
        """The seconds of a command, written without the number of the state. The reply has to be `ok`, or the refusal with this number."""
        verb, _, rest = line.partition(" ")
        if verb in families.CHANGES:
            line = f"{verb} {self.state} {rest}".strip()
        word, number, told, seconds = self.ask(line.encode(), body)
        if (None if word == b"ok" else number) != refusal:
            sys.exit(f"{line}: {word} {number} {told[:200]}")
        if word == b"ok":
            self.state = number
        return seconds

    def edit(self, path, text):
        """The seconds of a put."""
        return self.seconds(f"put {path} {len(text)}", text)

    def memory(self):
        """How many MiB the program has now, and the most that it has had."""
        with open(f"/proc/{self.child.pid}/status") as status:
            sizes = dict(line.split(":", 1) for line in status if line.startswith("Vm"))
        return [int(sizes[name].split()[0]) / 1024 for name in ("VmRSS", "VmHWM")]


def print_times(times, more=None):
    """Prints the median, the least and the greatest of the seconds of each step, and what `more` says of it."""
    for name, found in times.items():
        least, most = min(found), max(found)
        print(f"  {name:40} {statistics.median(found):10.5f} s ({least:.5f} to {most:.5f}){(more or {}).get(name, '')}", flush=True)


def main(folder, size="large"):
    files = workspace(size)
    for path, text in [*files.items(), ("targets.json", json.dumps(targets(files)).encode())]:
        name = os.path.join(folder, path)
        os.makedirs(os.path.dirname(name), exist_ok=True)
        with open(name, "wb") as file:
            file.write(text)


if __name__ == "__main__":
    if len(sys.argv) not in (2, 3):
        sys.exit(__doc__)
    main(*sys.argv[1:])
