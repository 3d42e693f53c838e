"""Checks that what is kept saves work: no contract says how long anything takes.

Each row divides the instructions of one step by those of another step of the same program, as valgrind counts them. So neither the machine
nor other programs change it. A row is red where its ratio is over the bound beside it, and the exit status is then 1.

The bounds are 1.5 times the ratios of 2026-11-29 and 2026-11-30; those of `again`, `undone`, `moved` and `worked`, which were about 0.001
or below, are 0.01, that of `units`, which was 0.009, is 0.02, that of `kinds` is 1.25 times, and that of `order`, which was 5.4, is 6. Each
row has a change of a few words of the code: what is kept is then not used, though every answer stays right. The row is there to find such a
change. On 2026-11-30 native programs with these changes were built, and each row was over its bound: `order` at 6.6, `units` at 0.71, `names`
at 0.80, `followed` at 0.75, `kinds` at 0.97, and the others at 1.0 or more.

    again     server_commands/src/acting.rt: `find_faults` teaches the desk nothing
    renamed   refactor_plan/src/kept_known.rt, `kept_known`: `known_but(alloc, known, number, 0)`
    undone    history_machine/src/resting.rt, `known_awake`: it answers `SharedKnown::new(alloc, Known::new(alloc))`
    moved     refactor_plan/src/decided_moves.rt, `plan_kept`: `Known::new(alloc)` in place of `known_after(..)?`
    followed  refactor_follow/src/plain.rt, `plain_uses`: `Some(first) if false =>` and `_ => Ok(None)` in place of its arms
    beside    refactor_part/src/part.rt, `known_beside`: `own.copy(alloc, files.len())` in place of `with_kept(..)`
    worked    build_carry/src/learning.rt, `learned`: `if found.is_empty()` becomes `if true`
    units     server_commands/src/desk.rt, `learn_units` of `Solo`: it keeps nothing
    leaf      build_carry/src/carried_known.rt, `kept_verdicts`: `if known.is_empty()` becomes `if true`
    hub       workspace_check/src/reuse.rt, `keeps_export_data`: `&& false` behind `are_alike(..)`
    kinds     go_parser/src/file_tree.rt, `parse_file_sharing`: `if false &&` in place of the `if` before `shared`
    names     workspace_graph/src/parsed.rt, `read_like`: the tree is that of `parse_file_sharing` always
    order     workspace_graph/src/order.rt, `order`: `Ok(None)` in place of `Ok(Some(blocks.order))`

    usage: python3 bench/ratios.py PROGRAM [ROW..]
"""
import sys

from families import Counted

PACKAGES = 40


def put(path, text):
    return f"put {path} {len(text)}", text


def function(number, below):
    used = f" + {below}.Sum0(values)" if below else ""
    return f"""
func Sum{number}(values []int) int {{
	total := 0
	for i := 0; i < len(values) && i < {number + 2}; i++ {{
		if values[i]%2 == 0 || values[i] >= {number} {{
			total += values[i] * {number + 1}
		}} else {{
			total = total - values[i]
		}}
	}}
	return total{used}
}}
"""


def package(name, below=None):
    """The text of a package of one file: ten functions, which use the package `below`."""
    imported = f'\nimport "gen/{below}"\n' if below else ""
    return (f"package {name}\n{imported}" + "".join(function(number, below) for number in range(10))).encode()


def star():
    """A package that all others import, and these."""
    names = [f"p{number:02}" for number in range(PACKAGES)]
    return {"gen/hub/f.go": package("hub")} | {f"gen/{name}/f.go": package(name, "hub") for name in names}


def chain(length):
    """Packages of one small file, each of which imports the one before it."""
    def text(number):
        below = f'\nimport "gen/p{number - 1:04}"\n' if number else ""
        used = f" + p{number - 1:04}.Size()" if number else ""
        return f"package p{number:04}\n{below}\nfunc Size() int {{\n\treturn 1{used}\n}}\n".encode()

    return {f"gen/p{number:04}/f.go": text(number) for number in range(length)}


class Rows:
    def __init__(self, program):
        self.program = program

    def session(self, files):
        """A session that has put the files, and has asked for nothing yet."""
        begun = Counted(self.program)
        begun.taken([put(path, text) for path, text in files.items()])
        return begun

    def judged(self, more=None):
        """A session that has asked for the faults of the star and of more files, and what that took. There are none without more files."""
        begun = self.session(star() | (more or {}))
        return begun, begun.taken([("faults => faults" if more else "faults", b"")])

    def behind(self, path):
        """The faults behind a put inside a function of the file, by the first faults."""
        asked, first = self.judged()
        asked.taken([put(path, star()[path].replace(b"total := 0", b"total := 1 + 1", 1))])
        again = asked.taken([("faults", b"")])
        asked.end()
        return again / first

    def again(self):
        asked, first = self.judged()
        again = asked.taken([("faults", b"")])
        asked.end()
        return again / first

    def renamed(self, *more):
        """The faults behind a rename of what all use, and behind more commands, by the first faults."""
        asked, first = self.judged()
        path = "gen/hub/f.go"
        asked.taken([(f"rename {path}:#{star()[path].index(b'Sum0')} Added0", b"")])
        for command in more:
            asked.taken([(command, b"")])
        again = asked.taken([("faults", b"")])
        asked.end()
        return again / first

    def undone(self):
        return self.renamed("undo")

    def moved(self):
        """The faults behind a move of what all use, by the first faults."""
        asked, first = self.judged()
        asked.taken([("move gen/hub gen/base", b"")])
        again = asked.taken([("faults", b"")])
        asked.end()
        return again / first

    def followed(self):
        """A move of what all use, by the first faults."""
        asked, first = self.judged()
        move = asked.taken([("move gen/hub gen/base", b"")])
        asked.end()
        return move / first

    def beside(self):
        """The faults behind a rename of what all use, beside a package with faults, by the first faults."""
        asked, first = self.judged({"gen/wrong/f.go": b"package wrong\n\nfunc F() {\n\tmissing()\n}\n"})
        path = "gen/hub/f.go"
        asked.taken([(f"rename {path}:#{star()[path].index(b'Sum0')} Added0", b"")])
        again = asked.taken([("faults => faults", b"")])
        asked.end()
        return again / first

    def worked(self):
        """The faults behind builds of all packages, by the first faults."""
        asked, first = self.judged()
        asked.end()
        built = self.session(star())
        built.taken([("work", b"")] * (PACKAGES + 1))
        again = built.taken([("faults", b"")])
        built.end()
        return again / first

    def units(self):
        """The builds of all packages behind a rename of a local variable of what all use, by the first builds."""
        built = self.session(star())
        first = built.taken([("work", b"")] * (PACKAGES + 1))
        path = "gen/hub/f.go"
        built.taken([(f"rename {path}:#{star()[path].index(b'total')} amount", b"")])
        again = built.taken([("work", b"")] * (PACKAGES + 1))
        built.end()
        return again / first

    def leaf(self):
        return self.behind("gen/p07/f.go")

    def hub(self):
        return self.behind("gen/hub/f.go")

    def beside_more(self, old, new):
        """A put by which some bytes of a file become others, by one by which a token more comes."""
        path = "gen/p07/f.go"
        text = star()[path]
        asked = self.session(star())
        other = asked.taken([put(path, text.replace(old, new))])
        asked.taken([put(path, text)])
        more = asked.taken([put(path, text.replace(b"total := 0", b"total := -0"))])
        asked.end()
        return other / more

    def kinds(self):
        return self.beside_more(b"total := 0", b"total := 7")

    def names(self):
        return self.beside_more(b"total", b"count")

    def order(self):
        taken = []
        for length in (60, 240):
            asked = self.session(chain(length))
            taken.append(asked.taken([("faults", b"")]))
            asked.end()
        return taken[1] / taken[0]


BOUNDS = {
    "again": ("faults again, by the first faults", 0.01),
    "renamed": ("faults behind a rename of what all use, by the first faults", 0.036),
    "undone": ("faults behind its undo, by the first faults", 0.01),
    "moved": ("faults behind a move of what all use, by the first faults", 0.01),
    "followed": ("a move of what all use, by the first faults", 0.35),
    "beside": ("faults behind a rename beside a package with faults, by the first faults", 0.036),
    "worked": ("faults behind builds of all packages, by the first faults", 0.01),
    "units": ("builds behind a rename of a local of what all use, by the first builds", 0.02),
    "leaf": ("faults behind a put in a package that none imports, by the first faults", 0.05),
    "hub": ("faults behind a put in a package that all import, by the first faults", 0.075),
    "kinds": ("a put of other literals, by a put of one token more in each function", 0.75),
    "names": ("a put of other names, by a put of one token more in each function", 0.39),
    "order": ("first faults of a chain of 240 packages, by those of 60", 6),
}


def main(program, words):
    rows, red = Rows(program), 0
    for name in words or BOUNDS:
        what, most = BOUNDS[name]
        ratio = getattr(rows, name)()
        red += ratio > most
        print(f"{name:6} {ratio:8.4f} at most {most:<5} {what}{'  RED' if ratio > most else ''}", flush=True)
    return 1 if red else 0


if __name__ == "__main__":
    if len(sys.argv) < 2 or any(word not in BOUNDS for word in sys.argv[2:]):
        sys.exit(__doc__)
    sys.exit(main(sys.argv[1], sys.argv[2:]))
