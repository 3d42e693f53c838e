"""Finds the least stack with which a built program answers for each form that nests, at the limit of nesting.

For each form a session puts a file, asks for its faults, builds it and shows its object, and asks for the uses of the function `y`,
which some forms call, and renames it. `ulimit -s` sets the size of the stack, which the threads of `gorefd serve` have too. The
answers have to be those with a stack of 64 MiB.

    usage: python3 bench/stack.py PROGRAM
"""
import subprocess
import sys

SIZES = (64, 96, 128, 192, 256, 384, 512, 768, 1024, 1536, 2048, 3072, 4096, 6144, 8192)


def text_of(body):
    return f"package a\n\nfunc y(n int) int {{\n\treturn n\n}}\n\nfunc f(x []int) {{\n{body}\n}}\n"


def value(before, after, middle="0"):
    """A value between as many of the one as of the other."""
    return lambda depth: text_of(f"\tvar z int = {before * depth}{middle}{after * depth}\n\tz = z")


def literals(depth):
    opened = "".join("[]" * (depth - level) + "int{" for level in range(depth))
    return text_of(f"\tvar z {'[]' * depth}int = {opened}{'}' * depth}\n\tz = z")


def calls_in_blocks(depth):
    half = depth // 2
    return text_of("{" * half + f"\n\tvar z int = {'y(' * half}0{')' * half}\n\tz = z\n" + "}" * half)


def pointers(depth):
    half = depth // 2
    literal = "&t{n: " * half + "nil" + "}" * half
    return text_of(f"\tvar z *t = {literal}\n\tz = z") + "\ntype t struct {\n\tn *t\n}\n"


def selectors(depth):
    """No level of nesting, but a long chain."""
    return text_of(f"\tvar z *t = nil\n\tz = z{'.n' * depth}") + "\ntype t struct {\n\tn *t\n}\n"


def all_together(depth):
    """Loops in loops, and in the innermost calls of calls, in these parentheses, and in these an element of literals in literals."""
    part = depth // 4
    opened = "".join("[]" * (part - level) + "int{" for level in range(part))
    value = f"{'y(' * part}{'(' * part}{opened}1{'}' * part}{'[0]' * part}{')' * part}{')' * part}"
    loops = depth - 3 * part
    return text_of("for {" * loops + f"\n\tvar z int = {value}\n\tz = z\n" + "}" * loops)


FORMS = {
    "calls": value("y(", ")"),
    "parentheses": value("(", ")"),
    "indices": value("x[", "]"),
    "slice literals": literals,
    "slice types": lambda depth: text_of(f"\tvar z {'[]' * depth}int\n\tz = z"),
    "pointer types": lambda depth: text_of(f"\tvar z {'*' * depth}int\n\tz = z"),
    "blocks": lambda depth: text_of("{" * depth + "}" * depth),
    "if in if": lambda depth: text_of("if 1 < 2 {" * depth + "}" * depth),
    "else if": lambda depth: text_of("if 1 < 2 {}" + " else if 1 < 2 {}" * depth),
    "for in for": lambda depth: text_of("for {" * depth + "}" * depth),
    "calls in blocks": calls_in_blocks,
    "prefix operators": lambda depth: text_of(f"\tvar z int = {'- ' * depth}1\n\tz = z"),
    "pointers to literals": pointers,
    "a chain of selectors": selectors,
    "all together": all_together,
}


def answers(program, text, kibibytes):
    file = text.encode()
    session = b"put 0 a/a.go %d\n%sfaults\nwork\nobject a\nuses a/a.go:#16\nrename 1 a/a.go:#16 yy\nwork\nobject a\n" % (len(file), file)
    command = f'ulimit -s {kibibytes}; exec "$0" run'
    ran = subprocess.run(["bash", "-c", command, program], input=session, capture_output=True)
    return ran.returncode, ran.stdout


def deepest(program, form):
    """The most levels at which there is no fault of nesting."""
    return max(depth for depth in range(180, 201) if b"nesting" not in answers(program, form(depth), 65536)[1])


def main():
    if len(sys.argv) != 2:
        sys.exit(__doc__)
    program = sys.argv[1]
    for name, form in FORMS.items():
        depth = deepest(program, form)
        wanted = answers(program, form(depth), 65536)
        least = next((size for size in SIZES if answers(program, form(depth), size) == wanted), None)
        print(f"{name:16} {depth:4} levels {least} KiB")


if __name__ == "__main__":
    main()
