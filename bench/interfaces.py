"""Checks a workspace with 200 interfaces and 2,000 types that implement them, and the same one without interfaces; renames coupled methods.

The workspace is that of check.py, with three types more in a file. Each interface asks for `Name` and for a method of its own name. Ten
types of its package and of the packages behind it have both, and enter it as arguments. Without interfaces each interface is a struct, and
the arguments are of that struct. Printed are the least seconds of the first `faults` of each, and of two renames of a method of one interface
with those of its ten types: of the one that it alone has, and of `Name`, which all interfaces and types have. The exit status is 1 if the
first `faults` takes more than 1.2 times as long with interfaces, or a rename more than 0.15 s.

    usage: python3 bench/interfaces.py PROGRAM [LINES [ROUNDS]]
"""
import sys

import check

INTERFACES, TYPES = 200, 10  # in all, and of each interface
BOUND, SECONDS = 1.2, 0.15


def place_of(number):
    """The package and the file in which type `number` is declared, three of them in a file."""
    return divmod(number // 3, check.FILES)


def interface_text(number, asks):
    """The declaration of an interface, or of a struct in its place, and of a function that takes one."""
    if not asks:
        return [f"type Asks{number} struct {{", "\tat int", "}", "", f"func Take{number}(a Asks{number}, n int) int {{", "\treturn a.at + n", "}", ""]
    lines = [f"type Asks{number} interface {{", "\tName() string", f"\tStep{number}(n int) int", "}", ""]
    return lines + [f"func Take{number}(a Asks{number}, n int) int {{", f"\treturn a.Step{number}(n) + len(a.Name())", "}", ""]


def type_text(number, home, asks):
    """The declaration of type `number` with its methods, and a function that gives one to its interface, which is declared in `home`."""
    of, package = number // TYPES, place_of(number)[0]
    behind = "" if package == home else f"p{home}."
    given = f"With{number}{{at: n}}" if asks else f"{behind}Asks{of}{{}}"
    lines = [f"type With{number} struct {{", "\tat int", "}", ""]
    lines += [f"func (w With{number}) Name() string {{", f'\treturn "{number}"', "}", ""]
    lines += [f"func (w With{number}) Step{of}(n int) int {{", "\treturn w.at + n", "}", ""]
    return lines + [f"func Give{number}(n int) int {{", f"\treturn {behind}Take{of}({given}, n)", "}", ""]


def added(asks):
    """The lines that each file gets, by package and file, and the packages that it imports for them."""
    lines, imports = {}, {}
    for number in range(INTERFACES * TYPES):
        at, home = place_of(number), place_of(number - number % TYPES)[0]
        if number % TYPES == 0:
            lines.setdefault(at, []).extend(interface_text(number // TYPES, asks))
        lines.setdefault(at, []).extend(type_text(number, home, asks))
        if at[0] != home:
            imports.setdefault(at, set()).add(home)
    return lines, imports


def workspace(lines, asks):
    """Files by path, and how many lines they have."""
    files, _, packages = check.workspace(lines)
    more, imports = added(asks)
    if max(package for package, _ in more) >= packages:
        sys.exit(f"{lines} lines are too few for {INTERFACES * TYPES} types")
    for (package, file), text in more.items():
        path = f"{check.package_path(package)}/f{file}.go"
        clause, rest = files[path].decode().split("\n", 1)
        new = [other for other in sorted(imports.get((package, file), ())) if other not in check.imports_of(package)]
        clauses = "".join(f'import "{check.package_path(other)}"\n' for other in new)
        files[path] = f"{clause}\n\n{clauses}{rest.lstrip()}\n{chr(10).join(text)}".encode()
    return files, sum(text.count(b"\n") for text in files.values())


def renamed(session, basis, files, method, new):
    """The seconds of the rename of an interface's method, which is undone."""
    path = f"{check.package_path(0)}/f0.go"
    offset = files[path].index(method + b"(")
    word, number, body, seconds = session.ask(b"rename %d %s:#%d %s" % (basis, path.encode(), offset, new))
    if word != b"ok":
        sys.exit(f"rename of {method}: {word} {number} {body[:200]}")
    session.ask(b"undo %d" % number)
    return seconds


def measure(program, lines, rounds):
    """Whether the check or a rename takes too long."""
    sets = [workspace(lines, asks) for asks in (False, True)]
    print(f"{sets[1][1]} lines, {len(sets[1][0])} files, {INTERFACES} interfaces, {INTERFACES * TYPES} types; the least of {rounds} times:")
    faults, one, all_of = ([], []), [], []
    for _ in range(rounds):
        for asks, (files, _) in enumerate(sets):
            session = check.Session(program)
            basis, _ = session.put_all(files)
            faults[asks].append(session.faults())
            if asks:
                one.append(renamed(session, basis, files, b"Step0", b"Stride"))
                all_of.append(renamed(session, basis, files, b"Name", b"Title"))
            session.end()
    without, with_them = min(faults[0]), min(faults[1])
    print(f"  the first faults: {without:.3f} s without interfaces, {with_them:.3f} s with them, {with_them / without:.2f} times")
    print(f"  rename of the method of one interface and {TYPES} types: {min(one):.4f} s; of `Name`, which all have: {min(all_of):.4f} s")
    return with_them > BOUND * without or max(min(one), min(all_of)) > SECONDS


if __name__ == "__main__":
    if not 2 <= len(sys.argv) <= 4:
        sys.exit(__doc__)
    sys.exit(measure(sys.argv[1], *[int(word) for word in (sys.argv[2:] + ["187500", "5"][len(sys.argv) - 2:])]))
