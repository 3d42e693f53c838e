"""Lists great numbers, loops that end only at one, and room that is asked for without a bound.

    python3 -m checks.gate.bounds

- A number over 65,536 stands in the code only where `GREAT` says: as a literal in any notation, the MAX of a type, or a shift. A product or
  a power stands only where `PRODUCTS` says. No loop ends at a constant over 65,536: it would be proved to end only after as many steps.
- A range stands in the head of a `for`, in an index or in a pattern, so no iterator goes through one. No iterator is without an end, and
  no text gives what is written a width. The end of a range that a loop goes through is made as the numbers below are, but where `COUNTED`
  says. No condition of a loop names a limit, or a number made of one.
- No loop stands in another one but where `NESTED` says: three up to a length of 1,000,000 would take 10^18 steps. No loop to a literal or a
  constant calls a function of its crate that has one.
- Where a function calls itself, or is one of a cycle of calls, nothing is added, taken away, divided or cut off but where `CLIMBS` says: two
  calls with a number one smaller take 2^64 steps from 64, and so do two with one less of a slice. So all that such calls get smaller by is a
  step down a tree, or a token that was read.
- The number that `with_capacity`, `reserve`, `resize`, `from_elem` (and calls like these) or `vec![in alloc; value; number]` is given is
  made of literals, constants, lengths, parameters and results of functions whose contracts bound them (`result`, and `≤`, `≡` or `OkIff`), by `+`,
  `-`, `/`, `max`, `min` and `saturating_add` alone. Of fields only those named in `FIELDS` stand in it, so no limit does. So is what a
  parameter is given that such a call is made of, in each call of its function. No literal or constant is over 65,536, however it is
  written. The same holds of numbers whose sum answers want of memory where it is over 64 bits, where no contract says when (`OkIff`).

It ends with status 1 where it lists a place.
"""
import copy
import itertools
import re
import sys

from checks import TOP, crate_of
from checks.gate.memory import OWNER, code_of

# the lines on which a great number stands: limits, the greatest integers and characters of Go, stacks, an end behind all tokens,
# and the greatest offset that a kept token or a kept change has room for
GREAT = {
    "base_packed/src/packing.rt": {"if number > u32::MAX as usize {"},
    "base_files/src/limits.rt": {"file_bytes: 1_048_576,", "total_bytes: 67_108_864,", "journal: 1_000_000,", "reads: 1_000_000_000,"},
    "server_versions/src/versions.rt": {"const MOST_VERSIONS: u64 = 1 << 62;"},
    "go_respelled/src/moved.rt": {"None => usize::MAX,"},
    "go_scanner/src/compact_piece.rt": {"if number > u32::MAX as usize {"},
    "go_scanner/src/integers.rt": {"if sum < 1 << 63 { Some(sum) } else { None }"},
    "go_scanner/src/strings.rt": {"Some(number) => number < 0xD800 || (0xDFFF < number && number < 0x110000),"},
    "history_book/src/content.rt": {"const MOST_CLOSED: u64 = 1 << 63;"},
    "lsp_frames/src/frames.rt": {"pub(crate) const LARGEST_BODY: usize = 8_388_608;"},
    "server_journal/src/recovery.rt": {"const CLOSED_AT: usize = 900_000;"},
    "server_socket/src/serving.rt": {"const MARK: u64 = 900_000;"},
    "server_socket/src/threads.rt": {"const STACK_BYTES: usize = 8_388_608;"},
    "server_shared/src/chapters.rt": {"const LAST: u64 = 990_000;"},
    "server_words/src/command_line.rt": {'number_option(alloc, "stop-after", "K", 1_000_000).help(', 'number_option(alloc, "idle", "SECONDS", 1_000_000).help(',
                                             'number_option(alloc, "chapter", "ENTRIES", 900_000).help('},
    "server_words/src/requests.rt": {"Some(_) => Some(Some(number(matches, option, 1_000_000)?)),"},
    "tool_threads/src/task.rt": {"const CHECK_STACK: usize = 8_388_608;"},
    "workspace_parsing/src/task.rt": {"const PARSE_STACK: usize = 8_388_608;"},
}
# the lines on which a product stands: of chunks of 64, of the room of tables of names, of digits, and of lines around a change
PRODUCTS = {
    "base_chunks/src/list.rt": {"&self.last[i - 64 * self.full.len()]", "let behind = i - 64 * self.full.len();"},
    "go_scanner/src/integers.rt": {"let product = number.checked_mul(u64::from(base))?;"},
    "go_scope/src/capacity.rt": {"identifiers.len() / 8 + 2 * PREDECLARED"},
    "tool_text/src/hunks.rt": {"while next < pairs.len() && next - end <= 2 * CONTEXT {"},
}
# the lines on which a loop begins inside another one: over the links of each number
NESTED = {"types_members/src/components.rt": {"for to in row(links, from) {"}}
# the lines on which a loop begins to a count that was read: each step reads a byte at least, or is the last one
COUNTED = {"history_records/src/lists.rt": {"for _number in 0..count {"}}
# the lines of functions that call themselves, or one of their name, on which something is added or taken away: levels of precedence, the
# last link of a chain, and what is counted beside calls of another type's function
CLIMBS = {
    "base_chunks/src/list.rt": {"let len = self.len.checked_add(1).ok_or(AllocError)?;"},
    "build_object/src/expressions.rt": {"OperandMode::Values(self.left_by_links(head, links, links.len() - 1))"},
    "go_parser/src/expressions.rt": {
        "let (first, rest) = binary(alloc, tokens, depth, header, strength + 1)?;",
        "let (value, after) = binary(alloc, after, depth, header, strength + 1)?;",
    },
    "server_read/src/stream.rt": {"self.failures = self.failures.wrapping_add(1);", "self.reads += 1;"},
    "workspace_graph/src/link_rows.rt": {"self.bounds.len() - 1"},
}
LOOP = re.compile(r"^\s*(?:'\w+: )?(?:for\b.*\.\..*|while\b.*)")
MADE_GREAT = re.compile(r"\bMAX\b|\bmax_value\b|<<|(?<![!=<>])!0\b")
PRODUCT = re.compile(r"[\w)\]] \* [\w(&*]|\*=|_?\b(?:\w+_)?(?:mul|pow|shl|square)\(|\bproduct(?:::<\w+>)?\(")
ENDLESS = re.compile(r"(?<!#\[)\b(?:cycle|repeat|repeat_n|repeat_with|successors|from_fn)\(")
WIDTH = re.compile(r"\{[^{}]*:[^{}]*[\d$*][^{}]*\}")
INDEX = re.compile(r"\[[^\[\]]*\]")
HEAD = re.compile(r"^\s*(?:'\w+: )?for \w+ in (?:[^({][^{]*|\([^{]*\)\.rev\(\)) \{$")
BEGINS_LOOP = re.compile(r"^\s*(?:'\w+: )?(?:for\b(?!<)|while\b|loop\b)")
CLIMB = re.compile(r" [-/+%] \w|[-/+]=| >>=? \w|_(?:sub|div|shr|add|rem)\(|\[[^\[\]]*\.\.|@ \.\.|\.(?:split\w*|skip|chunks\w*|windows|strip_\w+|abs_diff)\(")
BOUND_OF_TYPE = re.compile(r"\b[A-Z]\w*: [\w ]+(?: \+ [\w ]+)+")
OPEN_RANGE = re.compile(r"[\w)]\s*\.\.=?\s*[\w(*&]")
TEXT = re.compile(r'b?"(?:[^"\\]|\\.)*"')
ROOM = {"with_capacity", "with_capacity_and_hasher", "reserve", "reserve_exact", "resize", "resize_with", "from_elem", "repeat"}
CALL = re.compile(r"(?<!fn )\b(\w+)(?:::<[^()]*>)?\(")
FILLED = re.compile(r"\bvec!\[in \w+(?:\.\w+)*(?:\(\))?; ")
ADDED = re.compile(r"(?m)(?:^| = | return )\s*([^=;\n]*)\.checked_add\((.*)\)\.ok_or\(AllocError\)")
LOCAL = re.compile(r"\blet (?:mut )?(\w+)(?:: \w+)? = ([^;]*);")
CONSTANT = re.compile(r"(?m)^ *(?:pub(?:\(\w+\))? )?const (\w+): \w+ = ([^;]*);")
# the fields of which room is made, and no others: how long a list is, the number of a token, and the size that a `put` was given
FIELDS = {"len", "index", "size"}
FIELD = re.compile(r"(?<!\.)\.([a-z_]\w*)\b(?![(.\[])")
RANGE = re.compile(r"^\s*(?:'\w+: )?for \w+ in \(?[^;{}]*?\.\.=?([^;{}]*?)(?:\)\.rev\(\))? \{", re.M)
LIMIT = re.compile(r"\blimits\.\w+\b(?![(.\[])")
WHILE = re.compile(r"^\s*(?:'\w+: )?while (?!let\b)([^{;]*) \{", re.M)
LENGTH = re.compile(r"\b[\w.\[\]*]+\.len\(\)")
ADDS = {"max", "min", "saturating_add"}
BOUNDED = re.compile(r"ensures[^{]*\{[^{}]*\b(?:result\b[^{}]*[≤≡]|OkIff result\b)")
MOST_LITERAL = 1 << 16
BEGINS = re.compile(r"(?m)^ *(?:pub(?:\(\w+\))? )?fn (\w+)")
PIECE = re.compile(r"(?P<literal>\d\w*)|(?P<name>[A-Za-z_]\w*)|(?P<sign><<|>>|\S)")
TYPES = {"as", "usize", "u64", "u32", "self", "Self"}


class Function:
    """A function: where it begins and ends, its parameters, its contract, and the numbers that it has from bounded ones."""

    def __init__(self, crate, name, owner, text, code, is_in_cycle):
        self.crate, self.name, self.owner, self.code, self.is_in_cycle = crate, name, owner, code, is_in_cycle
        head = re.split(r"(?m)^ *\{$" if re.search(r"\b(requires|ensures)\b", text) else r"\{ *$", text, maxsplit=1)[0]
        given, _, self.contract = head.partition("->")
        given = given[given.index("(") + 1:] if "(" in given else ""
        self.parameters = [one for one in re.findall(r"(\w+): ", given) if one != "self"]
        self.numbers = set(re.findall(r"(\w+): (?:usize|u64|u32)\b", given))


def functions(crate, text):
    """The functions of a file of a crate, each with the line that it begins on."""
    code = "\n".join(code_of(text)).split("\n")
    lines = text.split("\n")
    begins = [number for number, line in enumerate(lines) if re.match(r" *(?:pub(?:\(\w+\))? )?fn \w+", line)]
    for begin, end in zip(begins, [*begins[1:], len(lines)]):
        name = re.search(r"fn (\w+)", lines[begin])[1]
        heads = [line for line in lines[:begin] if re.match(r"impl|(?:pub(?:\(\w+\))? )?trait |\}", line)]
        owner = OWNER.match(heads[-1]) if heads and lines[begin].startswith(" ") else None
        above = list(itertools.takewhile(lambda line: re.match(r" *(?:///|#\[)", line), reversed(lines[:begin])))
        is_in_cycle = any(line.strip().startswith("#[cycle(") for line in above)
        yield begin, Function(crate, name, owner[1] if owner else None, "\n".join(lines[begin:end]), "\n".join(code[begin:end]), is_in_cycle)


def arguments(code, start, mark=","):
    """The arguments of a call whose opening bracket lies before `start`, with this mark between them."""
    depth, parts, part = 1, [], ""
    for sign in code[start:]:
        depth += (sign in "([{") - (sign in ")]}")
        if depth == 0:
            break
        if sign == mark and depth == 1:
            parts, part = [*parts, part.strip()], ""
        else:
            part += sign
    return [one for one in [*parts, part.strip()] if one]


def names_in(number):
    """The names that a number is made of, without functions and types, and without paths in front of them."""
    rest = LENGTH.sub("0", number)
    names = re.findall(r"(?<![\w.])([a-z_]\w*)\b(?!\w*(?:\(|::))", rest)
    return set(names) - TYPES


def literal_in(text):
    """A literal's number."""
    digits = re.sub(r"[ui](?:size|8|16|32|64|128)$", "", text.replace("_", ""))
    return int(digits, 0) if digits[:1] == "0" and digits[1:2].isalpha() else int(digits)


def is_sum(number, constants):
    """Whether a number is made by operations that keep it small, of small literals and constants."""
    before = ""
    for piece in PIECE.finditer(LENGTH.sub("0", number)):
        text = piece[0]
        if piece["literal"] and literal_in(text) > MOST_LITERAL:
            return False
        if piece["name"] and text.isupper() and not constants.get(text, False):
            return False
        if piece["sign"]:
            if text == "*" and before not in ("", "(", ",", "+", "-", "/"):
                return False
            if text not in "+-/*().,[]&:?":
                return False
        before = text
    return True


def is_bounded(number, known, bounded, constants):
    """Whether a number is made of what is known and of results that contracts bound."""
    rest = LENGTH.sub("0", number)
    calls, fields = set(re.findall(r"(\w+)\(", rest)), set(FIELD.findall(rest))
    return calls <= bounded | ADDS and fields <= FIELDS and is_sum(number, constants) and names_in(number) <= known


def places_of(function, makers, name, before):
    """Which arguments of a call are numbers by which room is asked for: a set of places, None for each, or nothing."""
    if name in ROOM:
        return None if before.endswith((".", "::")) else set()
    owners, path = makers.get(name, {}), re.search(r"(\w+)(?:::<[^()]*>)?::$", before)
    owners = {owner: by.get(function.crate) or (set().union(*by.values()) if function.crate not in by else set()) for owner, by in owners.items()}
    if before.endswith("."):
        return set().union(*(places for owner, places in owners.items() if owner))
    return owners.get((function.owner if path[1] == "Self" else path[1]) if path else None, set())


def asked_of(function, makers):
    """The numbers by which a function asks for room, each with the line, counted from that on which the function begins."""
    for filled in FILLED.finditer(function.code):
        parts = arguments(function.code, filled.end(), ";")
        if len(parts) == 2:
            yield function.code.count("\n", 0, filled.start()), parts[1]
    for added in ADDED.finditer("" if "OkIff" in function.contract else function.code):
        yield from ((function.code.count("\n", 0, added.start()), one) for one in added.groups())
    for call in CALL.finditer(function.code):
        name, before = call[1], function.code[:call.start()]
        if name not in makers and name not in ROOM:
            continue
        places = places_of(function, makers, name, before)
        given = [one for one in arguments(function.code, call.end()) if one not in ("alloc", "rt.alloc()")]
        for place, one in enumerate(given):
            if not one.startswith("&") and (places is None or place in places):
                yield function.code.count("\n", 0, call.start()), one


def makers_of(every):
    """For each function, by name, type and crate, the places of parameters by which it, or a function that it calls, asks for room."""
    own, before = {}, None
    while own != before:
        before = copy.deepcopy(own)
        for function in every:
            given = [one for one in function.parameters if one != "alloc"]
            asked = asked_of(function, before) if function.numbers else ()
            used = {name for _, one in asked for name in names_in(one)} & function.numbers
            if function.name not in ROOM:
                by = own.setdefault(function.name, {}).setdefault(function.owner, {})
                by[function.crate] = by.get(function.crate, set()) | {place for place, name in enumerate(given) if name in used}
    return own


def known_in(function, bounded, constants):
    """The names of a function's numbers that are bounded, or that it is given."""
    known = set(function.parameters) | {"self"}
    for name, value in LOCAL.findall(function.code):
        if is_bounded(value, known, bounded, constants):
            known.add(name)
    return known


def unbounded(function, makers, bounded, constants):
    """The lines of a function on which it asks for room without a bound."""
    known = known_in(function, bounded, constants)
    return [line for line, one in asked_of(function, makers) if not is_bounded(one, known, bounded, constants)]


def far_loops(function, bounded, constants):
    """The lines of a function on which a loop begins that goes through a range with an end that isn't bounded, or up to a limit."""
    known = known_in(function, bounded, constants)
    far = {name for name, value in LOCAL.findall(function.code) if LIMIT.search(value) and "{" not in value}
    for found in RANGE.finditer(function.code):
        end = found[1].strip()
        if not end.endswith(".len()") and not is_bounded(end, known, bounded, constants):
            yield function.code.count("\n", 0, found.start(1))
    for found in WHILE.finditer(function.code):
        if LIMIT.search(found[1]) or names_in(found[1]) & far:
            yield function.code.count("\n", 0, found.start(1))


def is_fixed(line):
    """Whether a loop to a literal or a constant begins on the line."""
    end = RANGE.match(line)
    return bool(end) and not names_in(end[1]) and not LENGTH.search(end[1]) and "(" not in end[1]


def inner_loops(function):
    """The lines of a function on which a loop begins inside another one."""
    outer = []
    for number, line in enumerate(function.code.split("\n")):
        depth = len(line) - len(line.lstrip())
        outer = [one for one in outer if one < depth] if line.strip() else outer
        if BEGINS_LOOP.match(line):
            if outer:
                yield number
            outer.append(depth)


def calls_fixed(function, fixed):
    """The lines of a function on which a loop to a fixed number calls a function that has one, of the same crate."""
    outer = []
    for number, line in enumerate(function.code.split("\n")):
        depth = len(line) - len(line.lstrip())
        outer = [one for one in outer if one < depth] if line.strip() else outer
        if outer and set(re.findall(r"\b(\w+)\(", line)) & fixed:
            yield number
        if is_fixed(line):
            outer.append(depth)


def is_recursive(function):
    """Whether a function is one of a cycle of calls, or calls a function of its name: itself, or one of the same name of another type."""
    before = r"(?:\.|\b(?:Self|" + function.owner + r")(?:::<[^()]*>)?::)" if function.owner else r"(?<![\w.:])(?<!fn )"
    return function.is_in_cycle or bool(re.search(rf"{before}{function.name}(?:::<[^()]*>)?\(", function.code))


def climbing(function):
    """The lines of a function that calls itself, or is one of a cycle of calls, on which something is added, taken away, divided or cut."""
    for number, line in enumerate(function.code.split("\n") if is_recursive(function) else ()):
        if CLIMB.search(BOUND_OF_TYPE.sub("", TEXT.sub("", line))):
            yield number


def is_ranged(line):
    """Whether a range stands on the line that is no head of a loop, no index and no pattern of bytes."""
    bare = re.sub(r"b?'[^']*'", "", TEXT.sub("", line))
    before = None
    while before != bare:
        before, bare = bare, INDEX.sub("", bare)
    return bool(OPEN_RANGE.search(bare)) and not HEAD.match(bare)


def is_product(line):
    """Whether a product or a power stands on the line, an iterator without an end, or a text with the width of what is written."""
    bare = TEXT.sub("", line)
    return bool(PRODUCT.search(bare) or ENDLESS.search(bare) or any(WIDTH.search(text) for text in TEXT.findall(line)))


def is_great(line):
    """Whether a great number stands on the line."""
    bare = TEXT.sub("", line)
    return any(literal_in(literal) > MOST_LITERAL for literal in re.findall(r"(?<!\w)\d\w*", bare)) or bool(MADE_GREAT.search(bare))


def is_endless(line, constants):
    """Whether a line begins a loop up to a great constant."""
    return bool(LOOP.match(line)) and any(not constants.get(one, True) for one in re.findall(r"\b[A-Z][A-Z_]+\b", line))


def bounded_in(crates):
    """For each crate the functions whose results are bounded: its own of a name, or those of other crates where it has none."""
    every = {}
    for crate, own in crates.items():
        for one in own:
            every.setdefault(one.name, {}).setdefault(crate, []).append(bool(BOUNDED.search(one.contract)))
    return {crate: {name for name, by in every.items() if all(by.get(crate) or sum(by.values(), []))} for crate in crates}


def main():
    root = TOP / "crates"
    files = {path: path.read_text() for path in sorted(root.glob("*/src/**/*.rt")) if not crate_of(path).endswith("_tests")}
    parts = {path: [*functions(crate_of(path), text)] for path, text in files.items()}
    every = [function for pairs in parts.values() for _, function in pairs]
    crates = {}
    for path, pairs in parts.items():
        crates.setdefault(crate_of(path), []).extend(function for _, function in pairs)
    makers = makers_of([one for own in crates.values() for one in own])
    bounded = bounded_in(crates)
    fixed = {crate: {one.name for one in own if any(is_fixed(line) for line in one.code.split("\n"))} for crate, own in crates.items()}
    constants = {name: is_sum(value, {}) for text in files.values() for name, value in CONSTANT.findall(text)}
    found = 0
    for path, text in files.items():
        lines, crate = text.splitlines(), crate_of(path)
        code, known = code_of(text), GREAT.get(str(path.relative_to(root)), set())
        wrong = {number: "a great number" for number, line in enumerate(code) if is_great(line) and line.strip() not in known}
        products, nested, climbs, counted = (listed.get(str(path.relative_to(root)), set()) for listed in (PRODUCTS, NESTED, CLIMBS, COUNTED))
        wrong |= {number: "a product" for number, line in enumerate(code) if is_product(line) and line.strip() not in known | products}
        wrong |= {number: "a range" for number, line in enumerate(code) if is_ranged(line)}
        wrong |= {number: "a loop up to a great number" for number, line in enumerate(code) if is_endless(line, constants)}
        for begin, function in parts[path]:
            far = [line for line in far_loops(function, bounded[crate], constants) if lines[begin + line].strip() not in counted]
            wrong |= {begin + line: "a loop without a bound" for line in far}
            wrong |= {begin + line: "a loop inside another" for line in inner_loops(function) if lines[begin + line].strip() not in nested}
            wrong |= {begin + line: "a loop to a fixed number inside another" for line in calls_fixed(function, fixed[crate])}
            wrong |= {begin + line: "a recursion on a number or a part" for line in climbing(function) if lines[begin + line].strip() not in climbs}
            wrong |= {begin + line: "room without a bound" for line in unbounded(function, makers, bounded[crate], constants)}
        for number, what in sorted(wrong.items()):
            found += 1
            print(f"{path.relative_to(root)}:{number + 1}: {what}: {lines[number].strip()}")
    print(f"{found} numbers, loops or rooms without a bound")
    return 1 if found else 0


if __name__ == "__main__":
    sys.exit(main())
