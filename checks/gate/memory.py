"""Lists each place of the crates that answers want of memory where no allocation was refused, or a full journal where it has room.

    python3 -m checks.gate.memory

Want of memory is `AllocError`, a variant `Memory` (as `Refusal::Memory`) or `NoRoom`. A place may make it

- in a conversion from an allocation that was refused (`impl From<AllocError> for ..`),
- in the arm of a match whose pattern is want of memory itself (`ErrorKind::OutOfMemory` as `clap` calls it),
- in the arm `Err(_)` of a match on a call that fails for want of memory alone, or on what a function is given of such a call, as its
  type tells, or by `map_err` behind such a call,
- where a thread of `server_socket` could not be made (`if !are_made`), for which a server has no other fault,
- for an offset of 2^32 or more, for which a kept token has no room (`go_scanner`), nor has a kept change (`base_packed`),
- for a sum of lengths that passes what can be addressed (`checked_add(..).ok_or(AllocError)`), as the library does where it grows.

No `use` brings in such a variant by its own name or by `*`, and none gives `AllocError` another.

A place may answer `JournalFull` where the journal was asked for room and has none (`if !self.has_room(..)`).

It ends with status 1 where it lists a place.
"""
import re
import sys

from checks import TOP, crate_of

WANT = re.compile(r"\b(?:\w+::(?:Memory|NoRoom)|AllocError)\b|\bAllocFailed(?:::<.*>)? \{")
BROUGHT = re.compile(r"\buse\b.*(?:::|\{|, )(?:Memory|NoRoom|JournalFull|\*)|\b(?:AllocError|AllocFailed) as\b")
FULL = re.compile(r"\b\w+::JournalFull\b")
ASKED = re.compile(r"if !\w+(\.\w+)*\.has_room\(.*\) \{$")
REFUSED = r"From<Alloc(?:Error|Failed)\b"
# conditions that are a want of memory, each with its crates
CAUSES = {"if !are_made {": {"server_socket"}, "if number > u32::MAX as usize {": {"go_scanner", "base_packed"}}
# calls of the standard library that fail for want of memory alone
STANDARD = {"BufReader::new", "BufWriter::new", "clone", "collect", "vec"}
OWNER = re.compile(r"(?:impl(?:<.*?>)?|trait)\s+(?:\S+ for )?(\w+)")
SIGNATURE = re.compile(r"(?:^|\s)fn (\w+)[^{;]*?->\s*([^{;]*?)\s*(?:where|requires|ensures|ghost|[{;])", re.S)
CALL = re.compile(r"\b((?:\w+::)?\w+)[(!]")


def code_of(text):
    """The text with its comments, ghost lines and contracts blanked, line by line."""
    lines, in_clause = [], False
    for line in text.split("\n"):
        bare = re.sub(r"//.*", "", line)
        starts = re.match(r"\s*(requires|ensures)\b", bare)
        in_clause = bool(starts) or in_clause and not re.match(r"\s*[{}]\s*$", bare)
        lines.append("" if in_clause or re.match(r"\s*(ghost|use|#)\b", bare) else bare)
    return lines


def answers_of(files):
    """For each function what it returns, by its crate, the type whose impl it stands in, and its name."""
    answers = {}
    for path, text in files.items():
        for block in re.split(r"(?m)^(?=impl|(?:pub )?trait|fn |pub)", re.sub(r"//.*", "", text)):
            owner = OWNER.match(block)
            for name, answer in SIGNATURE.findall(block):
                key = f"{owner[1]}::{name}" if owner else name
                answers.setdefault(key, {}).setdefault(crate_of(path), set()).add(" ".join(answer.split()))
    return answers


def lacks_memory_alone(call, crate, answers):
    """Whether a call fails for want of memory and for nothing else."""
    by_crate = answers.get(call, {})
    own = by_crate.get(crate) or set().union(*by_crate.values())
    return call in STANDARD or bool(own) and all(re.search(r"\bAlloc(Error|Failed<.*>)>$", answer) for answer in own)


def indent(line):
    return len(line) - len(line.lstrip())


def around(lines, number):
    """The lines that the line stands in, the nearest first, itself before them."""
    depth = indent(lines[number]) + 1
    for at in range(number, -1, -1):
        if lines[at].strip() and indent(lines[at]) < depth:
            depth = indent(lines[at])
            yield lines[at].strip()


def is_given(lines, number, name):
    """Whether the function in which the line stands is given under that name what fails for want of memory alone."""
    begin = next((at for at in range(number, -1, -1) if re.search(r"\bfn \w+", lines[at])), 0)
    signature = " ".join(lines[begin:number]).partition("->")[0]
    return bool(re.search(rf"\b{name}: Result<[^()]*\bAllocError>\s*[,)]", signature))


def is_want(pattern):
    """Whether each case of a pattern, or its condition, is want of memory."""
    cases, _, condition = pattern.partition(" if ")
    return all(WANT.search(one) or "ErrorKind::OutOfMemory" in one for one in (condition or cases).split("|"))


def is_sound(lines, number, crate, answers):
    """Whether the place on the line makes want of memory of an allocation that was refused."""
    if re.search(r"\.checked_add\(.*\)\.ok_or\(AllocError\)(\?;)?$", lines[number].strip()):
        return True
    mapped = re.search(r"(.*)\.map_err\(\|_\|", lines[number])
    if mapped:
        return any(lacks_memory_alone(call, crate, answers) for call in CALL.findall(mapped[1])[:1])
    is_failed = False
    for line in around(lines, number):
        pattern = line.partition("=>")[0].strip() if "=>" in line else ""
        if is_want(pattern) or crate in CAUSES.get(line, ()):
            return True
        is_failed = is_failed or pattern in ("Err(_)", "Err(_e)")
        if is_failed and "match " in line:
            subject = line.rpartition("match ")[2]
            given = re.fullmatch(r"(\w+) \{", subject)
            if given:
                return is_given(lines, number, given[1])
            return any(lacks_memory_alone(call, crate, answers) for call in CALL.findall(subject))
        if line.startswith("impl"):
            return bool(re.search(REFUSED, line))
    return False


def is_asked(lines, number):
    """Whether the place on the line stands where the journal was asked for room and has none."""
    return any(ASKED.search(line) for line in around(lines, number))


def makes(line, what):
    """Whether the line makes such an answer, where it is more than a type, a declaration or a pattern."""
    value = line.partition("=>")[2] if "=>" in line else line
    value = re.sub(r"\bmatches!\(.*\)", "", value)
    value = re.sub(r"(->|Result<|impl\b|From<|fn \w+(<.*?>)?\().*", "", value)
    return bool(what.search(value))


def main():
    root = TOP / "crates"
    files = {path: path.read_text() for path in sorted(root.glob("*/src/**/*.rt")) if not crate_of(path).endswith("_tests")}
    answers, found, places = answers_of(files), 0, 0
    for path, text in files.items():
        lines = code_of(text)
        brought = [number for number, line in enumerate(text.split("\n")) if BROUGHT.search(re.sub(r"//.*|.*\bghost use\b.*", "", line))]
        for number in brought:
            found += 1
            print(f"{path.relative_to(root)}:{number + 1}: {text.splitlines()[number].strip()}")
        for number, line in enumerate(lines):
            if makes(line, WANT):
                places += 1
                wrong = not is_sound(lines, number, crate_of(path), answers)
            elif makes(line, FULL):
                places += 1
                wrong = not is_asked(lines, number)
            else:
                continue
            if wrong:
                found += 1
                print(f"{path.relative_to(root)}:{number + 1}: {line.strip()}")
    print(f"{places} places answer want of memory or a full journal, {found} of them without cause")
    return 1 if found or not places else 0


if __name__ == "__main__":
    sys.exit(main())
