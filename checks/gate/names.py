"""Finds names of crates/ with two meanings, and comments that are not read once: python3 -m checks.gate.names

- A type, or a definition of specs/, has a name that no other has, unless TWICE gives a reason.
- No two modules of code have one name and one headline.
- No sentence of a comment has more than 25 words (a word in backticks, or several between one pair, counts as one).

Prints each that is found, and ends with status 1 if there is one. The gate begins with it.
"""
import re
import sys
from collections import defaultdict

from checks import TOP, crate_of

MOST_WORDS = 25
SAME_IDEA = "one idea for several types, each in its own crate"
VIEW = "a type and the definition that contracts see it as"
FORM = "one form of expression, as it is judged and as code is made of it"
TWICE = {
    "ALL": "the list of all keywords, and of all operators",
    "Answer": "an associated type",
    "Bound": VIEW,
    "Content": VIEW,
    "Definition": VIEW,
    "Entering": VIEW,
    "Export": VIEW,
    "ExportData": VIEW,
    "Field": VIEW,
    "FileTree": VIEW,
    "FunctionName": VIEW,
    "GlobalName": VIEW,
    "Group": VIEW,
    "Initial": VIEW,
    "Item": "an associated type, and an item of a list of the syntax tree",
    "ListValue": VIEW,
    "Locals": VIEW,
    "Meaning": VIEW,
    "Member": VIEW,
    "MemberUse": VIEW,
    "Method": VIEW,
    "Noted": VIEW,
    "Package": VIEW,
    "SetMethod": VIEW,
    "WrittenAs": VIEW,
    "Setting": VIEW,
    "Signature": VIEW,
    "Source": VIEW,
    "State": VIEW,
    "Target": VIEW,
    "Underlying": VIEW,
    "ValueKind": VIEW,
    "World": VIEW,
    "binary_of": FORM,
    "change_in": SAME_IDEA,
    "definition_of": SAME_IDEA,
    "family_of": SAME_IDEA,
    "field_of": SAME_IDEA,
    "first_line": SAME_IDEA,
    "function_of": SAME_IDEA,
    "indexed": FORM,
    "is_literal": SAME_IDEA,
    "joined": SAME_IDEA,
    "kind_of": SAME_IDEA,
    "known_scope": SAME_IDEA,
    "literal_of": SAME_IDEA,
    "meaning_of": SAME_IDEA,
    "name_in": SAME_IDEA,
    "named_meaning": FORM,
    "paths_of": SAME_IDEA,
    "place_of": SAME_IDEA,
    "prefix_of": FORM,
    "prefixed": FORM,
    "shifted": SAME_IDEA,
    "source_of": SAME_IDEA,
    "spelling_of": SAME_IDEA,
    "type_of": SAME_IDEA,
    "variable": FORM,
}
TYPE = re.compile(r"^\s*(?:pub(?:\(crate\))? )?(?:struct|enum|trait|type|const) (\w+)", re.MULTILINE)
DEFINITION = re.compile(r"^(?:(?:pub )?(?:abbrev|record|data|unfoldable)(?: pub)? ([^\s:]+)|pub (\w+) :)", re.MULTILINE)
COMMENT = re.compile(r"^\s*(?:///|//!|//|--)(?: (.*)|)$")


def sources(kind, ending):
    for path in sorted(TOP.glob(f"crates/*/{kind}/**/*{ending}")):
        yield path, path.read_text(encoding="utf-8")


def standing_twice():
    """Names of types and definitions that stand in two files, with these."""
    found = defaultdict(set)
    for path, text in sources("src", ".rt"):
        for name in TYPE.findall(text):
            found[name].add(path)
    for path, text in sources("specs", ".antt"):
        for names in DEFINITION.findall(text):
            if "mutual" not in names:
                found["".join(names)].add(path)
    for name, paths in sorted(found.items()):
        if len(paths) > 1 and name not in TWICE:
            yield f"{name}: {', '.join(str(path.relative_to(TOP)) for path in sorted(paths))}"


def modules_of_one_headline():
    found = defaultdict(list)
    for path, text in sources("src", ".rt"):
        headline = text.partition("\n")[0]
        if headline.startswith("//!"):
            found[path.name, headline].append(path)
    for (name, headline), paths in found.items():
        if len(paths) > 1:
            yield f"{name}: {headline}: {', '.join(crate_of(path) for path in paths)}"


def comments(text):
    """The comments of a text, each with the line that it begins at, from 1. Lines of an example, which are indented, are left out."""
    begin, words = 0, []
    for number, line in enumerate([*text.splitlines(), ""], 1):
        match = COMMENT.match(line)
        if match and not (match.group(1) or "").startswith("  "):
            begin = begin or number
            words.append(match.group(1) or "\n")
        elif words:
            yield begin, " ".join(words)
            begin, words = 0, []


def long_sentences():
    for kind, ending in (("src", ".rt"), ("specs", ".antt"), ("proofs", ".antt")):
        for path, text in sources(kind, ending):
            for line, comment in comments(text):
                for sentence in re.split(r"(?<=[.:;!?]) |\n", comment):
                    count = len(re.sub(r"`[^`]*`", "x", sentence).split())
                    if count > MOST_WORDS:
                        yield f"{path.relative_to(TOP)}:{line}: {count} words: {sentence}"


def main():
    found = [*standing_twice(), *modules_of_one_headline(), *long_sentences()]
    print("\n".join([*found, f"{len(found)} names and sentences to mend"]))
    return bool(found)


if __name__ == "__main__":
    sys.exit(main())
