"""Checks what README.md and docs/*.md show and name: python3 -m checks.gate.documents

- A block of `sh` that writes `session.in` is run, and the model's answer is compared with the block behind it.
- Each example of a table in docs/GO.md stands in a file `a/a.go` of the package that the text before it names, and the
  kinds of its faults by the model are compared with the column `Here`.
- Each link leads to a file, and each name of a law, contract or definition in README.md, docs/PROOFS.md, ARCHITECTURE.md
  and DECISIONS.md, a word with `_` or with an upper case letter, stands in `crates/`.
- docs/ARCHITECTURE.md names each crate, in backticks or in a code block, and each name there with the prefix of a layer is a
  crate.
"""

import pathlib
import re
import subprocess
import sys
import tempfile

from checks import TOP
from checks.model.history import replies
from checks.model.workspace import Workspace

NAMING = ("PROOFS", "ARCHITECTURE", "DECISIONS")
OTHER = b"package b\n\ntype T struct {\n\tX int\n}\n\nfunc F() int {\n\treturn 1\n}\n"


def wrong_sessions(text):
    """Sessions that the model answers otherwise than the block behind them, and how many there are."""
    found = re.findall(r"^```sh\n((?:(?!^```$).*\n)*?.*> session\.in\n)```\n(?:(?!^```).*\n)*?^```\n((?:(?!^```$).*\n)*)```$", text, re.M)
    wrong = []
    for script, answer in found:
        with tempfile.TemporaryDirectory() as folder:
            subprocess.run(["bash", "-e", "-c", script], cwd=folder, check=True)
            told = replies(pathlib.Path(folder, "session.in").read_bytes()).decode()
        if told != answer:
            wrong.append(f"session: {script}answered:\n{told}")
    return wrong, len(found)


def files_of(package, example):
    """The files of a workspace with one file of these declarations, and the package that it may import."""
    return {"a/a.go": f"package {package}\n{example}\n".encode(), "b/b.go": OTHER}


def kinds_of(package, example):
    """The kinds of the faults of one file with these declarations."""
    workspace = Workspace(files_of(package, example))
    return ", ".join(dict.fromkeys(kind for _, _, kind in workspace.faults())) or "none"


def examples(text):
    """The rows with examples, each with the section that it stands in, the name of its package, and the faults that it has here."""
    section, column, package = "", None, "a"
    for line in text.splitlines():
        section = line[3:] if line.startswith("## ") else section
        package = (re.findall(r"`package (\w+)`:$", line) or [package])[-1] if line else package
        cells = [cell.strip() for cell in re.split(r"(?<!\\)\|", line)[1:-1]]
        if "Here" in cells:
            column = cells.index("Here")
        elif not cells:
            column = None
        elif column is not None and not cells[0].startswith("---"):
            yield section, package, cells[column - 1].strip("`").strip().replace("\\|", "|"), cells[column]


def wrong_examples(text):
    """Rows whose example has other faults, and how many rows there are."""
    wrong, count = [], 0
    for _, package, example, here in examples(text):
        count += 1
        told = kinds_of(package, example)
        if told != here:
            wrong.append(f"{example}: {told}, and not {here}")
    return wrong, count


def wrong_links(path, text):
    links = re.findall(r"\]\(([^)#]+)(?:#[^)]*)?\)", re.sub(r"`[^`\n]*`", "", text))
    return [f"link to {link}" for link in links if "://" not in link and not (path.parent / link).exists()], len(links)


def wrong_names(text):
    """Names that stand nowhere in `crates/`, other than those in paths and in modules of `checks`."""
    spans = re.findall(r"`([^`\n]+)`", re.sub(r"^```.*?^```$", "", text, flags=re.M | re.S))
    names = {n for span in spans for n in re.findall(r"\b(?:[A-Z]\w*[a-z]\w*|[a-z]\w*_\w+)\b", span) if "/" not in span and "checks." not in span}
    words = set()
    for file in TOP.glob("crates/*/*/*"):
        if file.suffix in (".rt", ".antt"):
            words |= set(re.findall(r"\w+", file.read_text()))
    folders = {path.name for path in TOP.glob("crates/*")}
    return [f"name {name}" for name in sorted(names - words - folders)], len(names)


def wrong_crates(text):
    """Crates that the code of docs/ARCHITECTURE.md does not name, names there with a layer's prefix that are no crate's, and how many crates there are."""
    there = {path.parent.name for path in TOP.glob("crates/*/src")}
    layers = {name.partition("_")[0] for name in there if "_" in name}
    code = " ".join(re.findall(r"^```.*?^```$|`[^`\n]+`", text, re.M | re.S))
    named = {word for word in re.findall(r"\w+", code) if word in there or "_" in word and word.partition("_")[0] in layers}
    return [f"crate {name}" for name in sorted(named ^ there)], len(there)


def main():
    wrong = []
    for path in [TOP / "README.md", *sorted(TOP.glob("docs/*.md")), TOP / "checks/README.md", *TOP.glob("bench/README.md")]:
        text = path.read_text()
        checks = {"sessions": wrong_sessions(text), "links": wrong_links(path, text)}
        if path.name == "ARCHITECTURE.md":
            checks["crates"] = wrong_crates(text)
        if path.name == "GO.md":
            checks["examples"] = wrong_examples(text)
        if path == TOP / "README.md" or path.stem in NAMING:
            checks["names"] = wrong_names(text)
        told = ", ".join(f"{count} {what}" for what, (_, count) in checks.items() if count)
        print(f"{path.relative_to(TOP)}: {told or 'nothing to check'}")
        wrong += [f"{path.name}: {line}" for found, _ in checks.values() for line in found]
    print("\n".join(wrong))
    sys.exit(1 if wrong else 0)


if __name__ == "__main__":
    main()
