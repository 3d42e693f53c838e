"""Compares renames and moves of random workspaces by the model with those by gorename and gomvpkg.

    python3 -m checks.compare.beside_gorename [SECONDS [SEED [gopls]]]

It needs both (Debian has them in golang-golang-x-tools) and works in a folder of its own, in GOPATH mode. With the last word gopls renames
in place of gorename. Where both admit an edit, the files after it must have the same names and literals: gorename also formats files. Files
that gopls edits must be the same byte by byte. Where one refuses, it counts the edits by both answers: the form of gorename's message, and
the number of the model's refusal. It prints the first edit of each form that only one of them admits, with its workspace. Files that
differ end the run with status 1.
"""

import collections
import os
import random
import re
import subprocess
import sys
import tempfile
import time

from checks.compare.agreement import renamable
from checks.generate import shadows
from checks.model import lexer
from checks.model.identifiers import Identifiers
from checks.model.lexer import KEYWORDS
from checks.model.moves import plan_move
from checks.model.refusals import Refusal
from checks.model.renames import plan_rename
from checks.model.workspace import Workspace

SOFT = "declared but not used"


class Folder:
    """A GOPATH with one workspace in it."""

    def __init__(self, root, by_gopls):
        self.root = root
        self.by_gopls = by_gopls
        self.sources = os.path.join(root, "src")
        self.environment = {
            **os.environ,
            "GO111MODULE": "off",
            "GOPATH": root,
            "GOFLAGS": "",
            "GOCACHE": os.path.join(root, "cache"),
            "HOME": root,
        }

    def put(self, texts):
        subprocess.run(["rm", "-rf", self.sources], check=True)
        for path, text in texts.items():
            whole = os.path.join(self.sources, path)
            os.makedirs(os.path.dirname(whole), exist_ok=True)
            with open(whole, "wb") as file:
                file.write(text)

    def run(self, *words):
        """The lines that a program says, without those of mere warnings, and its status."""
        told = subprocess.run(words, env=self.environment, cwd=self.sources, capture_output=True, text=True, check=False)
        lines = (told.stdout + told.stderr).replace(self.sources + "/", "").split("\n")
        return [line for line in lines if line and SOFT not in line], told.returncode

    def texts(self):
        found = {}
        for folder, _, names in os.walk(self.sources):
            for name in names:
                whole = os.path.join(folder, name)
                with open(whole, "rb") as file:
                    found[os.path.relpath(whole, self.sources)] = file.read()
        return found


def names_its_folder(token, behind):
    """Whether it is the name of an import that is called like the folder, which gomvpkg leaves out."""
    return behind.kind == "string" and behind.text[1:-1].split("/")[-1] == token.text


def words_of(texts):
    """The names and literals of each file, in order."""
    found = {}
    for path, text in texts.items():
        tokens = lexer.tokens_of(text)
        pairs = zip(tokens, [*tokens[1:], tokens[-1]])
        found[path] = [
            token.text
            for token, behind in pairs
            if token.kind in ("name", "_", "int", "string") and not names_its_folder(token, behind)
        ]
    return found


def form_of(lines):
    """What a refusal says, without names and places."""
    return re.sub(r"[\w/.-]+\.go:\d+:\d+: |\"[^\"]*\"", "", " / ".join(lines)).replace("\t", "")


def planned(plan, workspace, texts, *words):
    """The files behind an edit, or the number of the refusal with its body."""
    try:
        return plan(workspace, texts, *words).edited(texts), None
    except Refusal as refusal:
        return None, f"{refusal.code} {refusal.body.strip()}"


def a_rename(generator, texts, workspace):
    """An identifier of something that can be renamed, and a new name."""
    identifiers = Identifiers(workspace)
    declarations = renamable(identifiers)
    declaration = generator.choice(declarations)
    use = generator.choice(identifiers.of[declaration])
    names = {i.name for i in identifiers.all} - {"_", declaration.name} - set(KEYWORDS)
    names = sorted(names) + ["len", "q", "Q", "x", "X"]
    return use.path, use.offset, generator.choice([name for name in names if name != declaration.name])


def rename(folder, generator, texts, workspace):
    path, offset, name = a_rename(generator, texts, workspace)
    expected, refusal = planned(plan_rename, workspace, texts, path, offset, name)
    place = f"{os.path.join(folder.sources, path)}:#{offset}"
    words = ["gopls", "rename", "-w", place, name] if folder.by_gopls else ["gorename", "-offset", place, "-to", name]
    lines, status = folder.run(*words)
    return f"rename {path}:#{offset} {name}", expected, refusal, lines if status else None


def a_move(generator, workspace):
    """A package whose name is that of its folder, and a folder where nothing is."""
    own = [path for path in workspace.order if path.split("/")[-1] == workspace.packages[path].name()]
    if not own:
        return None
    names = {i.name for i in Identifiers(workspace).all} - {"_"} - set(KEYWORDS)
    return generator.choice(own), generator.choice(["", "z/"]) + generator.choice(sorted(names))


def move(folder, generator, texts, workspace):
    words = a_move(generator, workspace)
    if words is None:
        return None
    expected, refusal = planned(plan_move, workspace, texts, *words)
    if refusal is not None and refusal.split(" ")[0] not in ("14", "15"):
        return None
    os.makedirs(os.path.dirname(os.path.join(folder.sources, words[1])), exist_ok=True)
    lines, status = folder.run("gomvpkg", "-from", words[0], "-to", words[1])
    lines = [line for line in lines if not line.startswith("Renamed ")]
    return "move %s %s" % words, expected, refusal, lines if status or lines else None


def show(told, texts):
    print(told)
    for path, text in texts.items():
        print(f"--- {path}\n{text.decode()}")


def compare(folder, generator, counts):
    """One edit; whether both agree on the files, or one of them refuses."""
    texts = shadows.shadowed(generator)
    workspace = Workspace(texts)
    folder.put(texts)
    found = (rename if folder.by_gopls or generator.random() < 0.8 else move)(folder, generator, texts, workspace)
    if found is None:
        return True
    told, expected, refusal, lines = found
    way = told.split(" ")[0]
    if expected is not None and lines is None:
        counts[way, "both admit"] += 1
        if folder.texts() == expected or not folder.by_gopls and words_of(folder.texts()) == words_of(expected):
            return True
        show(f"{told}: the files differ", texts)
        show("the model's", expected)
        show("the other's", folder.texts())
        return False
    form = (
        (way, "both refuse")
        if expected is None and lines is not None
        else (way, "the model alone admits; the other:", form_of(lines))
        if lines is not None
        else (way, "the model alone refuses:", refusal.split(" ")[0])
    )
    counts[form] += 1
    if len(form) > 2 and counts[form] == 1:
        show(f"{told}: {' '.join(form[1:])} ({refusal or lines})", texts)
    return True


def main():
    seconds = int(sys.argv[1]) if len(sys.argv) > 1 else 60
    generator = random.Random(int(sys.argv[2]) if len(sys.argv) > 2 else 0)
    counts = collections.Counter()
    end = time.monotonic() + seconds
    agreed = True
    with tempfile.TemporaryDirectory() as root:
        folder = Folder(root, "gopls" in sys.argv[3:])
        while agreed and time.monotonic() < end:
            agreed = compare(folder, generator, counts)
    for form, count in sorted(counts.items()):
        print(count, *form)
    sys.exit(0 if agreed else 1)


if __name__ == "__main__":
    main()
