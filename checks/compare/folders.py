"""Compares `gorefd rename` over folders with gorename, on random workspaces.

    python3 -m checks.compare.folders PROGRAM [COUNT [SEED]]

It needs gorename and gofmt (Debian has them in golang-golang-x-tools and golang-go), and `patch`. Both rename the same identifier in the
same files. Where both change files, these have to be the same byte by byte, once gofmt has formatted what gorefd wrote as gorename formats
what it writes. The diff that a dry run prints has to make the files that gorefd writes. Where only one of them refuses, its words are
counted, without names and places.
"""

import collections
import os
import random
import subprocess
import sys
import tempfile

from checks.compare.beside_gorename import Folder, a_rename, form_of, show
from checks.generate import shadows
from checks.model.workspace import Workspace


def formatted(text):
    """A text as gofmt lays it out."""
    return subprocess.run(["gofmt"], input=text, stdout=subprocess.PIPE, check=True).stdout


def patched(folder, texts, diff):
    """The files that a diff makes."""
    folder.put(texts)
    subprocess.run(["patch", "-s", "-p1"], input=diff, cwd=folder.sources, check=True)
    return folder.texts()


def renamed(folder, texts, program, place, name):
    """The files behind a rename by gorefd, or what it says. The files that the diff of a dry run makes are the same."""
    folder.put(texts)
    words = [program, "rename", place, name]
    ran = subprocess.run(words, cwd=folder.sources, stdin=subprocess.DEVNULL, capture_output=True, check=False)
    after, told = folder.texts(), ran.stderr.decode().split("\n")
    if ran.returncode:
        if after != texts:
            raise AssertionError(f"refused and changed: {told}")
        return None, told[0]
    folder.put(texts)
    shown = subprocess.run([*words[:2], "--dry-run", *words[2:]], cwd=folder.sources, capture_output=True, check=True)
    if folder.texts() != texts or patched(folder, texts, shown.stdout) != after:
        raise AssertionError(f"the diff is wrong: {shown.stdout.decode()}")
    return after, None


def by_gorename(folder, texts, place, name):
    """The files behind a rename by gorename, or what it says."""
    folder.put(texts)
    lines, status = folder.run("gorename", "-offset", os.path.join(folder.sources, place), "-to", name)
    return (None, form_of(lines)) if status else (folder.texts(), None)


def are_same(texts, ours, theirs):
    """Whether both made the same of each file. One that gorename did not change has to be as it was."""
    return all(theirs[path] == (ours[path] if theirs[path] == text else formatted(ours[path])) for path, text in texts.items())


def compare(folder, program, generator, counts):
    """One rename; whether both agree on the files, or one of them refuses."""
    texts = shadows.shadowed(generator)
    path, offset, name = a_rename(generator, texts, Workspace(texts))
    place = f"{path}:#{offset}"
    ours, refusal = renamed(folder, texts, program, place, name)
    theirs, words = by_gorename(folder, texts, place, name)
    if ours is not None and theirs is not None:
        counts["both change files"] += 1
        if not are_same(texts, ours, theirs):
            for of, files in (("before", texts), ("gorefd's", ours), ("gorename's", theirs)):
                show(f"{place} {name}: {of}", files)
            return False
    elif ours is None and theirs is None:
        counts["both refuse"] += 1
    elif ours is None:
        counts[f"gorefd alone refuses: {form_of([refusal])}"] += 1
    else:
        counts[f"gorename alone refuses: {words}"] += 1
    return True


def main():
    if len(sys.argv) < 2:
        sys.exit(__doc__)
    program = os.path.abspath(sys.argv[1])
    count = int(sys.argv[2]) if len(sys.argv) > 2 else 100
    generator = random.Random(int(sys.argv[3]) if len(sys.argv) > 3 else 0)
    counts = collections.Counter()
    with tempfile.TemporaryDirectory() as root:
        folder = Folder(root, False)
        agreed = all(compare(folder, program, generator, counts) for _ in range(count))
    for form, number in sorted(counts.items()):
        print(number, form)
    sys.exit(0 if agreed else 1)


if __name__ == "__main__":
    main()
