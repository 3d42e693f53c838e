"""Prints a folder of Go files as a session: a put for each file, then some command lines, then `end`.

    python3 -m checks.tools.puts FOLDER [LINE..] > session.in

A file's path is the one below FOLDER, so each file has to lie in a folder below it, which is its package. On standard error
it says which Go files are left out and why (for each reason the first ten), how many files are no Go files, and the number of
the state behind the puts, which is the basis of a change, an undo or a redo among the lines.
"""

import os
import pathlib
import sys

from checks.model.refusals import ALL_BYTES, FILES, FILE_BYTES, PACKAGES, PATH_BYTES, is_path


def go_files(folder):
    """The paths of the Go files below a folder, by the bytes of their names, and how many other files there are."""
    found, others = [], 0
    for top, _, names in os.walk(folder):
        for name in names:
            if name.endswith(".go"):
                found.append(pathlib.Path(top, name))
            else:
                others += 1
    return sorted(found, key=lambda path: os.fsencode(path.relative_to(folder))), others


class Taken:
    """The files that are taken, and what the limits leave of room."""

    def __init__(self):
        self.texts = {}
        self.size = 0
        self.packages = set()

    def why_not(self, path, text):
        """Why the server would refuse the file, or None."""
        package = path.rpartition("/")[0]
        if not package:
            return "it lies in no folder below the one given, so it has no package: give the folder above"
        if not is_path(path):
            return f"its path is over {PATH_BYTES} bytes, or has other signs than letters, digits and _ - . ~ +"
        if len(text) > FILE_BYTES:
            return f"it has {len(text)} bytes, over {FILE_BYTES}"
        if len(self.texts) == FILES:
            return f"{FILES} files are there already"
        if self.size + len(text) > ALL_BYTES:
            return f"all files together would have over {ALL_BYTES} bytes"
        if package not in self.packages and len(self.packages) == PACKAGES:
            return f"{PACKAGES} packages are there already"
        return None

    def take(self, path, text):
        self.texts[path] = text
        self.size += len(text)
        self.packages.add(path.rpartition("/")[0])


def read_text(file):
    """The bytes of a file, or None where it is no file that can be read."""
    try:
        return file.read_bytes() if file.is_file() else None
    except OSError:
        return None


def tell_left_out(refused):
    """Says which files are left out, by the reasons: of each the first ten."""
    for why, paths in refused.items():
        for path in paths[:10]:
            print(f"left out: {path}: {why}", file=sys.stderr)
        if len(paths) > 10:
            print(f"left out: {len(paths) - 10} more: {why}", file=sys.stderr)


def taken_from(folder):
    files, others = go_files(folder)
    taken, refused = Taken(), {}
    for file in files:
        path = file.relative_to(folder).as_posix()
        text = read_text(file)
        why = "it cannot be read" if text is None else taken.why_not(path, text)
        if why is None:
            taken.take(path, text)
        else:
            refused.setdefault(why, []).append(os.fsencode(path).decode(errors="replace"))
    tell_left_out(refused)
    number, count = len(taken.texts), sum(len(paths) for paths in refused.values())
    print(f"put: {number}; left out: {count} Go files, {others} other files; state behind the puts: {number}", file=sys.stderr)
    return taken.texts


def session(texts, lines):
    """The bytes of a session on an empty workspace."""
    puts = [f"put {n} {path} {len(text)}\n".encode() + text for n, (path, text) in enumerate(texts.items())]
    return b"".join(puts) + b"".join(os.fsencode(line) + b"\n" for line in [*lines, "end"])


def main():
    if len(sys.argv) < 2 or not os.path.isdir(sys.argv[1]):
        sys.exit("usage: python3 -m checks.tools.puts FOLDER [LINE..]")
    sys.stdout.buffer.write(session(taken_from(sys.argv[1]), sys.argv[2:]))


if __name__ == "__main__":
    main()
