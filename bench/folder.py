"""Measures `gorefd rename` over a folder of Go files, beside `gorename`, where that is installed.

The files are those of rename.py, of about LINES (200,000) lines. Both rename the variable that all files use, and a local variable. Each time
is measured from the start of the program until it has written the files and ended, ROUNDS (3) times, each in a new folder. Printed are the
median seconds and the median seconds of processor time.

    usage: python3 bench/folder.py PROGRAM [ROUNDS [LINES]]
"""
import os
import resource
import shutil
import statistics
import subprocess
import sys
import tempfile
import time

import go_tools
from rename import BASE, STEP, workspace


def spent():
    """The processor time of all programs that have ended, in seconds."""
    used = resource.getrusage(resource.RUSAGE_CHILDREN)
    return used.ru_utime + used.ru_stime


def run(files, words):
    """The seconds of a command in a new folder with these files, and those of processor time."""
    with tempfile.TemporaryDirectory() as top:
        go_tools.laid(top, files)
        begin, before = time.perf_counter(), spent()
        ran = subprocess.run(words, cwd=os.path.join(top, "src"), env=go_tools.environment_in(top, "off"), capture_output=True, text=True)
        seconds, processor = time.perf_counter() - begin, spent() - before
    if ran.returncode:
        sys.exit(f"{' '.join(words)}: {ran.returncode} {ran.stderr[:300]}")
    return seconds, processor


def measure(files, what, words, rounds):
    """Prints what a command takes, or that its program is not there."""
    if shutil.which(words[0]) is None:
        print(f"  {what}: skipped, since {words[0]} is not there")
        return
    seconds, processor = (statistics.median(column) for column in zip(*(run(files, words) for _ in range(rounds))))
    print(f"  {what:35} {seconds:8.3f} s, processor {processor:8.3f} s", flush=True)


def main(program, rounds="3", lines="200000"):
    files, count, uses = workspace(int(lines))
    print(f"{count} lines, {len(files)} files, {uses} uses:", flush=True)
    path = list(files)[-1]
    local, base = f"{path}:#{files[path].index(b'local')}", f"{BASE}:#{STEP.index(b'Step')}"
    for what, place, name in (("what all use", base, "Stride"), ("a local variable", local, "here")):
        measure(files, f"gorefd rename, {what}", [os.path.abspath(program), "rename", place, name], int(rounds))
        measure(files, f"gorename, {what}", ["gorename", "-offset", place, "-to", name], int(rounds))


if __name__ == "__main__":
    if not 2 <= len(sys.argv) <= 4:
        sys.exit(__doc__)
    main(*sys.argv[1:])
