"""Measures how long a server with `--journal` takes to start behind many puts.

A server gets PUTS (200,000) puts of 20 bytes each, into 64 files in turn, and is killed. Another server starts with what it kept. Printed are
how long the puts took, the size of the file, and the seconds from that start to the reply of a `look`.
The server keeps its changes in a new folder below FOLDER, and flushes each of them. So the puts take long, unless FOLDER lies in memory, as
below /dev/shm.

    usage: python3 bench/start.py PROGRAM [PUTS [FOLDER]]
"""
import os
import sys
import tempfile
import time

import workers

FILES = 64


def put_all(path, puts):
    """The seconds of these puts, in a session with the server at this path."""
    session, number, loading = workers.Session(path), 0, 0.0
    for turn in range(puts):
        number, seconds = session.put(number, f"a/f{turn % FILES}.txt", b"text %014d\n" % turn)
        loading += seconds
    return loading


def started(program, folder, wanted):
    """The seconds from the start of a server until it has answered. Its state has to have this number."""
    begin = time.perf_counter()
    with workers.Server(program, 1, "--journal", folder) as server:
        number = workers.Session(server.path).number()
        seconds = time.perf_counter() - begin
    if number != wanted:
        sys.exit(f"state {number} behind the start, and not {wanted}")
    return seconds


def main(program, puts="200000", folder=None):
    count = int(puts)
    with tempfile.TemporaryDirectory(dir=folder) as top:
        with workers.Server(program, 1, "--journal", top) as server:
            loading = put_all(server.path, count)
        size = os.path.getsize(os.path.join(top, "changes"))
        print(f"{count} puts in {loading:.1f} s, {size / 1e6:.1f} MB:")
        print(f"  the start                 {started(program, top, count):8.3f} s")


if __name__ == "__main__":
    if not 2 <= len(sys.argv) <= 4:
        sys.exit(__doc__)
    main(*sys.argv[1:])
