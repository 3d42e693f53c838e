"""Drives a session over pipes, and compares its time with that of `cat`, which copies as many bytes through the same pipes.

Each measure has a set-up, which is not timed, and a load, which is. One thread sends the whole load at once while another reads the
replies. So the times compare throughput, and not the time of one exchange.

    usage: python3 bench/session.py PROGRAM
"""
import os
import subprocess
import sys
import threading
import time


class Piped:
    """A child process that answers on its standard output what it reads on its standard input."""

    def __init__(self, words):
        self.child = subprocess.Popen(words, stdin=subprocess.PIPE, stdout=subprocess.PIPE, bufsize=0)

    def send(self, data, count):
        """Sends `data`, reads `count` bytes, and returns the seconds that both took."""
        begin = time.perf_counter()
        sender = threading.Thread(target=self.write, args=(data,))
        sender.start()
        left = count
        last = b""
        while left > 0:
            part = os.read(self.child.stdout.fileno(), min(left, 1 << 16))
            if not part:
                sys.exit("the session ended early")
            left -= len(part)
            last = part
        seconds = time.perf_counter() - begin
        sender.join()
        if last[-1:] != data[-1:] and last[-1:] != b"\n":
            sys.exit("the last reply is cut")
        return seconds

    def write(self, data):
        view = memoryview(data)
        while view:
            view = view[os.write(self.child.stdin.fileno(), view[: 1 << 16]):]

    def peak(self):
        """The most memory that the child has held since it began, in KiB."""
        with open(f"/proc/{self.child.pid}/status") as status:
            return next(int(line.split()[1]) for line in status if line.startswith("VmHWM"))

    def close(self):
        self.child.stdin.close()
        self.child.wait()


def put(basis, path, body):
    return b"put %d %s %d\n" % (basis, path, len(body)) + body


def done(number):
    return b"ok %d 0\n" % number


def path_of(index):
    return b"f%d/x%d.go" % (index % 64, index)


def puts(first, count, files, size):
    """`count` puts of `size` bytes, in turn over so many files, and their replies."""
    asked, told = [], []
    for index in range(count):
        number = first + index
        body = (b"%08d" % number).ljust(size, b"x")
        asked.append(put(number, path_of(index % files), body))
        told.append(done(number + 1))
    return b"".join(asked), b"".join(told)


def looks(count):
    return b"look\n" * count, b"ok 0 14\nundo 0 redo 0\n" * count


def pairs(count, number):
    return (b"undo %d\nredo %d\n" % (number, number - 1)) * count, (done(number - 1) + done(number)) * count


def measure(program, name, setup, load):
    session = Piped([program, "run"])
    session.send(setup[0], len(setup[1]))
    seconds = session.send(load[0], len(load[1]))
    peak = session.peak()
    session.close()
    size = len(load[0]) + len(load[1])
    copied = min(copy_time(b"x" * size) for _ in range(3))
    print(f"{name:<44} {seconds * 1000:10.1f} ms {copied * 1000:10.1f} ms {seconds / copied:8.1f} x {peak / 1024:8.1f} MiB")
    sys.stdout.flush()


def copy_time(data):
    pipe = Piped(["cat"])
    seconds = pipe.send(data, len(data))
    pipe.close()
    return seconds


def main(program):
    nothing = b"", b""
    print(f"{'load':<44} {'session':>13} {'copying':>13} {'ratio':>10} {'peak':>12}")
    measure(program, "100,000 looks", nothing, looks(100_000))
    for files in (1, 256, 4096):
        measure(program, f"10,000 puts of 1 KiB, {files} files", puts(0, files, files, 1024), puts(files, 10_000, files, 1024))
    measure(program, "100 puts of 1 MiB", nothing, puts(0, 100, 1, 1 << 20))
    for size in (1024, 1 << 20):
        measure(program, f"10,000 undo and redo, a text of {size} bytes", puts(0, 2, 1, size), pairs(10_000, 2))


if __name__ == "__main__":
    if len(sys.argv) != 2:
        sys.exit(__doc__)
    main(sys.argv[1])
