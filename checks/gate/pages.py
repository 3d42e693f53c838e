"""Has the kernel give programs large pages while the gate runs. A proof goes through much memory, and finds it sooner by fewer, larger pages.

The kernel gives them to each program that asks for memory, as its file `enabled` says: `always`, or only where a program advises it. Only root
may write there. Where the gate may not, the proofs run as before.
"""
import contextlib
import re

ENABLED = "/sys/kernel/mm/transparent_hugepage/enabled"


def chosen():
    """The word that the kernel's file has in brackets, or None."""
    try:
        with open(ENABLED, encoding="ascii") as file:
            word = re.search(r"\[(\w+)\]", file.read())
    except OSError:
        return None
    return word and word[1]


def choose(word):
    """Writes a word to the kernel's file, and says whether it took it."""
    try:
        with open(ENABLED, "w", encoding="ascii") as file:
            file.write(word)
    except OSError:
        return False
    return True


@contextlib.contextmanager
def large_pages():
    """Large pages for all programs. Behind it the kernel's file says what it said before."""
    before = chosen()
    is_set = before not in (None, "always") and choose("always")
    try:
        yield
    finally:
        if is_set:
            choose(before)
