"""Prints the prover's time by crate and function, read from what `rt check --jobs 1` leaves in the out/ folders.

    (cd crates/NAME && rm -rf out/incremental && rt check --jobs 1)     for each crate to be measured
    python3 -m checks.gate.gate_times [CRATE..]

The prover saves each module as soon as it is checked, so a module's time is what passed since the module before it was saved. For each crate
with kept work it prints the seconds, the seconds a line of Rust, and each function that took over 5 s (or over --over N). It marks crates
over 0.15 s a line. Kept work of several checks, or of more jobs than one, has no such times. Gaps of over ten minutes are left out, and
counted.
"""
import collections
import re
import sys

from checks import TOP

SLOW_FUNCTION = 5.0
SLOW_LINE = 0.15
PAUSE = 600.0


def lines_of(crate):
    return sum(len(file.read_bytes().splitlines()) for file in (crate / "src").rglob("*.rt"))


def owner(name, crate):
    """The function that a saved module belongs to, as file::function, or the lemma file that it is."""
    name = re.sub(rf"^Rattle-{crate}-", "", name)
    part, _, path = name.partition(".")
    path = re.sub(r"\.[A-Z][A-Za-z]*(-[0-9-]+)?$", "", path)
    return f"{path.replace('.', '::') or part} ({part})"


def times_of(crate):
    """Seconds by function, and the pauses that were left out."""
    saved = []
    for folder in (crate / "out" / "incremental").glob("*"):
        for file in folder.glob(f"Rattle-{crate.name}-*.oantt"):
            saved.append((file.stat().st_mtime, file.name.removesuffix(".oantt")))
    saved.sort()
    seconds, pauses = collections.Counter(), 0
    for (before, _), (after, name) in zip(saved, saved[1:]):
        if after - before > PAUSE:
            pauses += 1
        else:
            seconds[owner(name, crate.name)] += after - before
    return seconds, pauses


def main(words):
    over = SLOW_FUNCTION
    if "--over" in words:
        at = words.index("--over")
        over = float(words[at + 1])
        del words[at : at + 2]
    crates = [TOP / "crates" / name for name in words] or sorted((TOP / "crates").iterdir())
    found = False
    for crate in crates:
        seconds, pauses = times_of(crate)
        if not seconds:
            continue
        found = True
        whole, lines = sum(seconds.values()), lines_of(crate)
        each = whole / lines
        marks = f"{'  OVER ' + str(SLOW_LINE) if each > SLOW_LINE else ''}{f'  {pauses} pauses left out' if pauses else ''}"
        print(f"{crate.name}: {whole:.0f} s, {lines} lines, {each:.2f} s a line{marks}")
        for name, took in seconds.most_common():
            if took <= over:
                break
            print(f"    {took:6.1f} s  {name}")
    if not found:
        sys.exit("no kept work in crates/*/out/incremental: run `rt check --jobs 1` there first")


if __name__ == "__main__":
    main(sys.argv[1:])
