"""Has the prover try the further edits of crates, and says which it refused: python3 -m checks.gate.further_edits CRATE..

It runs at the top of a copy of the tree (further_edits.sh makes one) and tries the edits of crates/CRATE/further-edits: together, by a check
of the functions that they change, as the gate does (must_fail.py). An edit that this check does not refuse is tried by a check of its own
function alone, then by one of its whole crate. First these functions are checked with no edit made, and none of them may be refused.
"""
import glob
import os
import shutil
import sys

sys.dont_write_bytecode = True

from checks.gate import gate, must_fail

ONE = ["--jobs", "1"]


def refused_by(rt):
    """What rt answers of an edit that the prover refuses: at once, or at the limit of its search. Kit 13b answers true of both."""
    return getattr(rt, "REFUSED", True), getattr(rt, "AT_LIMIT", True)


def refused_unedited(rt, crate, edits):
    """The functions that edits change and that a check refuses in which no edit is made."""
    functions = {name: name for each in must_fail.rounds_of(rt, crate, edits) for name in each.values()}
    own = rt.read_edit
    rt.read_edit = lambda *_: ({}, None)
    said = must_fail.checked_alone(rt, crate, functions) if functions else ""
    rt.read_edit = own
    cycles = must_fail.cycles_in(f"{crate.folder}/src")
    return [name for name in functions if must_fail.refusal_of(said, name, cycles)]


def refused_together(rt, crate, edits):
    """What a check says of each edit that it refuses, by checks of the functions that they change. Edits of which a check says nothing, as where
    one of them is no code, are tried by halves."""
    told = must_fail.tried_together(rt, crate, edits)
    left = [edit for edit in edits if edit not in told]
    if len(edits) > 1 and left:
        half = (len(left) + 1) // 2
        told.update(refused_together(rt, crate, left[:half]))
        told.update(refused_together(rt, crate, left[half:]))
    return told


def tried(rt, crate, edits):
    """Whether each edit was refused, and what the check says of it."""
    told = refused_together(rt, crate, edits)
    for edit in edits:
        yield (refused_by(rt)[0], told[edit]) if edit in told else rt.must_fail(crate, edit, ONE)


def main(names):
    rt = gate.load(os.path.realpath(shutil.which("rt")))
    failed = False
    for crate in rt.rtlib.crates_below(os.getcwd()):
        if crate.name not in names:
            continue
        if any(it.build_rlib(ONE, anew=False) for it in [*crate.below(), crate]):
            return 1
        edits = sorted(glob.glob(f"{crate.folder}/further-edits/*.edit"))
        for name in refused_unedited(rt, crate, edits):
            print(f"{crate.name}: {name} is refused with no edit made", flush=True)
            failed = True
        for kind, text in tried(rt, crate, edits):
            print(text, flush=True)
            failed = failed or kind not in refused_by(rt)
    return 1 if failed else 0


if __name__ == "__main__":
    sys.exit(main(sys.argv[1:]))
