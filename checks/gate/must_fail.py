"""How the gate tries a crate's must-fail edits.

rt ci tries the only edit of a crate by a check of all of it, and several edits over a proof of the crate, each by a check that loads as much
again. Here edits that change different functions of a crate are tried together, by one check of these functions alone. No two of them may
change functions of one cycle of calls, which has one proof. Every other function of the crate, which was proved as it stands, is given by its
contract. What this check refuses of a function, the whole crate's check refuses. An edit that is not refused so, or that changes something
else, is tried by a check of the whole crate.

gate.py has rt ci try edits in this way. A function is named by its path below its crate, as in `module::Type::function`.
"""
import json
import os
import re
import shutil
import subprocess
import tempfile
import threading

# How a function of a file begins, one in a cycle of calls, and how a check of some functions ends.
FUNCTION = re.compile(r"^ *(?:pub(?:\(\w+\))? )?(?:unsafe )?fn (\w+)", re.MULTILINE)
IN_CYCLE = re.compile(r"#\[cycle\((\w+)\)\]\s*(?:#\[.*\]\s*)*(?:pub(?:\(\w+\))? )?(?:unsafe )?fn (\w+)")
ENDED = re.compile(r"^only=\d+ holes=\d+$", re.MULTILINE)
# A proof's file where none may stand, since the function calls itself and rattle makes its proof.
RESERVED = re.compile(r"^\./(proofs/\S+/Proof\.antt): error\[reserved-name\]", re.MULTILINE)


def functions_of(crate):
    """The functions that a crate's built library holds, by their paths."""
    with open(f"{crate.folder}/out/rlib/{crate.name}.rlib/toolchain/mir.json", encoding="utf-8") as file:
        paths = [path.partition("::") for path, *_ in json.load(file)]
    return [path for name, _, path in paths if name == crate.name and "+" not in path]


def function_at(text, at):
    """The name of the function in whose text a place of a file lies, or none."""
    names = FUNCTION.findall(text, 0, at)
    return names[-1] if names else None


def changed_function(rt, crate, edit):
    """The function in which an edit of one file changes something first, if its name and its module tell it."""
    texts, why = rt.read_edit(edit, crate.folder)
    if why or len(texts) != 1:
        return None
    (path, text), = texts.items()
    with open(f"{crate.folder}/{path}", encoding="utf-8") as file:
        before = file.read()
    name = function_at(before, len(os.path.commonprefix([before, text])))
    module = re.sub(r"^src/|lib\.rt$|\.rt$", "", path).replace("/", "::")
    found = [it for it in functions_of(crate) if it.rpartition("::")[2] == name]
    if len(found) > 1:
        # (a method stands in the module of its type, so this may not tell it)
        found = [it for it in found if it.startswith(f"{module}::")]
    return found[0] if path.startswith("src/") and len(found) == 1 else None


def proved_with(function, cycles):
    """What a function is proved with: the cycle of calls that may have it, or itself."""
    name = function.rpartition("::")[2]
    return next((cycle for cycle, members in cycles.items() if name in members), function)


def rounds_of(rt, crate, edits):
    """Edits of a crate that change one function each, in rounds whose edits change different ones, none of one cycle: for each edit its function."""
    rounds, cycles = [], cycles_in(f"{crate.folder}/src")
    for edit in edits:
        function = changed_function(rt, crate, edit)
        if function is not None:
            own = proved_with(function, cycles)
            free = next((functions for functions in rounds if all(proved_with(it, cycles) != own for it in functions.values())), None)
            if free is None:
                free = {}
                rounds.append(free)
            free[edit] = function
    return rounds


def written(room, texts):
    for path, text in texts.items():
        with open(f"{room}/{path}", "w", encoding="utf-8") as file:
            file.write(text)


def unproved(folder):
    """Takes the proof of a function, or of a cycle of calls, away. What calls it still goes by its contract."""
    os.makedirs(folder, exist_ok=True)
    for name in ("Answers.antt", "Invariants.antt"):
        if os.path.exists(f"{folder}/{name}"):
            os.remove(f"{folder}/{name}")
    written(folder, {"Proof.antt": "-- proved as the crate stands\n"})


def cycles_in(folder):
    """The names of the functions of each cycle of calls in a folder's files, by the cycle's name."""
    cycles = {}
    for at, _, files in os.walk(folder):
        for name in files:
            with open(f"{at}/{name}", encoding="utf-8") as file:
                for cycle, function in IN_CYCLE.findall(file.read()):
                    cycles.setdefault(cycle, set()).add(function)
    return cycles


def leave_unproved(crate, functions, room):
    """Takes the proofs of all functions of a crate away but of these, and of cycles of calls that may have one of these."""
    names, cycles, in_cycles = {it.rpartition("::")[2] for it in functions}, cycles_in(f"{room}/src"), set()
    for at, folders, _ in os.walk(f"{room}/proofs"):
        for cycle in [it[1:] for it in folders if it.startswith("+")]:
            members = cycles.get(cycle, {cycle})
            in_cycles.update(members)
            if not members & names:
                unproved(f"{at}/+{cycle}")
    for function in functions_of(crate):
        if function not in functions and function.rpartition("::")[2] not in in_cycles:
            unproved("/".join([room, "proofs", *function.split("::")]))


def checked_alone(rt, crate, functions):
    """What a check says of the functions that edits change, given by the edits, with all of these edits."""
    with tempfile.TemporaryDirectory(prefix=f"rt-edit-{os.getpid()}-") as room:
        for part in rt.rtlib.PARTS:
            if os.path.isdir(f"{crate.folder}/{part}"):
                shutil.copytree(f"{crate.folder}/{part}", f"{room}/{part}")
        for edit in functions:
            texts, why = rt.read_edit(edit, room)
            written(room, {} if why else texts)
        leave_unproved(crate, functions.values(), room)
        only = [f"--only={function}" for function in functions.values()]
        words = [*rt.rtlib.guarded(), rt.rtlib.RATTLE, "check", *crate.words(["--jobs", "1", "--allow-holes", *only], keeps=False)]
        how = {"cwd": room, "stdin": subprocess.DEVNULL, "stdout": subprocess.PIPE, "stderr": subprocess.STDOUT, "errors": "replace"}
        said = subprocess.run(words, **how).stdout
        reserved = RESERVED.findall(said)
        for path in reserved:
            os.remove(f"{room}/{path}")
        return subprocess.run(words, **how).stdout if reserved else said


def refusal_of(said, function, cycles):
    """What a check says of a changed function, if it refuses it for itself: since a goal of it is open or an answer of it fails, and not since what it
    calls or cites was not proved. It tells nothing else."""
    lines = re.findall(rf"^fn \w+::{function}: (.*)", said, re.MULTILINE)
    if not ENDED.search(said) or len(lines) != 1:
        return ""
    name = function.rpartition("::")[2]
    if lines[0].startswith("no proof: expected answers"):
        return f"{name}: {lines[0]}"
    folders = [name, *(rf"\+{it}" for it in [name, *(cycle for cycle, members in cycles.items() if name in members)])]
    failed = re.findall(rf"^(?:\./)?proofs/(?:\S*/)?(?:{'|'.join(folders)})/\w+\.antt:\d+:\d+: error: (.*)", said, re.MULTILINE)
    failed = [it for it in failed if "was not admitted" not in it]
    return f"{name}: {failed[0]}" if lines[0].startswith("not proved") and failed else ""


def tried_together(rt, crate, edits):
    """What is said of each edit of a crate that is refused beside its others."""
    told, cycles = {}, cycles_in(f"{crate.folder}/src")
    for functions in rounds_of(rt, crate, edits):
        said = checked_alone(rt, crate, functions)
        for edit, function in functions.items():
            why = refusal_of(said, function, cycles)
            if why:
                told[edit] = f"must-fail {crate.name}/{os.path.basename(edit)}: refused, as it must be: {why[:160]}"
    return told


def edits_together(rt):
    """Ways to add the tasks that try a crate's edits and to try one, for rt's own: the first task tries those together that change different
    functions, and each tells of its own edit, or tries that by itself, as if it were the crate's only one."""
    own_add, own_try = rt.add_edits, rt.must_fail
    asked, told, alone = {}, {}, {}

    def add_edits(tasks, crate, edits, *others):
        asked[crate.name], alone[crate.name] = edits, threading.Lock()
        parts = []
        for number, edit in enumerate(edits):
            added = {}
            parts.append(own_add(added, crate, [edit], *others))
            for key, (waits, *rest) in added.items():
                tasks[*key[:-1], number] = ([*waits, (crate.name, "edits", 0)] if number else waits, *rest)

        def results(given):
            return [told_of({(crate.name, "edits", 0): given[crate.name, "edits", number]})[0] for number, (told_of, _) in enumerate(parts)]

        def known():
            return {number: known_of()[0] for number, (_, known_of) in enumerate(parts) if known_of()}

        return results, known

    def must_fail(crate, edit, flags, kept=None):
        with alone[crate.name]:
            if crate.name not in told:
                told[crate.name] = tried_together(rt, crate, asked[crate.name])
        if edit in told[crate.name]:
            return rt.REFUSED, told[crate.name][edit]
        return own_try(crate, edit, flags, kept)

    return add_edits, must_fail


def edits_of_crate_together(rt):
    """A way to try all edits of a crate, for that of a kit whose gate tries them in one call: first together, then those that are left in rt's way."""
    own_try = rt.must_fail_all

    def must_fail_all(crate, edits, flags):
        told = tried_together(rt, crate, edits)
        left = [it for it in edits if it not in told]
        others = dict(zip(left, own_try(crate, left, flags)))
        return [(True, told[it]) if it in told else others[it] for it in edits]

    return must_fail_all
