"""Runs rt ci with some things done otherwise, none of which changes what is proved or refused: python3 -m checks.gate.gate

Sums: kit 13b sums up the sources of a library once for each path of crates.txt that leads to it. That is over a million times here, and
takes hours. Here the sum and the libraries of each crate are found once in a run.

Order: a gate takes at least as long as its longest chain of crates. rt measures a chain in lines, plans for more memory than proofs take,
and may give each proof one processor. Here a chain is measured by the seconds of checks/gate/seconds.txt. The proof with the longest chain
above it has two processors, where that chain may take longer than what is left for each processor. Every other proof has one: with more it
may take up to twice the processor time beside other proofs.

Edits: each is tried by a check of the functions that it changes (must_fail.py).

Memory: the prover keeps what it frees, so it takes less than half as many pages from the kernel. These are large, where root runs it
(pages.py).

Layout: rt ci refuses a crate with a file that rt fmt lays out otherwise, before it proves it. Here all crates are asked before the first
proof, while rt reads them.

The program: where rt runs a build of gorefd, that build also runs all of crates/gorefd/sessions (replay.py) and the checks of
checks/server/program.py and checks/attack/program.py. A different answer fails the run of the program, so the gate fails, and its last line
says so. Before rt begins, each stored session has to have its two files. checks/gate.sh runs this script.
"""
import functools
import importlib.machinery
import importlib.util
import inspect
import os
import shutil
import subprocess
import sys
import tempfile
from concurrent.futures import FIRST_COMPLETED, ThreadPoolExecutor, wait

sys.dont_write_bytecode = True

from checks import TOP
from checks.gate import must_fail, replay
from checks.gate.pages import large_pages

# More memory than a proof was seen to take, in bytes.
MEMORY_OF_ONE = 4_000_000_000
PROCESSORS_OF_THE_FIRST = 2
# Has the prover keep the memory that it frees, as its allocator (mimalloc) calls it: to take it from the kernel again costs 2 % of a proof.
KEEPS_FREED = ("MIMALLOC_PURGE_DELAY", "-1")
# A chain is long that takes more than this part of what is left for each processor.
LONG = 0.8
SECONDS = TOP / "checks" / "gate" / "seconds.txt"
PROGRAM = "gorefd"
# What each build of the program is asked beside the stored sessions.
CHECKS = ("checks.server.program", "checks.attack.program")


def load(path):
    loader = importlib.machinery.SourceFileLoader("rt", path)
    module = importlib.util.module_from_spec(importlib.util.spec_from_loader("rt", loader))
    sys.modules["rt"] = module
    loader.exec_module(module)
    return module


class OutOfLayout(Exception):
    """Names the crates with a file that rt fmt would lay out otherwise."""


def once(method):
    """A method of a crate, asked once for each folder and arguments."""
    known = {}

    @functools.wraps(method)
    def asked(crate, *words):
        if (crate.folder, *words) not in known:
            known[crate.folder, *words] = method(crate, *words)
        return known[crate.folder, *words]

    return asked


def known_seconds():
    """What each task took, by crate and kind: lines `crate kind seconds`."""
    with open(SECONDS, encoding="utf-8") as file:
        words = [line.split() for line in file if line.strip() and not line.startswith("#")]
    return {(crate, kind): int(seconds) for crate, kind, seconds in words}


def seconds_of(tasks):
    """What each task took, or by its lines."""
    known = known_seconds()
    return {key: known.get(key, task[1] // 10) for key, task in tasks.items()}


def behind_each(tasks, seconds):
    """How many seconds the longest chain takes that begins with each task. A task stands after those that it waits for."""
    behind = dict.fromkeys(tasks, 0)
    for key in reversed([*tasks]):
        behind[key] += seconds[key]
        for it in tasks[key][0]:
            behind[it] = max(behind[it], behind[key])
    return behind


def processors():
    return len(os.sched_getaffinity(0))


def lanes_at_once():
    """How many proofs with one processor each are run at a time, as far as memory holds them: one more than there are processors, since
    a proof that was given two leaves one idle for a part of its time. With two processors hardly any is given more than one."""
    with open("/proc/meminfo", encoding="utf-8") as file:
        free = next(1024 * int(line.split()[1]) for line in file if line.startswith("MemAvailable:"))
    more = 1 if processors() > 2 else 0
    return max(1, min(processors() + more, free // MEMORY_OF_ONE))


def lanes_of(rt, layout):
    """A way to run tasks side by side, for rt's own: what they wait for and what they give is the same. No task begins before it is known that
    no crate is out of layout."""
    own = rt.in_lanes

    def in_lanes(tasks):
        stop_out_of_layout(layout)
        lanes = lanes_at_once()
        if any(len(task) != 4 or len(inspect.signature(task[3]).parameters) < 2 for task in tasks.values()):
            # a kit whose tasks are of another form
            os.environ["RT_JOBS"] = str(lanes)
            return own(tasks)
        seconds = seconds_of(tasks)
        behind = behind_each(tasks, seconds)
        left = sorted(tasks, key=lambda it: -behind[it])
        running, given = {}, {}
        with ThreadPoolExecutor(lanes) as pool:
            while left or running:
                for key in [it for it in left if all(below in given for below in tasks[it][0])]:
                    idle = lanes - sum(jobs for _, jobs in running.values())
                    if idle < 1:
                        break
                    is_first = key[1] == "proof" and behind[key] >= 0.99 * behind[left[0]]
                    is_long = behind[key] > LONG * sum(seconds[it] for it in left) / processors()
                    most = max(idle, processors() - 1)
                    jobs = min(most, PROCESSORS_OF_THE_FIRST) if is_first and is_long else 1
                    left.remove(key)
                    running[pool.submit(tasks[key][3], given, jobs)] = key, jobs
                for it in wait(running, return_when=FIRST_COMPLETED).done:
                    given[running.pop(it)[0]] = it.result()
        return given

    return in_lanes


def answers_sessions(rt, program):
    """Runs the stored sessions on a copy of the program, as rt runs programs: as nobody, if it is root. It tells of each that differs."""
    sessions, name = replay.stored(), os.path.basename(program)
    with tempfile.TemporaryDirectory() as room:
        os.chmod(room, 0o711)
        copy = shutil.copy(program, room)
        os.chmod(copy, 0o755)
        lines = replay.differences([*rt.drop_to_nobody(), copy, "run"], sessions)
    for line in [*lines, f"{len(sessions)} stored sessions, {len(lines)} differ"]:
        rt.say(f"{name}: {line}")
    return bool(sessions) and not lines


def passes_checks(rt, program, module):
    """Runs the checks of a module on the program. It tells of all of them where one fails."""
    words = [sys.executable, "-B", "-m", module, os.path.abspath(program)]
    ran = subprocess.run(words, cwd=TOP, stdout=subprocess.PIPE, text=True)
    lines = ran.stdout.splitlines()
    for line in lines if ran.returncode else lines[-1:]:
        rt.say(f"{os.path.basename(program)}: {line}")
    return ran.returncode == 0


def with_checks(rt, asked):
    """A way to run what a crate's proof built, for rt's own: with the stored sessions and the checks behind it where that is the program. The
    builds that were run on them are added to the list `asked`."""
    own = rt.run

    def run(crate, tests, ending=""):
        is_well = own(crate, tests, ending)
        if crate.name != PROGRAM or tests or not is_well:
            return is_well
        asked.append(ending)
        program = f"{crate.folder}/out/{crate.name}{ending}"
        # all are to be told of
        return all([answers_sessions(rt, program), *(passes_checks(rt, program, module) for module in CHECKS)])

    return run


def out_of_layout(rt):
    """The crates with a file that rt fmt would lay out otherwise. rt ci asks it of each crate right before it is proved, which may be late."""
    crates = TOP / "crates"
    return [name for name in sorted(os.listdir(crates)) if rt.rtlib.fmt(os.path.join(crates, name), "--check", sys.stdout)]


def stop_out_of_layout(layout):
    """Ends a run where a crate is out of layout, as soon as it is known whether one is."""
    if layout.result():
        raise OutOfLayout(", ".join(layout.result()))


def main():
    lacking = replay.lacking()
    if lacking:
        # found here, and not behind the last proof
        print(f"stored sessions lack {', '.join(lacking)}\n0 passed, {len(lacking)} failed")
        return 1
    rt = load(os.path.realpath(shutil.which("rt")))
    os.environ.setdefault(*KEEPS_FREED)
    asked = []
    rt.run = with_checks(rt, asked)
    if hasattr(rt, "must_fail") and hasattr(rt, "add_edits"):
        rt.add_edits, rt.must_fail = must_fail.edits_together(rt)
    elif hasattr(rt, "must_fail_all"):
        rt.must_fail_all = must_fail.edits_of_crate_together(rt)
    crate = rt.rtlib.Crate
    crate.stamp, crate.below, crate.count = once(crate.stamp), once(crate.below), once(crate.count)
    # (its first call sets a signal's handler, which only the main thread may)
    rt.rtlib.guarded()
    with large_pages(), ThreadPoolExecutor(1) as beside:
        layout = beside.submit(out_of_layout, rt)
        try:
            if hasattr(rt, "in_lanes"):
                rt.in_lanes = lanes_of(rt, layout)
            else:
                stop_out_of_layout(layout)
                os.environ["RT_JOBS"] = str(lanes_at_once())
            status = rt.main(["ci"])
        except OutOfLayout as wrong:
            print(f"rt fmt lays out files of {wrong} otherwise\n0 passed, {len(layout.result())} failed")
            return 1
    if not status and not asked:
        print(f"no stored session was run on {PROGRAM}\n0 passed, 1 failed")
        return 1
    return status


if __name__ == "__main__":
    sys.exit(main())
