#!/usr/bin/env python3
"""Tries the mutants: wrong programs, each made by an edit of one crate, which the prover must refuse for what they break.

    scripts/try-mutants.py [CRATE ..]          tries the edits of all crates, or of these
    scripts/try-mutants.py --list [CRATE ..]   says for each public function how many edits break it; fails where they are too few
    scripts/try-mutants.py --self-check        shows on a sample crate that edits which show nothing are noticed

Edits stand in crates/NAME/must-fail (`rt ci` tries these whole, too) and in crates/NAME/mutants. They are written as for `rt must-fail`:

    breaks: fields::is_south            a function or law that must be refused; may stand more than once
    file: src/lib.rt
    old: Position::Absent => false      a text that stands once in the file
    new: Position::Absent => true

An edit of the body or the contract of one function breaks that function, where no `breaks:` names another. In mutants the text may
stand more than once in the file if it stands once in the body of a function that `breaks:` names. A law is named as hears_all, or
Listener.hears_all with its file.

An edit passes only if all that it breaks is refused by an error of its own that states a fact: not for a name that is out of scope,
not because something that it calls or cites is refused, and not because the proof no longer fits the code or a search met its bound.

The crates must be proved. For each crate a room is made: a copy of all crates, with what the crate's proof left in out/, so that
`rt check` checks only what an edit changes. Edits of the bodies of different functions are tried in one run, since a proof
sees no body but its own function's; what such a run does not settle is tried in smaller groups, and then alone.
A public function is one that another crate or C can reach. Edits of functions that only their own crate reaches count for the public
functions that rest on them.
"""
import concurrent.futures
import glob
import os
import re
import shutil
import subprocess
import sys
import tempfile
import time

sys.dont_write_bytecode = True
sys.path.insert(0, os.path.dirname(os.path.abspath(__file__)))
from mutants.edits import edits_of, groups_of
from mutants.room import Room, are_proved
from mutants.sample import SAMPLE, SAMPLE_EDITS
from mutants.sources import Crate

ROOT = os.path.dirname(os.path.dirname(os.path.abspath(__file__)))

# What users are promised: reading and writing by number and in each form (serial only joins forms), search, the listener, and the racks'
# runs; besides, all that is exported to C.
PROMISED = re.compile(r"(?!serial::)(\w+::)+(read|write)|search::search|listener::(\w+::)*(new|feed|mark)|racks::add")
LEAST, LEAST_OF_A_PROMISE = 2, 3


def wrongs_of_group(room, group):
    """For each edit of the group None, or what is wrong with it."""
    log = room.check(group)
    astray = set(log.with_own_errors(room.crate)) - {name for e in group for name in e.bodies}
    beside = f"{', '.join(sorted(astray))} is refused beside it" if astray and len(group) > 1 else None
    return {e: log.wrong_of(e) or beside for e in group}


def wrongs_of(room, edits):
    """For each edit None, or what is wrong with it. Where a function is refused, the proof of one that calls it may not be looked at: what is
    wrong in a group is tried again in groups without such calls, and what is wrong there alone."""
    wrongs, left = {}, edits
    for groups in (lambda es: groups_of(es, lambda e: e.bodies), lambda es: groups_of(es, lambda e: e.bound), lambda es: [[e] for e in es]):
        again = []
        for group in groups(left):
            wrongs |= wrongs_of_group(room, group)
            again += [e for e in group if wrongs[e] and len(group) > 1]
        left = again
    return wrongs


def try_crate(name, root):
    """The lines to print, and how many edits passed and failed."""
    crate = Crate(root, name)
    edits, lines = edits_of(crate)
    if not edits and not lines:
        return [], 0, 0
    room, began = Room(crate, root), time.time()
    try:
        wrongs = wrongs_of(room, edits)
    finally:
        room.close()
    lines += [f"{e.label}: {wrong}" for e, wrong in wrongs.items() if wrong]
    passed = sum(not w for w in wrongs.values())
    ways = f"{room.runs} runs, {time.time() - began:.0f} s, {room.seconds:.0f} processor seconds"
    return lines + [f"{name}: {passed} mutants refused, each for what it breaks ({ways})"], passed, len(lines)


def cost(root, name):
    """A measure of what a crate's mutants cost, to start with the dearest; a program leaves nothing to measure by, and stands on most."""
    kept = glob.glob(f"{root}/crates/{name}/out/incremental/**/*", recursive=True)
    size = sum(map(os.path.getsize, kept)) if kept else 1 << 30
    return size * (1 + len(glob.glob(f"{root}/crates/{name}/mutants/*.edit")))


def try_all(root, crates):
    """Tries the edits of these crates, the dearest first, and returns how many passed and failed."""
    jobs = int(os.environ.get("MUTANT_JOBS", os.cpu_count() or 1))
    if not are_proved(root, crates, jobs):
        print("the crates are not proved: run `rt all check` and mend what it says")
        return 0, 1
    passed = failed = 0
    with concurrent.futures.ThreadPoolExecutor(jobs) as pool:
        order = sorted(crates, key=lambda c: cost(root, c), reverse=True)
        for done in concurrent.futures.as_completed([pool.submit(try_crate, c, root) for c in order]):
            lines, good, bad = done.result()
            print(*lines, sep="\n", end="\n" if lines else "", flush=True)
            passed, failed = passed + good, failed + bad
    return passed, failed


def list_crate(name):
    """A line for each public function of the crate and each edit that cannot be tried, and how many functions and faults there are."""
    crate, few, lines = Crate(ROOT, name), 0, []
    edits, wrongs = edits_of(crate)
    for function in (f for f in crate.by_name.values() if f.public):
        promised = function.exported or PROMISED.fullmatch(function.name)
        broken_by = [e for e in edits if any(function.name in crate.resting_on(n) for n in e.breaks)]
        whole = sum(e.folder == "must-fail" for e in broken_by)
        short = len(broken_by) < (LEAST_OF_A_PROMISE if promised else LEAST) or (promised and not whole)
        few += bool(short)
        marks = (", promised to users" if promised else "") + (", TOO FEW" if short else "")
        lines.append(f"{function.name}: {len(broken_by)} edits, {whole} tried whole{marks}")
    return lines + wrongs, len(lines), few + len(wrongs)


def list_all(crates):
    functions = faults = 0
    for name in crates:
        lines, some, bad = list_crate(name)
        print("\n".join(lines) or f"{name}: no public function")
        functions, faults = functions + some, faults + bad
    print(f"A public function has {LEAST} edits or more; one promised to users {LEAST_OF_A_PROMISE} or more, one of them in must-fail.")
    return max(functions - faults, 0), faults


def self_check():
    """Tries the sample's edits, and holds what is said of each to what must be said."""
    passed = failed = 0
    root = tempfile.mkdtemp(prefix="sample-")
    try:
        files = {f"crates/sample/mutants/{n}.edit": f"file: src/lib.rt\n{e}\n" for n, e, _ in SAMPLE_EDITS}
        for path, text in (SAMPLE | files).items():
            os.makedirs(os.path.dirname(f"{root}/{path}"), exist_ok=True)
            open(f"{root}/{path}", "w", encoding="utf-8").write(text)
        subprocess.run(["rt", "check"], cwd=f"{root}/crates/sample", stdout=subprocess.DEVNULL, check=True)
        lines, good, bad = try_crate("sample", root)
        if good != sum(words is None for _, _, words in SAMPLE_EDITS) or good + bad != len(SAMPLE_EDITS):
            print(f"{good} edits passed and {bad} failed: not all were tried")
            failed += 1
        for name, _, words in SAMPLE_EDITS:
            said = [line for line in lines if line.startswith((f"sample/{name}:", f"sample/mutants/{name}.edit:"))]
            right = words in "".join(said) if words else not said
            passed, failed = passed + right, failed + (not right)
            print(f"{name}: {'as it must be' if right else 'WRONG'}: {''.join(said)[:160] or 'it passes'}")
    finally:
        shutil.rmtree(root, ignore_errors=True)
    return passed, failed


def main():
    words = [w for w in sys.argv[1:] if w.startswith("-")]
    crates = [w for w in sys.argv[1:] if not w.startswith("-")] or sorted(os.listdir(f"{ROOT}/crates"))
    if words not in ([], ["--list"], ["--self-check"]):
        print(__doc__)
        return 2
    unknown = [c for c in crates if not os.path.isdir(f"{ROOT}/crates/{c}/src")]
    if unknown:
        print(f"there is no crate {', '.join(unknown)}")
        return 2
    passed, failed = self_check() if words == ["--self-check"] else list_all(crates) if words else try_all(ROOT, crates)
    print(f"{passed} passed, {failed} failed")
    return 0 if passed and not failed else 1


if __name__ == "__main__":
    sys.exit(main())
