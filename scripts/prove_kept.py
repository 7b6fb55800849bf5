#!/usr/bin/env python3
"""prove_kept.py [--tests] [--edits] [--all-edits] [--lanes N] [CRATE..]

Proves the crates of this repository as `rt ci` does, several side by side, and keeps what is proved, so that a second run proves only what
changed since, and what stands on it. It is for versions of the toolchain whose `rt ci` keeps nothing; the gate itself is `rt ci`.
With crates, only these and all that they stand on. With --tests it proves and runs their tests too, with --edits it has their must-fail edits refused,
with --all-edits those of edits/CRATE/ as well, which the gate leaves out for its time.
A result holds for the checksum of all that it was made from; results are in out/kept.json of each crate, what was said in out/kept.KIND.log.
While it runs files may be changed: what failed is tried again as soon as a file of it, or of what it stands on, has another text.
Status 1 where something failed.
"""
import argparse
import copy
import functools
import glob
import hashlib
import importlib.machinery
import importlib.util
import json
import os
import shutil
import subprocess
import sys
import time
from concurrent.futures import FIRST_COMPLETED, ThreadPoolExecutor, wait

TOP = os.path.dirname(os.path.dirname(os.path.abspath(__file__)))
KINDS = ("proof", "tests", "edits")


def toolchain():
    """The toolchain's own commands, as modules: `rt` and the library that it stands on."""
    command = os.path.realpath(shutil.which("rt"))
    sys.path.insert(0, os.path.dirname(command))
    loader = importlib.machinery.SourceFileLoader("rt", command)
    rt = importlib.util.module_from_spec(importlib.util.spec_from_loader("rt", loader))
    loader.exec_module(rt)
    rt.rtlib.Crate = rt.Crate
    rt.Crate.allowed = rt.handles_of(TOP)
    # a crate's proof loads the statements of those below it, as under rt ci
    rt.Crate.cuts_libraries = True
    rt.rtlib.guarded()
    # the crates below one are found once, and not again on each way to it
    rt.rtlib.Crate.below = functools.lru_cache(maxsize=None)(rt.rtlib.Crate.below)
    return rt


def edits_of(rt, crate, with_others):
    """The edits that are to be refused: those of the gate, and with the others those that it leaves out."""
    others = sorted(glob.glob(f"{TOP}/edits/{crate.name}/*.edit")) if with_others else []
    return rt.edits_of(crate)[0] + others


def checksums(rt, crates, with_others):
    """By crate and kind, the checksum of all that a result is made from. Crates stand behind those that they use."""
    found, proofs = {}, {}
    for crate in crates:
        summed = hashlib.sha256(repr((sorted(crate.of_kit), [proofs[it.name] for it in crate.deps])).encode())
        for file in rt.rtlib.files_of(crate.folder):
            with open(file, "rb") as text:
                summed.update(repr((os.path.relpath(file, crate.folder), text.read())).encode())
        proofs[crate.name] = summed.hexdigest()
        for edit in edits_of(rt, crate, with_others):
            with open(edit, "rb") as text:
                summed.update(text.read())
        found[crate.name] = {kind: summed.hexdigest() if kind == "edits" else proofs[crate.name] for kind in KINDS}
    return found


def kept_of(crate):
    try:
        with open(f"{crate.folder}/out/kept.json", encoding="utf-8") as file:
            return json.load(file)
    except (OSError, ValueError):
        return {}


def is_kept(crate, kind, sums):
    there = kind != "proof" or crate.is_program or os.path.isdir(crate.rlib)
    return there and kept_of(crate).get(kind) == sums[crate.name][kind]


def prove(rt, crate):
    """Proves a library and builds it for the crates above it, or proves a program and runs it as each compiler builds it."""
    if crate.is_program:
        well = crate.ci(["--jobs", "1"], False) == 0
        endings = [it for it in rt.BACKENDS.values() if os.path.isfile(f"{crate.folder}/out/{crate.name}{it}")]
        return well and all(rt.run(crate, False, it) for it in endings)
    folder = os.path.dirname(crate.rlib)
    shutil.rmtree(folder, ignore_errors=True)
    os.makedirs(folder)
    words = crate.words(["--jobs", "1"], keeps=False)
    return crate.prove(["build", *words, "--statements", "-o", crate.rlib]) == 0


def refuse(rt, crate, edits):
    tried = rt.must_fail_all(crate, edits, ["--jobs", "1"])
    print("\n".join(text for _, text in tried), file=crate.out)
    return not rt.edits_of(crate)[1] and all(refused for refused, _ in tried)


def work(rt, crate, kind, sums, with_others):
    """Does one piece of work, keeps it if it went well, and returns whether it did."""
    begun, crate = time.time(), copy.copy(crate)
    os.makedirs(f"{crate.folder}/out", exist_ok=True)
    with open(f"{crate.folder}/out/kept.{kind}.log", "w", encoding="utf-8") as crate.out:
        if kind == "proof":
            well = prove(rt, crate)
        elif kind == "tests":
            well = crate.ci(["--jobs", "1"], True) == 0 and rt.run(crate, True)
        else:
            well = refuse(rt, crate, edits_of(rt, crate, with_others))
    if well:
        kept = {**kept_of(crate), kind: sums[crate.name][kind]}
        with open(f"{crate.folder}/out/kept.json", "w", encoding="utf-8") as file:
            json.dump(kept, file)
    print(f"{time.strftime('%H:%M:%S')} {crate.name} {kind}: {'well' if well else 'FAILED'}, {time.time() - begun:.0f} s", flush=True)
    return well


def lines_behind(crates):
    """By crate, the lines of the longest chain of crates that stand on it, itself included: the longest chain goes first."""
    behind = {}
    for crate in reversed(crates):
        behind[crate.name] = behind.get(crate.name, 0) + crate.count(rb"\n")
        for below in crate.deps:
            behind[below.name] = max(behind.get(below.name, 0), behind[crate.name])
    return behind


def main():
    parser = argparse.ArgumentParser(description=__doc__, formatter_class=argparse.RawDescriptionHelpFormatter)
    parser.add_argument("crates", nargs="*", metavar="CRATE")
    parser.add_argument("--tests", action="store_true")
    parser.add_argument("--edits", action="store_true")
    parser.add_argument("--all-edits", action="store_true")
    parser.add_argument("--lanes", type=int, default=len(os.sched_getaffinity(0)))
    given = parser.parse_args()
    os.chdir(TOP)
    rt = toolchain()
    crates = sorted(rt.rtlib.crates_below(TOP), key=lambda it: len(it.below()))
    asked = [it for it in crates if not given.crates or it.name in given.crates]
    crates = [it for it in crates if it in asked or any(it in above.below() for above in asked)]
    behind = lines_behind(crates)
    wanted = [(it, "proof") for it in sorted(crates, key=lambda it: -behind[it.name])]
    wanted += [(it, "tests") for it in asked if given.tests and it.has_tests()]
    if given.edits or given.all_edits:
        wanted += [(it, "edits") for it in asked if edits_of(rt, it, given.all_edits)]
    failed, running = {}, {}
    with ThreadPoolExecutor(given.lanes) as pool:
        while True:
            # files may have changed since: what failed before is tried again where they have
            sums = checksums(rt, crates, given.all_edits)
            done = {(it.name, kind) for it in crates for kind in KINDS if is_kept(it, kind, sums)}
            left = [(it, kind) for it, kind in wanted if (it.name, kind) not in done]
            bad = [(it, kind) for it, kind in left if failed.get((it.name, kind)) == sums[it.name][kind]]
            for crate, kind in left:
                stands = crate.below() if kind == "proof" else [*crate.below(), crate]
                is_new = (crate, kind) not in bad and (crate, kind) not in [begun[:2] for begun in running.values()]
                if is_new and len(running) < given.lanes and all((it.name, "proof") in done for it in stands):
                    running[pool.submit(work, rt, crate, kind, sums, given.all_edits)] = crate, kind, sums[crate.name][kind]
            if not running:
                break
            for it in wait(running, timeout=30, return_when=FIRST_COMPLETED).done:
                crate, kind, begun = running.pop(it)
                if not it.result():
                    failed[crate.name, kind] = begun
    names = ", ".join(f"{it.name} {kind}" for it, kind in bad)
    print(f"{len(wanted) - len(left)} well, {len(bad)} failed{': ' if bad else ''}{names}; {len(left) - len(bad)} not tried")
    return 1 if left else 0


if __name__ == "__main__":
    sys.exit(main())
