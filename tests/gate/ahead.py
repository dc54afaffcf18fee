#!/usr/bin/env python3
"""Proves all crates from nothing, side by side, and then in their order.

usage: tests/gate/ahead.py

A check of a crate needs the statements of the crates below it, not their proofs. So the order of
crates need not be the order of proofs. First each crate is proved from nothing against the
statements that an earlier gate on this machine kept of the crates below, all at once. What that
proves is: if the crates below have these statements, so has the crate its own. Each such proof is
kept by the sum of the crate's own files and of the libraries that it assumed. Then `rt ci` goes
through the crates in their order. It takes such a proof where the libraries below, as they were now
proved, are byte for byte those that it assumed, and proves the crate again where they are not. So,
crate by crate from below, nothing is left that was assumed. No verdict of an earlier run counts:
both parts use a store of their own, which begins empty. The bytes of a library are a function of
its sources and of the libraries below (two builds are equal, also with another number of
processes), else the second part would prove all again, and lose time but nothing else.

Where no earlier gate has kept libraries, only the second part has work to do.
"""
import contextlib
import copy
import hashlib
import json
import os
import shutil
import sys
import tempfile

from kit import command, look_for, read_verdict, write_verdict

TOP = os.path.dirname(os.path.dirname(os.path.dirname(os.path.abspath(__file__))))


def newest(store, crate):
    """What the newest proof that the store holds of a crate made: its folder, and its files, each
    with its sum."""
    found = [
        os.path.join(store, name)
        for name in os.listdir(store)
        if name.startswith(f"proof-{crate.name}-")
    ]
    for path in sorted(found, key=os.path.getmtime, reverse=True):
        with contextlib.suppress(OSError, ValueError, KeyError), open(
            os.path.join(path, "made.json"), encoding="utf-8"
        ) as file:
            return path, [tuple(it) for it in json.load(file)["files"]]
    return None


def assume(rt, kept, store, crate):
    """Puts the library that an earlier gate made of a crate into its folder. Whether there is
    one."""
    found = newest(store, crate)
    if found is None:
        return False
    place, files = found
    for number, (path, _) in enumerate(files):
        to = os.path.join(crate.folder, "out", path)
        os.makedirs(os.path.dirname(to), exist_ok=True)
        rt.link_or_copy(os.path.join(place, str(number)), to)
    kept.is_built(crate)
    return kept.rlibs[crate.name] == hashlib.sha256(repr(files).encode()).hexdigest()


def prove(kept, crate, folder, jobs):
    """Proves a crate in a folder of its own, over libraries that are assumed, and keeps what that
    made."""
    work = copy.copy(crate)
    work.folder, work.rlib = folder, os.path.join(folder, "out", "rlib", f"{crate.name}.rlib")
    shutil.copytree(crate.folder, folder, ignore=shutil.ignore_patterns("out"))
    os.makedirs(os.path.join(folder, "out"))
    key, kept.first[crate.name] = kept.key(work), kept.touch(work)
    with tempfile.TemporaryFile("a+", errors="replace") as work.out:
        status = work.ci(["--jobs", str(jobs)], False)
    if not status:
        kept.keep(work, False, key)
    print(
        f"{crate.name}: {'proved' if not status else 'not proved'} over the statements of an "
        "earlier gate",
        flush=True,
    )
    return not status


def side_by_side(rt, store):
    """Proves each crate over the libraries that an earlier gate kept of those below it."""
    with tempfile.TemporaryDirectory(prefix="ahead-") as room:
        rt.copy_crates(TOP, os.path.join(room, "repo"))
        os.mkdir(os.path.join(room, "repo", ".git"))
        os.chdir(os.path.join(room, "repo"))
        try:
            crates = rt.crates_of(os.getcwd())
            kept = rt.Kept(crates)
            kept.touch = rt.touched
            assumed = {
                crate.name
                for crate in crates
                if crate.makes_rlib() and assume(rt, kept, store, crate)
            }
            tasks = {}
            for crate in crates:
                if all(it.name in assumed for it in crate.below()):
                    folder = os.path.join(room, "work", crate.name)
                    call = lambda given, jobs, crate=crate, folder=folder: prove(
                        kept, crate, folder, jobs
                    )
                    tasks[crate.name, "proof"] = ([], crate.count(rb"\n"), rt.need(crate), call)
            rt.in_lanes(tasks)
        finally:
            os.chdir(TOP)


def main():
    rt = command()
    look_for(
        rt,
        "rt",
        "STORE",
        "Kept",
        "in_lanes",
        "copy_crates",
        "crates_of",
        "handles_of",
        "link_or_copy",
        "need",
        "touched",
    )
    os.chdir(TOP)
    earlier = rt.STORE
    with tempfile.TemporaryDirectory(prefix="rt-anew-", dir=os.path.dirname(earlier)) as store:
        rt.STORE = store
        rt.Crate.cuts_libraries, rt.Crate.allowed = True, rt.handles_of(TOP)
        rt.rtlib.guarded()
        if os.path.isdir(earlier):
            side_by_side(rt, earlier)
        status = rt.main(["ci"])
        if not status:
            hand_over(store, earlier)
    return status


def hand_over(store, earlier):
    """Gives the machine's store what was proved from nothing, for the runs after this one."""
    os.makedirs(earlier, 0o700, exist_ok=True)
    for name in os.listdir(store):
        made, there = os.path.join(store, name), os.path.join(earlier, name)
        if not name.startswith(("proof-", "tests-")):
            continue
        if not os.path.exists(there):
            os.rename(made, there)
        elif verdict := read_verdict(os.path.join(made, "verdict")):
            write_verdict(os.path.join(there, "verdict"), verdict)


if __name__ == "__main__":
    sys.exit(main())
