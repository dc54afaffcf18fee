#!/usr/bin/env python3
"""The toolchain's command `rt`, which sums the sources of each crate once where it would do so for
each path between two crates.

usage: tests/gate/kit.py WORD..        as rt WORD..

A crate's stamp is a sum of its sources and of the stamps of the crates that it stands on. `rt`
makes each of those anew wherever it is asked for: for the program, over its fifty crates, those of
64,000 crates. Here a call remembers the stamps that it has made, for as long as it lasts; the next
one makes its own. So every stamp is the same.

`rt ci` runs as many checks side by side as its own estimate of their memory allows, which is three
to four times what they take. Here the estimate is what each crate was measured to take
(bench/costs.txt) and a quarter more. Where COSTS names a file each check is noted there
(tests/gate/noted). What is proved, and in which order, stays as it is.

`rt ci` prints the verdict of a proof that it makes, and none of one that an earlier run made. So
here what is kept of a proof has its verdict as well, in a file `verdict`: the prover's last line,
and the lines that say what it rests on. Where VERDICTS names a file, a line is added for each proof
that counts in this run, made now or kept: CRATE proof|tests: LINE; LINE ..

Other scripts that lean on the inside of the toolchain, which no document promises, ask for it here.
Where something of it is not there they end with a line that tells so; with any toolchain that has
it all they go on.
"""
import contextlib
import importlib.machinery
import importlib.util
import os
import re
import shutil
import subprocess
import sys
import threading

HERE = os.path.dirname(os.path.abspath(__file__))
# What the checks of each crate take, measured before a release.
MEASURED = os.path.join(os.path.dirname(os.path.dirname(HERE)), "bench", "costs.txt")
# A check may take a quarter more than the measured one.
ROOM = 1.25
MB = 1 << 20
# What of a check's output is its verdict: the last line, and those that say what it rests on. How
# they stand in one line.
OF_VERDICT, JOINT = re.compile(r"logic[= ]|statements |by-macro: |axioms |hides "), "; "
NO_VERDICT = "kept from an earlier run, which kept no verdict"
# The toolchains that these scripts were tried with, as `rt version` tells them.
TRIED = "rattle-kit-13b and rattle-kit-13f, logic dac8208d650f15bf"


def end_without(what):
    """Ends where the toolchain has not what a script leans on."""
    told = subprocess.run(
        ["rt", "version"], stdin=subprocess.DEVNULL, stdout=subprocess.PIPE, text=True, check=False
    ).stdout.strip()
    name = os.path.basename(sys.argv[0])
    sys.exit(
        f"{name}: not there in the toolchain: {what}; tried with {TRIED}, and this is "
        f"{told or 'another'}"
    )


def look_for(owner, what, *names):
    """Ends where a part of the toolchain has not all of these."""
    for name in names:
        if not hasattr(owner, name):
            end_without(f"{what}.{name}")


def file_of_rt():
    """The file of the command rt, from whose folder its library is imported then."""
    found = shutil.which("rt")
    if found is None:
        sys.exit(f"{os.path.basename(sys.argv[0])}: there is no command rt")
    file = os.path.realpath(found)
    if not os.path.isfile(os.path.join(os.path.dirname(file), "rtlib.py")):
        end_without("bin/rtlib.py")
    # The toolchain's folder stays as it is.
    sys.dont_write_bytecode = True
    sys.path.insert(0, os.path.dirname(file))
    return file


def library():
    """The library of the command rt."""
    file_of_rt()
    return importlib.import_module("rtlib")


def judge_of_layout():
    """The words that, before the paths of files, name each one as an error that is not as `rt fmt`
    writes it, and leave it as it is. `rt ci` judges a crate by the same."""
    module = library()
    look_for(module, "rtlib", "RATTLE")
    return [module.RATTLE, "fmt", "--check"]


def quicken(crate_type):
    """Has a stamp make each of those below once."""
    plain, now = crate_type.stamp, threading.local()

    def stamp(crate):
        made = getattr(now, "made", None)
        is_outermost = made is None
        if is_outermost:
            made = now.made = {}
        try:
            if crate.folder not in made:
                made[crate.folder] = plain(crate)
            return made[crate.folder]
        finally:
            if is_outermost:
                now.made = None

    crate_type.stamp = stamp


def costs_in(path):
    """What checks took, by crate and kind, as a file has it: seconds of processor time and MB; the
    last of several counts."""
    if not os.path.isfile(path):
        return {}
    with open(path, encoding="utf-8") as file:
        lines = [line.split() for line in file if line.strip() and not line.startswith("#")]
    return {
        (name, kind): (int(seconds), int(megabytes)) for name, kind, seconds, megabytes in lines
    }


def know_needs(module):
    """Has the memory of a check be what it was measured to be, where it was."""
    plain, most = module.need, {}
    for (name, _), (_, megabytes) in costs_in(MEASURED).items():
        most[name] = max(most.get(name, 0), int(megabytes * MB * ROOM))
    module.need = lambda crate: most.get(crate.name) or plain(crate)


def note_costs(module):
    """Has each check of a crate note what it takes, where a file is named for that."""
    if os.environ.get("COSTS"):
        os.environ["RATTLE"] = module.rtlib.RATTLE
        module.rtlib.RATTLE = os.path.join(HERE, "noted")


def verdict_in(said):
    """The verdict in what a check printed, in one line."""
    return JOINT.join(line.strip() for line in said.splitlines() if OF_VERDICT.match(line))


def note_verdict(crate, tests, verdict):
    """Adds the verdict of a proof to the run's, in a single write, since several proofs end side by
    side."""
    if os.environ.get("VERDICTS"):
        file = os.open(os.environ["VERDICTS"], os.O_WRONLY | os.O_APPEND | os.O_CREAT, 0o644)
        os.write(
            file,
            f"{crate.name} {'tests' if tests else 'proof'}: {verdict or NO_VERDICT}\n".encode(),
        )
        os.close(file)


def write_verdict(path, verdict):
    """Puts a verdict beside what is kept of its proof: whole, or not at all."""
    with contextlib.suppress(OSError):
        with open(f"{path}.{os.getpid()}", "w", encoding="utf-8") as file:
            file.write(verdict)
        os.replace(f"{path}.{os.getpid()}", path)


def read_verdict(path):
    """The verdict that is kept beside a proof; nothing where an earlier run kept none."""
    try:
        with open(path, encoding="utf-8") as file:
            return file.read()
    except (OSError, UnicodeDecodeError):
        return ""


def keep_verdicts(crate_type, kept_type):
    """Has a check leave its verdict at the crate, and what is kept of a proof have it too."""
    plain_prove, plain_keep, plain_give = crate_type.prove, kept_type.keep, kept_type.give

    def prove(crate, *commands):
        begin = (
            crate.out.seek(0, os.SEEK_END)
            if crate.out.readable() and crate.out.seekable()
            else None
        )
        status = plain_prove(crate, *commands)
        crate.verdict = ""
        if begin is not None and not status:
            crate.out.seek(begin)
            crate.verdict = verdict_in(crate.out.read())
        return status

    def keep(kept, crate, tests, key):
        plain_keep(kept, crate, tests, key)
        verdict, place = getattr(crate, "verdict", ""), kept.place(crate, tests, key)
        note_verdict(crate, tests, verdict)
        if verdict and os.path.isdir(place):
            write_verdict(os.path.join(place, "verdict"), verdict)

    def give(kept, crate, tests, key):
        is_given = plain_give(kept, crate, tests, key)
        if is_given:
            note_verdict(
                crate, tests, read_verdict(os.path.join(kept.place(crate, tests, key), "verdict"))
            )
        return is_given

    crate_type.prove, kept_type.keep, kept_type.give = prove, keep, give


def know_below(crate_type):
    """Has each crate find once which crates it needs. `rt` goes every way between two crates anew:
    51 million calls for this repository, a minute of processor time before the first proof."""
    plain = crate_type.below

    def below(crate):
        if not hasattr(crate, "all_below"):
            crate.all_below = plain(crate)
        return list(crate.all_below)

    crate_type.below = below


def command():
    """The command rt as a module, and its library beside it."""
    loader = importlib.machinery.SourceFileLoader("rt", file_of_rt())
    module = importlib.util.module_from_spec(importlib.util.spec_from_loader("rt", loader))
    try:
        loader.exec_module(module)
    except (ImportError, OSError, SyntaxError, UnicodeDecodeError):
        end_without("bin/rt, in Python,")
    look_for(module, "rt", "rtlib", "main")
    crate_type = getattr(module.rtlib, "Crate", None)
    # A toolchain without stamps has none to make twice.
    if hasattr(crate_type, "stamp"):
        quicken(crate_type)
    look_for(module, "rt", "need")
    look_for(crate_type, "rt.Crate", "below")
    know_below(crate_type)
    look_for(module.rtlib, "rtlib", "RATTLE")
    know_needs(module)
    note_costs(module)
    look_for(module, "rt", "Crate", "Kept")
    look_for(module.Crate, "rt.Crate", "prove")
    look_for(module.Kept, "rt.Kept", "give", "keep", "place")
    keep_verdicts(module.Crate, module.Kept)
    return module


if __name__ == "__main__":
    sys.exit(command().main(sys.argv[1:]))
