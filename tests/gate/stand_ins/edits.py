"""What tests/edits does where checks end ill: only a goal refuses an edit."""
import contextlib
import io
import os
import subprocess
import sys
import types

from common import TOP, module_of, see

# How a check ends, and what it says.
KILLED, FULL, UNKNOWN_WORD = (
    (-9, ""),
    (1, "error: No space left on device (os error 28)\n"),
    (2, "error: unknown option\n"),
)
LIMIT = (3, "src/a.rt:1:1: error: antt ran out of stack\n")
NOT_COMPILED, PROVED = (1, "src/a.rt:3:5: error[types]: no such field\n"), (
    0,
    "logic=proved tests=0\n",
)


class Crate:
    """A crate to tests/edits, of which nothing is built."""

    def __init__(self, name):
        self.name, self.folder, self.rlib = (
            name,
            os.path.join(TOP, "crates", name),
            os.path.join(TOP, "nothing"),
        )

    def below(self):
        return []

    def build_rlib(self, words, anew):
        return 0


class Kept:
    """The store of the toolchain to tests/edits: what is kept, by its name, for as long as a test
    wants it."""

    store = {}

    def __init__(self, crates):
        pass

    def is_built(self, crate):
        pass

    def key(self, crate):
        return crate.name

    def tried(self, name):
        return self.store.get(name)

    def keep_tried(self, name, kind, text):
        self.store[name] = kind, text


def refusing(crate, texts):
    """What the prover says where a goal of each function that is changed is open."""
    lines = []
    for file, text in texts.items():
        with open(os.path.join(crate.folder, file), encoding="utf-8") as own:
            pairs = zip(own.read().split("\n"), text.split("\n"))
        lines += [
            f"note: {file}:{number}:1: it is not proved that it holds"
            for number, (old, new) in enumerate(pairs, 1)
            if old != new
        ]
    return 1, "\n".join([*lines, "logic=not-proved"]) + "\n"


def edits_by(ways, is_first=True, more=()):
    """How tests/edits ends, and what it prints, where the checks of crates end as told: all others,
    or those that are named. A run that is not the first finds in the store what those before it
    kept."""
    edits = module_of(os.path.join(TOP, "tests", "edits"))
    if is_first:
        Kept.store.clear()

    def checked(crate, texts, flags, kept):
        way = ways.get(crate.name, ways["others"])
        return subprocess.CompletedProcess([], *(refusing(crate, texts) if way is None else way))

    names = [
        name
        for name in sorted(os.listdir(os.path.join(TOP, "crates")))
        if os.path.isdir(os.path.join(TOP, "crates", name))
    ]
    kit = types.SimpleNamespace(
        Crate=Crate, crates_below=lambda top: [Crate(name) for name in names], guarded=lambda: None
    )
    edits.command = lambda: types.SimpleNamespace(
        checked=checked, rtlib=kit, Kept=Kept, REFUSED="refused"
    )
    words, said, folder = sys.argv, io.StringIO(), os.getcwd()
    sys.argv = ["edits", "--gate", "a word", *more]
    try:
        with contextlib.redirect_stdout(said):
            return edits.main(), said.getvalue().splitlines()
    finally:
        sys.argv = words
        os.chdir(folder)


def edits():
    """Only goals refuse edits, and a check without a verdict refuses none."""
    with open(os.path.join(TOP, "tests", "gate", "main-edits"), encoding="utf-8") as file:
        main = file.read().split()
    count, of_spf = len(main) + 12, "ospf_spf/dearer_cost"
    status, lines = edits_by({"others": None})
    see(
        "edits that are refused",
        (status, lines[-1]),
        (0, f"{count} edits refused by a goal, 0 not refused, 0 without a verdict"),
    )
    status, lines = edits_by({"others": KILLED}, is_first=False)
    see(
        "edits that were refused before",
        (status, lines[-1]),
        (0, f"{len(main)} edits refused by a goal, 0 not refused, 0 without a verdict"),
    )
    see(
        "how many were taken over",
        lines[-2],
        f"taken over from earlier runs over the same files: {len(main)} of {len(main)} refusals",
    )
    status, lines = edits_by({"others": KILLED}, is_first=False, more=["--anew"])
    see(
        "edits that were refused before, anew",
        (status, lines[-1]),
        (1, f"0 edits refused by a goal, 0 not refused, {count} without a verdict"),
    )
    status, lines = edits_by({"others": None}, more=["--seconds", "0"])
    see(
        "edits that were drawn too late",
        (status, lines[-1]),
        (
            0,
            f"{len(main)} edits refused by a goal, 0 not refused, 0 without a verdict, 12 not "
            "tried",
        ),
    )
    see("those that are named", sum(": NOT TRIED: " in line for line in lines), 12)
    for name, way in (
        ("killed", KILLED),
        ("no room", FULL),
        ("another word", UNKNOWN_WORD),
        ("a limit", LIMIT),
    ):
        status, lines = edits_by({"others": way})
        see(
            name,
            (status, lines[-1]),
            (1, f"0 edits refused by a goal, 0 not refused, {count} without a verdict"),
        )
    status, lines = edits_by({"others": NOT_COMPILED})
    see(
        "none is compiled",
        (status, lines[-1]),
        (1, "0 edits refused by a goal, 0 not refused, 0 without a verdict"),
    )
    for way, told, wanted in (
        (KILLED, "NO VERDICT: its check ended with status -9: ", 1),
        (PROVED, "NOT REFUSED: all is still proved with this edit", 1),
        (NOT_COMPILED, "refused, but by no goal of its function, which says little", 0),
    ):
        status, lines = edits_by({"others": None, "ospf_spf": way})
        see(f"one that is {told}", (status, f"{of_spf}: {told}" in lines), (wanted, True))
    of_a_method()


def of_a_method():
    """The proofs of a method stand below the module of its type, and not below that of its `impl`;
    those of a function below its own."""
    judging = module_of(os.path.join(TOP, "tests", "trying", "judging.py"))
    for path, place, wanted in (
        ("watched::World::run", "world/World/run", True),
        ("watched::World::run", "world/World/step", False),
        ("watched::World::run", "world/Slot/run", False),
        ("watched::run", "watched/run", True),
        ("watched::run", "world/run", False),
    ):
        said = (
            f"./proofs/{place}/Answers.antt:14:104: error: `returns`: `search`: no proof of "
            "`goal.returns`\n"
        )
        found = judging.methods({path}) & judging.methods(judging.failing(said))
        see(f"{path} where a proof in {place} fails", bool(found), wanted)


if __name__ == "__main__":
    edits()
