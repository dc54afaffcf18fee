"""Checks a crate over the proved libraries that `rt ci` keeps on this machine, so that none below
it is proved again: in seconds, where `rt check` first proves all that is below. What is not kept
yet is proved, and kept.

This leans on the inside of the toolchain's command `rt` (kit.py).
"""
import contextlib
import os
import shutil
import tempfile

from kit import command, look_for


class Over:
    """The crates of a repository, and the proofs that are kept."""

    def __init__(self, top):
        self.rt = command()
        look_for(self.rt, "rt", "Crate", "Kept", "handles_of", "adopt", "offer")
        look_for(self.rt.Crate, "rt.Crate", "below", "call", "ci", "words")
        self.library = self.rt.rtlib
        os.chdir(top)
        self.library.guarded()
        self.rt.Crate.cuts_libraries, self.rt.Crate.allowed = True, self.rt.handles_of(top)
        self.library.Crate = self.rt.Crate
        self.crates = {it.name: it for it in self.library.crates_below(top)}
        self.kept = self.rt.Kept(list(self.crates.values()))

    def below(self, crate):
        """The crates that this one stands on, the lowest first."""
        return sorted(crate.below(), key=lambda it: len(it.below()))

    def place(self, crate):
        """Puts the library of a crate in its place, those below being in theirs: the one that is
        kept, or else it is proved now. Whether it is proved."""
        key, mark = self.kept.key(crate), f"{crate.folder}/out/rlib/given"
        if self.library.text_of(mark) != key or not os.path.isdir(crate.rlib):
            shutil.rmtree(f"{crate.folder}/out/rlib", ignore_errors=True)
            os.makedirs(f"{crate.folder}/out", exist_ok=True)
            if not self.take_or_prove(crate, key):
                return False
        self.kept.is_built(crate)
        if not crate.is_program:
            with open(mark, "w", encoding="ascii") as file:
                file.write(key)
        return True

    def take_or_prove(self, crate, key):
        """Takes what is kept of the crate, also where another run is proving it; else proves it,
        and keeps it. Whether it is proved."""
        if self.kept.give(crate, False, key):
            return True
        with self.kept.in_turn(crate, False, key) as has_waited:
            if has_waited and self.kept.give(crate, False, key):
                return True
            if self.says(crate, lambda: crate.ci(["--jobs", "1"], False)):
                return False
            self.kept.is_built(crate)
            self.kept.keep(crate, False, key)
        return True

    def says(self, crate, call):
        """The status of a call; where it is not 0, what the call said is printed, but for what is
        proved."""
        with tempfile.TemporaryFile("a+", errors="replace") as crate.out:
            status = call()
            crate.out.seek(0)
            lines = crate.out.read().splitlines()
        if status:
            print(*(line for line in lines if not line.endswith(": proved")), sep="\n", flush=True)
        return status

    def place_below(self, crate):
        """Puts all libraries below a crate in their places; the name of the first one that is not
        proved, or nothing."""
        return next((it.name for it in self.below(crate) if not self.place(it)), None)

    def check(self, crate, flags=()):
        """Checks a crate, those below being in their places, and takes up what an earlier check
        kept: its status."""
        with contextlib.suppress(Exception):
            self.rt.adopt(crate)
        words = [
            self.library.RATTLE,
            "check",
            *crate.words(["--jobs", "1", *flags]),
            *self.library.KEPT,
        ]
        status = self.says(crate, lambda: crate.call(*words))
        with contextlib.suppress(Exception):
            self.rt.offer(crate, None)
        return status
