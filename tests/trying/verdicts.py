"""Which edits a goal refused in an earlier run on this machine, as the toolchain's store keeps
that.

A verdict on an edit is a function of the toolchain, of the files of its crate, of the libraries
below as they were built, of the edit's text, and of the scripts that judge. It is kept under a sum
of all of them, beside the proofs that `rt ci` keeps. So nothing is taken over of what has changed.
"""
import functools
import hashlib
import os

HERE = os.path.dirname(os.path.abspath(__file__))
TOOLS = os.path.join(os.path.dirname(os.path.dirname(HERE)), "tools")
JUDGES = [
    os.path.join(HERE, "judging.py"),
    os.path.join(HERE, "texts.py"),
    os.path.join(TOOLS, "rattle.py"),
]
# What is kept of a crate of which edits were drawn.
DRAWN = "edits were drawn"


@functools.cache
def judge():
    """The checksum of the scripts that judge: what others judged is judged again."""
    made = hashlib.sha256()
    for path in JUDGES:
        with open(path, "rb") as file:
            made.update(file.read())
    return made.hexdigest()


class Verdicts:
    """The verdicts that are kept; with `anew` none is taken over, and those of this run are
    kept."""

    def __init__(self, rt, kept, anew):
        self.rt, self.kept, self.anew = rt, kept, anew

    def name(self, crate, what):
        return hashlib.sha256(repr((judge(), self.kept.key(crate), what)).encode()).hexdigest()

    def has(self, crate, what):
        return not self.anew and self.kept.tried(self.name(crate, what)) is not None

    def keep(self, crate, what):
        self.kept.keep_tried(self.name(crate, what), self.rt.REFUSED, repr(what))
