"""Files that are not as `rt fmt` writes them are named, each one, and stay as they are."""
import os
import subprocess
import sys

from common import TOP, in_a_folder, see, written

WORDS = [sys.executable, "-B", os.path.join(TOP, "tests", "gate", "laid-out"), "--at"]
GOOD = {
    "crates/good/src/lib.rt": "pub fn one() -> u8 {\n    1\n}\n",
    "crates/good/specs/Words.antt": "abbrev pub small : ℕ → ℕ\nsmall n = n\n",
}
BAD = {
    "crates/bad/proofs/Deep.antt": "abbrev pub small : ℕ → ℕ\nsmall n =   n\n",
    "crates/bad/src/lib.rt": "pub fn one( ) -> u8 {\n  1\n}\n",
    "crates/bad/src/open.rt": "pub fn one( {\n",
}
# What is built has no layout.
BUILT = {"crates/good/out/lib.rt": "pub fn one( ) -> u8 {\n  1\n}\n"}


def judged(place, *crates):
    """The status, the files that are named, and the last line."""
    ended = subprocess.run(
        [*WORDS, place, *crates], capture_output=True, text=True, check=False, encoding="utf-8"
    )
    *named, last = ended.stdout.splitlines()
    return ended.returncode, [line.split()[0].rstrip(":") for line in named], last


def laid_out(place):
    """Each of three files with another layout is named, and none that is as it should be."""
    for name, text in {**GOOD, **BAD, **BUILT}.items():
        written(place, name, text)
    line = "{} files read; not as rt fmt writes them: {}"
    see("all crates", judged(place), (1, sorted(BAD), line.format(5, 3)))
    see("a crate that is laid out", judged(place, "good"), (0, [], line.format(2, 0)))
    for name, text in BAD.items():
        with open(os.path.join(place, name), encoding="utf-8") as file:
            see(f"{name} afterwards", file.read(), text)


if __name__ == "__main__":
    in_a_folder(laid_out)
