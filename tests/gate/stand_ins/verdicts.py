"""A verdict stays with its proof, and the page of trust is current as long as its sources are."""
import contextlib
import io
import os
import sys
import tempfile

from common import TOP, fail, in_a_folder, module_of, see, written

# Where tools/trust finds its texts.
sys.path.insert(0, os.path.join(TOP, "tools"))


class Proved:
    """A crate to tests/gate/kit.py, whose check prints a verdict."""

    name, said = "a", (
        "by-macro: m blocks=1",
        "fn a: proved",
        "statements std: modules loaded=2 checked=0",
        "logic=proved functions=1",
    )

    def __init__(self, out):
        self.out = out

    def prove(self):
        print(*self.said, sep="\n", file=self.out, flush=True)
        return 0


def verdicts(place):
    """A verdict is kept with its proof, and a run notes it where the proof is made and where it is
    taken over."""
    kit = module_of(os.path.join(TOP, "tests", "gate", "kit.py"))

    class Store:
        def place(self, crate, tests, key):
            return os.path.join(place, key)

        def keep(self, crate, tests, key):
            os.mkdir(self.place(crate, tests, key))

        def give(self, crate, tests, key):
            return os.path.isdir(self.place(crate, tests, key))

    class Checked(Proved):
        pass

    kit.keep_verdicts(Checked, Store)
    store, os.environ["VERDICTS"] = Store(), os.path.join(place, "verdicts")
    with tempfile.TemporaryFile("a+") as out:
        print("statements of another crate", file=out)
        made = Checked(out)
        made.prove()
        store.keep(made, False, "one")
    os.mkdir(os.path.join(place, "two"))
    taken = [store.give(Checked(None), False, key) for key in ("one", "two", "three")]
    with open(os.environ.pop("VERDICTS"), encoding="utf-8") as file:
        noted = file.read().splitlines()
    said = "a proof: " + "; ".join(line for line in Proved.said if not line.startswith("fn"))
    see("which proofs are there", taken, [True, True, False])
    see("verdicts", noted, [said, said, f"a proof: {kit.NO_VERDICT}"])


def trusted(place):
    """The page of trust is not current where a crate has an axiom, or other flags, or a verdict has
    a new word."""
    top, script = os.path.join(place, "trusted"), module_of(os.path.join(TOP, "tools", "trust"))
    script.TOP = top
    written(top, "crates.txt", "# codec\nospf_a may_wait=2: mio\n")
    written(top, "HANDLES", "Handles allowed: Wait.\n")
    written(top, "README.md", "Kit: `logic 0123456789abcdef`; and more\n")
    marks = "\n".join(
        f"<!-- trust: {name} -->\n<!-- end -->"
        for name in ("parts", "crates", "verdicts", "libraries")
    )
    written(top, "page.md", marks + "\n")
    log = os.path.join(top, "log")
    written(
        top,
        "log",
        "ospf_a proof: statements mio: modules loaded=3 checked=0; logic=proved functions=1 "
        "may-wait=2\n",
    )

    def ran(how, *logs):
        with contextlib.redirect_stdout(io.StringIO()) as text:
            return script.settle(how, "page.md", logs), text.getvalue().splitlines()

    see("a page that is new", ran("--check")[0], 1)
    see(
        "a page that is written",
        [ran("--write", log)[0], ran("--check", log)[0], ran("--check")[0]],
        [0, 0, 0],
    )
    written(top, "crates/ospf_a/proofs/A.antt", "-- an axiom\naxiom a : A\n")
    see("an axiom", ran("--check"), (1, ["crates/ospf_a/proofs/A.antt:2: an axiom"]))
    written(top, "crates/ospf_a/proofs/A.antt", "a : A\n")
    written(top, "log", "ospf_a proof: logic=proved functions=1 new=2\n")
    try:
        fail(f"a new word: {ran('--check', log)}")
    except script.Fault as fault:
        see("a new word", "'new'" in str(fault), True)
    written(top, "log", "== ospf_a\nlogic=proved functions=4\nrt: ospf_a proved\n")
    see("another verdict", ran("--check", log)[0], 1)
    written(top, "crates.txt", "ospf_a: mio\n")
    see("other flags", ran("--check")[0], 1)


if __name__ == "__main__":
    in_a_folder(verdicts, trusted)
