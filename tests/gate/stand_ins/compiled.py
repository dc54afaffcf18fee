"""What was compiled is taken over where all that it is made of is the same, and not where --anew is
asked for."""
import os
import sys
import types

from common import TOP, in_a_folder, see, written

sys.path.insert(0, os.path.join(TOP, "tests", "gate"))
import compiled  # noqa: E402


def kept(place):
    """A program is there again under the sum of its sources, and under no other."""
    store, sources = os.path.join(place, "store"), os.path.join(place, "sources")
    compiled.command = lambda: types.SimpleNamespace(STORE=store, kit_sum=lambda: "a kit")
    written(place, "sources/src/a.rt", "one")
    program, again = written(place, "program", "compiled"), os.path.join(place, "out", "again")
    it = compiled.Compiled("ospfd")
    key = it.key(sources, [sources])
    see("nothing is kept", it.take(key, again), False)
    it.keep(key, program)
    see(
        "the same sources",
        (it.take(key, again), open(again, encoding="ascii").read()),
        (True, "compiled"),
    )
    os.environ[compiled.ANEW] = "1"
    see("anew", it.take(key, again), False)
    del os.environ[compiled.ANEW]
    for name, text in (("sources/src/a.rt", "two"), ("sources/src/b.rt", "one")):
        written(place, name, text)
        see(f"{name} is {text}", it.take(it.key(sources, [sources]), again), False)
    see("another kind", compiled.Compiled("units").take(key, again), False)
    for number in range(compiled.MOST):
        it.keep(f"{number}", program)
    see("so many stay", len(os.listdir(it.folder)), compiled.MOST)


if __name__ == "__main__":
    in_a_folder(kept)
