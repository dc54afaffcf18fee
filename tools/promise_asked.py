"""What `tools/promise` is asked for, and what it prints of it: words, clauses and types, with all
that they rest on."""
import argparse
import collections
import os
import re
import textwrap

from citations import citations, closure
from sources import Declared, call
from specs import NAME, TOP, Fault, Outside, Word, definition, module, one_word, shown_as, sought

# The usage of the script, which sets it.
USAGE = ""
COLUMNS = 100


def crate_with(given, name):
    """The crate that has the word, the function or the type of this name, of which there is one.
    What is no word may be a type."""
    kinds = [call] if given.call or given.clauses else [Declared] if given.type else [one_word]
    found = []
    for crate in sorted(os.listdir(os.path.join(TOP, "crates"))):
        for kind in kinds:
            try:
                kind(crate, name)
                found.append(crate)
            except Fault:
                pass
    if not found and kinds == [one_word]:
        given.type = True
        return crate_with(given, name)
    if len(found) != 1:
        raise Fault(
            f"'{name}' is in "
            + (f"several crates, name one: {', '.join(found)}" if found else "no crate")
        )
    return found[0]


# ---- what is printed ----


def shown(it):
    return [line.rstrip() for line in it.comment + it.lines]


def in_order(words, first):
    """The modules of these definitions, each before those that it cites; the nearest first."""
    cites, met = collections.defaultdict(set), {}
    among = set(words)
    for word in words:
        met.setdefault(word[:2], len(met))
        for one in citations(word):
            if one in among and one[:2] != word[:2]:
                cites[word[:2]].add(one[:2])
    order, left = [], set(met)
    while left:
        cited = {one for place in left for one in cites[place]}
        ready = [place for place in left if place not in cited] or list(left)
        place = first if first in left else min(ready, key=met.get)
        order.append(place)
        left.remove(place)
    return order


def outside(cited):
    """The names from outside of specs/, as they are listed at the end."""
    places = collections.defaultdict(set)
    for one in cited:
        if isinstance(one, Outside):
            places[one.place].add(one.name)
    libraries = {place: names for place, names in places.items() if not place.startswith("crates/")}
    types = [
        f"{name} ({place})"
        for place, names in places.items()
        if place.startswith("crates/")
        for name in names
    ]
    lines = []
    for place in sorted(libraries, key=lambda it: (it != "std", it)):
        lines += [
            "",
            f"==== names from the library {place}",
            *wrapped(sorted(libraries[place], key=lambda it: (bool(re.match(NAME, it)), it))),
        ]
    if types:
        lines += ["", "==== types that the code declares", *wrapped(sorted(types))]
    return lines


def wrapped(names):
    return textwrap.wrap(", ".join(names), COLUMNS, break_long_words=False, break_on_hyphens=False)


def all_of(roots, cited=()):
    """The definitions under these, in reading order, and the names from outside. Those asked for
    come first in their modules."""
    words = closure(roots)
    of = collections.defaultdict(list)
    for word in words:
        of[word[:2]].append(word)
    lines = []
    for place in in_order(words, roots[0][:2] if len(roots) == 1 else None):
        home = module(*place)
        lines += ["", f"==== {shown_as(*place)}", *home.head]
        for word in sorted(
            of[place], key=lambda it: (it not in roots, home.definitions[it.name].number)
        ):
            lines += ["", *shown(definition(word))]
    lines += outside([*cited, *(one for word in words for one in citations(word))])
    return lines[1:]


def below(word):
    """The number of definitions under a definition, itself not among them."""
    return len(closure([word])) - 1


def level(words):
    """These definitions, each with the number of those under it and the command that prints
    them."""
    lines = []
    for word in words:
        count = below(word)
        name = (
            word.name if len(sought(word.crate, word.name)) == 1 else f"{word.module}.{word.name}"
        )
        under = f", {count} under it: tools/promise {word.crate} {name}" if count else ""
        lines += ["", f"==== {shown_as(*word[:2])}{under}", *shown(definition(word))]
    return lines


def direct(word):
    return [one for one in citations(word) if isinstance(one, Word)]


def first_of(roots):
    """The first levels: these definitions, and those that they cite at once."""
    seconds = dict.fromkeys(one for root in roots for one in direct(root) if one not in roots)
    return (level(roots) + level(seconds))[1:]


class Asked:
    """What the arguments ask for."""

    def __init__(self, arguments):
        given = parser().parse_args(arguments)
        if given.crate is None:
            raise Fault("a word is missing: tools/promise CRATE WORD")
        if given.word is None:
            given.crate, given.word = crate_with(given, given.crate), given.crate
        self.given, self.crate, self.word = given, given.crate, given.word
        self.declared = Declared(given.crate, given.word) if given.type else None
        self.call = call(given.crate, given.word) if given.call or given.clauses else None
        self.roots = (
            self.call.words()
            if self.call
            else []
            if self.declared
            else [one_word(given.crate, given.word)]
        )

    def count(self):
        return len(closure(self.roots))

    def clauses(self):
        return [f"==== crates/{self.crate}/src/{self.call.place}", *self.call.lines]

    def definitions(self, is_short):
        """All of them, or the first levels."""
        above_ = self.clauses() + [""] if self.call else []
        if is_short:
            return above_ + first_of(self.roots)
        return above_ + all_of(self.roots, self.call.cited() if self.call else ())

    def text(self):
        """What is printed for it."""
        if self.declared:
            return [f"==== crates/{self.crate}/src/{self.declared.place}", *self.declared.lines]
        if self.given.count:
            return [str(self.count())]
        if self.given.clauses:
            return self.clauses()
        return level(self.roots)[1:] if self.given.alone else self.definitions(self.given.first)

    def command(self):
        return f"tools/promise {'--call ' if self.call else ''}{self.crate} {self.word}"


def parser():
    words = argparse.ArgumentParser(prog="tools/promise", usage=USAGE, add_help=True)
    for name in ("alone", "call", "calls", "clauses", "count", "first", "type"):
        words.add_argument(f"--{name}", action="store_true")
    words.add_argument("--write", metavar="PAGES")
    words.add_argument("--check", metavar="PAGES")
    words.add_argument("crate", nargs="?")
    words.add_argument("word", nargs="?")
    return words
