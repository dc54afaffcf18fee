"""The definitions of crates/*/specs: where each one is, and what a name stands for there."""
import collections
import functools
import os
import re

from rattle import DEFINITION, TOP

# A name, and a token.
NAME = r"(?!λ)[^\W\d][\w'?!]*"
TOKEN = re.compile(
    rf"\"(?:[^\"\\]|\\.)*\"|λ|\.{NAME}|{NAME}(?:\.[\w'?!]+)*|[(){{}};]|[^\s(){{}};\w]+|\d+"
)
USE = re.compile(r"(pub )?use ([\w.]+?)(?:\.\{(.*)\}| as (\w+))?;?$")

# A word of a crate. A module in a folder has the names of both, as EdgeLists.Given.
Word = collections.namedtuple("Word", "crate module name")
Outside = collections.namedtuple("Outside", "place name")
Definition = collections.namedtuple("Definition", "word comment lines number")


class Fault(Exception):
    """What is asked for is not there."""


# ---- modules of specs/ ----


def file_of(crate, name):
    """The file of a module, from the top of the repository."""
    return os.path.join("crates", crate, "specs", *name.split(".")) + ".antt"


def shown_as(crate, name):
    """How a module is named where its definitions are printed."""
    return "/".join([crate, *name.split(".")])


class Module:
    """A file of specs/: its head, what it uses, and its definitions in their order."""

    def __init__(self, crate, name):
        self.crate, self.name = crate, name
        self.path = file_of(crate, name)
        with open(os.path.join(TOP, self.path), encoding="utf-8") as file:
            lines = file.read().split("\n")
        self.scope, self.public, self.definitions, self.constructors = (
            {},
            {},
            {},
            collections.defaultdict(list),
        )
        first = next((n for n, line in enumerate(lines) if not line.startswith("--")), len(lines))
        self.head = lines[:first]
        for n in range(len(lines)):
            if used := used_at(lines, n):
                words = targets(used[2], used[3], used[4])
                self.scope.update(words)
                if used[1]:
                    self.public.update(words)
        self.divide(lines, first)

    def divide(self, lines, first):
        """Finds the definitions. A comment between two equations belongs to the definition that
        they make."""
        starts = [n for n in range(first, len(lines)) if DEFINITION.match(lines[n])]
        tops = [above(lines, n, first) for n in starts]
        for n, top, end in zip(starts, tops, tops[1:] + [len(lines)]):
            name = DEFINITION.match(lines[n])[1]
            body = lines[n:end]
            while body and (not body[-1].strip() or body[-1].startswith("--")):
                body.pop()
            word = Word(self.crate, self.name, name)
            self.definitions[name] = Definition(word, lines[top:n], body, n + 1)
            if re.match(r"(?:pub )?data ", lines[n]):
                for line in body[1:]:
                    if found := re.match(rf"  ({NAME}) :", line):
                        self.constructors[found[1]].append(word)

    def find(self, name):
        """The definition of a name that the module defines or hands on, if it is one; that of a
        constructor is its data's."""
        if name in self.definitions:
            return self.definitions[name].word
        if len(self.constructors.get(name, ())) == 1:
            return self.constructors[name][0]
        return self.public.get(name)


def above(lines, n, first):
    """The line where the comment above a definition begins."""
    while n > first and lines[n - 1].startswith("--") and not lines[n - 1].startswith("-- ----"):
        n -= 1
    return n


def used_at(lines, n, before=""):
    """The `use` that begins on a line behind these words, if one does. Its names may go over
    several lines."""
    line = lines[n].strip()
    if not re.match(rf"{before}(pub )?use ", line):
        return None
    while "{" in line and "}" not in line and n + 1 < len(lines):
        n += 1
        line += " " + lines[n].strip()
    return USE.fullmatch(line[len(before) :])


def targets(path, names, alias):
    """What a `use` line brings into scope, by the names that it has there."""
    if names is None:
        return {alias or path.split(".")[-1]: ("module", path)}
    found = {}
    for one in names.split(","):
        name, _, local = one.strip().partition(" as ")
        if name:
            found[local or name] = ("word", path, name)
    return found


@functools.lru_cache(maxsize=None)
def module(crate, name):
    """A module of a crate of ours, or None. One that Lib.antt hands on is the module of the crate
    that it stands in."""
    if os.path.exists(os.path.join(TOP, file_of(crate, name))):
        return Module(crate, name)
    library = module(crate, "Lib") if name != "Lib" else None
    handed = library.public.get(name) if library else None
    if handed and handed[0] == "module":
        parts = handed[1].split(".")
        return module(parts[1], ".".join(parts[3:]))
    return None


def modules_of(crate):
    """The names of all modules of a crate."""
    specs = os.path.join(TOP, "crates", crate, "specs")
    found = (
        os.path.relpath(os.path.join(at, file), specs)
        for at, _, files in os.walk(specs)
        for file in files
        if file.endswith(".antt")
    )
    return sorted(path[: -len(".antt")].replace(os.sep, ".") for path in found)


def placed(crate, names):
    """The innermost module at the head of these names, and the names after it."""
    for count in range(len(names), 0, -1):
        if place := module(crate, ".".join(names[:count])):
            return place, names[count:]
    return None, names


@functools.lru_cache(maxsize=None)
def is_crate(name):
    return os.path.isdir(os.path.join(TOP, "crates", name))


def is_ours(parts):
    return len(parts) > 3 and parts[0] == "Rattle" and parts[2] == "specs" and is_crate(parts[1])


def looked_up(target, rest):
    """What a target of a `use` line stands for, where these names follow it: a definition, or a
    name from outside of specs/."""
    if isinstance(target, Word):
        return target
    path, names = target[1], ([target[2]] if target[0] == "word" else []) + rest
    parts = path.split(".")
    if not is_ours(parts):
        library = parts[1] if parts[0] == "Rattle" else parts[0]
        return Outside(library, names[0] if names else parts[-1])
    if parts[3] in ("declared", "contracts"):
        at = next(
            (n for n, part in enumerate(parts) if n > 3 and part[0].isupper()), len(parts) - 1
        )
        return Outside(f"crates/{parts[1]}/src/{'/'.join(parts[4:at])}.rt", parts[at])
    place, names = placed(parts[1], parts[3:] + names)
    found = place.find(names[0]) if place and names else None
    if found is None:
        raise Fault(f"{path}: no word '{'.'.join(names)}' is found there")
    return looked_up(found, names[1:])


def sought(crate, name):
    """The definition of a word in a crate."""
    folder = os.path.join(TOP, "crates", crate)
    if not os.path.isdir(folder) or not crate:
        raise Fault(f"no crate '{crate}'")
    found = [
        module(crate, one).definitions[name].word
        for one in modules_of(crate)
        if name in module(crate, one).definitions
    ]
    if not found:
        raise Fault(f"no definition '{name}' in crates/{crate}/specs")
    return found


def one_word(crate, name):
    """The one definition of a word; of a name that several modules have, `MODULE.WORD` names
    one."""
    if "." in name:
        place, _, last = name.rpartition(".")
        found = [word for word in sought(crate, last) if word.module == place]
        if not found:
            raise Fault(f"no definition '{last}' in {file_of(crate, place)}")
    else:
        found = sought(crate, name)
    if len(found) > 1:
        raise Fault(
            f"'{name}' is defined in several modules of {crate}: ask for one, "
            f"{', '.join(f'{it.module}.{name}' for it in found)}"
        )
    return found[0]


def definition(word):
    return module(word.crate, word.module).definitions[word.name]
