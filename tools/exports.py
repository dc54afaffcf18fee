"""What a crate exports: its public types, functions and laws, and what it promises of its types."""
import collections
import functools
import os
import re

from ghosts import cited_by
from rattle import lines_of, rust_files
from sources import MODULE, Call, below, folder_of, items, public_modules
from specs import Word

# A ghost value of a block, and a ghost field: what an implementation promises, and what a type says
# of its fields.
GHOST, FIELD = re.compile(r"\s*(?:pub )?ghost (\w+) = \{"), re.compile(
    r"\s*(?:pub )?ghost (\w+)\s*: \{"
)
EXPORT = re.compile(r"\bpub use (?:crate::)?((?:\w+::)+)(?:\{([^}]*)\}|(\w+));")
# What a list of calls says of one: its name, what kind of thing it is, its comment, its clauses by
# name, and the words that they cite.
Entry = collections.namedtuple("Entry", "name kind comment requires ensures words")


def said(lines, mark):
    """The first paragraph of a comment."""
    text = [line.strip()[len(mark) :].strip() for line in lines if line.strip().startswith(mark)]
    return " ".join(text[: text.index("")] if "" in text else text)


def exported(crate):
    """The names that lib.rt, and the public modules of it, export of the crate's own modules; none
    of a program."""
    return exported_by(os.path.join(folder_of(crate), "lib.rt"))


def exported_by(path):
    """The names that a file exports of its modules, and those that its public modules export."""
    if not os.path.exists(path):
        return set()
    text, names = " ".join(" ".join(lines_of(path)).split()), set()
    own = {found[2]: found[1] for found in MODULE.finditer(text)}
    for found in EXPORT.finditer(text):
        if {*found[1].split("::")} & own.keys():
            names |= {name.strip() for name in (found[2] or found[3]).split(",") if name.strip()}
    for name in (name for name, is_public in own.items() if is_public):
        names |= exported_by(below(path, name))
    return names


def ghost_texts(lines, it, pattern):
    """The ghost values or fields of a block, by name: where each stands, and its text."""
    for n in range(it.head, it.end + 1):
        if found := pattern.match(lines[n]):
            yield found[1], n, braced("\n".join(lines[n : it.end + 1])[found.end() :])


def braced(text):
    """A text up to the brace that closes the one before it."""
    depth = 1
    for n, sign in enumerate(text):
        depth += (sign == "{") - (sign == "}")
        if depth == 0:
            return text[:n]
    return text


def own_words(found):
    return list(dict.fromkeys(one.name for one in found if isinstance(one, Word)))


def entry(crate, path, it):
    """What a list of calls says of an item."""
    lines = lines_of(path)
    comment = said(lines[it.start : it.head], "///")
    if it.kind == "fn":
        made, name = Call(crate, path, it), f"{it.owner}::{it.name}" if it.owner else it.name
        head = " ".join(lines[it.head : it.end]).partition("ensures")[0]
        is_law = not it.owner and "->" not in head and "&mut" not in head
        return Entry(
            name,
            "law" if is_law else "",
            comment,
            made.clauses("requires"),
            made.clauses("ensures"),
            own_words(made.cited()),
        )
    is_block = it.kind.startswith("impl ")
    ghosts = list(ghost_texts(lines, it, GHOST if is_block else FIELD))
    words = own_words(
        one for _, n, text in ghosts for one in cited_by(crate, path, n, text, {"self"})
    )
    name = f"{it.kind[5:]} for {it.owner}" if is_block else it.name
    return Entry(
        name, "" if is_block else it.kind, comment, [], [name for name, _, _ in ghosts], words
    )


@functools.lru_cache(maxsize=None)
def entries(crate):
    """What a crate exports, by file: its public types, functions and laws, and what it promises of
    its types by traits. The file of a public module is there for its comment."""
    names, modules, files = (
        exported(crate),
        public_modules(os.path.join(folder_of(crate), "lib.rt")),
        [],
    )
    for path in rust_files(folder_of(crate)):
        found = []
        for it in items(path):
            if (
                it.kind in ("impl Model", "impl Drop")
                or not {it.owner or it.name, it.kind[5:]} & names
            ):
                continue
            one = entry(crate, path, it)
            if one.comment or one.words or not it.kind.startswith("impl "):
                found.append(one)
        if found or path in modules:
            files.append((path, said(lines_of(path), "//!"), found))
    return files
