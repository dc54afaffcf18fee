"""What the clauses and other ghost texts of crates/*/src cite: the words that `ghost use` brings
there, and types of the code."""
import functools
import os
import re

from citations import Scan, operators
from rattle import TYPE, lines_of, rust_files
from specs import TOP, Outside, targets, used_at


def cited_by(crate, path, at, text, bound=()):
    """What a ghost text at a line of a file cites."""
    scope, rust = ghost_scope(path, at), rust_scope(path)
    scan = Scan(scope, lambda name: None, set(), bound)
    scan.text(re.sub(r"\s+", " ", re.sub(r"^\s*//.*$", "", text, flags=re.M)))
    found = list(scan.cited) + operators(scope, scan.symbols)
    for one in sorted(scan.symbols):
        name = one.split(".")[0]
        if name in rust and name not in scope:
            found.append(Outside(rust_place(crate, rust[name], name), name))
    return found


@functools.lru_cache(maxsize=None)
def ghost_uses(path):
    """The `ghost use` lines of a file: where each is, where its block ends, whether it is of the
    whole file, and what it brings."""
    lines = lines_of(path)
    ends = [n for n, line in enumerate(lines) if line.startswith("}")] + [len(lines)]
    found = [
        (n, used_at(lines, n, "ghost ")) for n in range(len(lines)) if "ghost use " in lines[n]
    ]
    return [
        (
            n,
            next(end for end in ends if end > n),
            lines[n][0] != " ",
            targets(used[2], used[3], used[4]),
        )
        for n, used in found
        if used
    ]


def ghost_scope(path, at):
    """The words that `ghost use` brings to a place: those of the file, and those of the block that
    the place is in."""
    lines, scope = lines_of(path), {}
    block = max(
        (n for n in range(at + 1) if lines[n][:1].strip() and lines[n][0] not in "}/"), default=0
    )
    for n, end, is_whole, words in ghost_uses(path):
        if is_whole or block < n <= at <= end:
            scope.update(words)
    return scope


@functools.lru_cache(maxsize=None)
def rust_scope(path):
    """The crates that the file's `use` lines have types of, by type; those that it declares are of
    its own."""
    found = {}
    for line in re.sub(
        r"\{[^}]*\}", lambda it: " ".join(it[0].split()), "\n".join(lines_of(path))
    ).split("\n"):
        if used := re.match(r"use (\w+)(?:::\w+)*::(?:\{(.*)\}|(\w+));", line):
            for name in re.findall(r"\b[A-Z]\w*", used[2] or used[3]):
                found[name] = used[1]
        elif declared := TYPE.match(line):
            found[declared[2]] = "crate"
    return found


@functools.lru_cache(maxsize=None)
def rust_place(crate, of, name):
    """Where a type of the code is declared."""
    home = crate if of == "crate" else of
    crates = sorted(os.listdir(os.path.join(TOP, "crates")))
    if home not in crates:
        return home
    for one in [home] + crates:
        for path in rust_files(os.path.join(TOP, "crates", one, "src")):
            if any(
                re.match(rf"pub (?:struct|enum|trait|type) {name}\b", line)
                for line in lines_of(path)
            ):
                return os.path.relpath(path, TOP)
    return f"crates/{home}"
