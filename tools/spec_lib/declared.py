"""The structs and enums of the crates, read from their .rt files: fields and variants, and what a
ghost line limits."""
import os
import re
from typing import NamedTuple

from .values import SIZES

_ITEM = re.compile(
    r"^(?:pub(?:\([a-z]+\))? )?(struct|enum) (\w+)(<[^>]*>)?\s*(?:where[^{;]*)?([({;])", re.M
)
_LIMIT = re.compile(r"ghost \w+: \{ (\w+) ≤ (\w+) \}")


class Type(NamedTuple):
    """A type: `name` is its name or that of a machine's number, `arguments` are types."""

    name: str
    arguments: tuple = ()


class RustStruct(NamedTuple):
    """The fields of a struct, each with its type, and the greatest value that a ghost line allows a
    field.

    One that has a model is seen as a value of another type, so that its fields say nothing.
    """

    fields: list
    limits: dict
    model: bool = False


class RustEnum(NamedTuple):
    """The variants of an enum, each with the types that it holds."""

    variants: list


def _closed(text, at):
    """The place behind the bracket that closes the one at this place."""
    depth = 0
    while True:
        depth += {"(": 1, "{": 1, "[": 1, ")": -1, "}": -1, "]": -1}.get(text[at], 0)
        at += 1
        if depth == 0:
            return at


def _parts(text):
    """What stands between commas that are in no bracket."""
    parts, depth, part = [], 0, []
    for mark in text:
        depth += {"(": 1, "{": 1, "[": 1, "<": 1, ")": -1, "}": -1, "]": -1, ">": -1}.get(mark, 0)
        if mark == "," and depth == 0:
            parts.append("".join(part).strip())
            part = []
        else:
            part.append(mark)
    parts.append("".join(part).strip())
    return [p for p in parts if p]


def type_of(text):
    """A type as Rust writes it. A borrowed value is read as a struct of one field, `now`."""
    text = re.sub(r"'\w+,? ?", "", text.strip())
    text = re.sub(r"^pub(\(\w+\))? ", "", text)
    if text.startswith("&"):
        return Type("&", (type_of(text[1:].removeprefix("mut ")),))
    if text.startswith("["):
        return Type("List", (type_of(text[1:-1].split(";")[0]),))
    if text.startswith("("):
        return Type("tuple", tuple(type_of(part) for part in _parts(text[1:-1])))
    found = re.match(r"([\w:]+)(?:<(.*)>)?$", text, re.S)
    if not found:
        return Type(text)
    arguments = tuple(type_of(part) for part in _parts(found.group(2) or ""))
    return Type(found.group(1).split("::")[-1], arguments)


def _variant(text):
    """A variant's name and the types that it holds."""
    name = re.match(r"\w+", text).group()
    rest = text[len(name):].strip()
    if rest.startswith("("):
        return name, [type_of(part) for part in _parts(rest[1:-1])]
    if rest.startswith("{"):
        return name, [type_of(part.split(":", 1)[1]) for part in _parts(rest[1:-1])]
    return name, []


def _struct(body, bracket):
    """The fields of a struct, by their names or by their places."""
    if bracket == "(":
        return RustStruct([(str(i), type_of(part)) for i, part in enumerate(_parts(body))], {})
    limits = {field: int(limit) for field, limit in _LIMIT.findall(body) if limit.isdigit()}
    fields = []
    for part in _parts(body):
        if part.startswith("ghost "):
            continue
        name, kind = re.sub(r"^pub(\(\w+\))? ", "", part).split(":", 1)
        fields.append((name.strip(), type_of(kind)))
    return RustStruct(fields, limits)


def types_in(source):
    """The structs and enums of one .rt file."""
    source = re.sub(r"//[^\n]*", "", source)
    source = re.sub(r"^\s*#!?\[[^\n]*\]\s*$", "", source, flags=re.M)
    out = {}
    for found in _ITEM.finditer(source):
        kind, name, bracket = found.group(1), found.group(2), found.group(4)
        if bracket == ";":
            out[name] = RustStruct([], {})
            continue
        body = source[found.end():_closed(source, found.end() - 1) - 1]
        body = re.sub(r"#\[[^\]]*\]", "", body)
        out[name] = _struct(body, bracket) if kind == "struct" else RustEnum(
            [_variant(p) for p in _parts(body)]
        )
    for name in re.findall(r"^impl(?:<[^>]*>)? Model for (\w+)", source, re.M):
        out[name] = RustStruct([], {}, True)
    return out


class Crates:
    """The types of all crates, by crate and name."""

    def __init__(self, top):
        self.top = top
        self.read = {}

    def of_crate(self, crate):
        """The types that a crate declares."""
        if crate not in self.read:
            found = {}
            for folder, _, files in os.walk(os.path.join(self.top, "crates", crate, "src")):
                for name in sorted(f for f in files if f.endswith(".rt")):
                    with open(os.path.join(folder, name), encoding="utf-8") as file:
                        found.update(types_in(file.read()))
            self.read[crate] = found
        return self.read[crate]

    def find(self, name, crate=None):
        """A type by its name: of this crate if it has one, else of the crates in the order of their
        names."""
        if crate and name in self.of_crate(crate):
            return self.of_crate(crate)[name]
        for other in sorted(os.listdir(os.path.join(self.top, "crates"))):
            if name in self.of_crate(other):
                return self.of_crate(other)[name]
        return None


def is_number(kind):
    """Whether a type is a machine's unsigned number."""
    return kind is not None and kind.name in SIZES
