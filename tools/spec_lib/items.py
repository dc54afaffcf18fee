"""The declarations of a file of definitions: its header, its functions, its records and its
data."""
from typing import NamedTuple, Optional

from .lexer import Unreadable, split_by_column, words
from .parser import Implicit, Parser


class Clause(NamedTuple):
    """One line of a function: patterns, what it gives, and the functions that stand behind its
    `where`."""

    patterns: list
    implicits: list
    body: tuple
    local: list


class Function(NamedTuple):
    """A function or a constant: its type and its clauses, of which the first that fits counts."""

    name: str
    type: tuple
    implicit_types: list
    clauses: list


class Record(NamedTuple):
    """A record: its parameters and its fields, each with its type. With parameters it is a
    statement or a family."""

    name: str
    parameters: list
    fields: list
    implicit: list


class Data(NamedTuple):
    """A data type: its parameters, its constructors with their types, and the type of what else it
    is given."""

    name: str
    parameters: list
    constructors: list
    implicit: list
    indices: tuple


class Use(NamedTuple):
    """A name that a header brings in: `path` is what it stands for; `module` says that it is a
    module's."""

    name: str
    path: tuple
    module: bool
    passed_on: bool


class File(NamedTuple):
    """What one file holds, and what of it could not be read."""

    uses: list
    declarations: list
    unread: list


def _leaves(parser, prefix):
    """The names in the braces of a `use` line."""
    out = []
    parser.take("{")
    while not parser.peek("}"):
        parts = [parser.tokens[parser.at].text]
        parser.at += 1
        while not parser.done() and parser.tokens[parser.at].kind == "field":
            parts.append(parser.tokens[parser.at].text)
            parser.at += 1
        name = parts[-1]
        if parser.peek("as"):
            name = parser.tokens[parser.at + 1].text
            parser.at += 2
        out.append((name, (*prefix, *parts)))
        if parser.peek(","):
            parser.at += 1
    return out


def _use(tokens):
    """The names that a `use` line brings in."""
    passed = any(t.text == "pub" for t in tokens[:2])
    start = next(i for i, t in enumerate(tokens) if t.text == "use") + 1
    parser = Parser(tokens)
    parser.at = start
    path = []
    while not parser.done() and not parser.peek("{") and not parser.peek("as"):
        if not parser.peek("."):
            path.append(tokens[parser.at].text)
        parser.at += 1
    if parser.peek("{"):
        return [Use(name, whole, False, passed) for name, whole in _leaves(parser, tuple(path))]
    name = tokens[parser.at + 1].text if parser.peek("as") else path[-1]
    return [Use(name, tuple(path), True, passed)]


def _signature(parser):
    """The type of a function, and the types of what it takes in braces."""
    implicit = []
    while parser.peek("{") and parser.is_binder():
        implicit.append(parser.binder())
        if parser.peek("→"):
            parser.at += 1
    return parser.term(), implicit


def _patterns(parser):
    """The patterns before `=`, and the names in braces among them."""
    explicit, implicit = [], []
    while not parser.peek("="):
        atom = parser.atom()
        if atom[0] == "implicit":
            implicit.append((atom[1], atom[2]))
        else:
            explicit.append(atom)
    return explicit, implicit


def _clause(tokens):
    """A clause of a function, with its local functions."""
    nested = next((i for i, t in enumerate(tokens) if t.text == "where" and t.kind == "mark"), None)
    local = []
    if nested is not None:
        local = functions(split_by_column(tokens[nested + 1:], tokens[nested + 1].column))
        tokens = tokens[:nested]
    parser = Parser(tokens)
    if parser.peek("if"):
        raise Unreadable(f"line {tokens[0].line}: an operator's clause")
    parser.at += 1
    explicit, implicit = _patterns(parser)
    parser.take("=")
    body = parser.term()
    if not parser.done():
        parser.fail("the end of the clause")
    return Clause(explicit, implicit, body, local)


def functions(parts):
    """Functions from their signatures and clauses, in the order of the text."""
    out = []
    for part in parts:
        if any(t.text in ("unfolding", "infix", "infixl", "infixr") for t in part[:1]):
            continue
        start = next(
            i for i,
            t in enumerate(part) if t.text not in ("unfoldable", "abbrev", "pub", "pattern")
        )
        head = part[start:]
        if len(head) > 1 and head[1].text == ":" or start:
            parser = Parser(head)
            parser.at = 1
            while not parser.peek(":"):
                parser.at += 1
            parser.at += 1
            kind, implicit = _signature(parser)
            out.append(Function(head[0].text, kind, implicit, []))
        elif out and out[-1].name == head[0].text:
            out[-1].clauses.append(_clause(head))
        else:
            raise Unreadable(
                f"line {head[0].line}: a clause of {head[0].text!r} without its signature"
            )
    return out


def _parameters(parser):
    """The parameters of a record or data type: those that are given to it, and those in braces."""
    out, implicit = [], []
    while not parser.peek(":"):
        names, kind = parser.binder()
        (implicit if isinstance(names, Implicit) else out).extend((name, kind) for name in names)
    return out, implicit


def _fields(tokens):
    """The fields of a record."""
    out = []
    for part in split_by_column(tokens, tokens[0].column):
        parser = Parser(part)
        if parser.peek("pub"):
            parser.at += 1
        name = parser.tokens[parser.at].text
        parser.at += 1
        parser.take(":")
        out.append((name, parser.term()))
        if not parser.done():
            parser.fail("the end of the field")
    return out


def _declared(tokens, kind) -> Optional[tuple]:
    """A record or a data type."""
    at = next(i for i, t in enumerate(tokens) if t.text == kind)
    name = tokens[at + 1].text
    parser = Parser(tokens)
    parser.at = at + 2
    parameters, implicit = _parameters(parser)
    parser.at += 1
    indices = parser.term()
    body = next(i for i, t in enumerate(tokens) if t.text == "where" and t.kind == "mark")
    fields = _fields(tokens[body + 1:]) if body + 1 < len(tokens) else []
    implicit = [name for name, _ in implicit]
    return Record(name, parameters, fields, implicit) if kind == "record" else Data(
        name, parameters, fields, implicit, indices
    )


def read(source):
    """What a file of definitions holds."""
    uses, declarations, unread, pending = [], [], [], []
    for part in split_by_column(words(source), 0):
        texts = [t.text for t in part[:4]]
        try:
            if "use" in texts[:3]:
                uses.extend(_use(part))
            elif "mod" in texts[:2]:
                continue
            elif "record" in texts[:2] or "data" in texts[:2]:
                declarations.append(_declared(part, "record" if "record" in texts[:2] else "data"))
            else:
                pending.append(part)
        except (Unreadable, IndexError, StopIteration) as fault:
            unread.append((texts, str(fault)))
    for group in _grouped(pending):
        try:
            declarations.extend(functions(group))
        except (Unreadable, IndexError, StopIteration) as fault:
            unread.append(([t.text for t in group[0][:4]], str(fault)))
    return File(uses, declarations, unread)


def _grouped(parts):
    """Each signature with the clauses behind it."""
    groups = []
    for part in parts:
        if part[0].text in (
            "abbrev", "unfoldable", "pub", "pattern"
        ) or len(part) > 1 and part[1].text == ":":
            groups.append([])
        if groups:
            groups[-1].append(part)
    return groups
