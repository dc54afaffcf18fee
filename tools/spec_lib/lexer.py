"""The words of a file of definitions (antt): names, numbers, texts and marks, each with its line
and column."""
import re
from typing import NamedTuple

# Words that are no names and end an application.
RESERVED = {
    "→", "×", "⊎", "↔", "=", "|", ":", "↦", "λ", "let", "in", "elim", "record", "where", "then",
    "else"
}
_WORD = re.compile(r'[^\s(){}.;,@"«»]+')
_NUMBER = re.compile(r"(0x[0-9a-fA-F_]+|0o[0-7_]+|0b[01_]+|[0-9][0-9_]*)$")
_ESCAPES = {"n": "\n", "t": "\t", "r": "\r", "0": "\0", '"': '"', "\\": "\\"}


class Token(NamedTuple):
    """A word: `kind` is name, number, text, field (`.f` right behind a term) or mark."""

    kind: str
    text: str
    line: int
    column: int


class Unreadable(Exception):
    """A text that this reader does not know."""


def _quoted(line, at):
    """The text that begins at this place, and the place behind it."""
    out, at = [], at + 1
    while line[at] != '"':
        if line[at] == "\\":
            at += 1
            out.append(_ESCAPES[line[at]])
        else:
            out.append(line[at])
        at += 1
    return "".join(out), at + 1


def _one(line, at, number):
    """The word at this place, and the place behind it."""
    mark = line[at]
    if mark == '"':
        text, end = _quoted(line, at)
        return Token("text", text, number, at), end
    if mark == "." and at and line[at - 1] not in " (" and line[
        at + 1:at + 2
    ].strip() not in ("", "."):
        word = _WORD.match(line, at + 1)
        if word:
            return Token("field", word.group(), number, at), word.end()
    if mark in "(){}.;,@«»":
        return Token("mark", mark, number, at), at + 1
    word = _WORD.match(line, at)
    text = word.group()
    if text.startswith("--"):
        return None, len(line)
    kind = "number" if _NUMBER.match(text) else "mark" if text in RESERVED or text in (
        "[", "]"
    ) else "name"
    return Token(kind, text, number, at), word.end()


def words(source):
    """All words of a file, comments left out."""
    source = re.sub(
        r"\{-.*?-\}", lambda found: re.sub(r"[^\n]", " ", found.group()), source, flags=re.S
    )
    out = []
    for number, line in enumerate(source.split("\n"), 1):
        at = 0
        while at < len(line):
            if line[at].isspace():
                at += 1
                continue
            token, at = _one(line, at, number)
            if token:
                out.append(token)
    return out


def number_of(text):
    """The value of a numeral."""
    return int(
        text.replace("_", ""), 0
    ) if text[:2] in ("0x", "0o", "0b") else int(text.replace("_", ""))


def split_by_column(tokens, column):
    """The parts that each begin with a word in this column at the start of a line."""
    parts = []
    line = None
    for token in tokens:
        if token.column == column and token.line != line and token.text not in ("}", ")", "]"):
            parts.append([])
        line = token.line
        if not parts:
            raise Unreadable(
                f"line {token.line}: {token.text!r} stands before the column of its block"
            )
        parts[-1].append(token)
    return parts
