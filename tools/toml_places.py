"""Where the keys and values of a TOML text stand.

`places` goes over a text that is TOML, and gives the place of each table, key and value; the path
of a value has its keys, and numbers in arrays, also in arrays of tables. Of a text that is no TOML
it gives what stands before the fault; `fault_of` gives the place of that.
"""
import bisect
import collections
import json
import re

try:
    import tomllib
except ImportError:  # Python 3.10 and before: without the column of what is no TOML.
    tomllib = None

# Offsets in the text: of the key, or of the header of a table, and of the value and its end.
Span = collections.namedtuple("Span", "key value end")
BLANK, SPACE = re.compile(r"(?:[ \t\r\n]|#[^\n]*)*"), re.compile(r"[ \t]*")
BARE_KEY, BARE = re.compile(r"[A-Za-z0-9_-]+"), re.compile(r"[^,\]}#\r\n]*")
STRINGS = (
    re.compile(r'"""(?:[^\\]|\\.)*?"{3,5}', re.S),
    re.compile(r"'''.*?'{3,5}", re.S),
    re.compile(r'"(?:[^"\\\n]|\\.)*"'),
    re.compile(r"'[^'\n]*'"),
)
FAULT = re.compile(r"\(at line (\d+), column (\d+)\)")


class NotToml(Exception):
    """The text ends, or goes on, as no TOML does."""


class Scanner:
    """Goes over a text once, from its beginning."""

    def __init__(self, text):
        self.text, self.at, self.found = text, 0, {}
        # How many tables each array of tables has so far.
        self.counts = {}

    def skip(self, pattern):
        self.at = pattern.match(self.text, self.at).end()

    def sees(self, sign):
        return self.text.startswith(sign, self.at)

    def take(self, pattern):
        found = pattern.match(self.text, self.at)
        if not found:
            raise NotToml
        self.at = found.end()
        return found[0]

    def expect(self, sign):
        if not self.sees(sign):
            raise NotToml
        self.at += len(sign)

    def run(self):
        """All that stands in the text."""
        table = ()
        self.skip(BLANK)
        while self.at < len(self.text):
            table = self.header() if self.sees("[") else self.pair(table) or table
            self.skip(BLANK)

    def header(self):
        """`[a.b]`, or `[[a.b]]` of an array of tables: its path."""
        begin = self.at
        sign = "[[" if self.sees("[[") else "["
        self.expect(sign)
        path = self.inside(self.key())
        self.expect("]" * len(sign))
        if sign == "[[":
            self.counts[path] = self.counts.get(path, -1) + 1
            path += (self.counts[path],)
        self.found[path] = Span(begin, begin, self.at)
        return path

    def inside(self, keys):
        """A path of keys with the numbers of the tables of arrays, but for the last."""
        path = ()
        for key in keys:
            path += (self.counts[path],) if path in self.counts else ()
            path += (key,)
        return path

    def key(self):
        """The parts of a key."""
        parts = []
        while True:
            self.skip(SPACE)
            if self.sees('"') or self.sees("'"):
                word = self.string()
                parts.append(json.loads(word, strict=False) if word[0] == '"' else word[1:-1])
            else:
                parts.append(self.take(BARE_KEY))
            self.skip(SPACE)
            if not self.sees("."):
                return tuple(parts)
            self.at += 1

    def pair(self, table):
        """A key and its value."""
        self.skip(SPACE)
        begin = self.at
        path = table + self.key()
        self.expect("=")
        self.skip(SPACE)
        value = self.at
        self.value(path)
        self.found[path] = Span(begin, value, self.at)

    def value(self, path):
        if self.sees("["):
            self.items(path)
        elif self.sees("{"):
            self.table(path)
        elif self.sees('"') or self.sees("'"):
            self.string()
        else:
            word = self.take(BARE)
            self.at -= len(word) - len(word.rstrip())

    def string(self):
        for pattern in STRINGS:
            if pattern.match(self.text, self.at):
                return self.take(pattern)
        raise NotToml

    def items(self, path):
        """An array."""
        self.expect("[")
        number = 0
        self.skip(BLANK)
        while not self.sees("]"):
            begin = self.at
            self.value(path + (number,))
            self.found[path + (number,)] = Span(begin, begin, self.at)
            number += 1
            self.skip(BLANK)
            if not self.sees("]"):
                self.expect(",")
                self.skip(BLANK)
        self.at += 1

    def table(self, path):
        """A table within a line."""
        self.expect("{")
        self.skip(BLANK)
        while not self.sees("}"):
            self.pair(path)
            self.skip(BLANK)
            if not self.sees("}"):
                self.expect(",")
                self.skip(BLANK)
        self.at += 1


class Places:
    """The places of a text, as lines and columns from 1."""

    def __init__(self, text):
        self.text, scanner = text, Scanner(text)
        try:
            scanner.run()
        except (NotToml, ValueError):
            pass
        self.found = scanner.found
        self.starts = [0] + [it.end() for it in re.finditer("\n", text)]

    def of(self, offset):
        """The line and column of an offset."""
        line = bisect.bisect(self.starts, offset)
        return line, offset - self.starts[line - 1] + 1

    def key(self, path):
        """Where a key stands, or the header of a table; nothing if it does not."""
        span = self.found.get(path)
        return span and (*self.of(span.key), *self.of(self.key_end(span)))

    def key_end(self, span):
        if span.key == span.value:
            return span.end
        return span.key + len(self.text[span.key : span.value].rstrip(" \t=").rstrip())

    def value(self, path):
        """Where a value stands and ends."""
        span = self.found.get(path)
        return span and (*self.of(span.value), *self.of(span.end))

    def below(self, path):
        """Where the first key stands that goes on from a path, as `a.b` from `a`."""
        found = [span.key for it, span in self.found.items() if it[: len(path)] == path and path]
        return (*self.of(min(found)), *self.of(min(found))) if found else None

    def items(self, path):
        """How many items an array has."""
        number = 0
        while (*path, number) in self.found:
            number += 1
        return number

    def written(self, path):
        """The text of a value."""
        span = self.found.get(path)
        return span and self.text[span.value : span.end]


def fault_of(text):
    """The line and column where a text is no TOML; nothing if it is, or if Python cannot tell."""
    if tomllib is None:
        return None
    try:
        tomllib.loads(text)
    except tomllib.TOMLDecodeError as fault:
        if place := FAULT.search(str(fault)):
            return int(place[1]), int(place[2])
        starts = [0] + [it.end() for it in re.finditer("\n", text)]
        return len(starts), len(text) - starts[-1] + 1
    return None
