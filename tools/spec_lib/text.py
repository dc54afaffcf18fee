"""Values as words on a command line, and as they are printed.

    5  0xff  -3  1.2.3.4          numbers; an address is one
    true  Full  (Router 1.1.1.1)  constructors, with what they hold
    {id = 1.1.1.1; priority = 1}  a record; {1.1.1.1} is an address or a Router ID as a record
    [1, 2, 3]                     a list
    hex:000102                    a list of bytes
    "text"                        a text
    _                             an unknown: the answer says what it may be
"""
import re

from .claims import Claim
from .functions import Function
from .values import Made, Refused, Struct, Unknown, known
from .words import CONSTRUCTORS

_WORD = re.compile(
    r'\s*("[^"]*"|hex:[0-9a-fA-F]*|\d+\.\d+\.\d+\.\d+|-?0x[0-9a-fA-F]+|-?\d+'
    r"|[^\W\d][\w']*|_|[\[\](){};,=])"
)


def address(number):
    """A number as an address is written."""
    return ".".join(str(number >> shift & 255) for shift in (24, 16, 8, 0))


def number(text):
    """The number of an address."""
    parts = [int(part) for part in text.split(".")]
    if len(parts) != 4 or max(parts) > 255:
        raise Refused(f"{text} is no address")
    return int.from_bytes(bytes(parts), "big")


class _Reader:
    """Reads one value."""

    def __init__(self, text):
        self.words, at = [], 0
        text = text.rstrip()
        while at < len(text):
            found = _WORD.match(text, at)
            if not found:
                raise Refused(f"not read: {text[at:]}")
            self.words.append(found.group(1))
            at = found.end()
        self.at = 0

    def peek(self):
        """The next word."""
        return self.words[self.at] if self.at < len(self.words) else None

    def take(self, *allowed):
        """Passes over the next word."""
        word = self.peek()
        if word is None or allowed and word not in allowed:
            raise Refused(f"{' or '.join(allowed) or 'a value'} expected at {word}")
        self.at += 1
        return word

    def until(self, close, *between):
        """Values up to a bracket."""
        out = []
        while self.peek() != close:
            out.append(self.value())
            if self.peek() != close and between:
                self.take(*between)
        self.take(close)
        return out

    def value(self):
        """A value."""
        word = self.take()
        if word == "[":
            return tuple(self.until("]", ","))
        if word == "(":
            return made(self.take(), self.until(")"))
        if word == "{":
            return self.record()
        if word == "_":
            return Unknown()
        if word[0] == '"':
            return word[1:-1]
        if word.startswith("hex:"):
            return tuple(bytes.fromhex(word[4:]))
        if "." in word:
            return number(word)
        return int(word, 0) if word[0] in "-0123456789" else made(word, [])

    def record(self):
        """The fields of a record."""
        fields = {}
        if self.at + 1 < len(self.words) and self.words[self.at + 1] != "=":
            fields["0"] = self.value()
            self.take("}")
            return Struct(fields)
        while self.peek() != "}":
            label = self.take()
            self.take("=")
            fields[label] = self.value()
            if self.peek() != "}":
                self.take(";")
        self.take("}")
        return Struct(fields)


def made(name, values):
    """What a constructor makes."""
    if name in CONSTRUCTORS:
        head = CONSTRUCTORS[name]
        return head(*values) if isinstance(head, Function) else head
    return Made(name, values)


def read(text):
    """The value of a word."""
    reader = _Reader(text)
    value = reader.value()
    if reader.peek() is not None:
        raise Refused(f"not read: {reader.peek()}")
    return value


def show(value):
    """A value as it is printed."""
    value = known(value)
    if isinstance(value, bool):
        return "true" if value else "false"
    if isinstance(value, (int, str)):
        return str(value) if isinstance(value, int) else f'"{value}"'
    if isinstance(value, tuple):
        return "[" + ", ".join(map(show, value)) + "]"
    if isinstance(value, Struct):
        if list(value.fields) == ["0"]:
            return "{" + address(
                known(value.fields["0"])
            ) + "}" if type(known(value.fields["0"])) is int else "{_}"
        return "{" + "; ".join(
            f"{label} = {show(part)}" for label, part in value.fields.items()
        ) + "}"
    if isinstance(value, Made):
        return "(" + " ".join(
            [value.name, *map(show, value.values)]
        ) + ")" if value.values else value.name
    if isinstance(value, Unknown):
        return "_"
    if isinstance(value, (Claim, Function)):
        raise Refused("what is asked for is a statement or a function of more arguments")
    return str(value)
