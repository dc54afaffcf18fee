"""The lines that a watcher reads: those of `ospfd run --log-lsas`, as text or as JSON, or LSAs in
hexadecimal, as `tools/lsas-of-capture --follow` writes them."""
import json
import re
import struct

import lsas

INSTALLED, REFRESHED, AGED_OUT, FLUSHED = "installed", "refreshed", "aged-out", "flushed"
EVENTS = (INSTALLED, REFRESHED, AGED_OUT, FLUSHED)
GONE = (AGED_OUT, FLUSHED)
# The words of a line of text: tick, router, event, what names the LSA, its age, and all of it.
WORDS = 10
# An LSA has at most 65,535 bytes, so no line is longer than this.
LONGEST = 2 * 65535 + 300


class Unreadable(Exception):
    """A line that is none of these."""


class Update:
    """What became of an LSA: the event, all its bytes, the router that told it (None where nobody
    is named), and when its line was read, in seconds since 1970."""

    def __init__(self, event, lsa, router, time):
        self.event, self.lsa, self.router, self.time = event, lsa, router, time

    @property
    def is_gone(self):
        return self.event in GONE or lsas.age_of(self.lsa) == lsas.MAX_AGE


def lsa_of(digits):
    """The LSA of hexadecimal digits, if its length and its checksum are right."""
    try:
        lsa = bytes.fromhex(digits)
    except ValueError:
        raise Unreadable("not hexadecimal") from None
    if len(lsa) < lsas.HEADER or struct.unpack_from(">H", lsa, 18)[0] != len(lsa):
        raise Unreadable("not an LSA: its length is not that of its header")
    if lsa[3] not in lsas.KINDS:
        raise Unreadable(f"an LSA of type {lsa[3]}")
    if not lsas.has_right_sum(lsa):
        raise Unreadable("an LSA with a wrong checksum")
    return lsa


def member(value, name, kind):
    """A member of an object, of this type."""
    found = value.get(name) if isinstance(value, dict) else None
    if not isinstance(found, kind):
        raise Unreadable(f"an object without {name}")
    return found


def of_json(text, time):
    try:
        value = json.loads(text)
    except (ValueError, RecursionError):
        raise Unreadable("not JSON") from None
    event = member(value, "event", str)
    if event not in EVENTS:
        raise Unreadable("an object about no LSA")
    return Update(event, lsa_of(member(value, "bytes", str)), member(value, "router", str), time)


def read(line, time):
    """What a line says. A line of LSAs in hexadecimal alone installs one, or says that it is gone
    where it is at MaxAge."""
    if len(line) > LONGEST:
        raise Unreadable("a line that is too long")
    if line.startswith("{"):
        return of_json(line, time)
    words = line.split()
    if len(words) == WORDS and words[2] in EVENTS:
        return Update(words[2], lsa_of(words[-1]), words[1], time)
    if len(words) == 1 and re.fullmatch("[0-9a-fA-F]+", words[0]):
        return Update(INSTALLED, lsa_of(words[0]), None, time)
    raise Unreadable("not a line of a journal of LSAs, and not an LSA in hexadecimal")
