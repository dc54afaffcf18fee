"""The LSDB that a watcher keeps, and the file that it writes of it."""
import collections
import contextlib
import os
import socket
import struct
import tempfile

import lsas

Held = collections.namedtuple("Held", "lsa time")


def as_address(four):
    return socket.inet_ntoa(four)


class Area:
    """The newest instance of each LSA, with the time at which it was read."""

    def __init__(self):
        self.held = {}

    def take(self, update):
        """Takes what became of an LSA; whether the LSDB says something else from now on: not by a
        refresh, nor by what was known."""
        key = lsas.key_of(update.lsa)
        known = self.held.get(key)
        if update.is_gone:
            return self.held.pop(key, None) is not None
        self.held[key] = Held(update.lsa, update.time)
        return known is None or says(known.lsa) != says(update.lsa)

    def expire(self, now):
        """Takes out LSAs that have reached MaxAge since they were read: where nobody tells that
        they did. Which these are."""
        gone = [key for key, held in self.held.items() if aged(held, now) == lsas.MAX_AGE]
        return [self.held.pop(key).lsa for key in gone]

    def ordered(self):
        return [self.held[key] for key in sorted(self.held)]

    def text(self):
        """All LSAs in the order of their keys, a line of hexadecimal digits each, as they came."""
        return "".join(f"{held.lsa.hex()}\n" for held in self.ordered())

    def text_at(self, now):
        """The same, each LSA at its age at this time."""
        lines = []
        for held in self.ordered():
            age = struct.pack(">H", aged(held, now)) if lsas.does_age(held.lsa) else held.lsa[:2]
            lines.append(f"{(age + held.lsa[2:]).hex()}\n")
        return "".join(lines)

    def routers(self):
        """The Router IDs of all router-LSAs."""
        return sorted(as_address(key[2]) for key in self.held if key[0] == lsas.ROUTER)

    def count(self, kind):
        return sum(key[0] == kind for key in self.held)


def says(lsa):
    """What distinguishes an LSA from one that it refreshes: the options, the length and all behind
    the header (RFC 2328, section 13.2)."""
    return lsa[2:3] + lsa[18:]


def aged(held, now):
    """The age of an LSA at a time."""
    age = lsas.age_of(held.lsa)
    if not lsas.does_age(held.lsa):
        return age
    return min(lsas.MAX_AGE, age + max(0, int(now - held.time)))


class Snapshot:
    """A file with all LSAs, written again at most once a second. A reader sees the old one or the
    new one, whole, and so does a machine that lost its power."""

    def __init__(self, path, least=1.0):
        self.path, self.least, self.last, self.is_due = path, least, None, False

    def change(self):
        self.is_due = True

    def wait(self, now):
        """How many seconds there are until it is written; None where it need not be."""
        if not self.is_due:
            return None
        return 0 if self.last is None else max(0, self.last + self.least - now)

    def write(self, text, now):
        """Writes the text, if that is due now. OSError where it cannot be written."""
        if self.wait(now) != 0:
            return
        self.last, self.is_due = now, False
        put(self.path, text)


def put(path, text):
    """Puts a text in the place of a file: it is on the disk before the old one goes."""
    folder = os.path.dirname(os.path.abspath(path))
    made = tempfile.NamedTemporaryFile("w", dir=folder, prefix=".watch-", delete=False,
                                       encoding="ascii")
    try:
        with made as file:
            file.write(text)
            file.flush()
            os.fsync(file.fileno())
        os.chmod(made.name, 0o644)
        os.replace(made.name, path)
    except BaseException:
        with contextlib.suppress(OSError):
            os.unlink(made.name)
        raise
    opened = os.open(folder, os.O_RDONLY)
    try:
        os.fsync(opened)
    finally:
        os.close(opened)
