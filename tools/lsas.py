"""LSAs as bytes: what the tools share that write them for `ospfd table`, one LSA per line in
hexadecimal; and their streams."""
import argparse
import collections
import errno
import math
import os
import re
import socket
import struct
import sys

HEADER = 20
MAX_AGE = 3600
MAX_AGE_DIFF = 900
# The bit of LS age that keeps an LSA from ageing (RFC 1793, section 2.2): a demand circuit or
# flood reduction sets it.
DO_NOT_AGE = 0x8000
MAX_NUMBER = 0x7FFFFFFF
# Times are in nanoseconds, ages in seconds.
SECOND = 10**9
ROUTER, NETWORK = 1, 2
KINDS = {ROUTER: "router", NETWORK: "network"}
OTHERS = {3: "summary", 4: "ASBR-summary", 5: "AS-external"}
AS_EXTERNAL = 5
# Where AS-external-LSAs are: in no area.
OUTSIDE = "AS"
# As ospfd ends where its input is refused, and where a file or a stream failed.
REFUSED, NOT_READ = 3, 5
NONE_FOUND = "no LSA found"


def tell(line):
    """A line on standard error; that nobody reads it does not matter."""
    try:
        if sys.stderr is not None:
            print(line, file=sys.stderr, flush=True)
    except OSError:
        pass


def end(status, line):
    """Ends with a line on standard error."""
    tell(line)
    sys.exit(status)


def put(text):
    """A text on standard output; what is not written ends the tool."""
    if sys.stdout is None:
        end(NOT_READ, "standard output: not written")
    # Not by the stream: an unbuffered one loses what a pipe does not take at once.
    left = memoryview(text.encode("utf-8", "replace"))
    try:
        while left:
            left = left[os.write(sys.stdout.fileno(), left):]
    except OSError as error:
        end(NOT_READ, f"standard output: not written: {error.strerror}")


def read(name):
    """The bytes of a file, or of standard input where its name is -."""
    try:
        if name == "-" and sys.stdin is None:
            raise OSError(errno.EBADF, os.strerror(errno.EBADF))
        if name == "-":
            return sys.stdin.buffer.read()
        with open(name, "rb") as file:
            return file.read()
    except OSError as error:
        return end(NOT_READ, f"{name}: not read: {error.strerror}")


def area_of(word):
    """An area as four numbers, of a word that has it so, or as a number."""
    try:
        if re.fullmatch("[0-9]{1,10}", word):
            return socket.inet_ntoa(struct.pack(">I", int(word)))
        return socket.inet_ntoa(socket.inet_pton(socket.AF_INET, word))
    except (OSError, ValueError, struct.error):
        raise argparse.ArgumentTypeError(f"{word}: not an area, such as 0.0.0.1 or 1") from None


def name_of(lsa):
    """What an LSA is called in messages."""
    ends = " of ".join(socket.inet_ntoa(lsa[at:at + 4]) for at in (4, 8))
    return f"{(KINDS.get(lsa[3]) or OTHERS[lsa[3]])}-LSA {ends}"


def has_right_sum(lsa):
    """Whether both sums over the LSA without its age are zero (RFC 2328, section 12.1.7)."""
    plain = weighted = 0
    for byte in lsa[2:]:
        plain = (plain + byte) % 255
        weighted = (weighted + plain) % 255
    return lsa[16:18] != b"\x00\x00" and plain == 0 and weighted == 0


def key_of(lsa):
    return lsa[3], lsa[4:8], lsa[8:12]


def age_of(lsa):
    """The age of an instance in seconds, without the bit DoNotAge, and at most MaxAge."""
    return min(struct.unpack_from(">H", lsa)[0] & ~DO_NOT_AGE, MAX_AGE)


def does_age(lsa):
    """Whether an instance grows older in a database: not if it has the bit DoNotAge, unless it is
    flushed."""
    return not struct.unpack_from(">H", lsa)[0] & DO_NOT_AGE or age_of(lsa) == MAX_AGE


def is_newer(a, b):
    """Whether the first instance is the newer one, of one key (RFC 2328, section 13.1)."""
    first, second = struct.unpack_from(">iH", a, 12), struct.unpack_from(">iH", b, 12)
    if first != second:
        return first > second
    age, other = age_of(a), age_of(b)
    if (age == MAX_AGE) != (other == MAX_AGE):
        return age == MAX_AGE
    return age + MAX_AGE_DIFF < other


def has_wrapped(known, lsa):
    """Whether an instance follows the flushed one of the greatest number, where numbers begin
    again (RFC 2328, section 12.1.6)."""
    number = known[12:16]
    is_greatest = number == struct.pack(">I", MAX_NUMBER)
    return age_of(known) == MAX_AGE and is_greatest and lsa[12:16] != number


def end_of(lsa, time):
    """When an instance leaves all databases, by the time of a copy: at once where that is at MaxAge
    (RFC 2328, section 14), else when it reaches that age, and never where it does not age; None
    where the copy has no time."""
    if time is None:
        return None
    return time + (MAX_AGE - age_of(lsa)) * SECOND if does_age(lsa) else math.inf


def has_followed(known, end, lsa, time):
    """Whether an instance came when the known one had left all databases. It is installed then,
    whatever its number (RFC 2328, section 13). After a flush it counts from when it was originated:
    ages rise at each hop, so a late copy of what was there before never seems younger than it is.
    """
    if end is None or time is None:
        return False
    return time - age_of(lsa) * SECOND >= end or (age_of(known) < MAX_AGE and time > end)


class Found:
    """The newest instance of each LSA of some types that was found, area by area, with its end;
    what was left out, counted by its reason; and the time of the last packet, if one is known.
    LSAs of types 3 to 5 are in one of their own, if they are wanted."""

    def __init__(self, with_others=False, kinds=None):
        self.areas, self.ends, self.left, self.last = {}, {}, collections.Counter(), None
        self.kinds, self.others = kinds or KINDS, Found(kinds=OTHERS) if with_others else None
        # How many LSAs have bytes that the checksum gave, by what they are.
        self.solved = collections.Counter()

    def leave(self, reason):
        """Counts an LSA or a packet that is left out."""
        self.left[reason] += 1
        return False

    def takes(self, kind):
        """Whether LSAs of a type are taken."""
        return kind in self.kinds or self.others is not None and kind in self.others.kinds

    def add(self, area, lsa, time=None):
        """Takes an LSA of an area, and the time of its packet if it is known. Whether it is newer
        than the known one; one of another type or with a wrong checksum is left out."""
        if not self.takes(lsa[3]):
            return self.leave(f"LSAs of type {lsa[3]}")
        if not has_right_sum(lsa):
            return self.leave("LSAs with a wrong checksum")
        if lsa[3] not in self.kinds:
            place = OUTSIDE if lsa[3] == AS_EXTERNAL else area
            is_new, known = self.others.install(place, lsa, time)
        else:
            is_new, known = self.install(area, lsa, time)
        if known:
            self.leave("older or repeated instances")
        return is_new

    def install(self, area, lsa, time):
        """Keeps an LSA if it is newer than the known one. Whether it is; whether one was known."""
        newest, ends = self.areas.setdefault(area, {}), self.ends.setdefault(area, {})
        key, end_of_this = key_of(lsa), end_of(lsa, time)
        known = newest.get(key)
        if known is not None and not is_newer(lsa, known) and not has_wrapped(known, lsa):
            if not has_followed(known, ends[key], lsa, time):
                if not is_newer(known, lsa):
                    both = (end_of_this, ends[key])
                    ends[key] = None if None in both else max(both)
                return False, True
        newest[key], ends[key] = lsa, end_of_this
        return True, known is not None

    def pass_time(self, time):
        """Takes the time of a packet, if it is known. With several captures times may go back."""
        if time is not None:
            self.last = time if self.last is None else max(time, self.last)
        if self.others is not None:
            self.others.pass_time(time)

    def has_expired(self, lsa, end_of_this):
        """Whether an instance reached MaxAge before the last packet, and was not flushed before
        (RFC 2328, section 14)."""
        is_known = None not in (end_of_this, self.last)
        return is_known and age_of(lsa) < MAX_AGE and end_of_this < self.last

    def expire(self):
        """Takes out each LSA that has expired. The last copy of it has an age below MaxAge, so
        `table` would take it for a living one."""
        gone = [] if self.others is None else self.others.expire()
        for area, newest in self.areas.items():
            for key, lsa in list(newest.items()):
                if self.has_expired(lsa, self.ends[area][key]):
                    gone.append(lsa)
                    del newest[key]
        return gone

    def names(self):
        """The areas that LSAs were found of."""
        others = () if self.others is None else self.others.areas
        return sorted({*self.areas, *others} - {OUTSIDE})

    def choose(self, wanted):
        """The area that is wanted, or the only one. Two areas have LSAs of one key, so they are
        never mixed. None where there is no area."""
        names = self.names()
        seen = ", ".join(names)
        if wanted is not None and names and wanted not in names:
            verb = "is" if len(names) == 1 else "are"
            end(REFUSED, f"no area {wanted}: there {verb} {seen}")
        if wanted is None and len(names) > 1:
            end(REFUSED, f"several areas: {seen}: choose one with --area")
        return wanted if wanted is not None or not names else names[0]

    def of(self, area):
        """The LSAs of an area, and those outside of all, in the order of their keys."""
        found = {**self.areas.get(area, {}), **self.areas.get(OUTSIDE, {})}
        return [found[key] for key in sorted(found)]

    def counts(self, lsas_of_area):
        """How many LSAs there are of each type, in words."""
        kinds = collections.Counter(lsa[3] for lsa in lsas_of_area)
        return ", ".join(f"{kinds[kind]} {word}-LSAs" for kind, word in self.kinds.items())
