"""What `lsas-of-show` and `lsas-of-capture` read, as it comes, and how they write LSAs: all at the
end, or each as soon as it is found."""
import errno
import gzip
import os
import sys
import zlib

import lsas

GZIP = b"\x1f\x8b"
AT_ONCE = 1 << 16
EXPIRED = "expired LSAs: at MaxAge before the last packet, with no younger copy"


class Input:
    """The bytes of a file, or of standard input if its name is -, as they come."""

    def __init__(self, name):
        self.name, self.kept, self.file = name, bytearray(), None
        try:
            if name == "-" and sys.stdin is None:
                raise OSError(errno.EBADF, os.strerror(errno.EBADF))
            self.file = sys.stdin.buffer if name == "-" else open(name, "rb")
        except OSError as error:
            self.fail(error)

    def fail(self, error):
        lsas.end(lsas.NOT_READ, f"{self.name}: not read: {error.strerror}")

    def unpack(self):
        """From here on unpacks what comes, if it is packed."""
        if self.peek(2) == GZIP:
            self.file, self.kept = gzip.GzipFile(fileobj=Rest(self.kept, self.file)), bytearray()

    def more(self):
        """Some bytes that come next; none at the end."""
        try:
            return self.file.read1(AT_ONCE)
        except (gzip.BadGzipFile, EOFError, zlib.error):
            return lsas.end(lsas.REFUSED, f"{self.name}: gzip file truncated or damaged")
        except OSError as error:
            return self.fail(error)

    def peek(self, count):
        """The next bytes, which are still to be taken; fewer at the end."""
        while len(self.kept) < count:
            more = self.more()
            if not more:
                break
            self.kept += more
        return bytes(self.kept[:count])

    def take(self, count):
        """The next bytes; fewer at the end."""
        found = self.peek(count)
        del self.kept[:len(found)]
        return found

    def lines(self):
        """Each line, without its end."""
        begin = 0
        while True:
            at = self.kept.find(b"\n", begin)
            if at >= 0:
                yield self.take(at + 1)[:-1].decode("ascii", "replace")
                begin = 0
                continue
            begin, more = len(self.kept), self.more()
            self.kept += more
            if not more:
                break
        if self.kept:
            yield self.take(len(self.kept)).decode("ascii", "replace")


class Rest:
    """A file of which some bytes were read already."""

    def __init__(self, kept, file):
        self.kept, self.file = kept, file

    def read(self, count):
        if self.kept:
            found = bytes(self.kept[:count])
            del self.kept[:count]
            return found
        return self.file.read1(count)


def add_words(parser):
    """The options of both tools."""
    parser.add_argument("--area", type=lsas.area_of, help="write this area, if there are several")
    parser.add_argument("--others", metavar="FILE",
                        help="write LSAs of types 3, 4 and 5 to this file, in the same form")
    parser.add_argument("--follow", action="store_true",
                        help="write each new instance of an LSA as soon as it is found")


def output(asked):
    """How LSAs are written, as the options say."""
    return (Follow if asked.follow else AtEnd)(asked)


class AtEnd:
    """Writes the newest instance of each LSA at the end, in the order of their keys."""

    def __init__(self, asked):
        self.wanted, self.file, self.hint = asked.area, asked.others, ""
        self.found = lsas.Found(with_others=self.file is not None)

    def add(self, area, lsa, time=None):
        return self.found.add(area, lsa, time)

    def pass_time(self, time):
        self.found.pass_time(time)

    def takes(self, kind):
        return self.found.takes(kind)

    def leave(self, reason):
        return self.found.leave(reason)

    def solve(self, what):
        """Counts an LSA with bits that the checksum gave."""
        self.found.solved[what] += 1

    def see_list(self):
        """Notes that the text has a list of LSAs without their contents."""
        self.hint = ": the text lists LSAs without their contents (add router, network or detail)"

    def report(self):
        """Says what was left out, and what the checksum gave."""
        for reason, count in sorted(self.found.left.items()):
            lsas.tell(f"left out: {count} {reason}")
        for what, count in sorted(self.found.solved.items()):
            lsas.tell(f"not shown in full, found by the checksum: {what} of {count} LSAs")

    def finish(self):
        """Writes the LSAs, and says how many there are."""
        for _ in self.found.expire():
            self.leave(EXPIRED)
        self.report()
        area = self.found.choose(self.wanted)
        main, others = self.found.of(area), []
        if self.file is not None:
            others = self.found.others.of(area)
            self.write_others(others)
        lsas.put("".join(f"{lsa.hex()}\n" for lsa in main))
        self.count(main, others)

    def count(self, main, others, what=""):
        """Says how many LSAs were written; none at all is refused."""
        lsas.tell(f"written: {what}{self.found.counts(main)}")
        if self.file is not None:
            lsas.tell(f"written to {self.file}: {self.found.others.counts(others)}")
        if not main and not others:
            lsas.end(lsas.REFUSED, lsas.NONE_FOUND + self.hint)

    def write_others(self, others):
        """Writes a file; one that cannot be written ends the tool."""
        try:
            with open(self.file, "w", encoding="ascii") as file:
                file.writelines(f"{lsa.hex()}\n" for lsa in others)
        except OSError as error:
            lsas.end(lsas.NOT_READ, f"{self.file}: not written: {error.strerror}")


class Follow(AtEnd):
    """Writes each instance that is newer than the one before it, as it comes."""

    def __init__(self, asked):
        super().__init__(asked)
        self.instances, self.second = 0, None
        if self.file is not None:
            self.write_others([])

    def add(self, area, lsa, time=None):
        if not self.found.add(area, lsa, time):
            return False
        is_other = lsa[3] in lsas.OTHERS
        if self.wanted is None and len(self.found.names()) > 1:
            self.report()
            self.found.choose(None)
        if self.wanted not in (None, area) and lsa[3] != lsas.AS_EXTERNAL:
            return False
        self.instances += 1
        if is_other:
            self.append(lsa)
        else:
            lsas.put(f"{lsa.hex()}\n")
        return True

    def append(self, lsa):
        """Writes an LSA at the end of the file for others."""
        try:
            with open(self.file, "a", encoding="ascii") as file:
                file.write(f"{lsa.hex()}\n")
        except OSError as error:
            lsas.end(lsas.NOT_READ, f"{self.file}: not written: {error.strerror}")

    def pass_time(self, time):
        """Takes the time of a packet. Each second it says which LSAs have expired."""
        super().pass_time(time)
        second = None if time is None else time // lsas.SECOND
        if second != self.second:
            self.second = second
            self.expire()

    def expire(self):
        for lsa in self.found.expire():
            lsas.tell(f"expired: {lsas.name_of(lsa)}")

    def finish(self):
        self.expire()
        self.report()
        area = self.found.choose(self.wanted)
        main, others = self.found.of(area), []
        if self.file is not None:
            others = self.found.others.of(area)
        self.count(main, others, f"{self.instances} instances of ")
