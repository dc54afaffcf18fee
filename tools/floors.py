"""The file that keeps the floor of the LS sequence numbers of routers, from one start to the next
(RFC 2328, section 12.1.6): a line `floor 80010000`, eight hexadecimal digits, with a number that no
LSA has passed. Before a start it is raised by a block of numbers, and written to the disk."""
import os
import re
import tempfile

REFUSED, NOT_READ = 3, 5
# The number below InitialSequenceNumber, and MaxSequenceNumber, as signed numbers (RFC 2328,
# section 12.1.6).
LEAST, MOST = -(1 << 31), (1 << 31) - 1
# How many numbers are reserved at a time. A router issues an LSA at most every 5 seconds
# (MinLSInterval), so they last for days.
BLOCK = 1 << 16
FLOOR = re.compile(r"floor ([0-9a-f]{8})\n")


class Refused(Exception):
    """A file that cannot be used, and the status that says so."""

    def __init__(self, text, status=REFUSED):
        super().__init__(text)
        self.status = status


def shown(number):
    """A LS sequence number as `ospfd run` reads and prints it."""
    return f"{number & 0xFFFFFFFF:08x}"


def number_of(digits):
    number = int(digits, 16)
    return number - (1 << 32) if number > MOST else number


class State:
    """The file with the number that no LSA has passed."""

    def __init__(self, path, is_new):
        self.path = path
        self.floor = self.reserved = self.first() if is_new else self.read()
        self.reserve()

    def first(self):
        """The first number, where there is no file yet."""
        if os.path.lexists(self.path):
            raise Refused(
                f"{self.path}: is there already\n"
                "  leave out --new: the routers begin above its number"
            )
        return LEAST

    def read(self):
        """The number in the file."""
        try:
            with open(self.path, encoding="ascii", errors="replace") as file:
                found = FLOOR.fullmatch(file.read(1000))
        except FileNotFoundError as fault:
            raise Refused(
                f"{self.path}: no such file\n" "  --new makes it, for routers that have never run"
            ) from fault
        except OSError as fault:
            raise Refused(f"{self.path}: not read: {fault.strerror}", NOT_READ) from fault
        if not found:
            raise Refused(
                f"{self.path}: not a floor\n"
                "  a line 'floor NUMBER' wanted, eight hexadecimal digits"
            )
        return number_of(found[1])

    def reserve(self):
        """Reserves another block. It is on the disk before this returns."""
        if self.reserved + BLOCK >= MOST:
            raise Refused(
                f"{self.path}: the numbers are used up\n"
                "  after an hour without these routers, remove it and use --new"
            )
        folder = os.path.dirname(os.path.abspath(self.path))
        try:
            with tempfile.NamedTemporaryFile(
                "w", dir=folder, prefix=".floor-", delete=False, encoding="ascii"
            ) as file:
                file.write(f"floor {shown(self.reserved + BLOCK)}\n")
                file.flush()
                os.fsync(file.fileno())
            os.replace(file.name, self.path)
            opened = os.open(folder, os.O_RDONLY)
            try:
                os.fsync(opened)
            finally:
                os.close(opened)
        except OSError as fault:
            raise Refused(f"{self.path}: not written: {fault.strerror}", NOT_READ) from fault
        self.reserved += BLOCK

    def note(self, number):
        """Notes a number that was used: where half of the block is used, the next one is
        reserved."""
        while number > self.reserved - BLOCK // 2:
            self.reserve()
