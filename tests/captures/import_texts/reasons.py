"""Why something is left out or assumed, in the words of the report."""

SPEED = "no cost in the file: FRR's for 10000 Mbit/s"
HOST = "a loopback: add it as a table [[host]], with its cost"
SHORT = "a prefix of 31 bits is for point-to-point links"
LOOPBACK = "cost 0: no cost in the file: that of a loopback"
AUTH = "authentication: packets are sent without it"
EFFECT = "no effect on the LSDB of the area"
BAD_ADDRESS = "the format has no interface with such an address"


def of_one(file, report):
    """The lines of a report on one file."""
    return [f"{file}:{line}" for line in report]
