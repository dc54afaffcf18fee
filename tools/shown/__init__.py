"""What routers show of an LSDB: a parser for each format, and what recognizes the format."""
import re

from . import bird, eos, frr, ios, json_of_frr, junos, nxos
from .parts import Unreadable

# The first that knows a line reads from there on: what is more special comes first.
FORMATS = (json_of_frr, frr, nxos, ios, eos, junos, bird)
NAMES = ", ".join(it.NAME for it in (frr, json_of_frr, ios, nxos, eos, junos, bird))
# Few lines are headings: one pattern for all finds these.
HEADINGS = re.compile("|".join(f"(?:{it.HEADING.pattern})" for it in FORMATS))
# The heading of a list of LSAs without their contents, as text and as JSON.
LIST = re.compile(r"\s*Link ID +ADV Router +Age\b|.*\"lsId\":")
# What a pager leaves in the text.
PAGER = re.compile(r"\s*-+ ?\(?[Mm]ore\b[^-\n]*-+[\b ]*\r?")


def format_of(line):
    """The format that has such a line as a heading; None where no format has."""
    if not HEADINGS.match(line):
        return None
    return next(it for it in FORMATS if it.HEADING.match(line))


def bare_format_of(line):
    """The format of an LSA that comes without a heading, by a line of it."""
    return next((it for it in (frr, ios) if it.BARE.match(line)), None)


def shown_in(lines, seen_list=lambda: None):
    """What is shown of each LSA, as the lines come. The format may change at each heading. A list
    of LSAs without their contents is reported by a call."""
    reader, known, waiting = None, None, []
    for line in lines:
        line = PAGER.sub("", line).rstrip()
        if LIST.match(line):
            seen_list()
        found = format_of(line) if reader is None or reader.is_between() else None
        if reader is None and found is None:
            found = bare_format_of(line)
        if found is not None and found is not known:
            if reader is not None:
                yield from reader.end()
            reader, known = found.Reader(), found
            for earlier in waiting:
                yield from reader.take(earlier)
            waiting = []
        if reader is None:
            waiting.append(line)
        else:
            yield from reader.take(line)
    if reader is not None:
        yield from reader.end()
    elif any(waiting):
        raise Unreadable(f"format not recognized: known are {NAMES}")
