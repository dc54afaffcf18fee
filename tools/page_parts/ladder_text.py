"""A packet ladder as plain text, for a terminal or a document."""
import textwrap

import lsas

WIDE, TIME, GAP, COLUMNS = 8, 5, 2, 100
# The least columns that words have, and how far what a packet lists is moved in.
LEAST, INDENT = 40, 2


class Lanes:
    """In which column the lane of each router is."""

    def __init__(self, routers, named):
        wide = max([WIDE, *(len(named(it)) + 1 for it in routers)])
        self.places = {it: TIME + wide // 2 + at * wide for at, it in enumerate(routers)}
        self.whole, self.wide = TIME + wide * len(routers), wide
        self.names = "".join(f"{named(it):^{wide}}" for it in routers)

    def empty(self, time=""):
        """The lanes without an arrow, after a time."""
        line = list(f"{time:>{TIME - 1}}".ljust(self.whole))
        for place in self.places.values():
            line[place] = "|"
        return line

    def picture(self, row, time):
        """The lanes with the arrows of a row. One that passes a lane crosses it as a `+`."""
        line = self.empty(time)
        start = self.places[row.router]
        ends = {self.places[it]: it in row.dropped for it in [*row.to, *row.dropped]}
        if not ends and row.kind not in ("state", "drop", "hellos"):
            ends = {start + self.wide // 2: False}
        for side in (1, -1):
            self.draw(line, start, {it: ends[it] for it in ends if (it - start) * side > 0}, row)
        if row.kind != "hellos":
            line[start] = {"state": "*", "drop": "X"}.get(row.kind, "o")
        return "".join(line)

    def draw(self, line, start, ends, row):
        """The arrows to one side: dashes, with gaps if the packet goes again, up to each end."""
        if not ends:
            return
        last = max(ends, key=lambda it: abs(it - start))
        side = 1 if last > start else -1
        for at in range(start + side, last, side):
            is_lane = at in self.places.values()
            is_gap = row.again and (at - start) % 2 == 0
            line[at] = ("|" if at in ends else "+") if is_lane else " " if is_gap else "-"
        for end, is_dropped in ends.items():
            line[end - side] = "X" if is_dropped else ">" if side > 0 else "<"


def words_of(row, named):
    """A row in words."""
    if row.kind == "hellos":
        return row.text
    if row.kind in ("drop", "state"):
        return f"{named(row.router)} {row.text}"
    text = " ".join(filter(None, [row.kind, row.text, "again" if row.again else ""]))
    drops = [f"{named(router)} drops it: {cause}" for router, cause in row.dropped.items()]
    return "; ".join([text, *drops])


def wrapped(row, named, wide):
    """A row in lines. What it lists follows its words: in the same line, if it is one that fits."""
    words, items = words_of(row, named), row.lines
    if len(items) == 1 and len(words) + len(items[0]) + 2 <= wide:
        return [f"{words}: {items[0]}"]
    first, more = " " * INDENT, " " * 2 * INDENT
    found = textwrap.wrap(words, wide, subsequent_indent=first)
    for it in items:
        found += textwrap.wrap(it, wide, initial_indent=first, subsequent_indent=more)
    return found


def lines_of(ladder, row, lanes, time):
    """The lines of a row: its arrows with the first of its words, and below them the others."""
    words = wrapped(row, ladder.named, max(LEAST, COLUMNS - lanes.whole - GAP))
    rest = "".join(lanes.empty())
    pictures = [lanes.picture(row, time), *[rest] * (len(words) - 1)]
    return [f"{picture}{' ' * GAP}{it}" for picture, it in zip(pictures, words)]


def time_of(ladder, row):
    """The time of a row: ticks, or seconds from the first packet."""
    seconds = row.time / lsas.SECOND
    return f"{seconds:.0f}" if ladder.has_ticks else f"{seconds:.1f}"


def text(ladder, rows, left):
    """The ladder. A time is written where it changes."""
    lanes, last = Lanes(ladder.routers, ladder.named), None
    found = [f"{'s':>{TIME - 1}}".ljust(TIME) + lanes.names.rstrip()]
    for row in rows:
        time = time_of(ladder, row)
        found += lines_of(ladder, row, lanes, "" if time == last else time)
        last = time
    found += [f"left out: {left[it]} {it}" for it in sorted(left)]
    return "\n".join(found) + "\n"
