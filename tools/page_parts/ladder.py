"""The rows of a packet ladder: who sends what to whom, again or not, dropped or not."""
import collections
import struct

import lsas
from page_parts import packets
from page_parts.packets import DESCRIPTION, HELLO, REQUEST, UPDATE

ALL_ROUTERS, ALL_DESIGNATED = b"\xe0\0\0\5", b"\xe0\0\0\6"
# Times below this many seconds are ticks of a simulation, and others dates.
DATES = 10**8
# So many Hellos in a row that say nothing new are one row.
FOLDED = 3
# What a router drops: all but one of the causes name the kind of packet.
OF_HELLO, NOT_HELLO, FOREIGN, STATE = "R6", "R7", "R4", "R9"
# A Hello is dropped for its state if the link has so many neighbours already.
CROWD = 255


class Row:
    """A row: when, of which router, to which, in which words. Its kind is that of a packet, or
    `hellos`, `state` or `drop`."""

    def __init__(self, time, kind, router, to=(), text="", lines=()):
        self.time, self.kind, self.router, self.to = time, kind, router, list(to)
        self.text, self.lines, self.dropped = text, list(lines), {}
        self.again, self.is_new, self.source, self.until = False, True, None, None


class Net:
    """Who is where: the router of each address, its subnet, and the Designated Routers, as Hellos
    have shown them."""

    def __init__(self, found):
        self.owners, self.masks, self.designated = {}, {}, {}
        for packet in found:
            if packet.source is not None:
                self.owners.setdefault(packet.source, packet.router)
                if packet.kind == HELLO:
                    self.masks.setdefault(packet.source, self.number(packet.content[:4]))
        routers = {it.router for it in found}
        self.routers = sorted(routers, key=lambda it: list(map(int, it.split("."))))

    @staticmethod
    def number(address):
        return struct.unpack(">I", address)[0]

    def near(self, source):
        """The addresses of other routers in the subnet of one."""
        mask = self.masks.get(source)
        if not mask:
            return []
        network = self.number(source) & mask
        return [it for it, router in self.owners.items() if router != self.owners[source]
                and self.masks.get(it, mask) == mask and self.number(it) & mask == network]

    def receivers(self, packet):
        """The routers that a packet is for."""
        if packet.kind == HELLO and packet.source is not None:
            self.designated[packet.source] = {packet.content[12:16], packet.content[16:20]}
        if packet.to in self.owners:
            return [self.owners[packet.to]]
        near = self.near(packet.source) if packet.source is not None else []
        if packet.to == ALL_DESIGNATED:
            chosen = self.designated.get(packet.source, set())
            near = [it for it in near if it in chosen] or near
        others = [it for it in self.routers if it != packet.router]
        found = [self.owners[it] for it in near] or (others if len(others) == 1 else [])
        return sorted(set(found), key=self.routers.index)


class Sent:
    """What was sent before, so that a retransmission is seen (RFC 2328, sections 10.8, 10.9 and
    13.6). An Update that answers a request is none."""

    def __init__(self):
        self.last, self.instances, self.asked = {}, {}, collections.Counter()

    def is_again(self, packet):
        ends = packet.source, packet.to, packet.router
        if packet.kind in (DESCRIPTION, REQUEST):
            same = self.last.get((*ends, packet.kind)) == packet.content
            self.last[(*ends, packet.kind)] = packet.content
            if packet.kind == DESCRIPTION and "I" in packet.flags() and not same:
                # A new exchange begins, in which nothing was requested yet.
                self.last.pop((*ends, REQUEST), None)
            if packet.kind == REQUEST:
                self.asked.update((packet.to, packet.source, key) for key in packet.requests())
            return same
        return packet.kind == UPDATE and any([self.is_old(packet, it) for it in packet.lsas()])

    def is_old(self, packet, lsa):
        """Whether this sender has sent an instance there before: to the same address, or to all.
        At MaxAge it is another one, as it is newer then (section 13.1)."""
        request, instance = (packet.source, packet.to, lsa.key), (packet.source, lsa.key)
        known = self.instances.setdefault(instance, {})
        before = known.setdefault((lsa.number, lsa.sum, lsa.age >= lsas.MAX_AGE), set())
        is_answer = self.asked[request] > 0
        self.asked[request] -= is_answer
        old = not is_answer and bool(before & {packet.to, ALL_ROUTERS, ALL_DESIGNATED})
        before.add(packet.to)
        return old


def fits(cause, kind, count):
    """Whether a packet of a kind can be dropped for a cause, where there are so many routers."""
    is_hello, cause = kind == HELLO, cause.split()[0]
    if cause in (OF_HELLO, NOT_HELLO):
        return is_hello == (cause == OF_HELLO)
    return cause != STATE or not is_hello or count > CROWD


class Ladder:
    """The rows of a capture, and of the journal of the same simulation."""

    def __init__(self, found, changes, named):
        self.net, self.sent, self.named = Net(found), Sent(), named
        self.routers, self.rows, self.start = self.net.routers, [], 0
        times = [it.time for it in found if it.time is not None]
        self.has_ticks = not times or min(times) < DATES * lsas.SECOND
        self.start = 0 if self.has_ticks else min(times)
        self.hellos, clock = {}, 0
        for packet in found:
            clock = max(clock, (packet.time or 0) - self.start)
            self.rows.append(self.row(packet, clock // lsas.SECOND * lsas.SECOND
                                      if self.has_ticks else clock))
        if self.has_ticks and changes:
            self.add_changes(changes)

    def row(self, packet, time):
        lines = packets.listed(packet, self.named)
        row = Row(time, packets.KINDS[packet.kind], packet.router, self.net.receivers(packet),
                  packets.headline(packet, self.named), lines)
        row.again, row.source = self.sent.is_again(packet), packet.source
        if packet.kind == HELLO:
            row.is_new = self.hellos.get(packet.source, b"") != packet.content
            self.hellos[packet.source] = packet.content
        return row

    def add_changes(self, changes):
        """Adds what a journal says, each at the end of its tick. A drop goes to its packet, if only
        one fits."""
        by_tick = collections.defaultdict(list)
        for change in changes:
            if change.router in self.routers:
                by_tick[change.tick].append(change)
        rows, self.rows = self.rows, []
        ticks = sorted({*by_tick, *(row.time // lsas.SECOND for row in rows)})
        of_tick = collections.defaultdict(list)
        for row in rows:
            of_tick[row.time // lsas.SECOND].append(row)
        for tick in ticks:
            added = [self.change(it, of_tick[tick]) for it in by_tick[tick]]
            self.rows += [*of_tick[tick], *(it for it in added if it is not None)]

    def change(self, change, sent):
        """The row of a change; None where it is no news of a neighbour, or marks a packet."""
        time = change.tick * lsas.SECOND
        if change.neighbour:
            _, other, before, now = change.neighbour.groups()
            text = f"neighbor {self.named(other)}: {before} to {now}"
            return Row(time, "state", change.router, text=text)
        if change.text in ("started", "stopped"):
            return Row(time, "state", change.router, text=change.text)
        return self.drop(change, sent) if change.dropped else None

    def drop(self, change, sent):
        """Marks the packet that a router dropped. Where several may be meant there is a row."""
        _, cause, source = change.dropped.groups()
        kinds = {name: kind for kind, name in packets.KINDS.items()}
        fitting = [row for row in sent if row.source and packets.dotted(row.source) == source
                   and change.router not in row.dropped
                   and fits(cause, kinds[row.kind], len(self.routers))
                   and (change.router in row.to) != cause.startswith(FOREIGN)]
        if len(fitting) == 1:
            fitting[0].dropped[change.router] = cause
            return None
        text = f"drops a packet from {source}: {cause}"
        return Row(change.tick * lsas.SECOND, "drop", change.router, text=text)

    def chosen(self, begin, end, is_folded):
        """The rows from one time to another, in seconds."""
        first = -1 if begin is None else begin * lsas.SECOND
        last = float("inf") if end is None else end * lsas.SECOND
        rows = [it for it in self.rows if first <= it.time <= last]
        return self.folded(rows) if is_folded else rows

    def folded(self, all_rows):
        """Rows, with one row for each long run of Hellos that say nothing new."""
        run, rows = [], []
        for row in [*all_rows, None]:
            is_plain = row is not None and row.kind == "Hello" and not (row.is_new or row.dropped)
            if is_plain:
                run.append(row)
                continue
            rows += run if len(run) < FOLDED else [self.fold(run)]
            run = []
            if row is not None:
                rows.append(row)
        return rows

    def fold(self, run):
        """One row for many Hellos."""
        row = Row(run[0].time, "hellos", run[0].router, text=f"{len(run)} Hellos with nothing new")
        row.until = run[-1].time
        return row
