"""Keeps the LSDB of a live area, and says what changes: each change at once, and once the area is
at rest what all of them did to it."""
import collections
import contextlib
import queue
import socket
import threading
import time

import lsas
from watching import asking, stream
from watching.area import Area

# LSAs that come within so many seconds are looked at together.
SECONDS_TOGETHER = 0.05
# How many events are kept for those who ask.
MOST_EVENTS = 1000
NO_ROUTES = dict.fromkeys((*asking.KINDS_OF_ROUTES, "routers"), 0)


class Watcher:
    """The LSDB of one area. `lines` is a queue of pairs of a line and the time when it was read;
    a line that is None is the end. `tell` gets each event."""

    def __init__(self, program, lines, tell, settle=1.0, snapshot=None, shows_lsas=False,
                 ended=None):
        self.program, self.lines, self.tell_event = program, lines, tell
        self.settle, self.snapshot, self.shows_lsas = settle, snapshot, shows_lsas
        self.area, self.lock, self.ended = Area(), threading.Lock(), ended or threading.Event()
        # What was looked at last, and what was there at the last rest: None before the first.
        self.seen, self.rest = "", None
        self.prefixes, self.points, self.stranded = set(), {}, set()
        # The routers that had a route through a neighbor at some rest.
        self.reached = set()
        self.router, self.changed_at, self.last = None, None, None
        self.events = collections.deque(maxlen=MOST_EVENTS)
        self.counts, self.refused = collections.Counter(), set()

    # ---- what others ask, each in its own thread ----

    def copy(self):
        """All LSAs as they came, and how many changes there were."""
        with self.lock:
            return self.area.text(), self.counts["versions"]

    def now_text(self):
        with self.lock:
            return self.area.text_at(time.time())

    def state(self):
        """Numbers about the area and the watcher."""
        with self.lock:
            return {
                "lsas": len(self.area.held),
                "routers": self.area.count(lsas.ROUTER),
                "networks": self.area.count(lsas.NETWORK),
                "single_points": len(self.points),
                "stranded": len(self.stranded),
                "is_settled": self.rest is not None and self.changed_at is None,
                "last": self.last,
                "counts": dict(self.counts),
            }

    def recent(self):
        with self.lock:
            return list(self.events)

    # ---- the watch ----

    def tell(self, event, when, **more):
        whole = {"event": event, "time": when, **more}
        with self.lock:
            self.events.append(whole)
            self.counts[event] += 1
        self.tell_event(whole)

    def follow(self):
        """Follows the lines to their end."""
        is_open = True
        while is_open and not self.ended.is_set():
            is_open = self.turn()
        if self.changed_at is not None:
            self.come_to_rest()
        self.keep(force=True)

    def turn(self):
        """Waits for lines, or until something is due, and does it. Whether lines may follow."""
        lines, is_open = self.next_lines()
        updates = [update for update in map(self.read, lines) if update]
        changed = [update for update in updates if self.take(update)]
        changed += self.expired() if self.router is None else []
        if changed:
            self.changed_at = time.monotonic()
            with self.lock:
                self.counts["versions"] += 1
            if self.rest is not None:
                self.look(changed[-1].time)
        if self.snapshot and (updates or changed):
            self.snapshot.change()
        if self.changed_at is not None and time.monotonic() - self.changed_at >= self.settle:
            self.come_to_rest()
        self.keep()
        return is_open

    def wait(self):
        """How many seconds there is nothing to do without a line."""
        waits = [0.5]
        if self.changed_at is not None:
            waits.append(max(0, self.changed_at + self.settle - time.monotonic()))
        if self.snapshot and (due := self.snapshot.wait(time.monotonic())) is not None:
            waits.append(due)
        return min(waits)

    def next_lines(self):
        """The lines that came; whether more may follow."""
        found = []
        try:
            found.append(self.lines.get(timeout=max(self.wait(), 0.001)))
        except queue.Empty:
            return [], True
        until = time.monotonic() + SECONDS_TOGETHER
        while found[-1][0] is not None and (left := until - time.monotonic()) > 0:
            try:
                found.append(self.lines.get(timeout=left))
            except queue.Empty:
                break
        is_open = found[-1][0] is not None
        return found if is_open else found[:-1], is_open

    def read(self, pair):
        """What a line says, if it is about an LSA of the router that is followed."""
        line, when = pair
        try:
            update = stream.read(line, when)
        except stream.Unreadable as fault:
            self.refuse(str(fault), when)
            return None
        if update.router is not None:
            self.router = self.router or update.router
            if update.router != self.router:
                self.refuse(f"another router than {self.router}: {update.router}", when)
                return None
        return update

    def refuse(self, text, when):
        """Says once what is refused, and counts it."""
        self.counts["refused"] += 1
        if text not in self.refused and len(self.refused) < MOST_EVENTS:
            self.refused.add(text)
            self.tell("trouble", when, text=f"line passed over: {text}")

    def take(self, update):
        """Takes what became of an LSA; whether the LSDB says something else."""
        with self.lock:
            self.last = update.time
            self.counts[f"lsas {update.event}"] += 1
            is_other = self.area.take(update)
        if self.shows_lsas:
            self.tell("lsa", update.time, change=update.event, **named(update.lsa))
        return is_other

    def expired(self):
        """Those LSAs that reached MaxAge with no word of it."""
        now = time.time()
        with self.lock:
            gone = self.area.expire(now)
        return [stream.Update(stream.AGED_OUT, lsa, None, now) for lsa in gone]

    def look(self, when):
        """Says what changed since the last look."""
        text = self.area.text()
        with self.troubles(when):
            for one in self.program.changes(self.seen, text):
                self.tell("change", when, **one)
            prefixes = self.program.prefixes(text)
            both_ways = (("down", self.prefixes - prefixes), ("up", prefixes - self.prefixes))
            for change, ones in both_ways:
                for prefix in sorted(ones):
                    self.tell("prefix", when, change=change, prefix=prefix)
            self.prefixes = prefixes
        self.seen = text

    def come_to_rest(self):
        """Says what the changes did to the area since it was at rest before; at the first rest,
        what there is."""
        self.changed_at, text, when = None, self.area.text(), time.time()
        with self.troubles(when):
            points, stranded = self.program.single_points(text), self.find_stranded(text)
            if self.rest is None:
                self.prefixes = self.program.prefixes(text)
                self.tell("start", when, lsas=len(self.area.held),
                          routers=self.area.count(lsas.ROUTER),
                          networks=self.area.count(lsas.NETWORK),
                          single_points=listed(points, points))
            else:
                counts, lost = self.program.effect(self.rest, text)
                self.tell("settled", when, routes=counts or NO_ROUTES, lost=lost,
                          stranded=both(self.stranded, stranded),
                          single_points={"new": listed(points, points.keys() - self.points.keys()),
                                         "gone": listed(self.points,
                                                        self.points.keys() - points.keys())})
            self.points, self.stranded = points, stranded
        self.rest = self.seen = text

    def find_stranded(self, text):
        """The routers that had a route through a neighbor before, and have none."""
        routers, through = self.program.reaching(text)
        self.reached |= through
        return routers & self.reached - through

    @contextlib.contextmanager
    def troubles(self, when):
        """Says what the program could not answer. The watch goes on."""
        try:
            yield
        except (asking.Trouble, ValueError, KeyError, TypeError) as fault:
            self.tell("trouble", when, text=str(fault) or type(fault).__name__)

    def keep(self, force=False):
        """Writes the snapshot, where one is due."""
        if not self.snapshot:
            return
        now = self.snapshot.last + self.snapshot.least if force and self.snapshot.last else None
        try:
            self.snapshot.write(self.now_text(), now or time.monotonic())
        except OSError as fault:
            self.tell("trouble", time.time(), text=f"{self.snapshot.path}: {fault.strerror}")


def named(lsa):
    """What names an LSA and its instance, and its age."""
    kind, number, by = lsas.key_of(lsa)
    return {"lsa": lsas.KINDS[kind], "id": socket.inet_ntoa(number),
            "advertising_router": socket.inet_ntoa(by), "number": lsa[12:16].hex(),
            "age": lsas.age_of(lsa)}


def listed(points, names):
    """Single points of failure, the worst first."""
    return [{"failure": name, "lost": points[name]}
            for name in sorted(names, key=lambda name: (-points[name], name))]


def both(before, now):
    return {"new": sorted(now - before), "gone": sorted(before - now)}
