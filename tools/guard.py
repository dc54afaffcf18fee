"""The guard of a real link: it stops a router of ours and a neighbor that start the database
exchange over and over.

A router that refuses LSAs of a type which its neighbor describes answers with SeqNumberMismatch
(RFC 2328, section 10.6): both go back to ExStart, and each sends a Database Description with the
I bit and a new DD sequence number (section 10.3). If the neighbor has the higher Router ID, neither
waits for a timer, and they send thousands a second. A real network should not see that.
"""
import collections
import struct

DESCRIPTION, HELLO = 2, 1
# Where a packet has its type, and after the header of 24 bytes a Hello its RouterDeadInterval, and
# a Database Description its flags and its number (RFC 2328, appendix A.3).
TYPE_AT, DEAD_INTERVAL_AT, FLAGS_AT, NUMBER_AT = 1, 32, 27, 28
INIT = 0x04
# An exchange begins once, and once more after each mismatch: the third mismatch is one too many.
MOST_STARTS = 3
# RouterDeadInterval as RFC 2328, appendix C.3, suggests it, until a Hello says another.
DEAD_INTERVAL = 40
# Pairs of addresses that are watched at once.
MOST_PAIRS = 1024


class Guard:
    """What a link has seen of starts of the exchange, and until when nothing passes."""

    def __init__(self):
        self.dead_interval = DEAD_INTERVAL
        # By source and destination: the last number with the I bit, and when exchanges started.
        self.starts = collections.OrderedDict()
        self.silent_until, self.pauses = None, 0

    def passes(self, datagram, now):
        """Whether a packet passes, which has its source and destination in front; and a line if
        this one stopped the link, or is the first to pass again."""
        if self.silent_until is not None and now < self.silent_until:
            return False, None
        line = None
        if self.silent_until is not None:
            self.silent_until, line = None, "packets pass again"
        body = datagram[8:]
        if len(body) >= DEAD_INTERVAL_AT + 4 and body[TYPE_AT] == HELLO:
            # A dead interval of 0 or of days is no reason to stop for as long.
            (said,) = struct.unpack_from(">I", body, DEAD_INTERVAL_AT)
            self.dead_interval = min(max(said, 1), 65535)
        if len(body) >= NUMBER_AT + 4 and body[TYPE_AT] == DESCRIPTION and body[FLAGS_AT] & INIT:
            (number,) = struct.unpack_from(">I", body, NUMBER_AT)
            if self.starts_of(datagram[:8], number, now) > MOST_STARTS:
                return False, self.stop(body, now)
        return True, line

    def starts_of(self, pair, number, now):
        """How often this sender started the exchange with this receiver within the dead interval.
        A repeated packet has the number of the one before, and starts nothing."""
        last, times = self.starts.pop(pair, (None, collections.deque()))
        if number != last:
            times.append(now)
        while times and times[0] <= now - self.dead_interval:
            times.popleft()
        self.starts[pair] = (number, times)
        if len(self.starts) > MOST_PAIRS:
            self.starts.popitem(last=False)
        return len(times)

    def stop(self, body, now):
        """Stops the link for RouterDeadInterval, so that both sides give the adjacency up."""
        self.silent_until = now + self.dead_interval
        self.starts.clear()
        self.pauses += 1
        router = ".".join(map(str, body[4:8]))
        return (
            f"{router} started the database exchange {MOST_STARTS + 1} times in "
            f"{self.dead_interval} s: no packets pass for {self.dead_interval} s. If the area has "
            'LSAs of other types, set other_lsas = "pass over"'
        )
