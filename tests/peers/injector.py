"""A neighbour over UDP that describes a whole area and hands it over: a master of the exchange,
which wants nothing itself (RFC 2328, section 10.8)."""
import socket
import struct
import threading
import time

import peer

REQUEST, UPDATE, ACKNOWLEDGMENT = 3, 4, 5
HEADER, LSA_HEADER = 24, 20
# Headers in a Database Description, and bytes of LSAs in an Update.
DESCRIBED, CARRIED = 60, 1300
MAX_AGE = 3600
SECONDS_OF_A_HELLO, SECONDS_OF_A_REPEAT = 2.0, 3.0


def key_of(lsa):
    """Type, Link State ID and Advertising Router, as a Request has them."""
    return struct.pack(">I", lsa[3]) + lsa[4:12]


class Injector(threading.Thread):
    """Speaks for the router of an address at the far end of a router's interface, until it is told
    to end."""

    def __init__(self, wire, router, address, lsas):
        super().__init__(daemon=True)
        self.wire, self.router, self.address = wire, router, address
        self.lsas = {key_of(lsa): lsa for lsa in lsas}
        self.parts, self.place, self.sequence, self.last = [], None, 7000, b""
        self.heard, self.next_hello, self.next_repeat, self.is_over = None, 0.0, 0.0, False
        self.wire.settimeout(0.2)

    def send(self, sent):
        try:
            self.wire.send(peer.frame(self.address, "224.0.0.5", sent))
        except OSError:
            pass

    def describe(self):
        """Sends the description whose turn it is: at first an empty one, then part after part."""
        if self.place is None:
            flags, headers = peer.INIT | peer.MORE | peer.MASTER, []
        else:
            headers = self.parts[self.place] if self.place < len(self.parts) else []
            flags = peer.MASTER | (peer.MORE if self.place + 1 < len(self.parts) else 0)
        self.last = peer.description(self.router, flags, self.sequence, headers)
        self.next_repeat = time.monotonic() + SECONDS_OF_A_REPEAT
        self.send(self.last)

    def begin(self):
        headers = [lsa[:LSA_HEADER] for lsa in self.lsas.values()]
        self.parts = [headers[at : at + DESCRIBED] for at in range(0, len(headers), DESCRIBED)]
        self.place, self.sequence = None, self.sequence + 1000
        self.describe()

    def take_description(self, body):
        flags, sequence = body[3], struct.unpack_from(">I", body, 4)[0]
        if flags & peer.INIT and flags & peer.MASTER:
            # The other begins: as long as it has not taken us for the master it says this.
            if self.place is not None:
                self.begin()
        elif (
            sequence == self.sequence
            and not flags & peer.MASTER
            and (self.place is None or self.place < len(self.parts) or flags & peer.MORE)
        ):
            self.place = 0 if self.place is None else self.place + 1
            self.sequence += 1
            if self.place < len(self.parts) or flags & peer.MORE:
                self.describe()
            else:
                self.last = b""

    def update(self, lsas):
        self.send(peer.packet(UPDATE, self.router, struct.pack(">I", len(lsas)) + b"".join(lsas)))

    def take_request(self, body):
        """Hands over what is asked for."""
        pack, size = [], 0
        for at in range(0, len(body) - 11, 12):
            lsa = self.lsas.get(body[at : at + 12])
            if lsa is None:
                continue
            if pack and size + len(lsa) > CARRIED:
                self.update(pack)
                pack, size = [], 0
            pack.append(lsa)
            size += len(lsa)
        if pack:
            self.update(pack)

    def take_update(self, body):
        """Acknowledges all that comes."""
        at, headers = 4, []
        for _ in range(struct.unpack_from(">I", body)[0]):
            headers.append(body[at : at + LSA_HEADER])
            at += struct.unpack_from(">H", body, at + 18)[0]
        for begin in range(0, len(headers), DESCRIBED):
            self.send(
                peer.packet(
                    ACKNOWLEDGMENT, self.router, b"".join(headers[begin : begin + DESCRIBED])
                )
            )

    def take(self, packet):
        kind, body = packet[1], packet[HEADER:]
        if kind == peer.HELLO:
            is_first, self.heard = self.heard is None, socket.inet_ntoa(packet[4:8])
            if is_first:
                self.next_hello = 0.0
        elif kind == peer.DESCRIPTION:
            if not self.last and self.place is None:
                self.begin()
            self.take_description(body)
        elif kind == REQUEST:
            self.take_request(body)
        elif kind == UPDATE:
            self.take_update(body)

    def run(self):
        while not self.is_over:
            now = time.monotonic()
            if now >= self.next_hello:
                self.next_hello = now + SECONDS_OF_A_HELLO
                self.send(
                    peer.hello(self.router, "255.255.255.252", [self.heard] if self.heard else [])
                )
            if self.last and now >= self.next_repeat:
                self.next_repeat = now + SECONDS_OF_A_REPEAT
                self.send(self.last)
            try:
                self.take(self.wire.recv(65535)[8:])
            except (socket.timeout, ConnectionRefusedError, BlockingIOError):
                pass


class Reader(Injector):
    """A neighbour that has all LSAs described, and goes no further: the router's own LSAs do not
    change by it."""

    def __init__(self, wire, router, address, heard):
        super().__init__(wire, router, address, [])
        self.heard, self.headers, self.is_read = heard, [], False

    def take_description(self, body):
        """Takes the headers of the slave, and asks on for more; that there is nothing more of ours
        it never says."""
        flags, sequence = body[3], struct.unpack_from(">I", body, 4)[0]
        if flags & peer.MASTER or sequence != self.sequence:
            return
        self.headers += [
            body[at : at + LSA_HEADER] for at in range(8, len(body) - LSA_HEADER + 1, LSA_HEADER)
        ]
        if not flags & peer.MORE:
            self.is_read = self.is_over = True
            return
        self.sequence += 1
        self.last = peer.description(self.router, peer.MORE | peer.MASTER, self.sequence)
        self.next_repeat = time.monotonic() + SECONDS_OF_A_REPEAT
        self.send(self.last)

    def database(self, seconds):
        """The instances that are described: type, Link State ID, Advertising Router, number and
        checksum; None where it took too long."""
        self.start()
        self.join(seconds)
        self.is_over = True
        self.join()
        self.wire.close()
        fields = [struct.unpack(">HBBIIIHH", header) for header in self.headers]
        return (
            {
                (kind, dotted(state), dotted(router), number, checksum)
                for age, _, kind, state, router, number, checksum, _ in fields
                if age < MAX_AGE
            }
            if self.is_read
            else None
        )


def dotted(number):
    return socket.inet_ntoa(struct.pack(">I", number))
