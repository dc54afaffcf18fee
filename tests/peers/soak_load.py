"""What tests/peers/soak sets against a router: lost, repeated and hostile datagrams and frames; and
what it reads of a program's memory."""
import collections
import heapq
import os
import random
import select
import socket
import struct
import threading
import time

import frames
import lab
import peer

LOST, DOUBLED, LATE, LATEST = 0.03, 0.02, 0.03, 1.0
HOSTILE_A_SECOND, REMEMBERED = 100, 200
MEMORY_SLACK = 1 << 20


class Relay(threading.Thread):
    """Stands between an interface of ours and its bridge: loses, doubles and keeps back, and sends
    the interface what is hostile."""

    def __init__(self, node, number, seed):
        super().__init__(daemon=True)
        port = node.first_port + 2 * number
        self.far_port = port + 10000
        self.near = lab.inside(node.space, lambda: lab.opened(port + 1, port))
        self.far = lab.inside(node.space, lambda: lab.opened(self.far_port, self.far_port + 1))
        for one in (self.near, self.far):
            one.setblocking(False)
        self.chance, self.late, self.known = (
            random.Random(seed),
            [],
            collections.deque(maxlen=REMEMBERED),
        )
        self.is_calm, self.is_over, self.hostile, self.passed = False, False, 0, 0

    def words(self, device):
        return ["--link", f"{device}:{self.far_port}:{self.far_port + 1}"]

    def hand_on(self, to, datagram):
        try:
            to.send(datagram)
        except OSError:
            pass

    def take(self, source, to):
        """Takes what waits, and hands on what is not lost."""
        while True:
            try:
                datagram = source.recv(65535)
            except BlockingIOError:
                return
            except OSError:
                continue
            self.known.append(datagram)
            self.passed += 1
            if self.is_calm:
                self.hand_on(to, datagram)
                continue
            if self.chance.random() < LATE:
                heapq.heappush(
                    self.late,
                    (time.monotonic() + LATEST * self.chance.random(), self.passed, to, datagram),
                )
            elif self.chance.random() >= LOST:
                self.hand_on(to, datagram)
            if self.chance.random() < DOUBLED:
                self.hand_on(to, datagram)

    def enemy(self):
        """A hostile datagram: noise, an old one again, or one with changed bytes, mostly with a
        right sum."""
        if not self.known or self.chance.random() < 0.1:
            return self.chance.randbytes(self.chance.randint(0, 200))
        made = bytearray(self.chance.choice(self.known))
        if self.chance.random() < 0.02 or len(made) < 32:
            return bytes(made)
        for _ in range(self.chance.randint(1, 4)):
            made[self.chance.randrange(len(made))] = self.chance.randrange(256)
        if self.chance.random() < 0.8 and len(made) % 2 == 0:
            packet = bytes(made[8:20]) + b"\0\0" + bytes(made[22:24]) + bytes(made[32:])
            made[20:22] = struct.pack(">H", peer.checksum(packet))
        return bytes(made)

    def run(self):
        next_enemy = time.monotonic()
        while not self.is_over:
            readable, _, _ = select.select([self.near, self.far], [], [], 1 / HOSTILE_A_SECOND)
            for one in readable:
                self.take(one, self.far if one is self.near else self.near)
            now = time.monotonic()
            while self.late and self.late[0][0] <= now:
                _, _, to, datagram = heapq.heappop(self.late)
                self.hand_on(to, datagram)
            while not self.is_calm and next_enemy <= now:
                next_enemy += 1 / HOSTILE_A_SECOND
                self.hand_on(self.near, self.enemy())
                self.hostile += 1


class Frames(threading.Thread):
    """Sends hostile IP packets and fragments of protocol 89 over a device, to all OSPF routers."""

    def __init__(self, node, device, seed):
        super().__init__(daemon=True)
        self.device, self.chance, self.sent, self.is_over = device, random.Random(seed), 0, False
        self.wire = lab.inside(
            node.space, lambda: socket.socket(socket.AF_PACKET, socket.SOCK_DGRAM, 0)
        )

    def frame(self):
        chance = self.chance
        group, mac = chance.choice(list(frames.GROUPS.items()))
        body = chance.randbytes(chance.choice([0, 8, 24, 64, 1400]))
        ip = frames.Ip(
            chance.randbytes(4),
            group,
            chance.randrange(8),
            8 * chance.choice([0, 1, 8, 175, 2046]),
            chance.random() < 0.6,
            body,
        )
        made = bytearray(frames.ip_packet(ip))
        if chance.random() < 0.3:
            made[chance.randrange(20)] = chance.randrange(256)
        return mac, bytes(made)

    def run(self):
        while not self.is_over:
            mac, made = self.frame()
            try:
                self.wire.sendto(made, (self.device, frames.IP, 0, 0, mac))
                self.sent += 1
            except OSError:
                pass
            time.sleep(1 / HOSTILE_A_SECOND)


class Watched:
    """A process that runs all the while: its memory and descriptors as time goes on."""

    def __init__(self, name, child):
        self.name, self.pid, self.seen = name, child.pid, []

    def look(self):
        try:
            with open(f"/proc/{self.pid}/statm", encoding="ascii") as file:
                memory = int(file.read().split()[1]) * os.sysconf("SC_PAGE_SIZE")
            with open(f"/proc/{self.pid}/stat", encoding="ascii") as file:
                used = sum(
                    int(word) for word in file.read().rsplit(")", 1)[1].split()[11:13]
                ) / os.sysconf("SC_CLK_TCK")
            self.seen.append((memory, len(os.listdir(f"/proc/{self.pid}/fd")), used))
        except (OSError, IndexError):
            pass

    def judge(self, area):
        """Tells where it grew after the first third, or had ended before it was first looked at."""
        if not self.seen:
            area.tell(f"{self.name} ended before it was looked at")
            return
        early, late = self.seen[len(self.seen) // 3], self.seen[-1]
        print(
            f"{self.name}: {early[0] // 1024} kB and {early[1]} descriptors after a third, "
            f"{late[0] // 1024} kB and {late[1]} at the end; {late[2]:.1f} s of processor time"
        )
        if late[0] - early[0] > MEMORY_SLACK or late[1] != early[1]:
            area.tell(f"{self.name} has grown")
