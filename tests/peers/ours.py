"""A router of `ospfd run` in a network namespace, and tools/bridge beside it."""
import os
import socket
import subprocess
import time

from injector import Reader
from nodes import DEAD, HELLO, TOP, Node, inside, opened

EVERYTHING = 0x0003
SECONDS_TO_READ = 3
# The second lets it read this script where folders are closed to others.
ONLY_RAW = ["setpriv", "--bounding-set=-all,+net_raw,+dac_read_search", "--inh-caps=-all"]


class Ours(Node):
    """A router of `ospfd run`, and `tools/bridge` beside it."""

    first_port = 17001
    # The interface at whose other end the database is read: its number among the ports, and its
    # address.
    read_port, read_address, read_from, reader = (
        19901,
        "10.251.0.1/30",
        "10.251.0.2",
        "198.51.100.1",
    )

    def __init__(self, lab, name, router):
        super().__init__(lab, name, router)
        # What stands in the configuration at the top, and interfaces that lead to no device: their
        # tables.
        self.top, self.more, self.run, self.ends = "", [], None, 0.0
        self.taps, self.packets, self.bridged = [], [], None

    def configure(self):
        """Writes the configuration; interface K hears port 17001 + 2 K, and the bridge the port
        behind it."""
        text = f'router_id = "{self.router}"\narea = "0.0.0.0"\n{self.top}'
        for number, side in enumerate(self.sides):
            port = self.first_port + 2 * number
            kind = "point-to-point" if side.is_line else "broadcast"
            text += f'[[interface]]\nkind = "{kind}"\naddress = "{side.address}"\n'
            text += f"cost = {side.cost}\npriority = {side.priority}\n"
            text += f"hello = {HELLO}\ndead = {DEAD}\nmtu = {side.mtu}\n"
            text += f"port = {port}\npeers = [{port + 1}]\n"
        for number, address in enumerate(self.stubs):
            text += f'[[interface]]\nkind = "broadcast"\naddress = "{address}"\ncost = 5\n'
            text += f"port = {self.first_port + 1000 + number}\n"
        text += (
            f'[[interface]]\nkind = "point-to-point"\naddress = "{self.read_address}"\ncost = 10\n'
        )
        text += f"port = {self.read_port}\npeers = [{self.read_port + 1}]\n"
        text += "".join(self.more)
        self.write(
            "p.toml",
            text
            + "".join(f'[[host]]\naddress = "{address}"\ncost = 0\n' for address in self.hosts),
        )

    def database(self):
        """The instances of all LSAs that it describes to a neighbour over UDP; None where it does
        not in time."""
        wire = inside(self.space, lambda: opened(self.read_port + 1, self.read_port))
        return Reader(wire, self.reader, self.read_from, self.router).database(SECONDS_TO_READ)

    def bridge(self, *words):
        """Starts the bridge, by these words or by the configuration; it has the capability
        CAP_NET_RAW and no other of the network."""
        self.configure()
        words = words or [
            "--config",
            "p.toml",
            *(f"{number}={side.device}" for number, side in enumerate(self.sides)),
        ]
        self.bridged = self.spawn(
            *ONLY_RAW,
            os.path.join(TOP, "tools", "bridge"),
            *words,
            out=subprocess.PIPE,
            err="bridge.log",
        )

    def end_bridge(self):
        """Ends the bridge: what it counted, and what it told."""
        self.bridged.terminate()
        out, _ = self.bridged.communicate(timeout=20)
        with open(self.path("bridge.log"), encoding="utf-8") as file:
            return out, file.read()

    def listen(self):
        """Keeps what passes over the devices from now on: of areas whose databases no router
        shows."""

        def tap_of(device):
            made = socket.socket(socket.AF_PACKET, socket.SOCK_DGRAM, 0)
            made.bind((device, EVERYTHING))
            made.setblocking(False)
            return made

        self.taps = [
            inside(self.space, lambda side=side: tap_of(side.device)) for side in self.sides
        ]

    def lsas(self):
        """The newest LSAs that passed."""
        for tap in self.taps:
            while True:
                try:
                    ip = tap.recv(65535)
                except BlockingIOError:
                    break
                if ip[9:10] == bytes([89]):
                    self.packets.append(ip[20:].hex())
        text = "".join(packet + "\n" for packet in self.packets)
        return subprocess.run(
            [os.path.join(TOP, "tools", "lsas-of-capture"), "-"],
            input=text,
            capture_output=True,
            text=True,
            check=False,
        ).stdout

    def start(self, ticks, *words):
        """Starts the router, for so many ticks of a second."""
        self.configure()
        self.run = self.spawn(
            self.lab.program, "run", *words, str(ticks), "p.toml", out=subprocess.PIPE, err="errors"
        )
        self.ends = time.monotonic() + ticks

    def kill_router(self):
        self.run.kill()
        self.run.communicate()
        self.children.remove(self.run)

    def ended(self):
        """Waits for the last tick: the status and the lines."""
        out, _ = self.run.communicate(timeout=max(1, self.ends - time.monotonic()) + 60)
        return self.run.returncode, out.splitlines()

    def errors(self):
        with open(self.path("errors"), encoding="utf-8") as file:
            return file.read()
