"""Routers of FRR and BIRD in network namespaces: what they are configured with, and what they say
of neighbors, routes and LSAs."""
import glob
import json
import os
import re
import shutil
import subprocess

from nodes import DEAD, HELLO, MAX_AGE, TOP, Node, hops_of, said


class Frr(Node):
    """A router of FRR: zebra and ospfd."""

    program = "/usr/lib/frr/"
    # Whether it has an AS-external-LSA.
    has_external = False

    def start(self):
        self.dress()
        kinds = {
            side.device: "point-to-point" if side.is_line else "broadcast" for side in self.sides
        }
        lines = ["hostname frr"]
        for side in self.sides:
            lines += [
                f"interface {side.device}",
                f" ip ospf network {kinds[side.device]}",
                f" ip ospf hello-interval {HELLO}",
                f" ip ospf dead-interval {DEAD}",
            ]
            lines += [f" ip ospf cost {side.cost}", f" ip ospf priority {side.priority}"]
            if side.retransmit:
                lines += [f" ip ospf retransmit-interval {side.retransmit}"]
        # Each address of a passive interface waits for RouterDeadInterval too, and then changes
        # the router-LSA.
        lines += (
            [
                "interface s0",
                " ip ospf cost 5",
                f" ip ospf hello-interval {HELLO}",
                f" ip ospf dead-interval {DEAD}",
            ]
            if self.stubs
            else []
        )
        lines += [
            "router ospf",
            f" ospf router-id {self.router}",
            " passive-interface s0",
            " network 0.0.0.0/0 area 0.0.0.0",
        ]
        lines += [" default-information originate always"] if self.has_external else []
        self.write("ospfd.conf", "\n".join(lines) + "\n")
        self.write("zebra.conf", "hostname zebra\n")
        shutil.chown(self.folder, "frr", "frr")
        for name in ("zebra", "ospfd"):
            words = [
                "-f",
                self.path(f"{name}.conf"),
                "-i",
                self.path(f"{name}.pid"),
                "-z",
                self.path("zserv"),
                "--vty_socket",
                self.folder,
                "-P",
                "0",
            ]
            self.spawn(self.program + name, *words)
            self.lab.until(lambda name=name: os.path.exists(self.path(f"{name}.vty")), 10)

    def kill(self):
        super().kill()
        for path in (
            glob.glob(self.path("*.vty")) + glob.glob(self.path("*.pid")) + [self.path("zserv")]
        ):
            if os.path.exists(path):
                os.remove(path)

    def ask(self, *commands):
        return said(
            "vtysh",
            "--vty_socket",
            self.folder,
            *(word for command in commands for word in ("-c", command)),
        )

    def read(self, command):
        """What is shown as JSON."""
        try:
            return json.loads(self.ask(command + " json"))
        except ValueError:
            return {}

    def neighbours(self):
        """The state of each neighbour, by its Router ID."""
        shown = self.read("show ip ospf neighbor").get("neighbors", {})
        return {
            router: one["nbrState"].replace("DROther", "Other")
            for router, ones in shown.items()
            for one in ones
        }

    def table(self):
        """The routes within the area, as `Lab.table_of` has them."""
        routes = self.read("show ip ospf route")
        inner = {prefix: route for prefix, route in routes.items() if route.get("routeType") == "N"}
        return {
            prefix: (
                route["cost"],
                hops_of(hop.get("ip", " ").strip() for hop in route["nexthops"]),
            )
            for prefix, route in inner.items()
        }

    def database(self):
        """The instances of router-LSAs and network-LSAs: type, Link State ID, Advertising Router,
        number and checksum."""
        found, kind = set(), None
        for line in self.ask("show ip ospf database").splitlines():
            kind = (
                1
                if "Router Link States" in line
                else 2
                if "Net Link States" in line
                else None
                if "Link States" in line
                else kind
            )
            words = line.split()
            # One at MaxAge stays for another minute.
            if kind and len(words) >= 5 and words[3].startswith("0x") and int(words[2]) < MAX_AGE:
                found.add((kind, words[0], words[1], int(words[3], 16), int(words[4], 16)))
        return found

    def lsas(self):
        """The area's LSAs, as `ospfd table` reads them."""
        shown = self.ask("show ip ospf database router", "show ip ospf database network")
        return subprocess.run(
            [os.path.join(TOP, "tools", "lsas-of-show")],
            input=shown,
            capture_output=True,
            text=True,
            check=False,
        ).stdout


class Bird(Node):
    """A router of BIRD."""

    program = "/usr/sbin/bird"
    has_external = False

    def start(self):
        self.dress()
        interface = (
            '    interface "{side.device}" {{ type {kind}; hello {hello}; dead {dead}; '
            "wait {dead}; cost {side.cost}; priority {side.priority}; }};\n"
        )
        lines = "".join(
            interface.format(
                side=side, kind="ptp" if side.is_line else "broadcast", hello=HELLO, dead=DEAD
            )
            for side in self.sides
        )
        lines += '    interface "s0" { stub; cost 5; };\n' if self.stubs else ""
        lines += '    interface "lo" { stub; cost 1; };\n' if self.hosts else ""
        static = (
            "protocol static { ipv4; route 203.0.113.0/24 blackhole; }\n"
            if self.has_external
            else ""
        )
        given = "export where source = RTS_STATIC;" if self.has_external else "export none;"
        text = f"router id {self.router};\nprotocol device {{ scan time 1; }}\n{static}"
        text += f"protocol ospf v2 o {{\n  tick 1;\n  ipv4 {{ import all; {given} }};\n"
        text += f"  area 0 {{\n{lines}  }};\n}}\n"
        self.write("bird.conf", text)
        self.spawn(
            self.program, "-f", "-c", "bird.conf", "-s", self.path("ctl"), "-P", self.path("pid")
        )

    def ask(self, command):
        return said("birdc", "-s", self.path("ctl"), *command.split())

    def neighbours(self):
        found = re.findall(r"^([\d.]+)\s+\d+\s+(\S+)", self.ask("show ospf neighbors o"), re.M)
        return {
            router: state.replace("BDR", "Backup").replace("PtP", "-") for router, state in found
        }

    def table(self):
        found, prefix = {}, None
        for line in self.ask("show route protocol o").splitlines():
            if begins := re.match(r"([\d./]+/\d+)\s+unicast .* (I|IA|E1|E2) \(\d+/(\d+)", line):
                prefix = begins[1] if begins[2] == "I" else None
                if prefix:
                    found[prefix] = int(begins[3]), []
            elif prefix and (hop := re.match(r"\s+via ([\d.]+) on", line)):
                found[prefix][1].append(hop[1])
        return {prefix: (cost, hops_of(hops)) for prefix, (cost, hops) in found.items()}

    def database(self):
        lines = re.findall(
            r"^\s*(000[12])\s+([\d.]+)\s+([\d.]+)\s+([0-9a-f]{8})\s+(\d+)\s+([0-9a-f]{4})",
            self.ask("show ospf lsadb"),
            re.M,
        )
        return {
            (int(kind), state, router, int(number, 16), int(checksum, 16))
            for kind, state, router, number, age, checksum in lines
            if int(age) < MAX_AGE
        }
