"""The JSON that the program prints: of captured databases, examples, areas made here, simulations,
a run, and configurations with faults. `json-schemas` validates it.
"""
import glob
import json
import os
import socket
import subprocess
import sys
import tempfile

HERE = os.path.dirname(os.path.abspath(__file__))
TOP = os.path.dirname(os.path.dirname(HERE))
sys.path.append(HERE)
from printed_areas import databases  # noqa: E402
import watched_json  # noqa: E402

MOST_TICKS = "25"
DEFAULTS = {"kind": "point-to-point", "cost": 10}


def config(number, *interfaces, of_area="0.0.0.0"):
    """The text of a configuration: of an interface what is not as in the defaults."""
    named = f"{number}.{number}.{number}.{number}"
    text = f'router_id = "{named}"\narea = "{of_area}"\n'
    for keys in interfaces:
        lines = [f"{key} = {json.dumps(value)}" for key, value in {**DEFAULTS, **keys}.items()]
        text += "\n".join(["", "[[interface]]", *lines, ""])
    return text


def pair(*, one=(), other=(), both=()):
    """Two routers on a link, where these keys differ from the defaults."""
    return [
        config(1, {"address": "10.0.0.1/30", **dict(both), **dict(one)}),
        config(2, {"address": "10.0.0.2/30", **dict(both), **dict(other)}),
    ]


def lan(*priorities):
    """A broadcast network with routers of these priorities."""
    return [
        config(at, {"address": f"10.1.0.{at}/24", "kind": "broadcast", "priority": priority})
        for at, priority in enumerate(priorities, 1)
    ]


def areas_with_faults():
    """Configurations of areas, with a fault or a note of each kind (docs/CONFIGURATION.md)."""
    yield "nothing wrong", pair()
    yield "A1", [pair()[0], config(1, {"address": "10.0.0.2/30"})]
    yield "A2", pair(other={"address": "10.0.0.1/30"})
    yield "A3", [pair()[0], config(2, {"address": "10.0.0.2/30"}, of_area="0.0.0.7")]
    yield "A4", pair(other={"kind": "broadcast"})
    yield "A5", pair(other={"hello": 5})
    yield "A6", pair(other={"dead": 41})
    yield "A7", pair(other={"mtu": 1400})
    yield "A8", pair(other={"address": "10.0.0.2/24"})
    yield "A9", [config(at, {"address": f"10.0.0.{at}/29"}) for at in (1, 2, 3)]
    yield "A10", lan(0, 0)
    yield "A11", pair(one={"port": 17001, "peers": [17002]}, other={"port": 17002})
    yield "A11, no port", pair(one={"peers": [17002]}, other={"port": 17002, "peers": [17001]})
    yield "A12", pair(other={"cost": 11})
    yield "A13", [config(1, {"address": "10.0.0.1/30"})]
    yield "A14", pair(both={"transmit_delay": 1000})
    yield "A15", pair(both={"port": 17001})
    yield "A16", [
        *pair(one={"port": 17001, "peers": [17003]}, other={"port": 17002}),
        config(3, {"address": "10.0.1.1/30", "port": 17003}),
    ]
    yield "A17", pair(one={"port": 17001, "peers": [17009]})
    yield "A18", [*pair(), config(3, {"address": "10.0.1.1/30"})]
    yield "A19", pair(one={"port": 17001}, other={"port": 17002})
    yield "A20", lan(1, 0, 0)


def configs_with_faults():
    """Configurations with each fault of a file, and with places of each kind."""
    good, address = pair()[0], {"address": "10.0.0.1/30"}
    yield "C1", "area 7\n"
    yield "C1, no text", b"\xff"
    yield "C2", good.replace("router_id", "# router_id")
    yield "C2, of an interface", good.replace("cost", "# cost")
    yield "C3", config(1, {**address, "mtu": "1500"})
    yield "C4", config(1, {**address, "mtu": 100})
    yield "C5", config(1, {**address, "cost": 0})
    yield "C6", config(1, address, address)
    yield "C6, of a host", good + '\n[[host]]\naddress = "10.0.0.1"\ncost = 0\n'
    yield "C7", config(1, {**address, "dead": 10})
    yield "C8", "colour = 1\n" + good
    yield "C8, in quotes", good + '"a b" = 1\n'
    both = config(1, {**address, "cost": 0}, {**address, "mtu": 9})
    yield "all of these", "stub_router = 1\n" + both


def risky():
    """A configuration with both warnings."""
    lan_key = {"address": "10.1.0.1/24", "kind": "broadcast", "priority": 1}
    keys = {"address": "10.0.0.1/30", "transmit_delay": 1000}
    return 'other_lsas = "pass over"\n' + config(1, keys, lan_key)


# ---- scripts of the simulator


def strange_deliveries(routers, links, packets):
    """A script that delivers each of these packets to each link of each router again, late."""
    lines = ["start all", "up all", "round 30"]
    ends = [(router, link) for router in routers for link in range(links)]
    for number in range(packets):
        lines += [f"deliver {number} {router} {link}" for router, link in ends]
    lines += ["down 1.1.1.1 0", "deliver 0 1.1.1.1 0", "round 60", "stop 1.1.1.1", ""]
    return "\n".join(lines)


def simulations():
    """Scripts and configurations, with a name: the examples, and simulations of what those lack."""
    for script in sorted(glob.glob(os.path.join(TOP, "examples", "*", "script"))):
        folder = os.path.dirname(script)
        yield os.path.relpath(folder, TOP), script, sorted(glob.glob(f"{folder}/*.toml"))
    three = [
        config(
            at, {"address": f"10.0.0.{at}/29"}, {"address": f"10.1.0.{at}/24", "kind": "broadcast"}
        )
        for at in (1, 2, 3)
    ]
    yield "three routers", strange_deliveries(["1.1.1.1", "2.2.2.2", "3.3.3.3"], 2, 60), three
    apart = [pair()[0], config(2, {"address": "10.0.0.2/30"}, of_area="0.0.0.7")]
    yield "two areas on one link", "start all\nup all\nround 30\n", apart


# ---- what is printed


class Printed:
    """What a program prints: of each schema by its name, the values with their origins. A text that
    was printed before is left out."""

    def __init__(self, program):
        self.program, self.values, self.seen, self.commands = program, {}, set(), 0

    def keep(self, schema, origin, text):
        value = json.loads(text)
        if (schema, text) not in self.seen:
            self.seen.add((schema, text))
            self.values.setdefault(schema, []).append((origin, value))
        return value

    def run(self, words, text="", statuses=(0,)):
        self.commands += 1
        ended = subprocess.run(
            [self.program, *words], input=text, capture_output=True, text=True, check=False
        )
        if ended.returncode not in statuses:
            sys.exit(f"ospfd {' '.join(words)}: status {ended.returncode}\n{ended.stderr}")
        return ended.stdout

    def ask(self, schema, origin, words, text="", statuses=(0,)):
        """One value on one line."""
        said = self.run(words, text, statuses)
        if said.count("\n") != 1 or not said.endswith("\n"):
            sys.exit(f"ospfd {' '.join(words)}: not one line, of {origin}:\n{said}")
        return self.keep(schema, f"ospfd {' '.join(words)}, of {origin}", said)

    def ask_lines(self, schema, origin, words, text="", statuses=(0,)):
        """A value on each line, of which the first alone is about the input."""
        values = [
            self.keep(schema, f"ospfd {' '.join(words)}, of {origin}", line)
            for line in self.run(words, text, statuses).splitlines()
        ]
        if [("version" in value) for value in values] != [True] + [False] * (len(values) - 1):
            sys.exit(
                f"ospfd {' '.join(words)}: the first line alone is about the input, of {origin}"
            )

    def look_at_database(self, name, text):
        self.ask("lsas-1", name, ["lsas", "--json"], text)
        tables = self.ask("table-all-1", name, ["table", "--json", "all"], text)
        roots = [it["root"] for it in tables] or ["1.1.1.1"]
        prefixes = [route["prefix"] for it in tables for route in it["routes"]]
        addresses = ["203.0.113.77", *(it.split("/")[0] for it in prefixes[:2])]
        for root in [*roots, "99.99.99.99"]:
            self.ask("table-1", name, ["table", "--json", root], text)
            self.ask_lines("table-2", name, ["table", "--json=2", root, *addresses], text)
        self.ask_lines("table-2", name, ["table", "--json=2", "all"], text)
        for each in [], ["--each"]:
            self.ask("failures-1", name, ["failures", "--json", *each, roots[0]], text)
            self.ask("failures-all-1", name, ["failures", "--json", *each, "all"], text)
            self.ask(
                "failures-1",
                name,
                ["failures", "--json", *each, "--carrier", "switch", roots[0]],
                text,
            )
            self.ask(
                "failures-all-1",
                name,
                ["failures", "--json", *each, "--carrier", "switch", "all"],
                text,
            )
            for carrier in "process", "switch":
                words = ["failures", "--json=2", *each, "--carrier", carrier]
                self.ask_lines("failures-2", name, [*words, roots[0]], text)
                self.ask_lines("failures-all-2", name, [*words, "all"], text)

    def write_configs(self, place, texts):
        paths = [os.path.join(place, f"{at}.toml") for at in range(1, len(texts) + 1)]
        for path, text in zip(paths, texts):
            with open(path, "wb") as file:
                file.write(text if isinstance(text, bytes) else text.encode())
        return paths

    def check(self, name, paths):
        self.ask("check-1", name, ["check", "--json", *paths], statuses=(0, 3))

    def annotate(self, name, texts):
        """What `check --json=2` says of files, and that with places, in both forms."""
        with tempfile.TemporaryDirectory() as place:
            paths = self.write_configs(place, texts)
            self.ask_lines("check-2", name, ["check", "--json=2", *paths], statuses=(0, 3))
            words = ["check", "--area", "--json=2", *paths]
            self.ask_lines("check-2", name, words, statuses=(0, 3))
            said = self.run(words, statuses=(0, 3))
            for form, schema in ("json", "annotate-1"), ("json=2", "annotate-2"):
                found = subprocess.run(
                    [os.path.join(TOP, "tools", "annotate"), form],
                    input=said,
                    capture_output=True,
                    text=True,
                    check=False,
                ).stdout
                for line in found.splitlines():
                    self.keep(schema, f"tools/annotate {form}, of {name}", line)

    def log(self, name, place, words):
        """The journal of a command, line by line."""
        journal = os.path.join(place, "journal")
        self.run([words[0], "--log", journal, "--json", *words[1:]])
        with open(journal, encoding="utf-8") as file:
            for line in file:
                self.keep("journal-1", f"ospfd {words[0]} --log, {name}", line)

    def simulate(self, name, script, configs):
        with tempfile.TemporaryDirectory() as place:
            if not os.path.exists(script):
                configs = self.write_configs(place, configs)
                path = os.path.join(place, "script")
                with open(path, "w", encoding="utf-8") as file:
                    file.write(script)
                script = path
            self.check(name, configs)
            self.log(name, place, ["sim", script, *configs])

    def run_routers(self):
        """Two routers over UDP, on ports that are free."""
        one, other = (socket.socket(socket.AF_INET, socket.SOCK_DGRAM) for _ in range(2))
        with one, other:
            for it in one, other:
                it.bind(("127.0.0.1", 0))
            a, b = one.getsockname()[1], other.getsockname()[1]
        with tempfile.TemporaryDirectory() as place:
            paths = self.write_configs(
                place, pair(one={"port": a, "peers": [b]}, other={"port": b, "peers": [a]})
            )
            journal = os.path.join(place, "lsas")
            words = ["run", "--log-lsas", journal, "--tick", "20", MOST_TICKS, *paths]
            self.log("two routers", place, words)
            with open(journal, encoding="utf-8") as file:
                for line in file:
                    self.keep("lsa-journal-1", "ospfd run --log-lsas, two routers", line)

    def take_all(self):
        for name, text in databases():
            self.look_at_database(name, text)
        for name, texts in areas_with_faults():
            with tempfile.TemporaryDirectory() as place:
                self.check(name, self.write_configs(place, texts))
            self.annotate(name, texts)
        for name, text in configs_with_faults():
            self.annotate(name, [text])
        for name, texts in (("warnings", [risky()]), ("a refused file", [risky(), "area = 1\n"])):
            self.annotate(name, texts)
        for name, script, configs in simulations():
            self.simulate(name, script, configs)
        self.run_routers()
        watched_json.watch(self)
        return self.values
