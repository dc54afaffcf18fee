"""What the tests of the library share: databases, and what the program answers."""
import os
import subprocess
import sys
import tempfile

TOP = os.path.dirname(os.path.dirname(os.path.dirname(os.path.abspath(__file__))))
PROGRAM = os.path.abspath(sys.argv[1]) if len(sys.argv) > 1 else os.path.join(TOP, "ospfd")
FOLDERS = ("examples", "tests/captures/databases")
# The forms of failures and the carriers of links, as words of the program, by their numbers.
FORMS, CARRIERS = ((), ("--harm",), ("--json",), ("--json=2",)), ("process", "switch", "direct")
# What is asked of failures: a form, a carrier, and whether it is each prefix and strict.
FAILURES = ((0, 0, False, True), (0, 1, True, False), (1, 2, True, True), (2, 0, False, False),
            (2, 2, True, False), (3, 1, True, True))
# Texts that are refused, or have lines that are passed over.
ODD = {
    "no LSA": b"",
    "spaces": b"   \n\n",
    "not hexadecimal": b"zz\n",
    "too short": b"0001\n",
    "not UTF-8": b"\xff\xfe\n",
}


def files(ending):
    """The files below the folders whose names have this ending, in order."""
    found = (os.path.join(at, name) for folder in FOLDERS
             for at, _, names in os.walk(os.path.join(TOP, folder)) for name in names)
    return sorted(it for it in found if it.endswith(ending))


def read(path):
    with open(path, "rb") as file:
        return file.read()


def databases():
    """All databases by their names: the captured ones, those of the examples, and odd ones."""
    found = {os.path.relpath(path, TOP): read(path) for path in files(".hex")}
    first = next(iter(found.values()))
    cut = first[:60] + b"\n" + first
    return {**found, **ODD, "a line that is cut": cut, "a line twice": first + first}


def simulations():
    """The simulations of the examples and the tests: each with its script and its files."""
    for folder in ("examples", "tests/simulations"):
        for name in sorted(os.listdir(os.path.join(TOP, folder))):
            at = os.path.join(TOP, folder, name)
            if not os.path.isfile(os.path.join(at, "script")):
                continue
            configs = sorted(it for it in os.listdir(at) if it.endswith(".toml"))
            yield (f"{folder}/{name}", read(os.path.join(at, "script")),
                   {it: read(os.path.join(at, it)) for it in configs})


def see(what, found, wanted):
    if found != wanted:
        sys.exit(f"{what}: {found!r:.2000}, and not {wanted!r:.2000}")


class Asked:
    """The program in a folder of its own, where files have names."""

    def __init__(self):
        self.folder = tempfile.TemporaryDirectory(prefix="ospf-asked-")

    def give(self, name, content):
        path = os.path.join(self.folder.name, name)
        os.makedirs(os.path.dirname(path), exist_ok=True)
        with open(path, "wb") as file:
            file.write(content)

    def __call__(self, text, *words):
        """What the program prints on both streams, and its status."""
        ran = subprocess.run([PROGRAM, *words], input=text, capture_output=True, check=False,
                             cwd=self.folder.name)
        return (ran.stdout.decode("utf-8", "replace"), ran.stderr.decode("utf-8", "replace"),
                ran.returncode)


def library(path, *words):
    """Builds the library; whether it could."""
    ran = subprocess.run([os.path.join(TOP, "tools", "library"), *words, path],
                         stdout=subprocess.PIPE, stderr=subprocess.STDOUT, text=True, check=False)
    if ran.returncode:
        sys.exit(ran.stdout)


class Questions:
    """What is asked of a database: each question as a call of the library and its words, and as
    words of the program. A text of the library is text or bytes."""

    def __init__(self, name, text, asked, many):
        self.name, self.text, self.many = name, text, many
        self.asked, self.roots, self.prefixes, self.elements = asked, [], [], []
        listed, _, status = asked(text, "lsas")
        if status == 0:
            self.read_lines(listed)
        if self.roots:
            asked.give("before", b"")
            asked.give("after", text)
            found = asked(b"", "diff", "--root", "0.0.0.0", "before", "after")[0]
            self.elements = [it[2:] for it in found.splitlines() if it.startswith("+ ")]

    def read_lines(self, listed):
        for line in listed.splitlines():
            words = line.split()
            if words[0] == "router" and not line.startswith(" "):
                self.roots.append(words[1])
            elif words[0] == "stub":
                self.prefixes.append(words[1].split("/")[0])

    def some(self, things, count):
        """All of them, or some that are spread over all."""
        step = max(len(things) // count, 1) if not self.many else 1
        return things[::step]

    def plain(self):
        """Questions about the whole database."""
        yield ("ospf_lsas", False), ("lsas",)
        yield ("ospf_lsas", True), ("lsas", "--json")
        yield ("ospf_dot",), ("lsas", "--dot")
        yield ("ospf_tables", False), ("table", "all")
        yield ("ospf_tables", True), ("table", "--json", "all")

    def of_roots(self):
        """Questions about routers, and one about a router that is not there."""
        addresses = [*self.some(self.prefixes, 3), "203.0.113.9"]
        for root in [*self.some(self.roots, 2), "9.8.7.6"]:
            yield ("ospf_table", root, addresses), ("table", root, *addresses)
            yield ("ospf_table", root, []), ("table", root)
            yield ("ospf_table_json", root), ("table", "--json", root)
            for address in addresses:
                yield ("ospf_path", root, address, []), ("path", root, address)
                yield ("ospf_path", root, address, [1, 7]), ("path", root, address, "1", "7")

    def of_changes(self):
        """Questions about changes: what goes down, costs, drained routers, and wrong words."""
        for name in [*self.some(self.elements, 4), "no such element"]:
            yield ("ospf_edit", [name], [], []), ("edit", "--down", name)
        for root in self.some(self.roots, 2):
            yield ("ospf_edit", [], [], [root]), ("edit", "--drain", root)
            cost = f"{root}-{self.roots[0]}=77"
            yield ("ospf_edit", [], [cost], []), ("edit", "--cost", cost)

    def of_failures(self):
        """Questions about what failures change at routers."""
        for root in [*self.some(self.roots, 2), "9.8.7.6"]:
            for form, carrier, each, strict in FAILURES:
                how = {"form": form, "carrier": carrier, "each": each, "strict": strict}
                flags = [f"--{it}" for it in ("each", "strict") if how[it]]
                yield (("ospf_failures_at", root, how),
                       ("failures", root, *FORMS[form], "--carrier", CARRIERS[carrier], *flags))

    def all(self):
        return [*self.plain(), *self.of_roots(), *self.of_changes(), *self.of_failures()]
