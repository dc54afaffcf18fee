"""Texts that `tools/lsas-of-show` reads: `read-shown` runs these.

Those of FRR and BIRD in shown/ are of routers (FRR 8.4.4, BIRD 2.0.12). The others were written by
hand after public documentation, with the numbers of lan.show. A text that is cut or damaged gives
no LSA that is not in the database. What is refused is named.
"""
import os
import re
import subprocess

from vendors import HERE, TOP, fail, found_in, shown

TOOL, SHOWN = os.path.join(TOP, "tools", "lsas-of-show"), os.path.join(HERE, "shown")
# What FRR 8.4.4 and BIRD 2.0.12 had, byte for byte but for the ages: an area border router 1.1.1.1,
# 2.2.2.2 and BIRD as 3.3.3.3. The bytes come from the text of FRR, which shows all of them.
AREA = ["02010101010101010101" "80000007b81e003c03000003020202020a0000010100000a0a000000fffffffc"
        "0300000a0a0100020a01000102000007",
        "02010202020202020202" "8000000ac3d1004800000004010101010a0000020100000c0a000000fffffffc"
        "0300000c0a0100020a010002020000090a0300010a0300010200000a",
        "42010303030303030303" "800000029c5a0030020000020a0300010a0300030200000bac100900ffffff00"
        "03000003"]
NETWORKS = ["02020a010002020202028000000129100020ffffff000101010102020202",
            "02020a03000102020202800000016fc00020ffffff000202020203030303"]
OTHERS = ["02030a0200000101010180000001172c001cffffff000000000a",
          "020500000000010101018000000173d6002400000000000000050000000000000000",
          "0205c00002000101010180000001ad4a0024ffffff00800000140000000000000000",
          "0205c63364ff030303038000000165dd0024ffffff008000001e0000000000000007"]
BORDER = ["02030a00000001010101800000011d2b001cfffffffc0000000a",
          "02030a01000001010101800000010542001cffffff0000000007",
          "02030a03000001010101800000034deb001cffffff0000000011",
          "0203ac10090001010101800000012d52001cffffff0000000014",
          "02040303030301010101800000015fdb001c0000000000000011"]
BORDER_ROUTER = "02010101010101010101800000038ea10024030000010a020000ffffff000300000a"


def run(*words, text=None):
    return subprocess.run([TOOL, *words], input=text, capture_output=True, text=True, check=False)


def read(name):
    with open(os.path.join(SHOWN, name), encoding="ascii", newline="") as file:
        return file.read()


def same(name, ended, wanted, *, others=None, file=None):
    """Whether a run wrote these LSAs, their ages apart, and others into a file."""
    got = [line[4:] for line in ended.stdout.split()]
    if ended.returncode or got != wanted:
        fail(name, ended)
    if others is not None:
        with open(file, encoding="ascii") as lines:
            got = [line[4:].strip() for line in lines]
        if got != others:
            fail(name, got)


def of_routers(place):
    """What FRR and BIRD showed at one moment, in all their layouts."""
    file, vrfs = os.path.join(place, "others"), ("frr-vrfs.show", "frr-vrfs.json")
    for name in ("frr.show", "frr.json"):
        words = ["--others", file, os.path.join(SHOWN, name)]
        same(name, run("--area", "0", *words), AREA + NETWORKS, others=OTHERS, file=file)
        wanted = run("--area", "1", *words)
        if wanted.stdout[4:] != BORDER_ROUTER + "\n":
            fail(name, wanted)
        with open(file, encoding="ascii") as lines:
            got = sorted(line[4:].strip() for line in lines)
        if got != sorted(BORDER + OTHERS[1:]):
            fail(name, got)
    for name in vrfs:
        same(name, run("--vrf", "default", "--area", "0", os.path.join(SHOWN, name)), AREA)
        ended = run("--vrf", "red", os.path.join(SHOWN, name))
        if (ended.returncode, ended.stderr) != (3, "no VRF red: there is default\n"):
            fail(name, ended)
    both = run("--others", file, os.path.join(SHOWN, "bird.show"))
    same("bird.show", both, NETWORKS, others=OTHERS, file=file)
    for router in ("1.1.1.1", "2.2.2.2", "3.3.3.3"):
        if f"(router-LSA {router} of {router}: Link Data missing)" not in both.stderr:
            fail("bird.show", both)


def by_hand(wanted):
    """The texts that were written by hand, and their damaged forms."""
    for name in ("ios", "nxos", "eos", "junos"):
        text = read(f"{name}.show")
        for form in (text, text.replace("\n", "\r\n")):
            ended = run("-", text=form)
            if (ended.returncode, ended.stdout) != (0, wanted):
                fail(name, ended)
    with open(os.path.join(HERE, "lan.show"), encoding="ascii") as file:
        texts = {"frr": file.read()}
    texts.update({name: read(f"{name}.show") for name in ("ios", "nxos", "eos", "junos")})
    known = {line[4:] for line in wanted.split()}
    for name, text in texts.items():
        lines = text.split("\n")
        for at in range(len(lines)):
            for part in (lines[:at], lines[:at] + lines[at + 1:], lines[:at] + [lines[at][:-3]]):
                try:
                    got, _ = found_in("\n".join(part))
                except shown.Unreadable:
                    continue
                if not {it[2:].hex() for it in got} <= known:
                    fail(f"{name}, damaged at line {at + 1}", [it.hex() for it in got])
        changes = (("21", "22"), ("10.0.0.2", "10.0.0.6"), ("255.255.255.252", "255.255.255.0"))
        for old, new in changes:
            got, _ = found_in(text.replace(old, new))
            if not {it[2:].hex() for it in got} < known:
                fail(f"{name} with {new} in place of {old}", [it.hex() for it in got])


def refused(name, text, last, *words, lsas=0):
    """A text that is refused: the last line on standard error, and how many LSAs came before."""
    ended = run(*words, text=text)
    told = ended.stderr.splitlines()[-1:]
    if (ended.returncode, told, len(ended.stdout.split())) != (3, [last], lsas):
        fail(name, ended)


def refusals():
    """What is refused, by its name."""
    names = ("FRR (text), FRR (JSON), Cisco IOS, IOS-XE, IOS-XR, Cisco NX-OS, Arista EOS, Junos, "
             "BIRD (show ospf lsadb, show ospf state all)")
    for text in ("hello\n", "Neighbor ID  Pri  State\n", "[1]\n", "<xml/>"):
        refused(f"unknown: {text}", text, f"-: format not recognized: known are {names}")
    for name, text in (("cut", read("frr.json")[:300]), ("deep", '{"a":' + "[" * 100_000)):
        ended = run(text=text)
        if (ended.returncode, ended.stdout) != (3, "") or "-: not valid JSON: " not in ended.stderr:
            fail(f"{name} JSON", ended)
    refused("another JSON", '{"a": 1}\n', "no LSA found")
    last = ("no LSA found: the text lists LSAs without their contents "
            "(add router, network or detail)")
    for name in ("frr-list.show", "frr-list.json"):
        refused(name, read(name), last)
    last = "several areas: 0.0.0.0, 0.0.0.1: choose one with --area"
    for name in ("ios", "nxos", "eos", "junos"):
        text = read(f"{name}.show")
        two = text + re.sub("rea 0(?:.0.0.0)?", "rea 1", text)
        refused(f"{name}, two areas", two, last)
        if len(run("--area", "1", text=two).stdout.split()) != 5:
            fail(f"{name}, one of two areas")
    refused("FRR's JSON, two areas", read("frr.json"), last)
    text = read("ios.show")
    refused("two processes", text + text.replace("Process ID 1", "Process ID 2"),
            "several VRFs: 1, 2: choose one with --vrf")
    text = read("nxos.show")
    refused("two VRFs", text + text.replace("VRF default", "VRF red"),
            "several VRFs: default, red: choose one with --vrf")


def missing():
    """What is not shown is named."""
    def left_of(text):
        return [it.partition(" (")[2][:-1] for it in found_in(text)[1] if "in full" in it]

    text, router = read("eos.show"), "router-LSA 3.3.3.3 of 3.3.3.3"
    at = text.index("  Link State ID: 3.3.3.3")
    for name in ("LS Seq Number", "Checksum", "Length"):
        begin = text.index(f"  {name}: ", at)
        less = text[:begin] + text[text.index("\n", begin) + 1:]
        if left_of(less) != [f"{router}: {name} missing"]:
            fail(f"no {name}", left_of(less))
    less = text[:at] + text[at:].replace("Network Mask: 255.255.255.0\n   ", "\n", 2)
    if "network-LSA 10.1.0.1 of 1.1.1.1: Network Mask missing" not in left_of(less):
        fail("no mask", left_of(less))
    rows = "\n".join(line for line in read("junos.show").split("\n") if not line.startswith("  "))
    if f"{router}: contents (detail) missing" not in left_of(rows):
        fail("Junos without detail", left_of(rows))
    headers, state = read("bird.show").split("BIRD 2.0.12 ready.\n")[1:]
    wanted = f"{router}: contents (show ospf state all) missing"
    if wanted not in left_of(headers):
        fail("BIRD's lsadb alone", left_of(headers))
    wanted = f"{router}: LS age, LS Seq Number, Checksum, Link Data missing"
    if wanted not in left_of(state):
        fail("BIRD's state alone", left_of(state))


def mixed(wanted):
    """Texts of several vendors, one after the other."""
    text = "".join(read(f"{name}.show") for name in ("junos", "eos", "nxos"))
    ended = run("-", text=text)
    if (ended.returncode, ended.stdout) != (0, wanted):
        fail("several vendors", ended)


def follow(place, wanted):
    """A text that grows: each LSA is written once the next one begins, and not again."""
    text, file = read("nxos.show"), os.path.join(place, "others")
    middle = text.index("   LS age: 23")
    child = subprocess.Popen([TOOL, "--follow", "--others", file], stdin=subprocess.PIPE,
                             stdout=subprocess.PIPE, stderr=subprocess.PIPE, text=True)
    child.stdin.write(text[:middle + 20])
    child.stdin.flush()
    first = child.stdout.readline()
    out, told = child.communicate(text[middle + 20:] + text)
    if (child.returncode, first + out) != (0, wanted):
        fail("a text that grows", child.returncode, first, out, told)
    if told.splitlines()[-2:] != ["written: 5 instances of 3 router-LSAs, 2 network-LSAs",
                                  f"written to {file}: 0 summary-LSAs, 0 ASBR-summary-LSAs, "
                                  "0 AS-external-LSAs"]:
        fail("a text that grows", told)
    refused("a second area that comes later", text + text.replace("Area 0.0.0.0", "Area 0.0.0.1"),
            "several areas: 0.0.0.0, 0.0.0.1: choose one with --area", "--follow", lsas=5)
    refused("a second VRF that comes later", text + text.replace("VRF default", "VRF red"),
            "several VRFs: default, red: choose one with --vrf", "--follow", lsas=5)
    ended = run("--others", "/no/such/file", text=text)
    told = "/no/such/file: not written: No such file or directory"
    if (ended.returncode, ended.stdout, ended.stderr.splitlines()[-1]) != (5, "", told):
        fail("others that cannot be written", ended)


def check(place, wanted):
    """All of it; `wanted` is what is written of lan.show."""
    of_routers(place)
    by_hand(wanted)
    refusals()
    missing()
    mixed(wanted)
    follow(place, wanted)
