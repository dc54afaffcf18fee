"""What `tools/lsas-of-capture` writes of a capture that grows, with --follow, and of LSAs of other
types, with --others: `read-captures` runs this."""
import os
import struct
import subprocess
import sys
import tempfile

TOP = os.path.dirname(os.path.dirname(os.path.dirname(os.path.abspath(__file__))))
TOOL = os.path.join(TOP, "tools", "lsas-of-capture")
# Of each LSA the last line that was written, as docs/lsas-of-capture.1 has it.
NEWEST = "{ last[substr($0, 7, 18)] = $0 } END { for (key in last) print last[key] }"
# LSAs of types 3, 4 and 5 that FRR and BIRD sent.
SUMMARY = "000a 0203 0a030000 01010101 80000003 4deb 001c ffffff00 00000011"
ASBR = "000a 0204 03030303 01010101 80000001 5fdb 001c 00000000 00000011"
EXTERNAL = ("000a 0205 c63364ff 03030303 80000001 65dd 0024 ffffff00 8000001e 00000000 00000007")


def fail(name, *what):
    sys.exit(f"{name}: {' '.join(map(str, what))}")


def record(second, packet):
    """A record of a pcap file."""
    return struct.pack("<IIII", second, 0, len(packet), len(packet)) + packet


class Growing:
    """The tool, and a capture that it reads while it grows."""

    def __init__(self, name, *words):
        self.name, self.lines = name, []
        streams = {it: subprocess.PIPE for it in ("stdin", "stdout", "stderr")}
        self.child = subprocess.Popen([TOOL, "--follow", *words, "-"], **streams)

    def send(self, data, *lsas):
        """Sends bytes; these LSAs come before anything else is sent."""
        self.child.stdin.write(data)
        self.child.stdin.flush()
        for lsa in lsas:
            line = self.child.stdout.readline().decode().strip()
            self.lines.append(line)
            if line != lsa.hex():
                self.child.stdin.close()
                fail(self.name, f"{line}, and not {lsa.hex()}: {self.child.stderr.read()}")

    def end(self, status, *told):
        """Ends the capture: nothing more comes, and this is reported last."""
        out, error = self.child.communicate()
        error = error.decode().splitlines()
        if (self.child.returncode, out, error[-len(told):]) != (status, b"", list(told)):
            fail(self.name, self.child.returncode, out, error)


def instances(forms, first, second, flushed):
    """Each new instance of an LSA, in each form of a capture, and nothing of repeated ones."""
    for name, begin, one in forms:
        run = Growing(name)
        run.send(begin + one(100, first), first)
        run.send(one(101, first) + one(102, second), second)
        run.send(one(103, first) + one(104, flushed), flushed)
        left = "left out: 4 older or repeated instances"
        run.end(0, left, "written: 3 instances of 1 router-LSAs, 0 network-LSAs")
        text = "".join(f"{line}\n" for line in run.lines)
        awk = ["awk", NEWEST]
        newest = subprocess.run(awk, input=text, stdout=subprocess.PIPE, text=True, check=True)
        if newest.stdout != flushed.hex() + "\n":
            fail(name, f"the newest lines are {newest.stdout}")


def ends(begin, one, hello, lsa, other):
    """How a capture that grows may end."""
    run = Growing("a capture that is cut in a packet")
    run.send(begin + one(100, lsa) + one(101, other)[:-5], lsa)
    run.end(0, "left out: 1 captures truncated at the end",
            "written: 1 instances of 1 router-LSAs, 0 network-LSAs")
    run = Growing("an LSA that expires")
    run.send(begin + one(100, lsa) + record(9000, hello), lsa)
    run.send(one(9001, lsa), lsa)
    run.end(0, "expired: router-LSA 1.1.1.1 of 1.1.1.1",
            "written: 2 instances of 1 router-LSAs, 0 network-LSAs")
    # The area is at byte 8 of the OSPF packet.
    elsewhere = bytearray(one(101, other))
    elsewhere[16 + 20 + 8:16 + 20 + 12] = bytes((0, 0, 0, 1))
    run = Growing("a second area")
    run.send(begin + one(100, lsa), lsa)
    run.send(bytes(elsewhere))
    run.end(3, "several areas: 0.0.0.0, 0.0.0.1: choose one with --area")
    run = Growing("one of two areas", "--area", "1")
    run.send(begin + one(100, lsa) + bytes(elsewhere), other)
    run.end(0, "written: 1 instances of 1 router-LSAs, 0 network-LSAs")
    run = Growing("no capture")
    run.send(b"\x7fELF\0\0")
    run.end(3, "-: not a capture (pcap, pcapng or text)")
    run = Growing("nobody reads")
    run.child.stdout.close()
    run.child.stdin.write(begin + one(100, lsa))
    run.child.stdin.close()
    told = run.child.stderr.read().decode()
    if (run.child.wait(), told) != (5, "standard output: not written: Broken pipe\n"):
        fail(run.name, told)
    two = subprocess.run([TOOL, "--follow", "-", "-"], capture_output=True, text=True, check=False)
    told = "lsas-of-capture: error: --follow reads only one capture"
    if (two.returncode, two.stderr.splitlines()[-1]) != (2, told):
        fail("two captures", two)


def others(begin, one, lsa):
    """LSAs of types 3, 4 and 5 in a file of their own, at the end or as they come."""
    more = [bytes.fromhex(it) for it in (EXTERNAL, SUMMARY, ASBR)]
    whole = begin + b"".join(one(100 + at, it) for at, it in enumerate([*more, lsa]))
    last = "1 summary-LSAs, 1 ASBR-summary-LSAs, 1 AS-external-LSAs"
    with tempfile.TemporaryDirectory() as place:
        file = os.path.join(place, "others")
        in_order = [SUMMARY, ASBR, EXTERNAL]
        for words, wanted in (([], in_order), (["--follow"], [EXTERNAL, SUMMARY, ASBR])):
            error = read(whole, 0, lsa.hex() + "\n", *words, "--others", file)
            if error[-1] != f"written to {file}: {last}":
                fail("other types", error)
            with open(file, encoding="ascii") as lines:
                got = lines.read().split()
            if got != [it.replace(" ", "") for it in wanted]:
                fail("other types", got)
        error = read(whole, 0, lsa.hex() + "\n")
        if error[:3] != [f"left out: 1 LSAs of type {kind}" for kind in (3, 4, 5)]:
            fail("other types that are not wanted", error)
        for words in ([], ["--follow"]):
            error = read(whole, 5, "", *words, "--others", place)
            if error[-1] != f"{place}: not written: Is a directory":
                fail("a file that cannot be written", error)


def read(data, status, out, *words):
    """Reads a capture to its end; what it reports."""
    ended = subprocess.run([TOOL, *words, "-"], input=data, capture_output=True, check=False)
    if (ended.returncode, ended.stdout.decode()) != (status, out):
        fail(" ".join(words), ended)
    return ended.stderr.decode().splitlines()


def check(begin, wrap, lsas, pcapng, hello):
    """All of it. `begin` is the header of a pcap file, `wrap` makes an IP packet of an LSA, and
    `pcapng` has the beginning of such a file and what makes a block of a packet."""
    first, second, flushed = lsas

    def one(time, lsa):
        return record(time, wrap(lsa))

    def block(time, lsa):
        return pcapng[1](wrap(lsa), time * 10**6)

    def line(_, lsa):
        return f"1.1.1.1 224.0.0.5 {wrap(lsa)[20:].hex()}\n".encode()

    forms = [("pcap", begin, one), ("pcapng", pcapng[0], block), ("text", b"# packets\n", line)]
    instances(forms, first, second, flushed)
    ends(begin, one, hello, first, second)
    others(begin, one, first)
