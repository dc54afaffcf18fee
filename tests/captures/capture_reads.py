"""What `tools/lsas-of-capture` reads of a capture, and what it says of it."""
import os
import subprocess
import sys

HERE = os.path.dirname(os.path.abspath(__file__))
TOP = os.path.dirname(os.path.dirname(HERE))
TOOL = os.path.join(TOP, "tools", "lsas-of-capture")
PROGRAM = os.path.join(TOP, "ospfd")
CAPTURE = os.path.join(HERE, "point-to-point.packets")
OLDER = "left out: 1 older or repeated instances"
ONE, TWO = "written: 1 router-LSAs, 0 network-LSAs", "written: 2 router-LSAs, 0 network-LSAs"
UNKNOWN = (
    "known are Ethernet (1), loopback (0, 108), raw IP (12, 14, 101, 228), Linux cooked (113, 276)"
)
NOTHING = ["written: 0 router-LSAs, 0 network-LSAs", "no LSA found"]


def read(path):
    return subprocess.run([TOOL, path], capture_output=True, check=True)


def expect(name, data, status, last, *words, lsas=None):
    """Reads bytes from standard input: how it ends, its last line on standard error, and, if they
    are given, its LSAs."""
    ended = subprocess.run([TOOL, *words, "-"], input=data, capture_output=True, check=False)
    told = ended.stderr.decode().splitlines()[-1:]
    if (ended.returncode, told) != (status, [last]) or (lsas is not None and ended.stdout != lsas):
        sys.exit(f"{name}: {ended}")


def gives(name, data, lsas, *told):
    """What is read of bytes of a capture, and all that is told."""
    ended = subprocess.run([TOOL, "-"], input=data, capture_output=True, check=False)
    wanted = (0 if lsas else 3, "".join(it.hex() + "\n" for it in lsas).encode(), list(told))
    if (ended.returncode, ended.stdout, ended.stderr.decode().splitlines()) != wanted:
        sys.exit(f"{name}: {ended}, and not {wanted}")
