"""A router in a network namespace of its own, its interfaces, and the programs that run in it."""
import ctypes
import os
import re
import shutil
import socket
import subprocess
import threading

TOP = os.path.dirname(os.path.dirname(os.path.dirname(os.path.abspath(__file__))))
HELLO, DEAD, MAX_AGE = 1, 4, 3600
NETWORK_NAMESPACE = 0x40000000
NEEDED = {"frr": "/usr/lib/frr/ospfd", "bird2": "/usr/sbin/bird", "iproute2": "ip"}
# A program that is compiled with checks would keep memory that was given back, to see it used.
GIVEN_BACK = {"ASAN_OPTIONS": "quarantine_size_mb=0:thread_local_quarantine_size_kb=0"}
LIBRARY = ctypes.CDLL(None, use_errno=True)


def missing():
    """What these tests want and this machine does not have."""
    found = [] if os.geteuid() == 0 else ["root"]
    return found + [name for name, path in NEEDED.items() if shutil.which(path) is None]


def said(*words):
    """What a command says; nothing where it does not end, or ends ill."""
    try:
        done = subprocess.run(
            words,
            stdin=subprocess.DEVNULL,
            capture_output=True,
            text=True,
            errors="replace",
            timeout=20,
            check=False,
        )
    except subprocess.TimeoutExpired:
        return ""
    return "" if done.returncode else done.stdout or done.stderr


def versions(program):
    """What runs beside what."""
    frr = re.search(r"version (\S+)", said(NEEDED["frr"], "--version"))
    bird = re.search(r"version (\S+)", said(NEEDED["bird2"], "--version"))
    # Where no program is built yet, ./ospfd compiles one now.
    ours = subprocess.run(
        [program, "--version"], stdout=subprocess.PIPE, text=True, check=True
    ).stdout.strip()
    return f"{ours}, FRR {frr and frr[1]}, BIRD {bird and bird[1]}, Linux {os.uname().release}"


def inside(space, make):
    """What a function makes within a network namespace: its sockets stay there."""
    made, failures = [], []

    def run():
        try:
            with open(f"/var/run/netns/{space}", "rb") as file:
                if LIBRARY.setns(file.fileno(), NETWORK_NAMESPACE):
                    raise OSError(ctypes.get_errno(), f"setns {space}")
            made.append(make())
        except Exception as failure:
            failures.append(failure)

    thread = threading.Thread(target=run)
    thread.start()
    thread.join()
    if failures:
        raise failures[0]
    return made[0]


def opened(port, to):
    """A socket of UDP on loopback, for what goes between two ports."""
    made = socket.socket(socket.AF_INET, socket.SOCK_DGRAM)
    made.bind(("127.0.0.1", port))
    made.connect(("127.0.0.1", to))
    return made


def hops_of(hops):
    """Next hops as a set, of which the attached network is none."""
    return frozenset(hop for hop in hops if hop and hop != "0.0.0.0")


class Side:
    """An interface of a router: its device, its address with a length, whether it is
    point-to-point, and the rest."""

    def __init__(self, device, address, is_line, cost=10, priority=1, mtu=1500):
        self.device, self.address, self.is_line = device, address, is_line
        self.cost, self.priority, self.mtu = cost, priority, mtu
        # RxmtInterval of FRR in seconds; None is its own, 5.
        self.retransmit = None


class Node:
    """A router in a namespace of its own."""

    def __init__(self, lab, name, router):
        self.lab, self.name, self.router = lab, name, router
        self.space, self.folder = f"{lab.prefix}{name}", os.path.join(lab.folder, name)
        self.sides, self.stubs, self.children, self.is_dressed = [], [], [], False
        # Addresses of its loopback, which it advertises as hosts.
        self.hosts = []
        os.makedirs(self.folder)
        self.ip(f"netns add {self.space}", anywhere=True)
        self.ip("link set lo up")

    def ip(self, *lines, anywhere=False):
        """Has `ip` do these lines, within the namespace."""
        words = ["ip", *([] if anywhere else ["-n", self.space]), "-batch", "-"]
        done = subprocess.run(
            words, input="\n".join(lines) + "\n", capture_output=True, text=True, check=False
        )
        if done.returncode:
            raise RuntimeError(f"{self.name}: ip {lines[0]}: {done.stderr.strip()}")

    def path(self, name):
        return os.path.join(self.folder, name)

    def write(self, name, text):
        with open(self.path(name), "w", encoding="utf-8") as file:
            file.write(text)
        return self.path(name)

    def spawn(self, *words, out=None, err="log"):
        """Starts a program within the namespace; what it says on standard error is kept."""
        with open(self.path(err), "a", encoding="utf-8") as log:
            how = {
                "stdin": subprocess.DEVNULL,
                "stdout": out or log,
                "stderr": log,
                "cwd": self.folder,
                "env": {**os.environ, **GIVEN_BACK},
            }
            child = subprocess.Popen(["ip", "netns", "exec", self.space, *words], text=True, **how)
        self.children.append(child)
        return child

    def kill(self):
        """Ends its programs as a failure of power does."""
        for child in self.children:
            child.kill()
        for child in self.children:
            child.wait()
        self.children = []

    def dress(self):
        """Gives its devices their addresses, and its stub networks a device: once, before its
        programs start."""
        if self.is_dressed:
            return
        self.is_dressed = True
        lines = [f"address add {side.address} dev {side.device}" for side in self.sides]
        if self.stubs:
            lines += ["link add s0 type veth peer name s1", "link set s0 up", "link set s1 up"]
            lines += [f"address add {address} dev s0" for address in self.stubs]
        lines += [f"address add {address}/32 dev lo" for address in self.hosts]
        self.ip(*lines)
