"""Folders in which tools/service runs, for tests/peers/service."""
import os
import signal
import subprocess
import tempfile
import time

from networks import config, interface

TOP = os.path.dirname(os.path.dirname(os.path.dirname(os.path.abspath(__file__))))
SERVICE = os.path.join(TOP, "tools", "service")
TICK = "5"
# What a packet takes in a capture, at least: two headers, and a Hello.
PACKET = 16 + 20 + 44
PIPES = {"stdout": subprocess.PIPE, "stderr": subprocess.PIPE, "text": True}


def texts(ports, cost):
    """Two routers on a line: the first has a stub network of this cost, the second stays as it
    is."""
    link = interface("point-to-point", "10.0.0.1/30", 10, ports[0], [ports[1]])
    first = config("1.1.1.1", link, interface("broadcast", "192.168.1.1/24", cost, ports[2]))
    other = interface("point-to-point", "10.0.0.2/30", 10, ports[1], [ports[0]])
    return first, config("2.2.2.2", other)


class Place:
    """A folder with a configuration, and a service that runs a program in it."""

    def __init__(self, program, text, *words):
        self.folder = tempfile.TemporaryDirectory()
        self.put("a.toml", text)
        self.program, self.words, self.child = program, words, None

    def path(self, name):
        return os.path.join(self.folder.name, name)

    def put(self, name, text):
        with open(self.path(name), "w", encoding="utf-8") as file:
            file.write(text)

    def get(self, name):
        with open(self.path(name), encoding="utf-8") as file:
            return file.read()

    def start(self, *words):
        """Starts the service of the configuration, with ticks that are short."""
        return self.start_with(self.program, *words, *self.words, "--tick", TICK)

    def start_other(self, text, *words):
        """Starts the service with a script in place of the program."""
        self.put("other", text)
        os.chmod(self.path("other"), 0o755)
        return self.start_with(self.path("other"), *words)

    def start_with(self, program, *words):
        words = [SERVICE, "--ospfd", program, *words, "a.toml"]
        self.child = subprocess.Popen(words, cwd=self.folder.name, start_new_session=True, **PIPES)
        return self

    def ended(self):
        """The status, and both outputs."""
        try:
            out, err = self.child.communicate(timeout=60)
        except subprocess.TimeoutExpired:
            self.child.kill()
            out, err = self.child.communicate()
            err += "it did not end\n"
        return self.child.returncode, out, err

    def kill(self):
        """Kills the routers with `kill -9`, and waits for the service's end."""
        words = ["pgrep", "-P", str(self.child.pid)]
        found = subprocess.run(words, capture_output=True, text=True, check=False).stdout
        for one in found.split():
            os.kill(int(one), signal.SIGKILL)
        return self.ended()

    def has_sent(self, packets):
        """Whether the routers have sent so many packets."""
        path = self.path("sent.pcap")
        return os.path.exists(path) and os.path.getsize(path) > PACKET * packets


def is_not(what, got, wanted):
    return [] if got == wanted else [f"{what}: {got!r}, and not {wanted!r}"]


def wait_for(what, seconds=30):
    """Waits until a call gives something true; what it gives last."""
    until = time.monotonic() + seconds
    while not (got := what()) and time.monotonic() < until:
        time.sleep(0.02)
    return got
