"""Runs of `ospfd run`, each in a folder of its own, and what they should come to."""
import os
import subprocess
import sys
import tempfile
import time

TOP = os.path.dirname(os.path.dirname(os.path.dirname(os.path.abspath(__file__))))
# The program that the script is given.
PROGRAM = os.path.abspath(sys.argv[1]) if len(sys.argv) > 1 else os.path.join(TOP, "ospfd")
# The tables of two routers that are Full.
FIRST = ["10.0.0.0/30 10 attached", "192.168.2.0/24 15 10.0.0.1>2.2.2.2"]
SECOND = ["10.0.0.0/30 10 attached", "192.168.2.0/24 5 attached"]
# How often at most a router reports one fault in its first 600 ticks.
MOST_ALIKE = 8


class Run:
    """A run of the program over configurations, in a folder of its own; of a text that is None
    there is no file."""

    def __init__(
        self,
        texts,
        *words,
        errors=subprocess.PIPE,
        given=subprocess.DEVNULL,
        output=subprocess.PIPE,
    ):
        self.place = tempfile.TemporaryDirectory()
        self.names = [f"{chr(ord('a') + number)}.toml" for number in range(len(texts))]
        for name, text in zip(self.names, texts):
            if text is None:
                continue
            with open(os.path.join(self.place.name, name), "w", encoding="utf-8") as file:
                file.write(text)
        self.child = subprocess.Popen(
            [PROGRAM, "run", *words, *self.names],
            cwd=self.place.name,
            stdin=given,
            stdout=output,
            stderr=errors,
            text=True,
        )

    def ended(self):
        """The status, and the lines of both outputs."""
        try:
            out, err = self.child.communicate(timeout=120)
        except subprocess.TimeoutExpired:
            self.child.kill()
            out, err = self.child.communicate()
            err = (err or "") + "it did not end\n"
        self.place.cleanup()
        return self.child.returncode, (out or "").splitlines(), (err or "").splitlines()


def different(got, status, out, err=()):
    """What a run came to, if it is not this."""
    wanted = (status, list(out), list(err))
    return [] if got == wanted else [f"it should be {wanted}", f"it is {got}"]


def both(first=(), second=()):
    return ["router 1.1.1.1", *FIRST, *first, "router 2.2.2.2", *SECOND, *second]


def wait_until_heard(run, port):
    """Waits until the run hears this port: before that it starts, and what memory it has then says
    nothing."""
    while run.child.poll() is None:
        with open("/proc/net/udp", encoding="ascii") as file:
            if any(line.split()[1].endswith(f":{port:04X}") for line in file.readlines()[1:]):
                return
        time.sleep(0.01)
