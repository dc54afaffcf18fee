"""Runs of tools/watch for tests/peers/watch: what they are given, and what they print."""
import http.client
import json
import os
import queue
import signal
import socket
import subprocess
import threading
import time

TOP = os.path.dirname(os.path.dirname(os.path.dirname(os.path.abspath(__file__))))
WATCH = os.path.join(TOP, "tools", "watch")
SECONDS = 60
CHANGES = ("change", "prefix")


def is_not(what, got, wanted):
    return [] if got == wanted else [f"{what}: {got!r}, and not {wanted!r}"]


class Watch:
    """A run of tools/watch that reads its standard input, or a configuration."""

    def __init__(self, program, folder, *words, source="-", is_json=True):
        self.folder, self.lines, self.seen = folder, queue.Queue(), []
        words = [WATCH, "--ospfd", program, *(["--json"] if is_json else []), *words, source]
        pipes = {"stdin": subprocess.PIPE, "stdout": subprocess.PIPE, "stderr": subprocess.PIPE}
        self.child = subprocess.Popen(words, cwd=folder, text=True, **pipes)
        threading.Thread(target=self.read, daemon=True).start()

    def __enter__(self):
        return self

    def __exit__(self, *_):
        if self.child.poll() is None:
            self.child.kill()
        self.child.wait()

    def read(self):
        for line in self.child.stdout:
            self.lines.put(line.rstrip("\n"))
        self.lines.put(None)

    def give(self, *lines):
        self.child.stdin.write("".join(f"{line}\n" for line in lines))
        self.child.stdin.flush()

    def until(self, kind, seconds=SECONDS):
        """The events up to the next one of this kind, and it; what came where none comes."""
        found, last = [], time.monotonic() + seconds
        while (left := last - time.monotonic()) > 0:
            try:
                line = self.lines.get(timeout=left)
            except queue.Empty:
                break
            if line is None:
                break
            found.append(json.loads(line))
            self.seen.append(found[-1])
            if found[-1]["event"] == kind:
                break
        return found

    def text(self):
        """All lines that it prints to its end."""
        found = []
        while (line := self.lines.get(timeout=SECONDS)) is not None:
            found.append(line)
        return found

    def end(self, how=None):
        """Ends it, by a signal or by the end of its input: the status, and standard error."""
        if how is None:
            self.child.stdin.close()
        else:
            self.child.send_signal(how)
        try:
            self.child.wait(SECONDS)
        except subprocess.TimeoutExpired:
            self.child.send_signal(signal.SIGKILL)
        return self.child.wait(), self.child.stderr.read()


def short(event):
    """A change without its time, as the lab names what it wants."""
    if event["event"] == "prefix":
        return ["prefix", event["prefix"], event["change"]]
    if event["change"] == "cost":
        return ["cost", *(event[it] for it in ("router", "address", "to", "old", "new"))]
    return [event["kind"], event["name"], event["change"]]


def changes(events):
    return [short(event) for event in events if event["event"] in CHANGES]


def instances(path):
    """Type, Link State ID, Advertising Router, number and checksum of each LSA in a file."""
    found = []
    with open(path, encoding="ascii") as file:
        for line in file:
            found.append(list(instance_of(bytes.fromhex(line))))
    return sorted(found)


def instance_of(lsa):
    ends = [socket.inet_ntoa(lsa[at:at + 4]) for at in (4, 8)]
    numbers = int.from_bytes(lsa[12:16], "big"), int.from_bytes(lsa[16:18], "big")
    return (lsa[3], *ends, *numbers)


def lost_in(before, after):
    """The routes that FRR's tables lost, of the routers that have a table before and after."""
    return sorted([router, prefix] for router in before if router in after
                  for prefix in before[router] if prefix not in after[router])


def ask(port, path, method="GET", headers=None):
    """What is answered: status, kind and text."""
    one = http.client.HTTPConnection("127.0.0.1", port, timeout=SECONDS)
    try:
        one.request(method, path, headers=headers or {})
        answer = one.getresponse()
        return answer.status, answer.getheader("Content-Type"), answer.read().decode()
    finally:
        one.close()


def ask_raw(port, data, seconds=SECONDS):
    """What is answered to these bytes, up to the end of the connection."""
    with socket.create_connection(("127.0.0.1", port), timeout=seconds) as made:
        got = b""
        try:
            made.sendall(data)
            while more := made.recv(65536):
                got += more
        except (ConnectionError, TimeoutError, BrokenPipeError):
            pass
        return got


def free_port():
    with socket.socket() as one:
        one.bind(("127.0.0.1", 0))
        return one.getsockname()[1]


# ---- `ospfd run` ----

def run_words(*words):
    return subprocess.run(words, capture_output=True, text=True, check=False, timeout=SECONDS)


def printed_of(text):
    """What a run printed of each router: the lines of its listing, and the LSAs of its LSDB."""
    found, router = {}, None
    for line in text.splitlines():
        words = line.split()
        if words[0] == "router" and len(words) == 2:
            router = words[1]
            found[router] = [], []
        elif words[0] in ("router", "network"):
            found[router][0].append(line)
        elif len(words) == 1:
            found[router][1].append(bytes.fromhex(line))
    return found


def named_as_listed(found):
    """Lines of --listing for LSAs."""
    lines = []
    for lsa in found:
        kind = {1: "router", 2: "network"}[lsa[3]]
        ends = " ".join(socket.inet_ntoa(lsa[at:at + 4]) for at in (4, 8))
        lines.append(f"{kind} {ends} {lsa[12:16].hex()} {lsa[16:18].hex()}")
    return lines


def lsdb_of_journal(lines):
    """The LSDB of each router that a reader of a journal of LSAs has at its end: all but ages."""
    found = {}
    for line in lines:
        if line.startswith("{"):
            value = json.loads(line)
            router, event, lsa = value["router"], value["event"], bytes.fromhex(value["bytes"])
        else:
            words = line.split()
            router, event, lsa = words[1], words[2], bytes.fromhex(words[-1])
            shown = " ".join(words[3:8])
            age = int.from_bytes(lsa[:2], "big")
            if shown != named_as_listed([lsa])[0] or int(words[8]) != age:
                raise ValueError(line)
        kept = found.setdefault(router, {})
        if event in ("installed", "refreshed"):
            kept[lsa[3:12]] = lsa[2:]
        else:
            del kept[lsa[3:12]]
    return {router: sorted(kept.values()) for router, kept in found.items()}
