"""Where a watcher reads: standard input, or `ospfd run` that it starts."""
import contextlib
import os
import queue
import socket
import subprocess
import sys
import tempfile
import threading
import time
import tomllib

import floors
import lsas
from watching import stream

# So many lines wait at most: a source that is faster than the watcher waits then.
MOST_WAITING = 100_000
SECONDS_TO_END, AT_ONCE = 10, 1 << 16
HARMLESS = (
    'give it "stub_router = true", so that no traffic goes through it',
    'give each broadcast interface "priority = 0", so that it is never Designated Router',
)


def judge(path, is_as_it_is):
    """Ends the tool where a configuration is none, or is not that of a router that only looks."""
    try:
        with open(path, "rb") as file:
            config = tomllib.load(file)
    except OSError as error:
        lsas.end(lsas.NOT_READ, f"{path}: not read: {error.strerror}")
    except (tomllib.TOMLDecodeError, UnicodeDecodeError) as error:
        lsas.end(lsas.REFUSED, f"{path}: {error}")
    interfaces = config.get("interface")
    interfaces = interfaces if isinstance(interfaces, list) else []
    faults = [HARMLESS[0]] * (config.get("stub_router") is not True)
    is_open = [
        it
        for it in interfaces
        if isinstance(it, dict)
        and it.get("kind") == "broadcast"
        and it.get("priority") != 0
        and it.get("passive") is not True
    ]
    faults += [HARMLESS[1]] * bool(is_open)
    if faults and not is_as_it_is:
        lines = "".join(f"\n  {fault}" for fault in faults)
        lsas.end(
            lsas.REFUSED,
            f"{path}: this router would take part in the area{lines}\n"
            "  or start it with --as-it-is",
        )


class Lines:
    """Reads the lines of an open file in a thread of its own, and puts each with its time into a
    queue; None at the end. `record` is a log of all lines, and `note` is called with each."""

    def __init__(self, file, record=None, note=None):
        self.file, self.queue = file, queue.Queue(MOST_WAITING)
        self.record, self.note = record, note
        threading.Thread(target=self.read, daemon=True).start()

    def read(self):
        kept, is_cut = b"", False
        try:
            # Not by a buffered file: at the end of the program its lock may be held.
            while data := os.read(self.file, AT_ONCE):
                *lines, kept = (kept + data).split(b"\n")
                for line in lines:
                    # Of a line that is too long the rest is passed over.
                    was_cut, is_cut = is_cut, False
                    if not was_cut and line.strip():
                        self.put(line.decode("utf-8", "replace").strip(), time.time())
                if len(kept) > stream.LONGEST:
                    self.put("0" * (stream.LONGEST + 1), time.time())
                    kept, is_cut = b"", True
        except OSError as error:
            lsas.tell(f"watch: not read: {error}")
        if kept.strip() and not is_cut:
            self.put(kept.decode("utf-8", "replace").strip(), time.time())
        self.queue.put((None, time.time()))

    def put(self, line, when):
        if self.record:
            self.record.put(f"{when:.3f} {line}")
        if self.note:
            self.note(line)
        self.queue.put((line, when))


class Run:
    """`ospfd run` of a configuration. It ends in order where this closes its input. With a state
    the router begins above its floor, and the floor is raised before it is reached."""

    def __init__(self, program, config, options, record=None, state=None):
        self.state = state
        if state:
            options = ["--floor", floors.shown(state.floor), *options]
        self.folder = tempfile.TemporaryDirectory(prefix="ospfd-watch-")
        journal = os.path.join(self.folder.name, "lsas")
        os.mkfifo(journal)
        # Open for reading and writing, so that neither end waits for the other.
        opened = os.open(journal, os.O_RDWR)
        words = [program, "run", "--until-eof", *options, "--log-lsas", journal, "forever", config]
        try:
            self.child = subprocess.Popen(
                words, stdin=subprocess.PIPE, stdout=sys.stderr, start_new_session=True
            )
        except OSError as error:
            lsas.end(lsas.NOT_READ, f"{program}: {error.strerror}")
        self.lines = Lines(opened, record, state and self.raise_floor)
        threading.Thread(target=self.await_end, daemon=True).start()

    def raise_floor(self, line):
        """Has the state know the number of each own LSA."""
        with contextlib.suppress(stream.Unreadable):
            update = stream.read(line, 0)
            if update.router != socket.inet_ntoa(update.lsa[8:12]):
                return
            try:
                self.state.note(int.from_bytes(update.lsa[12:16], "big", signed=True))
            except floors.Refused as fault:
                # Beyond the block nothing would be safe.
                lsas.tell(f"watch: {fault}")
                with contextlib.suppress(OSError):
                    self.child.stdin.close()

    def await_end(self):
        """The end of the run is the end of the lines: this writes to the same pipe last."""
        self.child.wait()
        # What was written before is read first.
        time.sleep(0.2)
        self.lines.queue.put((None, time.time()))

    def end(self):
        with contextlib.suppress(OSError):
            self.child.stdin.close()
        try:
            self.child.wait(SECONDS_TO_END)
        except subprocess.TimeoutExpired:
            self.child.kill()
            self.child.wait()
        return self.child.returncode
