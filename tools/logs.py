"""Logs that a tool appends to, a line at a time. A log may be moved away while it is written:
logrotate renames the file and sends SIGHUP, and the lines that follow go to a new file."""
import os
import signal
import threading

import lsas


class Log:
    """A file that lines are appended to. OSError where it cannot be opened. That a line was not
    written is said once, until one is written again."""

    def __init__(self, tool, path, is_new=False):
        self.tool, self.path, self.lock, self.is_ill = tool, path, threading.Lock(), False
        self.file = self.opened(os.O_TRUNC if is_new else 0)

    def opened(self, how=0):
        return os.open(
            self.path, os.O_WRONLY | os.O_APPEND | os.O_CREAT | os.O_CLOEXEC | how, 0o644
        )

    def put(self, line):
        """Appends a line."""
        left = f"{line}\n".encode("utf-8", "replace")
        with self.lock:
            try:
                while left:
                    left = left[os.write(self.file, left) :]
                self.is_ill = False
            except OSError as fault:
                self.say(fault)

    def reopen(self):
        """Opens the file of this name again. Where that fails the old one is kept."""
        with self.lock:
            try:
                made, old = self.opened(), self.file
            except OSError as fault:
                self.say(fault)
                return
            self.file = made
            os.close(old)

    def say(self, fault):
        if not self.is_ill:
            lsas.tell(f"{self.tool}: {self.path}: not written: {fault.strerror}")
        self.is_ill = True


def reopen_at_hangup(logs):
    """Has SIGHUP open these logs again: in a thread of its own, since the signal may come while a
    line is written. Without logs the signal does what it did."""

    def reopen():
        for log in logs:
            log.reopen()

    if logs:
        signal.signal(
            signal.SIGHUP, lambda *_: threading.Thread(target=reopen, daemon=True).start()
        )
