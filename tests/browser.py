"""A browser without a window, which a test drives over a pipe (the DevTools protocol)."""
import fcntl
import json
import os
import select
import shutil
import subprocess
import sys
import time

# In the browser: where it reads what is asked, and where it answers.
READS, WRITES = 3, 4
HIGH = 20
PATIENCE = 120
SKIPPED = "skipped: no browser"
WORDS = ["--headless", "--no-sandbox", "--disable-gpu", "--disable-dev-shm-usage",
         "--hide-scrollbars", "--remote-debugging-pipe", "about:blank"]
KEYS = {"Enter": 13, "Escape": 27, "ArrowRight": 39, "ArrowLeft": 37, "Tab": 9}


def find():
    """The browser that is installed; None where there is none."""
    return shutil.which("chromium") or shutil.which("google-chrome")


class Browser:
    """A page in a browser. `folder` is one of its own, for what the browser keeps."""

    def __init__(self, folder, wide=1300, high=1000):
        ask, self.asks = os.pipe()
        self.hears, answer = os.pipe()
        self.count, self.kept, self.events, self.session = 0, b"", [], None
        self.child = self.start(folder, ask, answer, f"--window-size={wide},{high}")
        os.close(ask)
        os.close(answer)
        target = self.send("Target.createTarget", url="about:blank")["targetId"]
        attached = self.send("Target.attachToTarget", targetId=target, flatten=True)
        self.session = attached["sessionId"]
        for domain in ("Page", "Runtime", "Network", "Log"):
            self.send(f"{domain}.enable")

    @staticmethod
    def start(folder, ask, answer, size):
        def place():
            high = [fcntl.fcntl(it, fcntl.F_DUPFD, HIGH) for it in (ask, answer)]
            os.dup2(high[0], READS)
            os.dup2(high[1], WRITES)
        words = [find(), f"--user-data-dir={folder}", size, *WORDS]
        return subprocess.Popen(words, stdin=subprocess.DEVNULL, stdout=subprocess.DEVNULL,
                                stderr=subprocess.DEVNULL, preexec_fn=place,
                                pass_fds=(READS, WRITES))

    def send(self, method, **words):
        """Asks for something; the answer."""
        self.count += 1
        message = {"id": self.count, "method": method, "params": words}
        if self.session:
            message["sessionId"] = self.session
        os.write(self.asks, json.dumps(message).encode() + b"\0")
        while True:
            heard = self.hear()
            if heard.get("id") == self.count:
                if "error" in heard:
                    sys.exit(f"the browser: {method}: {heard['error']}")
                return heard["result"]
            self.events.append(heard)

    def hear(self):
        """The next message of the browser."""
        until = time.monotonic() + PATIENCE
        while b"\0" not in self.kept:
            if not select.select([self.hears], [], [], max(until - time.monotonic(), 0))[0]:
                sys.exit("the browser: no answer")
            found = os.read(self.hears, 1 << 16)
            if not found:
                sys.exit("the browser: it has ended")
            self.kept += found
        message, self.kept = self.kept.split(b"\0", 1)
        return json.loads(message)

    def open(self, path, fragment=""):
        """Shows a file, and waits until it is there."""
        self.events = []
        self.send("Page.navigate", url=f"file://{path}{fragment}")
        while not any(it.get("method") == "Page.loadEventFired" for it in self.events):
            self.events.append(self.hear())

    def value(self, expression):
        """The value of an expression of JavaScript in the page."""
        found = self.send("Runtime.evaluate", expression=expression, returnByValue=True,
                          awaitPromise=True)
        if "exceptionDetails" in found:
            sys.exit(f"the browser: {expression}: {found['exceptionDetails']}")
        return found["result"].get("value")

    def click(self, x, y):
        for kind in ("mouseMoved", "mousePressed", "mouseReleased"):
            self.send("Input.dispatchMouseEvent", type=kind, x=x, y=y, button="left", clickCount=1,
                      buttons=int(kind == "mousePressed"))

    def press(self, key):
        """Presses a key and lets it go."""
        words = {"key": key, "windowsVirtualKeyCode": KEYS.get(key, ord(key[0].upper()))}
        text = {"text": key} if len(key) == 1 else {"text": "\r"} if key == "Enter" else {}
        self.send("Input.dispatchKeyEvent", type="keyDown", **words, **text)
        self.send("Input.dispatchKeyEvent", type="keyUp", **words)

    def faults(self):
        """What went wrong in the page, and what it asked for elsewhere."""
        self.value("1")
        for event in self.events:
            method, words = event.get("method"), event.get("params", {})
            if method == "Runtime.exceptionThrown":
                yield str(words["exceptionDetails"])
            elif method == "Log.entryAdded" and words["entry"]["level"] == "error":
                yield words["entry"]["text"]
            elif (method == "Network.requestWillBeSent" and words["type"] != "Document"
                    and not words["request"]["url"].startswith("blob:")):
                yield f"it asks for {words['request']['url'][:100]}"

    def close(self):
        os.close(self.asks)
        os.close(self.hears)
        self.child.terminate()
        self.child.wait()
