#!/usr/bin/env python3
"""Measures the web pages in Chromium: what a click costs.

usage: bench/pages.py PLAYGROUND.html ROUTERS..

PLAYGROUND.html is a page that tools/web has written. The areas are those of bench/area.py with
these numbers of routers. A click costs the processor time of the page's own thread until the next
picture, in milliseconds: the lowest, the median and the highest. What workers compute is stopped.
"""
import json
import os
import shutil
import statistics
import subprocess
import sys
import tempfile
import time

TOP = os.path.dirname(os.path.dirname(os.path.abspath(__file__)))
sys.path.insert(0, os.path.join(TOP, "tests"))
sys.dont_write_bytecode = True
import browser  # noqa: E402

CLICKS, LIMIT = 10, 600
# Once the picture after a click is there, `took` is true.
WATCH = """for (const kind of ["pointerup", "click"]) document.addEventListener(kind, event => {
  if (kind === "click" && event.target.id === "map") return;
  requestAnimationFrame(() => setTimeout(() => { window.took = true; }));
}, true)"""
# The time until a condition holds, looked at each 20 ms.
UNTIL = """new Promise(done => {{
  const began = performance.now();
  const look = () => {} ? done(performance.now() - began) : setTimeout(look, 20);
  look();
}})"""


def show(what, times):
    times = sorted(times)
    told = f"{times[0]:.0f} {statistics.median(times):.0f} {times[-1]:.0f}"
    print(f"{what}: {told if len(times) > 1 else f'{times[0]:.0f}'}", flush=True)


class Measured:
    """A playground with an area."""

    def __init__(self, driven, path, text):
        self.driven = driven
        driven.open(path)
        self.until("document.getElementById('list').children.length > 0")
        driven.value(WATCH)
        driven.send("Performance.enable", timeDomain="threadTicks")
        driven.value(f"document.getElementById('lsas').value = {json.dumps(text)}")

    def until(self, condition):
        """Milliseconds until a condition holds."""
        began = time.monotonic()
        while time.monotonic() - began < LIMIT:
            ask = f"Promise.race([{UNTIL.format(condition)}, new Promise(d => setTimeout(d, 9e4))])"
            if self.driven.value(ask) is not None:
                return (time.monotonic() - began) * 1000
        sys.exit(f"not within {LIMIT} s: {condition}")

    def spent(self):
        """Milliseconds of processor time of the page's thread until now."""
        found = self.driven.send("Performance.getMetrics")["metrics"]
        return next(it["value"] for it in found if it["name"] == "TaskDuration") * 1000

    def cost(self, action):
        """What an action costs until the picture after it."""
        before = self.spent()
        self.driven.value("window.took = null")
        action()
        self.until("window.took !== null")
        return self.spent() - before

    def press(self, text, where):
        """Clicks the first button with this text below an element."""
        self.driven.value(f"[...document.querySelectorAll('#{where} button')]"
                          f".find(it => it.textContent === '{text}')?.click()")

    def read(self):
        """Shows the area."""
        click = "document.getElementById('read').click()"
        show("  the area is shown", [self.cost(lambda: self.driven.value(click))])
        self.until("window.isAtRest()")
        self.press("Stop", "progress")

    def clicks(self, names):
        self.driven.value("document.getElementById('map').scrollIntoView({block: 'center'})")
        times = []
        for name in names:
            place = self.driven.value(f"whereIs({json.dumps(name)})")
            times.append(self.cost(lambda at=place: self.driven.click(*at)))
        show("  a click on a router", times)

    def change(self):
        """Takes down what is chosen, and takes that back."""
        times = []
        for text, where in (("Take it down", "detail"), ("Undo", "changes")) * 3:
            times.append(self.cost(lambda it=text, at=where: self.press(it, at)))
            self.press("Stop", "progress")
        show("  take it down, undo", times)

    def zoom(self):
        buttons = [f"document.getElementById('{it}').click()" for it in ("closer", "farther")]
        show("  zoom", [self.cost(lambda it=it: self.driven.value(it)) for it in buttons * 5])


def main():
    if len(sys.argv) < 3 or not browser.find():
        sys.exit("usage: bench/pages.py PLAYGROUND.html ROUTERS.. (with Chromium)")
    place = tempfile.mkdtemp(prefix="ospf-pages-")
    try:
        driven = browser.Browser(os.path.join(place, "kept"))
        for count in map(int, sys.argv[2:]):
            words = [sys.executable, os.path.join(TOP, "bench", "area.py"), str(count), "1"]
            text = subprocess.run(words, stdout=subprocess.PIPE, text=True, check=True).stdout
            print(f"{count} routers", flush=True)
            page = Measured(driven, os.path.abspath(sys.argv[1]), text)
            page.read()
            page.clicks([f"1.0.0.{it}" for it in range(1, CLICKS + 1)])
            page.change()
            page.zoom()
        driven.close()
    finally:
        shutil.rmtree(place, ignore_errors=True)


main()
