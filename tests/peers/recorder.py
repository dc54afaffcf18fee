"""Takes down what a lab of FRR comes to: its LSDBs, and the tables of its routers once they are
settled. What `failures --record` and `changes --record` share."""
import os
import re
import shutil
import subprocess
import sys
import threading
import time

import lab

NEEDED = ("/usr/lib/frr/ospfd", "ip", "vtysh")
# After a failure routers wait for RouterDeadInterval, then for MinLSInterval, or RxmtInterval where
# a packet was lost, of 5 seconds each, and then SPF for its own delays.
SECONDS_AT_LEAST, SECONDS_ALIKE, SECONDS_AT_MOST = 12, 12, 180
MAX_AGE = 3600


class Recorder:
    """What is there in a lab before and after each thing that is done in it."""

    def __init__(self, it):
        self.it, self.databases, self.forms = it, [], []
        self.before, self.recorded = {}, []

    def tables(self, dead=()):
        return {node.router: node.table() for node in self.it.routers() if node not in dead}

    def settled(self, what, dead=(), wanted=None):
        """The tables, once they have been alike for some seconds, and are those that are wanted."""
        began = since = time.monotonic()
        found = self.tables(dead)
        while True:
            time.sleep(lab.LOOK)
            now, moment = self.tables(dead), time.monotonic()
            if now != found:
                found, since = now, moment
            is_over = moment - began > SECONDS_AT_LEAST and moment - since > SECONDS_ALIKE
            if is_over and (wanted is None or found == wanted):
                return found
            if moment - began > SECONDS_AT_MOST:
                raise RuntimeError(f"{self.it.name}: {what}: not settled: {found}")

    def start(self):
        """Starts all routers, and waits until each has as many routes as there are routers."""
        for node in self.it.routers():
            node.start()
        found = self.settled("the beginning")
        while min(map(len, found.values())) < len(self.it.routers()):
            found = self.settled("the beginning")
        self.before = found

    def database(self):
        """The LSAs of the area, and the number of its database: one that differs from an earlier
        one in ages and numbers alone is that one."""
        lines = self.it.node(1).lsas().split()
        lsas = [f"0001{line[4:]}" for line in lines if int(line[:4], 16) < MAX_AGE]
        # An LSA without age, number and checksum.
        form = sorted(lsa[4:24] + lsa[36:] for lsa in lsas)
        if form not in self.forms:
            self.forms.append(form)
            self.databases.append(lsas)
        return lsas, self.forms.index(form)


def plain(table):
    return {prefix: [cost, sorted(hops)] for prefix, (cost, hops) in sorted(table.items())}


def version():
    """The version of FRR."""
    said = subprocess.run([NEEDED[0], "--version"], capture_output=True, text=True, check=False)
    return re.search(r"version (\S+)", said.stdout + said.stderr)[1]


def prepare(what):
    """Ends where a lab cannot be made, and has a signal take the labs away."""
    lacks = [name for name in NEEDED if shutil.which(name) is None]
    lacks += ["root"] if os.geteuid() else []
    if lacks:
        sys.exit(f"{what}: not there: {', '.join(lacks)}")
    lab.end_in_order()


def side_by_side(what, runs):
    """What each run of a lab comes to, by the name of the lab; all at the same time."""
    done = {}

    def go_on(name, run):
        done[name] = run()

    threads = [threading.Thread(target=go_on, args=it) for it in runs.items()]
    for thread in threads:
        thread.start()
    for thread in threads:
        thread.join()
    if len(done) < len(runs):
        sys.exit(f"{what}: a lab did not come to its end")
    return done
