"""Tests of tools/watch --log, --record and --state by hand, for tests/peers/watch."""
import json
import os
import signal
import tempfile
import time

from networks import config, free_ports, interface
from watch_cases import SETTLE, at_max_age, example
from watched import Watch, is_not


def logs_are_moved(program):
    """The log and the record are moved away, as logrotate does it: what follows is in new files,
    and nothing is in both."""
    lines, words = example(), ("--log", "log", "--record", "lines")
    with tempfile.TemporaryDirectory() as folder, Watch(program, folder, *SETTLE, *words) as watch:

        def kept(name):
            with open(os.path.join(folder, name), encoding="utf-8") as file:
                return file.read().splitlines()

        def has(name, kind):
            last = time.monotonic() + 30
            while time.monotonic() < last:
                if os.path.exists(os.path.join(folder, name)) and any(
                    kind is None or json.loads(line)["event"] == kind for line in kept(name)
                ):
                    return []
                time.sleep(0.05)
            return [f"no {kind} in {name}"]

        watch.give(*lines)
        faults = has("log", "start")
        for name in ("log", "lines"):
            os.rename(os.path.join(folder, name), os.path.join(folder, f"{name}.1"))
        watch.child.send_signal(signal.SIGHUP)
        last = time.monotonic() + 30
        while not all(os.path.exists(os.path.join(folder, it)) for it in ("log", "lines")):
            if time.monotonic() > last:
                return ["no new files"]
            time.sleep(0.05)
        watch.give(at_max_age(lines[0]), lines[1])
        faults += has("log", "settled")
        for name, wanted in (
            ("log.1", ["start"]),
            ("log", ["change", "change", "prefix", "settled"]),
        ):
            events = [json.loads(line)["event"] for line in kept(name)]
            faults += is_not(name, events, wanted)
        for name, wanted in (("lines.1", lines), ("lines", [at_max_age(lines[0]), lines[1]])):
            faults += is_not(name, [line.split()[1] for line in kept(name)], wanted)
        return faults + is_not("printed", (watch.end(), watch.text()), ((0, ""), []))


def floor_is_kept(program):
    """A router that is started again begins above the numbers that it has used."""
    ports, faults = free_ports(1), []
    look = "stub_router = true\n" + config(
        "9.9.9.9", interface("broadcast", "10.1.0.9/24", 10, ports[0], (), "priority = 0\n")
    )
    with tempfile.TemporaryDirectory() as folder:
        with open(os.path.join(folder, "look.toml"), "w", encoding="utf-8") as file:
            file.write(look)
        for new, floor, first in (
            (["--new"], "80010000", "80000001"),
            ([], "80020000", "80010001"),
        ):
            words = ("--state", "floor", *new, "--record", "lines")
            with Watch(program, folder, *words, source="look.toml") as watch:
                faults += is_not("start", watch.until("start")[-1]["event"], "start")
                faults += is_not("end", watch.end(signal.SIGTERM)[0], 0)
            with open(os.path.join(folder, "floor"), encoding="ascii") as file:
                faults += is_not("floor", file.read(), f"floor {floor}\n")
            with open(os.path.join(folder, "lines"), encoding="utf-8") as file:
                faults += is_not("number", file.readline().split()[7], first)
        for words, text in (
            (("--state", "floor", "--new"), "is there already"),
            (("--state", "none"), "no such file"),
        ):
            with Watch(program, folder, *words, source="look.toml") as watch:
                status, err = watch.end()
                faults += is_not(text, (status, text in err), (3, True))
        with Watch(program, folder, "--state", "floor") as watch:
            faults += is_not("lines and a state", watch.end()[0], 2)
    return faults


CASES = [logs_are_moved, floor_is_kept]
