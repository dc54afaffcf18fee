"""Tests of tools/watch and of `ospfd run --lsdb --log-lsas` by hand, for tests/peers/watch."""
import json
import os
import signal
import tempfile
import time

from networks import config, free_ports, interface
from watched import (
    TOP,
    Watch,
    ask,
    ask_raw,
    changes,
    free_port,
    instances,
    is_not,
    lsdb_of_journal,
    named_as_listed,
    printed_of,
    run_words,
)

SETTLE = ("--settle", "0.3")


def example(name="frr-bird-lan.hex"):
    with open(os.path.join(TOP, "examples", name), encoding="ascii") as file:
        return file.read().split()


def at_max_age(line):
    return f"0e10{line[4:]}"


def flushed(program):
    """The captured LAN of examples/frr-bird-lan.hex: 1.1.1.1 is flushed."""
    lines = example()
    with tempfile.TemporaryDirectory() as folder, Watch(program, folder, *SETTLE) as watch:
        watch.give(*lines)
        first = watch.until("start")[-1]
        faults = is_not("size", [first[it] for it in ("routers", "networks", "lsas")], [5, 1, 6])
        watch.give(at_max_age(lines[0]), lines[1])
        events = watch.until("settled")
        wanted = [
            ["attachment", "1.1.1.1@10.1.0.2", "down"],
            ["router", "1.1.1.1", "down"],
            ["prefix", "192.168.1.0/24", "down"],
        ]
        faults += is_not("told", changes(events), wanted)
        lost = {it["prefix"] for it in events[-1]["lost"] if it["router"] != "1.1.1.1"}
        faults += is_not("lost", lost, {"192.168.1.0/24"})
        return faults + is_not("end", watch.end(signal.SIGTERM), (0, ""))


def as_text(program):
    with tempfile.TemporaryDirectory() as folder, Watch(
        program, folder, *SETTLE, is_json=False
    ) as watch:
        watch.give(*example("two-routers.hex"))
        status = watch.end()
        lines = watch.text()
    point = "  single point of failure: 1.1.1.1-2.2.2.2@10.0.0.0/30: 1 routes"
    said = [lines[0].partition("Z ")[2], *lines[1:]]
    return is_not(
        "text",
        (status, said),
        ((0, ""), ["watching: 2 routers, 0 transit networks, 2 LSAs", point]),
    )


def refused_lines(program):
    """Lines that are none are passed over, and said once."""
    bad = [
        "",
        "hello",
        "{",
        '{"event":"installed"}',
        "[" * 100_000,
        "00" * 70_000,
        "zz",
        "0" * 40,
        '{"event":"installed","router":"1.1.1.1","bytes":"00"}',
        "\x00\xff" * 20,
        "1 1.1.1.1 installed router 1.1.1.1 1.1.1.1 80000001 0000 1 00",
        example()[0][:-2] + "ff",
    ]
    with tempfile.TemporaryDirectory() as folder, Watch(program, folder, *SETTLE) as watch:
        watch.give(*bad, *bad, *example("two-routers.hex"))
        events = watch.until("start")
        faults = is_not("last", events[-1]["event"], "start")
        texts = [event["text"] for event in events[:-1]]
        faults += is_not("each once", len(texts), len(set(texts)))
        faults += [] if texts else ["no line was refused"]
        faults += is_not("size", events[-1]["lsas"], 2)
        return faults + is_not("end", watch.end(), (0, ""))


def served(program):
    """What is known over HTTP, and requests that are refused."""
    port = free_port()
    with tempfile.TemporaryDirectory() as folder, Watch(
        program, folder, *SETTLE, "--http", f"127.0.0.1:{port}"
    ) as watch:
        watch.give(*example("two-routers.hex"))
        watch.until("start")
        faults = is_not("lsdb", len(ask(port, "/lsdb")[2].splitlines()), 2)
        metrics = ask(port, "/metrics")[2]
        for line in ("ospf_watch_lsas 2", "ospf_watch_routers 2", "ospf_watch_single_points 1"):
            faults += [] if f"\n{line}\n" in metrics else [f"metrics without {line}"]
        roots = [table["root"] for table in json.loads(ask(port, "/table")[2])]
        faults += is_not("table", roots, ["1.1.1.1", "2.2.2.2"])
        failures = [json.loads(line) for line in ask(port, "/failures")[2].splitlines()]
        faults += is_not("failures", failures[0]["version"], 2)
        event = json.loads(ask(port, "/events")[2])
        faults += is_not("events", event["event"], "start")
        faults += is_not("HEAD", ask(port, "/lsdb", "HEAD")[::2], (200, ""))
        faults += hostile(port)
        faults += is_not("lives", ask(port, "/lsdb")[0], 200)
        return faults + is_not("end", watch.end(signal.SIGINT), (0, ""))


def hostile(port):
    """Other paths, methods, names and bytes that are no request."""
    faults = []
    for path in ("/", "/lsdb/", "/../etc/passwd", "/%2e%2e/etc/passwd", "/lsdb;x", "//lsdb/x"):
        faults += is_not(path, ask(port, path)[0], 404)
    for method in ("POST", "PUT", "DELETE", "PATCH", "OPTIONS", "TRACE", "CONNECT"):
        status = ask(port, "/lsdb", method)[0]
        faults += [] if status in (400, 501) else [f"{method}: {status}"]
    for host in ("evil.example", "evil.example:80", "", "127.0.0.1.evil.example", "10.0.0.1"):
        faults += is_not(f"Host {host}", ask(port, "/lsdb", headers={"Host": host})[0], 403)
    none = ask_raw(port, b"GET /lsdb HTTP/1.0\r\n\r\n")
    faults += [] if b" 403 " in none.split(b"\r\n")[0] else [f"no Host: {none[:60]!r}"]
    for data in (
        b"\x00" * 100,
        b"GET\r\n\r\n",
        b"GET /" + b"a" * 200_000,
        b"\r\n" * 10,
        b"GET / HTTP/9.9\r\n\r\n",
        b"GET /lsdb HTTP/1.1\r\n" + b"a: b\r\n" * 1000,
    ):
        answer = ask_raw(port, data, 10)
        faults += [f"{data[:20]!r} was served"] if b" 200 " in answer[:20] else []
    return faults


def not_of_others(program):
    """Addresses that others reach are refused, and so are configurations of routers that take part
    in the area."""
    faults = []
    for word in ("0.0.0.0:8080", "10.0.0.1:80", "[::]:80", "localhost:80", "127.0.0.1:70000", ":1"):
        with tempfile.TemporaryDirectory() as folder, Watch(
            program, folder, "--http", word
        ) as watch:
            status, err = watch.end()
            faults += is_not(word, status, 2)
            faults += [] if "not an address of this machine" in err else [f"{word}: {err}"]
    plain = config("9.9.9.9", interface("broadcast", "10.0.0.9/24", 1, 17001))
    with tempfile.TemporaryDirectory() as folder:
        for name, text, status in (("plain", plain, 3), ("none", "x = ", 3), ("other", None, 5)):
            if text is not None:
                with open(os.path.join(folder, name), "w", encoding="utf-8") as file:
                    file.write(text)
            with Watch(program, folder, source=name) as watch:
                faults += is_not(name, watch.end()[0], status)
    return faults


def with_run(program):
    """A router of `ospfd run`, and tools/watch with one of its own beside it, over UDP."""
    ports = free_ports(3)
    other = config(
        "1.1.1.1",
        interface("broadcast", "10.1.0.1/24", 10, ports[0], [ports[1]]),
        interface("broadcast", "192.168.1.1/24", 5, ports[2]),
    )
    look = "stub_router = true\n" + config(
        "9.9.9.9", interface("broadcast", "10.1.0.9/24", 10, ports[1], [ports[0]], "priority = 0\n")
    )
    with tempfile.TemporaryDirectory() as folder:
        for name, text in (("other.toml", other), ("look.toml", look)):
            with open(os.path.join(folder, name), "w", encoding="utf-8") as file:
                file.write(text)
        words = ("--settle", "2", "--snapshot", "lsas.hex")
        with Watch(program, folder, *words, source="look.toml") as watch, Watch(
            program, folder, "--as-it-is", source="other.toml"
        ):
            events = watch.until("start")
            kept, last = [], time.monotonic() + 120
            while len(kept) < 3 and time.monotonic() < last:
                events += watch.until("settled", 2)
                kept = instances(os.path.join(folder, "lsas.hex"))
            named = [it[:3] for it in kept]
            faults = is_not(
                "LSDB",
                named,
                [[1, "1.1.1.1", "1.1.1.1"], [1, "9.9.9.9", "9.9.9.9"], [2, "10.1.0.1", "1.1.1.1"]],
            )
            status, _ = watch.end(signal.SIGTERM)
            return faults + is_not("status", status, 0)


def lsdb_and_journal(program):
    """`ospfd run --lsdb` prints what --listing names, and the lines of --log-lsas lead there."""
    faults, seen = [], []
    for words in ([], ["--json"]):
        ports = free_ports(3)
        link = interface("point-to-point", "10.0.0.1/30", 10, ports[0], [ports[1]])
        texts = [
            config("1.1.1.1", link, interface("broadcast", "192.168.1.1/24", 5, ports[2])),
            config("2.2.2.2", interface("point-to-point", "10.0.0.2/30", 7, ports[1], [ports[0]])),
        ]
        with tempfile.TemporaryDirectory() as folder:
            files = [os.path.join(folder, f"{at}.toml") for at in range(2)]
            for path, text in zip(files, texts):
                with open(path, "w", encoding="utf-8") as file:
                    file.write(text)
            journal = os.path.join(folder, "journal")
            done = run_words(
                program,
                "run",
                "--tick",
                "20",
                "--listing",
                "--lsdb",
                "--log-lsas",
                journal,
                *words,
                "60",
                *files,
            )
            with open(journal, encoding="utf-8") as file:
                lines = file.read().splitlines()
        faults += is_not("status", (done.returncode, done.stderr), (0, ""))
        kept = lsdb_of_journal(lines)
        for router, (listed, printed) in printed_of(done.stdout).items():
            faults += is_not(f"{router} listing", named_as_listed(printed), listed)
            faults += is_not(f"{router} journal", kept[router], sorted(it[2:] for it in printed))
            faults += [] if len(printed) == 2 else [f"{router} has {len(printed)} LSAs"]
        seen.append({router: len(lsas) for router, lsas in kept.items()})
    return faults + is_not("JSON and text", seen[1], seen[0])


CASES = [
    flushed,
    as_text,
    refused_lines,
    served,
    not_of_others,
    with_run,
    lsdb_and_journal,
]
