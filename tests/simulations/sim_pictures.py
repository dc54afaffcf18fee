"""The capture of a simulation, its drawing, and the picture of a walk in docs/ring.svg."""
import html
import os
import re
import subprocess
import tempfile

from simulated import EXAMPLES, TOP, ran

# What docs/ring.svg is a picture of.
WALKED = "start all\nup all\nsettle 300\nwalk 1.1.1.1 192.168.3.7\n"


def unread(program):
    """What is wrong with the capture and the drawing of an example of two routers, in lines."""
    folder = os.path.join(EXAMPLES, "two-routers-up")
    with tempfile.TemporaryDirectory() as place:
        capture, drawing = os.path.join(place, "area.pcap"), os.path.join(place, "area.dot")
        words = [program, "sim", "--pcap", capture, "--dot", drawing, "script", "1.toml", "2.toml"]
        done = ran(words, folder)
        if done.returncode or done.stderr:
            return [f"status {done.returncode}: {done.stderr}"]
        told = []
        read = subprocess.run(
            [os.path.join(TOP, "tests", "simulations", "check-capture"), capture],
            capture_output=True,
            text=True,
            check=False,
        )
        if read.returncode:
            told.append(f"the capture: {read.stdout}{read.stderr}")
        lsas = subprocess.run(
            [os.path.join(TOP, "tools", "lsas-of-capture"), capture],
            capture_output=True,
            text=True,
            check=False,
        )
        if lsas.returncode:
            told.append(f"the LSAs of the capture: status {lsas.returncode}: {lsas.stderr}")
        table = subprocess.run(
            [program, "table", "1.1.1.1"],
            input=lsas.stdout,
            capture_output=True,
            text=True,
            check=False,
        )
        if (table.returncode, table.stdout) != (0, "10.0.0.0/30 10 attached\n"):
            told.append(
                f"the table of what was captured: status {table.returncode}: {table.stdout}"
                f"{table.stderr}"
            )
        with open(drawing, encoding="utf-8") as file:
            text = file.read()
        boxes = [
            f'"{router}" [shape=box, label="{router}\\n10.0.0.0/30 cost 10"];'
            for router in ("1.1.1.1", "2.2.2.2")
        ]
        wanted = ["graph area {", *boxes, '"1.1.1.1" -- "2.2.2.2" [taillabel=10, headlabel=10];']
        return told + [f"not drawn: {line}" for line in wanted if line not in text]


def mispictured(program):
    """What docs/ring.svg shows otherwise than the drawing of the ring of the examples after a walk,
    in lines."""
    folder = os.path.join(EXAMPLES, "ring-loses-a-link")
    configs = sorted(name for name in os.listdir(folder) if name.endswith(".toml"))
    with tempfile.TemporaryDirectory() as place:
        drawing = os.path.join(place, "ring.dot")
        words = [program, "sim", "--dot", drawing, "-", *configs]
        done = ran(words, folder, WALKED)
        if done.returncode or done.stderr:
            return [f"status {done.returncode}: {done.stderr}"]
        with open(drawing, encoding="utf-8") as file:
            drawn = file.read()
    with open(os.path.join(TOP, "docs", "ring.svg"), encoding="utf-8") as file:
        picture = html.unescape(file.read())
    told = []
    for what, wanted, shown in (
        (
            "boxes",
            re.findall(r'^  "(.*)" \[shape', drawn, re.M),
            re.findall(r'class="node">\n<title>(.*)</title>', picture),
        ),
        (
            "lines",
            re.findall(r'^  "(.*)" -- "(.*)" \[', drawn, re.M),
            re.findall(r'class="edge">\n<title>(.*)--(.*)</title>', picture),
        ),
        ("costs", re.findall(r"label=(\d+)", drawn), re.findall(r">(\d+)</text>", picture)),
        (
            "arrows",
            ["red"] * drawn.count("color=red"),
            re.findall(r'<polygon fill="(red)"', picture),
        ),
        (
            "stubs",
            re.findall(r"(?<=\\n)[^\\\"]+", drawn),
            re.findall(r">([\d.]+/\d+ cost \d+)</text>", picture),
        ),
    ):
        told += (
            []
            if wanted and sorted(wanted) == sorted(shown)
            else [f"{what}: {shown}, and not {wanted}"]
        )
    return told
