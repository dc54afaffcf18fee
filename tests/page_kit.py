"""Pages of `tools/page`, as its tests read them."""
import html.parser
import json
import os
import re
import subprocess
import sys

TOP = os.path.dirname(os.path.dirname(os.path.abspath(__file__)))
PROGRAM = os.path.abspath(sys.argv[1]) if len(sys.argv) > 1 else os.path.join(TOP, "ospfd")
TOOL = os.path.join(TOP, "tools", "page")
LOSSES = ("cut", "gone", "cost", "hops")
ALONE = {"meta", "input"}
# What would make a browser ask for something.
ELSEWHERE = re.compile(r"https?://(?!www\.w3\.org/2000/svg)|@import|url\(|\bsrc=|<link"
                       r"|fetch\(|import\(")
SCRIPT = "</script>\n<script>"


class Page(html.parser.HTMLParser):
    """The data of a page, its title, and whether its elements are closed in turn."""

    def __init__(self, text):
        super().__init__()
        self.open, self.data, self.title, self.targets = [], "", "", []
        self.feed(text)
        self.close()
        if self.open:
            sys.exit(f"the page leaves open {self.open}")
        self.area = json.loads(self.data)

    def handle_starttag(self, tag, attrs):
        self.targets += [value for key, value in attrs if key in ("href", "src", "action")]
        if tag not in ALONE:
            self.open.append((tag, dict(attrs)))

    def handle_endtag(self, tag):
        if not self.open or self.open.pop()[0] != tag:
            sys.exit(f"the page closes {tag} out of turn")

    def handle_data(self, data):
        if self.open and self.open[-1][1].get("id") == "data":
            self.data += data
        elif self.open and self.open[-1][0] == "title":
            self.title += data


def see(what, found, wanted):
    if found != wanted:
        sys.exit(f"{what}: {found}, and not {wanted}")


def answer(text, *words):
    ran = subprocess.run([PROGRAM, *words], input=text, stdout=subprocess.PIPE, check=True)
    return json.loads(ran.stdout)


def run(text, *words, **how):
    return subprocess.run([TOOL, "--ospfd", PROGRAM, *words], input=text, capture_output=True,
                          check=False, **how)


def made(text, *words):
    """The page of an LSDB: its text, and what is in it."""
    ran = run(text, "--no-graphviz", *words)
    see("a page", (ran.returncode, ran.stderr), (0, b""))
    page = ran.stdout.decode("utf-8")
    if ELSEWHERE.search(page.partition("<script type")[0] + page.rpartition(SCRIPT)[2]):
        sys.exit("the page names something elsewhere")
    parsed = Page(page)
    see("what the page links to", parsed.targets, ["#failures"])
    return page, parsed


def printed(text, *words):
    """What the program prints, as lines."""
    ran = subprocess.run([PROGRAM, *words], input=text, stdout=subprocess.PIPE, check=False)
    return ran.stdout.decode().splitlines()


def edited(text, *words):
    """An LSDB, changed."""
    ran = subprocess.run([PROGRAM, "edit", *words], input=text, stdout=subprocess.PIPE, check=True)
    return ran.stdout


def event(seconds, **words):
    """An event of a watch, as a line of JSON."""
    time = f"2026-12-01T10:00:{seconds:02}.000Z"
    return json.dumps({"time": time, "event": "change", **words}) + "\n"


# What a watch saw in the area of frr-mixed: a link goes and comes, and a cost changes.
LINK = "4.4.4.4-6.6.6.6@10.0.0.32/30"
COUNTS = {"lost": 2, "gained": 0, "longer": 3, "shorter": 0, "rerouted": 0, "routers": 2}
EVENTS = [
    event(1, event="start", lsas=14, routers=9, networks=2, single_points=[]),
    event(5, change="down", kind="link", name=LINK),
    event(6, event="settled", routes=COUNTS, lost=[{"router": "6.6.6.6", "prefix": "10.9.0.0/24"}],
          stranded={"new": [], "gone": []}, single_points={"new": [], "gone": []}),
    event(9, change="up", kind="link", name=LINK),
    event(9, change="up", kind="router", name="9.9.9.9"),
]


def read(path):
    with open(os.path.join(TOP, path), "rb") as file:
        return file.read()
