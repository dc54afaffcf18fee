"""What the journal of a simulation says of refused lines, of LSAs, and of what was dropped."""
import os
import re
import tempfile

from simulated import FOLDERS, MARK, ONE, TOP, ran, text_of


def misnoted(program):
    """What is wrong with the journal of a script whose later lines are refused, in lines: those are
    no ticks, and drop nothing."""
    lines = [
        "start 1.1.1.1 1",
        "up 1.1.1.1 0",
        "tick 1.1.1.1",
        "deliver 0 1.1.1.1 7",
        "stop 1.1.1.1",
        "tick 1.1.1.1",
        "tick 1.1.1.1",
        "start 1.1.1.1 2",
    ]
    with tempfile.TemporaryDirectory() as place:
        for name, text in (("script", "\n".join(lines) + "\n"), ("1.toml", ONE)):
            with open(os.path.join(place, name), "w", encoding="utf-8") as file:
                file.write(text)
        words = [program, "sim", "--log", "log", "script", "1.toml"]
        done = ran(words, place)
        if done.returncode:
            return [f"status {done.returncode}: {done.stderr}"]
        with open(os.path.join(place, "log"), encoding="utf-8") as file:
            noted = file.read().splitlines()
    refused = ["line 4: W3 NoLink", "line 6: W5 NotRunning", "line 7: W5 NotRunning"]
    told = [] if done.stderr.splitlines() == refused else [f"refused: {done.stderr}"]
    ticks = [line.split()[0] for line in noted]
    told += [] if ticks and set(ticks) == {"0", "1"} else [f"ticks noted: {ticks}"]
    runs = [line for line in noted if line.endswith(("started", "stopped"))]
    told += (
        []
        if runs == ["0 1.1.1.1 started", "1 1.1.1.1 stopped", "1 1.1.1.1 started"]
        else [f"starts and stops: {runs}"]
    )
    return told + [f"noted: {line}" for line in noted if " dropped " in line]


def misissued(program):
    """What is wrong with the journal of a router that issues an LSA twice in one second, in lines:
    it has each of both numbers."""
    folder = os.path.join(TOP, "tests", "simulations", "issued-twice-in-a-tick")
    configs = sorted(name for name in os.listdir(folder) if name.endswith(".toml"))
    with tempfile.TemporaryDirectory() as place:
        words = [program, "sim", "--log", os.path.join(place, "log"), "script", *configs]
        done = ran(words, folder)
        noted = text_of(place, "log", "").splitlines()
    told = [] if done.returncode == 0 else [f"status {done.returncode}: {done.stderr}"]
    begun = max(
        (place for place, line in enumerate(noted) if line.endswith(" 1.1.1.1 started")), default=0
    )
    issues = [line.split() for line in noted[begun:] if " 1.1.1.1 issued router 1.1.1.1 " in line]
    twice = [
        (tick, before, number)
        for (tick, *_, before), (then, *_, number) in zip(issues, issues[1:])
        if tick == then
    ]
    # What came from 3.3.3.3 is one below the number that the router lists in the end.
    return told + (
        [] if [number for _, _, number in twice] == ["80000009"] else [f"issued: {issues}"]
    )


def shown_drops(printed):
    """How many datagrams were dropped by router, link and cause, as `drops` shows them behind a
    mark for each router."""
    counts, router = {}, None
    for words in (line.split() for line in printed.splitlines()):
        if words[:1] == [MARK]:
            router = words[1]
        elif router and words[:1] == ["drops"]:
            counts[router, words[1], " ".join(words[2:4])] = int(words[4])
    return counts


def noted_drops(journal):
    """The same of a journal, which has a line for each."""
    counts = {}
    for words in (line.split() for line in journal.splitlines() if " dropped " in line):
        place = words[1], words[3], " ".join(words[5:7])
        counts[place] = counts.get(place, 0) + 1
    return counts


def miscounted(program):
    """What `drops` counts at the end of the scripts otherwise than their journals, in lines. A
    router that starts again counts anew, and its journal goes on: so of scripts in which none
    stops."""
    told, kinds = [], set()
    for folder in (os.path.join(top, name) for top in FOLDERS for name in sorted(os.listdir(top))):
        script = text_of(folder, "script", "")
        if not script or re.search(r"^(stop|random) ", script, re.M):
            continue
        configs = sorted(name for name in os.listdir(folder) if name.endswith(".toml"))
        routers = re.findall(
            r'^router_id *= *"(.*?)"',
            "\n".join(text_of(folder, name, "") for name in configs),
            re.M,
        )
        asked = [line for router in routers for line in (f"say {MARK} {router}", f"drops {router}")]
        with tempfile.TemporaryDirectory() as place:
            words = [program, "sim", "--log", os.path.join(place, "log"), "-", *configs]
            given = "\n".join([script, *asked, ""])
            done = ran(words, folder, given)
            shown, noted = shown_drops(done.stdout), noted_drops(text_of(place, "log", ""))
        kinds |= {cause for _, _, cause in noted}
        told += (
            [] if shown == noted else [f"{os.path.relpath(folder, TOP)}: {shown}, and not {noted}"]
        )
        # A script that is not a file goes on behind a line that cannot be read.
        if done.returncode not in (0, int(text_of(folder, "status", "0"))):
            told.append(f"{os.path.relpath(folder, TOP)}: status {done.returncode}: {done.stderr}")
    return told + ([] if len(kinds) > 2 else [f"causes: {kinds}"])
