"""What the tests of `tools/import-config` share."""
import os
import subprocess
import sys

HERE = os.path.dirname(os.path.abspath(__file__))
TOP = os.path.dirname(os.path.dirname(HERE))
TOOL = os.path.join(TOP, "tools", "import-config")


def fail(name, *what):
    sys.exit("\n".join([f"{name}:", *map(str, what)]))


def imported(*words, text=None):
    """Runs the tool at the top of the repository."""
    return subprocess.run([TOOL, *words], input=text, cwd=TOP, capture_output=True, text=True,
                          check=False)


def see(name, got, wanted):
    if got != wanted:
        fail(name, "got:", got, "wanted:", wanted)


def summary(text):
    """A configuration in few words: the area, and a line for each interface and each host."""
    found, defaults = [], {"kind": "", "address": "", "cost": "cost "}
    for line in text.splitlines():
        key, _, value = line.partition(" = ")
        if key == "area":
            found.append(value.strip('"'))
        elif key in ("stub_router", "rfc3021"):
            found[0] += f" {key}"
        elif line.startswith("[[interface]]"):
            found.append("")
        elif line == "[[host]]":
            found.append("host")
        elif value and key != "router_id":
            found[-1] += " " + defaults.get(key, f"{key} ") + value.strip('"')
    return [line.strip() for line in found]
