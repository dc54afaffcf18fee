"""Where the nodes of a drawing are, by Graphviz."""
import re
import shutil
import subprocess

import lsas

# Above this many nodes sfdp is used: neato needs time by the square of their number.
MANY = 400
POINTS = 72
PATIENCE = 120
NODE = re.compile(r"^node n(\d+) (\S+) (\S+) ", re.M)


def label_of(node, names):
    return node.get("prefix") or names.get(node["id"], node["id"])


def graph_of(area, names):
    """The nodes as boxes as wide as the page draws them, and the edges."""
    places = {name: number for number, name in enumerate(area.nodes)}
    lines = ['graph area {', 'graph [overlap=prism, sep="+14", start=1, splines=false];',
             'node [shape=box, fixedsize=true, label="", height=0.5];']
    for number, node in enumerate(area.nodes.values()):
        lines.append(f"n{number} [width={0.3 + 0.11 * len(label_of(node, names)):.2f}];")
    pairs = {frozenset((places[it.one], places[it.other])) for it in area.edges}
    lines += [f"n{min(it)} -- n{max(it)} [len=2];" for it in sorted(pairs, key=sorted)]
    return "\n".join([*lines, "}\n"])


def place(area, names):
    """Gives each node its place, if Graphviz is there and ends in time."""
    engine = "neato" if len(area.nodes) <= MANY else "sfdp"
    if not shutil.which(engine) or not area.nodes:
        return
    try:
        ran = subprocess.run([engine, "-Tplain"], input=graph_of(area, names), text=True,
                             capture_output=True, check=False, timeout=PATIENCE)
    except (OSError, subprocess.TimeoutExpired):
        ran = None
    found = NODE.findall(ran.stdout) if ran is not None and ran.returncode == 0 else []
    if len(found) != len(area.nodes):
        lsas.tell(f"{engine}: no layout: the page places the nodes")
        return
    nodes = list(area.nodes.values())
    for number, x, y in found:
        nodes[int(number)]["at"] = [round(float(x) * POINTS), round(-float(y) * POINTS)]
