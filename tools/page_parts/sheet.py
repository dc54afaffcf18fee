"""A page: its frame, its style, its scripts and its data in one file."""
import html
import json
import os

HERE = os.path.dirname(os.path.abspath(__file__))
DRAWING = ("picture.js", "names.js", "heat.js", "layout.js", "map.js")
SCRIPTS = ("common.js", "model.js", *DRAWING, "list.js", "detail.js", "main.js")
# Those of a page of changes.
STORY = ("common.js", "picture.js", "names.js", "layout.js", "map.js", "story.js")
STYLES = {"story.html": ("page.css", "story.css")}
# What a page lists, and what its search finds.
LISTED = {"story.html": "changes"}
FOUND = {"page.html": "router, link, subnet, prefix"}
# What every page has.
SHARED = {"FRAME": "frame.html", "END": "end.html", "TOPOLOGY": "topology.html"}


def part(name):
    with open(os.path.join(HERE, name), encoding="utf-8") as file:
        return file.read()


def joined(names):
    """Files of this folder, one behind the other."""
    return "\n".join(map(part, names))


def embedded(data, is_sorted=True):
    """JSON in which nothing ends a script."""
    text = json.dumps(data, separators=(",", ":"), sort_keys=is_sorted)
    return text.replace("<", "\\u003c").replace(">", "\\u003e").replace("&", "\\u0026")


def replaced(frame, parts):
    """A frame with its parts in the places of their names."""
    first, *rest = frame.split("@@")
    return first + "".join(parts.get(it, it) for it in rest)


def filled(frame, parts):
    """A page: what every page has, and its own parts in the places of their names."""
    parts = {"LISTED": "failures", "SEARCH": "router, link, address", "POLICY": "", **parts}
    shared = {it: replaced(part(name).rstrip("\n"), parts) for it, name in SHARED.items()}
    return replaced(frame, {**parts, **shared})


def page(data, frame="page.html", scripts=SCRIPTS):
    """The page of an area."""
    own = {"LISTED": LISTED.get(frame), "SEARCH": FOUND.get(frame)}
    return filled(
        part(frame),
        {
            "TITLE": html.escape(data["title"]),
            "STYLE": joined(STYLES.get(frame, ("page.css",))),
            "SCRIPT": joined(scripts),
            "DATA": embedded(data),
            **{name: text for name, text in own.items() if text},
        },
    )
