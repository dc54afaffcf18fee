"""The drawing of an area: its routers and networks in a circle, and the links between them."""
import html
import math


def lines_of(area, places):
    """The lines between nodes, dashed where one end alone has the link, each with the costs at its
    ends."""
    for one, other in sorted({tuple(sorted(pair)) for pair in area.costs}):
        (x1, y1), (x2, y2) = places[one], places[other]
        dashes = "" if area.both & {(one, other), (other, one)} else ' stroke-dasharray="6 4"'
        yield (
            f'<line x1="{x1:.0f}" y1="{y1:.0f}" x2="{x2:.0f}" y2="{y2:.0f}" stroke="#666"{dashes}/>'
        )
        there, back = area.costs.get((one, other)), area.costs.get((other, one))
        for these, x, y in (
            (there, 0.7 * x1 + 0.3 * x2, 0.7 * y1 + 0.3 * y2),
            (back, 0.3 * x1 + 0.7 * x2, 0.3 * y1 + 0.7 * y2),
        ):
            if these:
                yield (
                    f'<text class="cost" x="{x:.0f}" y="{y:.0f}">{", ".join(map(str, these))}'
                    f"</text>"
                )


def box_of(node, place, titles, stopped):
    """The box of a node, round for a network, grey and dashed for a router that is stopped."""
    (x, y), is_network, wide = place, node.startswith("network "), 128
    fill = "#eef3f8" if is_network else "#e4e4e4" if node in stopped else "#ffffff"
    dashes = ' stroke-dasharray="3 3"' if node in stopped else ""
    words = [*(["stopped"] if node in stopped else []), *titles]
    yield f'<g><title>{html.escape("; ".join(words) or node)}</title>'
    yield (
        f'<rect x="{x - wide / 2:.0f}" y="{y - 13:.0f}" width="{wide}" height="26" '
        f'rx="{13 if is_network else 4}" fill="{fill}" stroke="#333"{dashes}/>'
    )
    yield (
        f'<text class="node" x="{x:.0f}" y="{y + 4:.0f}">'
        f'{html.escape(node.removeprefix("network "))}</text></g>'
    )
    if node in stopped:
        yield f'<text class="node" x="{x:.0f}" y="{y + 28:.0f}">stopped</text>'


def drawing(names, area, stopped):
    """The area: its routers and networks in a circle, and what joins them."""
    nodes = sorted({*names, *(node for pair in area.costs for node in pair)})
    size, far = 620, 230
    places = {}
    for number, node in enumerate(nodes):
        angle = 2 * math.pi * number / len(nodes) - math.pi / 2
        places[node] = (size / 2 + 50 + far * math.cos(angle), size / 2 + far * math.sin(angle))
    parts = [
        f'<svg class="area" viewBox="0 0 {size + 100} {size}" width="{size + 100}" height="{size}" '
        f'role="img">'
    ]
    parts += lines_of(area, places)
    for node, place in places.items():
        parts += box_of(node, place, area.stubs.get(node, []), stopped)
    return "\n".join([*parts, "</svg>"])
