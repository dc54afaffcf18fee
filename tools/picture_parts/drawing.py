"""Draws an area from the configurations of its routers, as SVG."""
import html
import math

from picture_parts.area import Area
from picture_parts.layout import MARGIN, NETWORK, PORT, ROUTER, Layout, reach

STYLE = """text { font: 11px "DejaVu Sans", Verdana, sans-serif; fill: #24292f; }
.id { font-size: 13px; font-weight: bold; } .port { font-size: 10px; } .quiet { fill: #57606a; }
line { stroke: #57606a; stroke-width: 1.5; } .router { fill: #ffffff; stroke: #24292f; }
.network { fill: #eef3f8; stroke: #57606a; } .plug { fill: #fff8c5; stroke: #57606a; }"""


class Drawing:
    """Elements, and the corners of what they take up."""

    def __init__(self):
        self.lines, self.boxes, self.corners = [], [], []

    def text(self, x, y, words, anchor="middle", kind=""):
        long = 7 * len(words)
        left = x - {"start": 0, "middle": long / 2, "end": long}[anchor]
        self.corners += [(left, y - 10), (left + long, y + 4)]
        name = f' class="{kind}"' if kind else ""
        self.boxes.append(
            f'<text{name} x="{whole(x)}" y="{whole(y)}" text-anchor="{anchor}">'
            f"{html.escape(words)}</text>"
        )

    def box(self, at, size, kind, words):
        """A box with lines of words, the first of them its name."""
        (x, y), (wide, high) = at, size
        self.corners += [(x - wide / 2, y - high / 2), (x + wide / 2, y + high / 2)]
        corner = 4 if kind == "router" else high // 2
        self.boxes.append(
            f'<rect class="{kind}" x="{whole(x - wide / 2)}" y="{whole(y - high / 2)}" '
            f'width="{wide}" height="{high}" rx="{corner}"/>'
        )
        top = y + 4 - 7 * (len(words) - 1)
        for number, it in enumerate(words):
            name = "id" if kind == "router" and number == 0 else ""
            self.text(x, top + 14 * number, it, kind=name)

    def line(self, one, other):
        (x1, y1), (x2, y2) = one, other
        self.corners += [one, other]
        self.lines.append(
            f'<line x1="{whole(x1)}" y1="{whole(y1)}" x2="{whole(x2)}" y2="{whole(y2)}"/>'
        )

    def end(self, end, at, way, side):
        """What is written at the end of a line that leaves its router here, in a direction: the
        number of the interface, at a side its address, at the other its cost and the rest. On a
        slope all is at one side."""
        (x, y), (dx, dy) = at, way
        if end.number is not None:
            self.boxes.append(f'<circle class="plug" cx="{whole(x)}" cy="{whole(y)}" r="{PORT}"/>')
            self.text(x, y + 4, str(end.number), kind="port")

        def after(far):
            return (x + far * dx, y + far * dy)

        if is_slope(way):
            self.beside(after(24), side, [end.part(), *end.words])
            return
        self.beside(after(20 if is_level(way) else 14), side, [end.part()], "quiet")
        other = (-side[0], -side[1])
        far = 34 if is_level(way) else 14 + 6.5 * (len(end.words) - 1)
        self.beside(after(far), other, end.words)

    def beside(self, at, side, words, kind=""):
        """Lines of words at a side of a place."""
        anchor = "start" if side[0] > 0.3 else "end" if side[0] < -0.3 else "middle"
        x, y = at[0] + 8 * side[0], at[1] + 4 + 12 * side[1]
        if anchor != "middle":
            y -= 6.5 * (len(words) - 1)
        for number, it in enumerate(words):
            self.text(x, y + 13 * number, it, anchor, kind)

    def svg(self):
        left, top = (whole(min(it)) - MARGIN for it in zip(*self.corners))
        right, low = (whole(max(it)) + MARGIN for it in zip(*self.corners))
        size = f'width="{right - left}" height="{low - top}"'
        return "\n".join([
            f'<svg xmlns="http://www.w3.org/2000/svg" {size} '
            f'viewBox="{left} {top} {right - left} {low - top}" role="img">',
            f"<style>{STYLE}</style>",
            f'<rect x="{left}" y="{top}" {size} fill="#ffffff"/>',
            *self.lines, *self.boxes, "</svg>\n",
        ])


def whole(number):
    """A whole number; what is close to the middle between two is not left to the last bits."""
    return math.floor(round(number, 3) + 0.5)


def is_level(way):
    return abs(way[1]) < 0.4


def is_slope(way):
    return not is_level(way) and abs(way[0]) > 0.1


def side_of(layout, at, way):
    """The side of a line at which its addresses are: in a ring the outer one if it is a slope, else
    above it, or to the right."""
    one, other = (way[1], -way[0]), (-way[1], way[0])
    if is_slope(way) and layout.is_ring:
        return max(one, other, key=lambda it: it[0] * at[0] + it[1] * at[1])
    return min(one, other, key=lambda it: it[1] if abs(way[0]) > 0.1 else -it[0])


def way_to(one, other):
    far = math.dist(one, other)
    return ((other[0] - one[0]) / far, (other[1] - one[1]) / far)


def put_end(drawing, layout, end, there):
    """What is written at an interface, where the line to a place leaves its router."""
    here = layout.at[end.router]
    way = way_to(here, there)
    far = reach(ROUTER, way) + PORT
    at = (here[0] + far * way[0], here[1] + far * way[1])
    drawing.end(end, at, way, side_of(layout, at, way))


def put_link(drawing, layout, prefix, ends):
    """A link of two routers. The boxes of both cover the ends of its line."""
    one, other = (layout.at[it.router] for it in ends)
    drawing.line(one, other)
    put_end(drawing, layout, ends[0], other)
    put_end(drawing, layout, ends[1], one)
    middle = ((one[0] + other[0]) / 2, (one[1] + other[1]) / 2)
    side = side_of(layout, middle, way_to(one, other))
    drawing.beside(middle, side, [prefix], "quiet")


def put_network(drawing, layout, prefix, ends):
    """The lines from a LAN, or from a network of one router, to its interfaces."""
    for end in ends:
        here, there = layout.at[end.router], layout.at[prefix]
        if layout.bar and prefix in layout.area.lans:
            there = (here[0], there[1])
        drawing.line(here, there)
        put_end(drawing, layout, end, there)


def picture(texts):
    """The picture of the area of these configurations."""
    area, drawing = Area(texts), Drawing()
    layout = Layout(area)
    for router, words in area.routers.items():
        drawing.box(layout.at[router], ROUTER, "router", [router, *words])
    for prefix in [*area.lans, *area.single]:
        size = NETWORK
        if layout.bar and prefix in area.lans:
            size = (layout.bar[2] - layout.bar[0], NETWORK[1])
        drawing.box(layout.at[prefix], (whole(size[0]), size[1]), "network", [prefix])
    for prefix, ends in area.links.items():
        put_link(drawing, layout, prefix, ends)
    for prefix, ends in [*area.lans.items(), *area.single.items()]:
        put_network(drawing, layout, prefix, ends)
    return drawing.svg()
