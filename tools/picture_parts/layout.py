"""Where the routers and networks of an area are in its picture."""
import math

# The boxes of routers and networks, and the room between two boxes for the words at a link.
ROUTER, NETWORK, GAP, NEAR, HANG = (92, 36), (118, 26), 162, 110, 78
MARGIN, DROP, APART, PORT = 18, 96, 14, 9
# The least distance of a node from the middle of a ring.
LEAST = 180
# Chains of more nodes are drawn in two rows.
IN_A_ROW = 5


class Layout:
    """The centre of each node, and the directions in which networks hang at it."""

    def __init__(self, area):
        self.area, self.at, self.hangs = area, {}, {}
        self.bar, self.is_ring = None, False
        if area.is_bus():
            self.put_bus()
        elif area.is_chain():
            order = area.order()
            many = len(order) if len(order) <= IN_A_ROW else (len(order) + 1) // 2
            self.put_row(order[:many], 0, [(0, -1), (0, 1)] if many == len(order) else [(0, -1)])
            self.put_row(order[many:], GAP + ROUTER[1], [(0, 1)])
            for one, below in zip(order[many - 1 :: -1], order[many:]):
                self.at[below] = (self.at[one][0], self.at[below][1])
        else:
            self.put_ring()
        for node in list(area.routers):
            self.hang(node)

    def wide(self, node):
        """The width that a node needs in a row, with what hangs above or below it."""
        many = -(-len(self.area.hanging(node)) // 2)
        size = ROUTER if node in self.area.routers else NETWORK
        return max(size[0], many * (NETWORK[0] + APART))

    def put_row(self, nodes, y, hangs, gap=GAP):
        x, before = 0, None
        for node in nodes:
            if before:
                is_near = before in self.area.lans or node in self.area.lans
                x += self.wide(before) / 2 + (NEAR if is_near else gap) + self.wide(node) / 2
            self.at[node], self.hangs[node], before = (x, y), hangs, node

    def put_bus(self):
        """The routers in a row, over a bar that is the LAN."""
        self.put_row(list(self.area.routers), 0, [(0, -1)], NEAR)
        places = [it[0] for it in self.at.values()]
        lan, y = next(iter(self.area.lans)), DROP + ROUTER[1] / 2
        self.bar = (min(places) - ROUTER[0] / 2, y, max(places) + ROUTER[0] / 2)
        self.at[lan] = ((self.bar[0] + self.bar[2]) / 2, y)

    def put_ring(self):
        order, self.is_ring = self.area.order(), True
        part = 2 * math.pi / max(len(order), 3)
        far = max(LEAST, (GAP + ROUTER[0]) / (2 * math.sin(part / 2)))
        first = math.pi / 2 if len(order) % 2 else math.pi
        for turn, node in enumerate(order):
            angle = turn * part - first
            away = (round(math.cos(angle), 6), round(math.sin(angle), 6))
            self.at[node], self.hangs[node] = (far * away[0], far * away[1]), [away]

    def hang(self, node):
        """Places the networks that hang at a router, side by side in each direction."""
        prefixes, ways = self.area.hanging(node), self.hangs[node]
        for turn, (x, y) in enumerate(ways):
            these = prefixes[turn :: len(ways)]
            far = reach(ROUTER, (x, y)) + HANG + reach(NETWORK, (x, y))
            for count, prefix in enumerate(these):
                aside = (count - (len(these) - 1) / 2) * (NETWORK[0] + APART)
                self.at[prefix] = (
                    self.at[node][0] + far * x - aside * y,
                    self.at[node][1] + far * y + aside * x,
                )


def reach(size, way):
    """How far the edge of a box is from its centre, in a direction."""
    return min(half / 2 / abs(it) for half, it in zip(size, way) if abs(it) > 1e-9)
