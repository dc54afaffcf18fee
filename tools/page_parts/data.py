"""What a page keeps of tables and failures: all of them, up to a limit."""
import collections
import sys

LOSSES = ("cut", "gone", "cost", "hops")
# From what is worst for a router to what is no harm: its own prefixes go with what fails.
RANKS = ("cut", "cost", "hops", "gone")
# One failure has at most this part of all routes of failures.
PART = 10
# The program holds all routes that it prints, each in some kilobytes. More than this are asked for
# router by router, and more than the most not at all.
AT_ONCE, MOST = 100_000, 10_000_000
ALL = "all"


def count_of(failure):
    """How many routes a failure changes."""
    return sum(failure[loss] for loss in LOSSES)


class Kept:
    """Tables and failures with each text once. A route is a list of numbers: `data` says which."""

    def __init__(self, limit):
        self.limit, self.numbers, self.tables, self.failures = limit, {}, {}, []
        self.routers, self.routes = [], 0
        self.by_name, self.lost = {}, collections.defaultdict(collections.Counter)

    def number_of(self, text):
        """The number of a text."""
        return self.numbers.setdefault(text, len(self.numbers))

    def hops_of(self, route):
        return self.number_of(",".join(route["hops"]))

    def add_tables(self, ospfd, root, listed):
        """Takes the tables of all routers, or of a root. Those that may have too many routes, one of
        each router to each prefix, are not asked for."""
        routers = dict.fromkeys(it["router"] for it in listed if it["lsa"] == "router")
        prefixes = {it["prefix"] for it in listed if it["lsa"] == "network"}
        prefixes |= {link["prefix"] for it in listed for link in it.get("links", [])
                     if link["link"] == "stub"}
        self.routers = list(routers) if root == ALL else [root]
        self.routes = len(self.routers) * len(prefixes)
        if self.routes > self.limit:
            return
        tables = ospfd.answer("table", "--json", root)
        for table in tables if root == ALL else [{"root": root, "routes": tables}]:
            self.tables[table["root"]] = [
                it for route in table["routes"]
                for it in (self.number_of(route["prefix"]), route["cost"], self.hops_of(route))]

    def add_failures(self, failures):
        """Takes failures, worst first, and chooses those whose routes are kept."""
        left = self.limit
        for failure in failures:
            count = count_of(failure)
            is_kept = count <= min(left, max(self.limit // PART, 1))
            left -= count if is_kept else 0
            failure.update(routes=[] if is_kept else None, worst=0, hit={})
            self.failures.append(failure)
            self.by_name[failure["failure"]] = failure

    def ask(self, ospfd, root):
        """Asks for the routes that failures change: at once, router by router, or not at all."""
        count = sum(map(count_of, self.failures))
        if count > MOST:
            for failure in self.failures:
                failure.update(routes=[] if count_of(failure) == 0 else None, worst=None)
            return
        roots = [root] if count <= min(AT_ONCE, self.limit) else self.routers
        for number, router in enumerate(roots):
            if len(roots) > 1 and sys.stderr is not None and sys.stderr.isatty():
                print(f"\r\x1b[K{number} of {len(roots)} routers", end="", file=sys.stderr)
            for failure in ospfd.answer("failures", "--json", "--each", router):
                self.add_routes(self.by_name[failure["failure"]], failure["routes"])
        if len(roots) > 1 and sys.stderr is not None and sys.stderr.isatty():
            print("\r\x1b[K", end="", file=sys.stderr)

    def add_routes(self, failure, routes):
        """Takes routes that a failure changes. Of those that are not kept the prefixes that are cut
        off stay, each with the number of routers that lose it."""
        for route in routes:
            if route["loss"] == "cost":
                more = route["after"]["cost"] - route["before"]["cost"]
                failure["worst"] = max(failure["worst"], more)
            if failure["routes"] is None:
                if route["loss"] == "cut":
                    self.lost[failure["failure"]][route["prefix"]] += 1
                continue
            failure["routes"] += self.route(route)
            known = failure["hit"].get(route["router"], RANKS[-1])
            failure["hit"][route["router"]] = min(known, route["loss"], key=RANKS.index)

    def route(self, route):
        """The numbers of a route that changes."""
        before, after = route["before"], route.get("after")
        return [
            self.number_of(route["router"]), self.number_of(route["prefix"]),
            LOSSES.index(route["loss"]), before["cost"], self.hops_of(before),
            *([-1, -1] if after is None else [after["cost"], self.hops_of(after)])]

    def add_lost(self):
        """Gives failures without routes the prefixes that most routers lose."""
        for failure in self.failures:
            if failure["routes"] is None:
                lost = self.lost[failure["failure"]]
                most = sorted(lost.items(), key=lambda it: (-it[1], it[0]))[:self.limit // 1000]
                failure["prefixes"] = len(lost)
                failure["lost"] = [it for prefix, count in most
                                   for it in (self.number_of(prefix), count)]

    def data(self):
        """For the page. A route of a table is three numbers: prefix, cost and next hops; one of a
        failure seven: router, prefix, loss, and cost and next hops before and after, -1 for none.
        Texts are their places in `strings`, losses theirs in LOSSES."""
        self.add_lost()
        return {"strings": list(self.numbers), "failures": self.failures, "limit": self.limit,
                "tables": self.tables, "routers": len(self.routers), "tableRoutes": self.routes}
