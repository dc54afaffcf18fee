"""Routing tables by the definitions (ospf_graph.Routes.IsTable), printed as `ospfd table` prints
them."""
from functools import cmp_to_key

from .claims import Equal
from .functions import apply
from .readings import forget
from .search import all_solutions, holds
from .values import Refused, Struct, Unknown, ground, resolve

ROUTES = "ospf_graph.Routes."


def in_order(library, name, items, key=lambda item: item):
    """The items in the order of a definition."""
    before = library.definition(name)
    order = lambda a, b: -1 if holds(apply(before, [key(a), key(b)])) else 1
    return tuple(sorted(items, key=cmp_to_key(order)))


def advertisements(library, lsas):
    """What the route calculation reads of a listing."""
    return resolve(
        apply(library.definition("ospf_graph.EdgeLists.Listed.advertisements_of"), [lsas])
    )


def prefixes(library, adverts, root):
    """The prefixes to which the router has a way."""
    prefix = library.at_path(
        ("Rattle", "ospf_base", "specs", "declared", "prefix", "Prefix", "Prefix")
    )[1].fresh()
    way = apply(library.definition(ROUTES + "Way"), [adverts, root, prefix])
    return [found[0] for found in all_solutions(way.parts()[1], [prefix])]


def route(library, adverts, root, prefix):
    """The route to a prefix: its hops by `IsHop`, its cost that of a way for which `IsLeast`
    holds."""
    hop, cost = Unknown(), Unknown()
    goal = lambda: apply(library.definition(ROUTES + "IsHop"), [adverts, root, prefix, hop])
    hops = [found[0] for found in all_solutions([goal], [hop])]
    way, goals = apply(library.definition(ROUTES + "Way"), [adverts, root, prefix]).parts()
    goals.append(lambda: apply(library.definition(ROUTES + "IsLeast"), [way]))
    goals.append(
        lambda: Equal(lambda: cost, lambda: apply(library.definition(ROUTES + "way_cost"), [way]))
    )
    costs = all_solutions(goals, [cost])
    if len(costs) != 1:
        raise Refused(f"{len(costs)} costs of one route")
    hops = in_order(library, "ospf_graph.Hops.IsHopBefore", hops)
    return Struct({"prefix": prefix, "cost": costs[0][0], "hops": hops})


def table(library, adverts, root):
    """The routes of a router, in their order."""
    routes = [route(library, adverts, root, prefix) for prefix in prefixes(library, adverts, root)]
    return in_order(library, ROUTES + "IsRouteBefore", routes)


def is_table(library, adverts, root, routes):
    """Whether `IsTable` holds of these routes."""
    return holds(apply(library.definition(ROUTES + "IsTable"), [adverts, root, routes]))


def printed(library, routes, addresses=()):
    """The routes and the lookups of addresses as `ospfd table` prints them, by the definitions of
    its lines."""
    text = apply(library.definition("ospf_files.Shown.routes_text"), [routes])
    for asked in addresses:
        line = Unknown()
        goal = lambda asked=asked, line=line: apply(
            library.definition("ospf_table.Output.IsLookupLine"), [routes, asked, line]
        )
        text += all_solutions([goal], [line])[0][0]
    return bytes(ground(text)).decode()


def listed(library, lsas):
    """The LSAs below MaxAge, at their plain age, in the order of their keys."""
    plain, header = library.definition("ospf_table.Line.with_plain_age"), library.definition(
        "ospf_lsa.Header.header_of"
    )
    limit = library.definition("ospf_base.Constants.max_age")
    young = [
        lsa
        for lsa in (apply(plain, [lsa]) for lsa in lsas)
        if apply(header, [lsa]).fields["age"] < limit
    ]
    key = library.definition("ospf_lsa.Lsa.key_of")
    return in_order(library, "ospf_base.Keys.Precedes", young, lambda lsa: apply(key, [lsa]))


def table_of(library, lsas, root, whole=False):
    """The table of a router over LSAs; `whole` asks `IsTable` of it too."""
    forget()
    adverts, root = advertisements(library, listed(library, lsas)), Struct({"0": root})
    routes = table(library, adverts, root)
    if whole and not is_table(library, adverts, root, routes):
        raise Refused("IsTable does not hold of the table")
    return routes
