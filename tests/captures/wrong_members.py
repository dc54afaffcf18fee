"""What is wrong for the members of each schema, by docs/*.1 and RFC 2328: wrong_json.py puts it
into values that the program prints.
"""
ADDRESSES = ["", "1.1.1", "1.1.1.1.1", "1.1.1.256", "01.1.1.1", " 1.1.1.1", "1.1.1.-1", "::1"]
PREFIXES = ["", "10.0.0.0", "10.0.0.0/", "10.0.0.0/33", "10.0.0.0/08", "10.0.0/8", "10.0.0.256/32"]
HOPS = [
    [],
    ["direct"],
    ["10.0.0.1"],
    ["10.0.0.1>"],
    ["10.0.0.1>2.2.2.2@"],
    [1],
    "attached",
    ["10.0.0.1>2.2.2.2,10.0.0.5>2.2.2.2"],
    ["10.0.0.1>2.2.2.256"],
    ["attached", "attached"],
]
HOPS_AS_TEXT = ["", "10.0.0.1", "10.0.0.1>2.2.2.2,", "attached, attached", "direct", ["attached"]]
NUMBERS = ["80000000", "8000001", "800000001", "8000000A", "0x800001", ""]
SUMS = ["", "e22", "0e22c", "E22C"]
COUNTS = [-1, "7", "007", "99999999999999999999x"]
ROUTE_COSTS = [-1, 65535 * 2**32 + 1]
PORTS, TICKS, LINKS = [0, 1023, 65536], [-1, 2**64], [-1, 32]
SUBNETS = ["1.1.1.1-2.2.2.2@10.0.0.0", "1.1.1.1@10.0.0.0/30", "@10.0.0.0/30", ""]
CODES = ["A0 Same", "A21 New", "A1", "SameRouter", "C1 NotToml"]
INTERFACES = [[], ["1.1.1.1"], ["@1.1.1.1"], "1.1.1.1@1.1.1.1", [1]]
# For each schema a member, what tells the object that has it from others (None: it has no such
# member), and wrong values of the member.
ROUTES = [("cost", {}, ROUTE_COSTS), ("hops", {}, HOPS), ("prefix", {}, PREFIXES)]
FAILURES = [
    *((member, {"kind": ...}, COUNTS) for member in ("cost", "cut", "gone", "hops")),
    ("failure", {"kind": "link"}, [*SUBNETS, "1.1.1.1-2.2.2.2"]),
    ("failure", {"kind": "links"}, [*SUBNETS, "1.1.1.1-2.2.2.2@10.0.0.0/30"]),
    ("failure", {"kind": "attachment"}, [*SUBNETS, "1.1.1.1", "@1.1.1.1"]),
    ("failure", {"kind": "network"}, [*SUBNETS, "1.1.1.1", "1.1.1.1@1.1.1.1"]),
    ("failure", {"kind": "router"}, [*SUBNETS, "@1.1.1.1", "1.1.1.1@1.1.1.1"]),
    ("kind", {"kind": "link"}, ["links", "network", "end", "ends"]),
    ("kind", {"kind": "router"}, ["link"]),
    ("unknown_costs", {}, INTERFACES),
    ("routes", {}, [[1], [[]], {}]),
    ("cost", {"failure": None}, ROUTE_COSTS),
    ("hops", {"failure": None}, HOPS),
    ("prefix", {}, PREFIXES),
    ("router", {}, ADDRESSES),
    ("loss", {"loss": "gone"}, ["cost", "hops"]),
    ("loss", {"loss": "cost"}, ["cut", "gone"]),
]
FAILURE_LINES = [
    *(row for row in FAILURES if row[0] != "unknown_costs"),
    *((member, {"kind": ...}, COUNTS) for member in ("lost", "own", "rerouted")),
    ("worst_rise", {}, ROUTE_COSTS),
    ("unknown_costs", {}, INTERFACES[1:]),
    ("subnet", {"kind": "link"}, PREFIXES),
    ("subnet", {"kind": "router"}, ["10.0.0.0/30"]),
    ("network", {"kind": "network"}, ADDRESSES),
    ("network", {"kind": "attachment"}, ADDRESSES),
    ("network", {"kind": "router"}, ["10.0.0.1"]),
    ("routers", {"kind": "router"}, [["1.1.1"], [1], "1.1.1.1", ["1.1.1.1", "1.1.1.1"]]),
    ("version", {}, [1, 3, "2"]),
    ("lsas", {}, [-1, 2**64, "7"]),
    ("left_out", {}, [-1, 2**64, "7"]),
    ("outside", {}, [0, 1, "false"]),
    ("warnings", {}, [[1], "none", [[]]]),
]
# What an interface or a router of a fault between files has.
SIDES = [
    ("interface", {"key": "cost", "file": ...}, LINKS),
    ("interface", {"key": "router_id", "file": ...}, [0]),
    ("key", {"key": "cost", "file": ...}, ["router_id", "kind", "port", "retransmit"]),
    ("value", {"key": "router_id", "file": ...}, [*ADDRESSES, "0.0.0.0"]),
    ("value", {"key": "area", "file": ...}, ADDRESSES),
    ("value", {"key": "kind", "file": ...}, ["", "Broadcast", "nbma"]),
    (
        "value",
        {"key": "address", "file": ...},
        [*PREFIXES, "10.0.0.1/0", "10.0.0.1/31", "224.0.0.1/8"],
    ),
    ("value", {"key": "cost", "file": ...}, [0, 65536]),
    ("value", {"key": "priority", "file": ...}, [-1, 256]),
    ("value", {"key": "hello", "file": ...}, [0, 65536]),
    ("value", {"key": "dead", "file": ...}, [0, 65536]),
    ("value", {"key": "transmit_delay", "file": ...}, [0, 3601]),
    ("value", {"key": "mtu", "file": ...}, [575, 9001]),
    ("value", {"key": "port", "file": ...}, PORTS),
    ("value", {"key": "peers", "file": ...}, PORTS),
]
CHECK_LINES = [
    *SIDES,
    ("code", {"code": "A3 Area"}, [*CODES, "A12 Cost", "A13 NoNeighbor"]),
    ("note", {"note": True}, [False]),
    ("meaning", {}, [""]),
    ("files", {}, [-1, 2**64, "7"]),
    ("version", {}, [1, 3, "2"]),
    ("warnings", {"version": ...}, [["one"], "none", {}]),
    ("warnings", {"faults": ...}, [[1], "none", {}]),
    ("faults", {}, [[1], "none", {}]),
    ("file", {"faults": ...}, [""]),
    ("file", {"value": ...}, [""]),
]
FILE_FAULTS = [
    ("code", {"code": "C5 ZeroCost"}, ["", "C0 None", "C9 Memory", "C5", "A5 Hello", "C1 NotToml"]),
    ("key", {"code": "C5 ZeroCost"}, ["", 1]),
    ("key", {"code": "C1 NotToml"}, ["cost"]),
    ("interface", {"code": "C5 ZeroCost"}, [-1, "0"]),
    ("interface", {"code": "C1 NotToml"}, [0]),
    ("host", {"interface": 0, "code": ...}, [0]),
    ("host", {"code": "C1 NotToml"}, [0]),
    ("text", {"code": ...}, [""]),
    ("text", {"value": ...}, [""]),
    ("interface", {"text": ..., "value": ...}, LINKS),
    ("key", {"key": "priority", "text": ...}, ["cost", "transmit_delay"]),
    ("value", {"key": "transmit_delay", "text": ...}, [900, 3601]),
    ("value", {"key": "priority", "text": ...}, [0, 256]),
]
WRONG = {
    "lsas-1": [
        *((member, {}, ADDRESSES) for member in ("router", "id", "from")),
        ("to", {"link": "router"}, ADDRESSES),
        ("to", {"link": "virtual"}, ADDRESSES),
        ("prefix", {"lsa": "network"}, PREFIXES),
        ("prefix", {"link": "stub"}, PREFIXES),
        ("age", {}, [-1, 3600]),
        ("flags", {}, ["b", "EB", "BB", "X", " "]),
        ("number", {}, NUMBERS),
        ("sum", {}, SUMS),
        ("cost", {"link": "router"}, [0, 65536]),
        ("cost", {"link": "network"}, [0, 65536]),
        ("cost", {"link": "stub"}, [-1, 65536]),
        ("link", {"link": "router"}, ["stub", "virtual", "point-to-point"]),
        ("link", {"link": "stub"}, ["router", "virtual"]),
        ("lsa", {"lsa": "router"}, ["network", "summary"]),
        ("lsa", {"lsa": "network"}, ["router"]),
    ],
    "table-1": ROUTES,
    "table-all-1": [*ROUTES, ("root", {}, [*ADDRESSES, "all"])],
    "table-2": [
        ("cost", {}, ROUTE_COSTS),
        ("prefix", {}, PREFIXES),
        ("root", {}, [*ADDRESSES, "all"]),
        ("hops", {}, [[], ["attached"], [{}], "attached", [1]]),
        ("router", {}, ADDRESSES),
        ("interface", {}, ADDRESSES),
        ("address", {}, ADDRESSES),
        ("route", {}, [[], {}, "10.0.0.0/30"]),
        ("version", {}, [1, 3, "2"]),
        ("lsas", {}, [-1, 2**64, "7"]),
        ("left_out", {}, [-1, 2**64, "7"]),
        ("outside", {}, [0, 1, "false"]),
        ("warnings", {}, [[1], "none", [[]]]),
    ],
    "failures-1": [*FAILURES, ("cut", {}, [2**33])],
    "failures-all-1": [*FAILURES, ("cut", {}, [2**64]), ("routers", {}, [-1, 2**32 + 1, "7"])],
    "failures-2": [*FAILURE_LINES, ("lost", {}, [2**33])],
    "failures-all-2": [
        *FAILURE_LINES,
        ("lost", {}, [2**64]),
        ("routers_affected", {}, [-1, 2**32 + 1, "7"]),
    ],
    "check-1": [
        *SIDES,
        ("code", {"code": "A3 Area"}, [*CODES, "A12 Cost", "A13 NoNeighbor"]),
        ("code", {"code": "A12 Cost"}, ["A5 Hello", "A13 NoNeighbor"]),
        ("code", {"code": "A13 NoNeighbor"}, ["A5 Hello", "A12 Cost"]),
        ("note", {"note": True}, [False]),
        ("note", {"note": False}, [True]),
        ("file", {}, [""]),
        ("meaning", {}, [""]),
    ],
    "check-2": [*CHECK_LINES, *FILE_FAULTS, ("line", {"code": "C1 NotToml"}, [0, -1, "1"])],
    "annotate-2": [
        *CHECK_LINES,
        *FILE_FAULTS,
        *(
            (member, {"code": ...}, [0, -1, "1"])
            for member in ("line", "column", "end_line", "end_column")
        ),
        *(
            (member, {"value": ...}, [0, -1, "1"])
            for member in ("line", "column", "end_line", "end_column")
        ),
    ],
    "annotate-1": [
        ("code", {"severity": "fault"}, ["", "A5", "B5 Hello", "A5 hello", "C0 None", "warning"]),
        ("severity", {"code": "Warning"}, ["fault", "note"]),
        ("severity", {"code": "A13 NoNeighbor"}, ["fault", "warning", "notice"]),
        *((member, {}, [0, -1, "1"]) for member in ("line", "column", "end_line", "end_column")),
        ("file", {}, [""]),
        ("text", {}, [""]),
    ],
    "lsa-journal-1": [
        *((member, {}, ADDRESSES) for member in ("router", "id", "advertising_router")),
        ("tick", {}, TICKS),
        ("number", {}, NUMBERS),
        ("age", {}, [-1, 3601]),
        ("event", {}, ["", "issued", "aged out", "Installed"]),
        ("lsa", {}, ["", "summary"]),
        ("bytes", {}, ["", "00", "0" * 41, "AB" * 20]),
    ],
    "watch-1": [
        ("time", {}, ["", "2026-12-01", "2026-12-01T14:00:00Z", "2026-12-01 14:00:00.000Z"]),
        *(
            (member, {}, COUNTS)
            for member in ("lsas", "routers", "networks", "gained", "longer", "shorter", "rerouted")
        ),
        ("lost", {"failure": ...}, [0, -1, "7"]),
        ("failure", {}, [""]),
        ("router", {"event": "change"}, ADDRESSES),
        ("address", {}, ADDRESSES),
        ("to", {}, [""]),
        ("old", {}, [0, 65536]),
        ("new", {"old": ...}, [0, 65536]),
        ("kind", {}, ["", "cable"]),
        ("name", {}, [""]),
        ("change", {"event": "change", "kind": ...}, ["cost", "installed", "went"]),
        ("change", {"event": "prefix"}, ["cost", "went"]),
        ("change", {"event": "lsa"}, ["up", "aged out"]),
        ("prefix", {"event": "prefix"}, PREFIXES),
        ("id", {}, ADDRESSES),
        ("number", {}, NUMBERS),
        ("age", {}, [-1, 3601]),
        ("text", {}, [""]),
        ("event", {"event": "start"}, ["settled", "change"]),
    ],
    "journal-1": [
        *((member, {}, ADDRESSES) for member in ("router", "source", "neighbour", "dr", "backup")),
        ("id", {}, ADDRESSES),
        ("tick", {}, TICKS),
        ("link", {}, LINKS),
        ("number", {}, NUMBERS),
        ("prefix", {"event": "route"}, PREFIXES),
        ("prefix", {"event": "no route"}, PREFIXES),
        ("cost", {}, ROUTE_COSTS),
        ("hops", {}, HOPS_AS_TEXT),
        ("before", {"event": "neighbour"}, ["Attempt", "DR", "full"]),
        ("now", {"event": "interface"}, ["Loopback", "Full", "Dr"]),
        ("cause", {}, ["R0 None", "R10 More", "R1", "Packet"]),
        ("event", {"event": "started"}, ["removed", "began"]),
        ("event", {"event": "issued"}, ["removed"]),
        ("event", {"event": "route"}, ["no route"]),
        ("event", {"event": "no route"}, ["route"]),
    ],
}
# Members that an object may lack, a member that may be null at this key, and members of any text.
OPTIONAL = {
    (schema, member)
    for schema in ("failures-1", "failures-all-1")
    for member in ("routes", "unknown_costs")
}
OPTIONAL |= {(schema, "routes") for schema in ("failures-2", "failures-all-2")}
NULLABLE = {("check-1", "value", "port"), ("table-2", "address", None), ("table-2", "route", None)}
NULLABLE |= {("check-2", "value", "port"), ("annotate-2", "value", "port")}
# The number of the table of a fault, where its key can be at the top; and a line.
NULLABLE |= {
    (schema, table, key)
    for schema in ("check-2", "annotate-2")
    for table in ("interface", "host")
    for key in ("address", "cost", "mtu", "dead", '"a b"')
}
NULLABLE |= {("check-2", "line", None)}
FREE = {("check-1", "file"), ("check-1", "meaning"), ("annotate-1", "file"), ("annotate-1", "text")}
FREE |= {
    (schema, member)
    for schema in ("check-2", "annotate-2")
    for member in ("file", "key", "meaning", "text")
}
FREE |= {("watch-1", member) for member in ("text", "failure", "name", "to")}
OF_EACH_TYPE = ["no such word", 1.5, True, None, [0], {"no": 0}]
