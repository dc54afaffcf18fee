"""What tools/spec is asked: each command takes the library and the words behind its name, and gives
lines."""
import sys

from . import coverage
from .asking import evaluate
from .functions import apply
from .search import all_solutions, holds
from .table import printed, table_of
from .text import number, read, show
from .values import Made, Refused, Struct

SUMS, LSA, RECENCY = "ospf_base.Sums.", "ospf_lsa.Lsa.", "ospf_lsa.Recency."
YES, NO = ("true", "yes"), ("false", "no")
SAID_OF = {
    "Newer": "the first is newer",
    "Older": "the second is newer",
    "Same": "neither is newer",
}


def bytes_of(text):
    """The bytes of hexadecimal digits."""
    try:
        return tuple(bytes.fromhex(text.strip()))
    except ValueError:
        raise Refused(f"not hexadecimal: {text.strip()[:40]}") from None


def lsas_of(lines):
    """The LSAs of lines, of which empty ones are passed over."""
    return [bytes_of(line) for line in lines if line.strip()]


def identity(value):
    """A Router ID or an address as a value."""
    return Struct({"0": number(value)})


def truth(text):
    """A truth value."""
    if text not in YES + NO:
        raise Refused(f"true or false expected at {text}")
    return text in YES


def call(library, name, *arguments):
    """The value of a definition."""
    return apply(library.definition(name), list(arguments))


def variant(library, crate, kind, name, values=()):
    """A variant of an enum, by its name."""
    names = [known for known, _ in library.crates.find(kind, crate).variants]
    if name not in names:
        raise Refused(f"one of {', '.join(names)} expected at {name}")
    return Made(name, values)


def table(library, root, *addresses):
    """table ROUTER [ADDRESS..] < LSAS: the routing table (16.1), as `ospfd table` prints it."""
    routes = table_of(library, lsas_of(sys.stdin), number(root))
    return printed(library, routes, [number(a) for a in addresses]).splitlines()


def is_table(library, root):
    """istable ROUTER < LSAS: the same table, of which the definition IsTable is then asked as a
    whole."""
    routes = table_of(library, lsas_of(sys.stdin), number(root), True)
    return [*printed(library, routes).splitlines(), "IsTable holds"]


def newer(library, first, second):
    """newer LSA LSA: which of two instances is newer (13.1)."""
    a, b = bytes_of(first), bytes_of(second)
    headers = [call(library, "ospf_lsa.Header.header_of", lsa) for lsa in (a, b)]
    found = call(library, RECENCY + "recency", *headers).name
    newer_ones = [
        holds(call(library, RECENCY + "IsNewer", x, y)) for x, y in (headers, headers[::-1])
    ]
    if newer_ones != [found == "Newer", found == "Older"]:
        raise Refused(f"IsNewer says {newer_ones}, and recency {found}")
    same = call(
        library,
        "ospf_base.Keys.same_key",
        call(library, LSA + "key_of", a),
        call(library, LSA + "key_of", b),
    )
    return [SAID_OF[found]] + ([] if same else ["the keys differ: these are two LSAs"])


def faults(library, lsa):
    """The first fault of bytes as an LSA, if they have one."""
    fault = library.at_path(
        ("Rattle", "ospf_lsa", "specs", "declared", "fault", "LsaFault", "LsaFault")
    )[1].fresh()
    found = all_solutions([lambda: call(library, LSA + "IsFirstFault", lsa, fault)], [fault])
    return [bytes(call(library, "ospf_lsa.Text.lsa_fault_text", one[0])).decode() for one in found]


def checksum(library):
    """checksum < LSAS: of each LSA its checksum field, whether it is right (12.1.7), and its first
    fault."""
    out = []
    for lsa in lsas_of(sys.stdin):
        if len(lsa) < 20:
            out.append("less than a header")
            continue
        field = call(library, "ospf_base.Bytes.number_at", 16, 2, lsa)
        right = "right" if holds(call(library, SUMS + "HasRightSum", lsa)) else "wrong"
        fault = faults(library, lsa)
        out.append(f"0x{field:04x} {right}, " + (f"fault {' '.join(fault)}" if fault else "an LSA"))
    return out


def neighbour(library, state, event, wanted="true", requested_all="true"):
    """neighbour STATE EVENT [ADJACENCY-WANTED [REQUEST-LIST-EMPTY]]: the row of the machine
    (10.3)."""
    values = (truth(wanted),) if event in ("TwoWayReceived", "AdjOk") else ()
    event = variant(library, "ospf_neighbour", "NbrEvent", event, values)
    state = variant(library, "ospf_neighbour", "NeighbourState", state)
    change = call(library, "ospf_neighbour.Machine.transition", state, event, truth(requested_all))
    return [f"{change.fields['state'].name} {change.fields['effect'].name}"]


def interface(library, state, event):
    """interface STATE EVENT: what the machine does (9.3): Start, Elect, Stop or Ignore."""
    values = ((),) if event in ("BackupSeen", "WaitTimer", "NeighborChange") else ()
    event = variant(library, "ospf_neighbour", "IfaceEvent", event, values)
    state = variant(library, "ospf_neighbour", "IfaceState", state)
    return [call(library, "ospf_neighbour.Interface.Machine.action", state, event).name]


def candidate(text):
    """ROUTER,ADDRESS,PRIORITY,DR,BACKUP"""
    parts = text.split(",")
    if len(parts) != 5:
        raise Refused(f"ROUTER,ADDRESS,PRIORITY,DR,BACKUP expected at {text}")
    fields = {
        name: identity(parts[at])
        for name, at in (("id", 0), ("address", 1), ("dr", 3), ("backup", 4))
    }
    return Struct({**fields, "priority": int(parts[2])})


def elect(library, me, *candidates):
    """elect ROUTER CANDIDATE..: the DR and the Backup (9.4); a candidate is
    ROUTER,ADDRESS,PRIORITY,DR,BACKUP."""
    kind = library.at_path(
        tuple("Rattle ospf_neighbour specs declared iface candidate Elected Elected".split())
    )[1]
    elected = kind.fresh()
    given = tuple(map(candidate, candidates))
    found = all_solutions(
        [
            lambda: call(
                library, "ospf_neighbour.Interface.Election.IsElected", given, identity(me), elected
            )
        ],
        [elected],
    )
    return [
        " ".join(show(one[0].fields[name])[1:-1] for name in ("dr", "backup")) for one in found
    ] or ["no election"]


def acknowledge(library, case, state, sender):
    """acknowledge CASE STATE SENDER: how an LSA is acknowledged (13.5, table 19)."""
    given = [
        variant(library, "ospf_flood", "AcknowledgementCase", case),
        variant(library, "ospf_neighbour", "IfaceState", state),
        variant(library, "ospf_flood", "Sender", sender),
    ]
    return [call(library, "ospf_flood.Acknowledgements.acknowledgement", *given).name]


def flood(library, lsa, copy="-", *flags):
    """flood LSA COPY|- [loading] [requested] [sent] [flooded]: the rule of section 13 that an LSA
    meets.

    loading: a neighbour is in Exchange or Loading; requested: the sender's request list has it;
    flooded: the copy came by flooding in this very tick; sent: the copy was sent in this tick.
    Where the copy is newer, also whether it goes back.
    """
    unknown = set(flags) - {"loading", "requested", "sent", "flooded"}
    if unknown:
        raise Refused(f"not known: {' '.join(unknown)}")
    entry = None
    if copy != "-":
        entry = call(
            library, "ospf_lsdb.Database.entry_from", bytes_of(copy), 1, "flooded" in flags
        )
    known = Made("Some", (entry,)) if entry else Made("None")
    header = call(library, "ospf_lsa.Header.header_of", bytes_of(lsa))
    rule = call(
        library,
        "ospf_flood.Rules.lsa_rule",
        header,
        known,
        "loading" in flags,
        "requested" in flags,
        1,
    ).name
    if rule != "Stale":
        return [rule]
    back = call(library, "ospf_flood.Rules.is_sent_back", entry, "sent" in flags)
    return [rule + (": the copy goes back" if back else ": nothing goes back")]


DESCRIPTION = {
    "router": "1.1.1.1",
    "sender": "2.2.2.2",
    "interface_mtu": "1500",
    "mtu": "1500",
    "flags": "7",
    "options": "2",
    "number": "1",
    "sent": "1",
    "master": "false",
    "last": "-",
    "headers": "[]",
    "passes_over": "false",
}


def description(library, state, *words):
    """dd STATE [NAME=VALUE..]: the rule of 10.6 that a Database Description meets, and what is
    answered.

    Of the packet: sender, mtu, flags (I 4, M 2, MS 1), options, number, and headers as a list of
    records. Of the router: router, interface_mtu, passes_over, master, sent (its last number) and
    last (the last one taken: FLAGS,OPTIONS,NUMBER).
    """
    given = dict(DESCRIPTION)
    for word in words:
        name, _, value = word.partition("=")
        if name not in given:
            raise Refused(f"one of {', '.join(given)} expected at {word}")
        given[name] = value
    local = Struct(
        {
            "router": identity(given["router"]),
            "mtu": int(given["interface_mtu"]),
            "tick": 0,
            "passes_over": truth(given["passes_over"]),
        }
    )
    packet = Struct({name: int(given[name]) for name in ("mtu", "flags", "options", "number")})
    last = Made("None")
    if given["last"] != "-":
        parts = map(int, given["last"].split(","))
        last = Made("Some", (Struct(dict(zip(("flags", "options", "number"), parts))),))
    exchanging = Struct(
        {
            "is_master": truth(given["master"]),
            "number": int(given["sent"]),
            "flags": 0,
            "sent_at": 0,
            "accepted": last,
        }
    )
    fresh_one = call(
        library,
        "ospf_neighbour.Neighbour.new_neighbour",
        identity(given["sender"]),
        identity(given["sender"]),
    )
    state = variant(library, "ospf_neighbour", "NeighbourState", state)
    neighbour_now = Struct({**fresh_one.fields, "state": state, "exchanging": exchanging})
    arguments = [local, identity(given["sender"]), packet, read(given["headers"]), neighbour_now]
    rule = call(library, "ospf_exchange.Rules.dd_rule", *arguments).name
    return [f"{rule}: {show(call(library, 'ospf_exchange.Exchange.dd_answer', *arguments))}"]


def cover(library):
    """cover: how many definitions are read, how many can be evaluated, and what the others lack."""
    return coverage.report(library)


COMMANDS = {
    "table": table,
    "istable": is_table,
    "newer": newer,
    "checksum": checksum,
    "neighbour": neighbour,
    "interface": interface,
    "elect": elect,
    "acknowledge": acknowledge,
    "flood": flood,
    "dd": description,
    "eval": evaluate,
    "cover": cover,
}
