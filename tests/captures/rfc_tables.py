"""Tables and procedures of RFC 2328, written by hand from its text: what
tests/captures/compare-spec holds the definitions against."""

NEIGHBOUR_STATES = ["Down", "Init", "TwoWay", "ExStart", "Exchange", "Loading", "Full"]
NEIGHBOUR_EVENTS = [
    "HelloReceived", "TwoWayReceived", "AdjOk", "NegotiationDone", "ExchangeDone", "LoadingDone",
    "SeqNumberMismatch", "BadLsReq", "OneWayReceived", "KillNbr", "InactivityTimer"
]
# Section 10.3. `wanted` is an adjacency that should be formed, `empty` an empty request list. What
# is in no row changes nothing.
NEIGHBOUR = """
Down            HelloReceived      -         Init      TimerRestarts
Init..Full      HelloReceived      -         same      TimerRestarts
Init            TwoWayReceived     wanted    ExStart   AdjacencyBegins
Init            TwoWayReceived     unwanted  TwoWay    Nothing
ExStart         NegotiationDone    -         Exchange  ExchangeBegins
Exchange        ExchangeDone       empty     Full      Nothing
Exchange        ExchangeDone       filled    Loading   Nothing
Loading         LoadingDone        empty     Full      Nothing
TwoWay          AdjOk              wanted    ExStart   AdjacencyBegins
ExStart..Full   AdjOk              unwanted  TwoWay    ListsEmptied
Exchange..Full  SeqNumberMismatch  -         ExStart   AdjacencyBegins
Exchange..Full  BadLsReq           -         ExStart   AdjacencyBegins
TwoWay..Full    OneWayReceived     -         Init      ListsEmptied
Down..Full      KillNbr            -         Down      Removed
Down..Full      InactivityTimer    -         Down      Removed
"""
INTERFACE_STATES = ["Down", "Waiting", "PointToPoint", "DrOther", "Backup", "Dr"]
INTERFACE_EVENTS = ["InterfaceUp", "BackupSeen", "WaitTimer", "NeighborChange", "InterfaceDown"]
# Section 9.3.
INTERFACE = """
Down         InterfaceUp     Start
Waiting      BackupSeen      Elect
Waiting      WaitTimer       Elect
DrOther..Dr  NeighborChange  Elect
Down..Dr     InterfaceDown   Stop
"""
# Section 13.5, table 19: in state Backup by the sender, and in all other states.
ACKNOWLEDGEMENTS = {
    "FloodedBack": ({"Dr": "None", "Backup": "None", "Other": "None"}, "None"),
    "NotFloodedBack": ({"Dr": "Delayed", "Backup": "None", "Other": "None"}, "Delayed"),
    "Implied": ({"Dr": "Delayed", "Backup": "None", "Other": "None"}, "None"),
    "NotImplied": ({"Dr": "Direct", "Backup": "Direct", "Other": "Direct"}, "Direct"),
    "Expired": ({"Dr": "Direct", "Backup": "Direct", "Other": "Direct"}, "Direct"),
}
# Section 10.6: the state, what the packet and the neighbour have, and the rule. I is 4, M is 2 and
# MS is 1; the other router is 2.2.2.2, and this one 1.1.1.1 unless said otherwise. `last` is the
# last packet taken: its flags, Options and number.
DESCRIPTIONS = """
Down      flags=7                                            NotTaken
Init      flags=7                                            NotTaken
TwoWay    flags=7                                            NotTaken
ExStart   flags=7                                            MakesSlave
ExStart   flags=7 router=3.3.3.3                             NotTaken
ExStart   flags=5                                            NotTaken
ExStart   flags=6                                            NotTaken
ExStart   flags=2 router=3.3.3.3 sent=9 number=9             MakesMaster
ExStart   flags=0 router=3.3.3.3 sent=9 number=9             MakesMaster
ExStart   flags=2 router=3.3.3.3 sent=9 number=8             NotTaken
ExStart   flags=2 router=1.1.1.1 sent=9 number=9             NotTaken
ExStart   flags=3 router=3.3.3.3 sent=9 number=9             NotTaken
ExStart   flags=7 mtu=1501                                   TooLong
Exchange  flags=3 last=7,2,8 number=9                        Next
Exchange  flags=1 last=7,2,8 number=9                        Next
Exchange  flags=3 last=7,2,8 number=8                        Mismatch
Exchange  flags=3 last=7,2,8 number=10                       Mismatch
Exchange  flags=3 last=3,2,4294967295 number=0               Next
Exchange  flags=2 last=7,2,8 number=9                        Mismatch
Exchange  flags=7 last=3,2,8 number=9                        Mismatch
Exchange  flags=3 last=7,6,8 number=9                        Mismatch
Exchange  flags=3 last=3,2,8 number=8                        Repeats
Exchange  flags=2 master=true sent=9 number=9                Next
Exchange  flags=2 master=true sent=9 number=8                Mismatch
Exchange  flags=3 master=true sent=9 number=9                Mismatch
Exchange  flags=2 master=true sent=9 last=2,2,8 number=8     PassedOver
Exchange  flags=3 last=7,2,8 number=9 mtu=1501               TooLong
Loading   flags=3 last=3,2,8 number=8                        Repeats
Loading   flags=3 last=3,2,8 number=9                        Mismatch
Loading   flags=2 master=true sent=9 last=2,2,8 number=8     PassedOver
Full      flags=1 last=1,2,8 number=8                        Repeats
Full      flags=1 last=1,2,8 number=9                        Mismatch
Full      flags=0 master=true sent=9 last=0,2,9 number=9     PassedOver
Full      flags=7 last=1,2,8 number=9                        Mismatch
"""


def among(states, text):
    """The states of a range, as ExStart..Full."""
    first, _, last = text.partition("..")
    return states[states.index(first):states.index(last or first) + 1]


def neighbour(state, event, wanted, empty):
    """The new state, and what begins (10.3)."""
    facts = {"-", "wanted" if wanted else "unwanted", "empty" if empty else "filled"}
    for row in NEIGHBOUR.strip().split("\n"):
        states, of, condition, new, begins = row.split()
        if event == of and condition in facts and state in among(NEIGHBOUR_STATES, states):
            return (state if new == "same" else new), begins
    return state, "Nothing"


def interface(state, event):
    """What the interface does (9.3)."""
    for row in INTERFACE.strip().split("\n"):
        states, of, does = row.split()
        if event == of and state in among(INTERFACE_STATES, states):
            return does
    return "Ignore"


def newer(a, b):
    """Which of two headers (number, checksum, age) is newer (13.1): 1 the first, -1 the second, 0
    neither."""
    for x, y in ((a[0], b[0]), (a[1], b[1])):
        if x != y:
            return 1 if x > y else -1
    if (a[2] == 3600) != (b[2] == 3600):
        return 1 if a[2] == 3600 else -1
    if abs(a[2] - b[2]) > 900:
        return 1 if a[2] < b[2] else -1
    return 0


def best(candidates):
    """The one of the highest priority and, among these, of the highest Router ID."""
    return max(candidates, key=lambda c: (c["priority"], c["id"]), default=None)


def one_round(candidates):
    """Steps 2 and 3 of section 9.4: the DR and the Backup."""
    eligible = [c for c in candidates if c["priority"] > 0]
    others = [c for c in eligible if c["dr"] != c["address"]]
    backup = best([c for c in others if c["backup"] == c["address"]]) or best(others)
    dr = best([c for c in eligible if c["dr"] == c["address"]]) or backup
    return tuple(c["address"] if c else 0 for c in (dr, backup))


def elect(candidates, me):
    """Section 9.4: the DR and the Backup, as the router `me` works them out."""
    own = next(c for c in candidates if c["id"] == me)
    first = one_round(candidates)
    before = own["dr"] == own["address"], own["backup"] == own["address"]
    if before == tuple(address == own["address"] for address in first):
        return first
    again = {**own, "dr": first[0], "backup": first[1]}
    return one_round([again if c is own else c for c in candidates])
