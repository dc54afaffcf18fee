//! Configurations of one area, judged together: each fault and note by its name.

use super::failing::Failing;
use ospf_check::{check_area_text, check_text};
use ospf_config::Config;
use ospf_files::{NamedFile, Status, Telling};
use ospf_plan::{AreaFault, NamedFinding, findings, is_slow};
use std::alloc::{AllocError, Global};
use std::test::Fail;

// An interface in two parts.
type Table = (&'static str, &'static str);

// A configuration.
struct Router {
    id: &'static str,
    area: &'static str,
    interfaces: &'static [Table],
}

// Configurations, the faults that are told of them, and with `explain` the notes.
struct Case {
    name: &'static str,
    routers: &'static [Router],
    faults: &'static str,
    notes: &'static str,
}

// The two ends of a link.
const ONE: &str = "kind = \"point-to-point\"\naddress = \"10.0.0.1/30\"\ncost = 10\n";
const TWO: &str = "kind = \"point-to-point\"\naddress = \"10.0.0.2/30\"\ncost = 10\n";

// Three interfaces of a point-to-point network that has room for them.
const WIDE_ONE: &str = "kind = \"point-to-point\"\naddress = \"10.0.0.1/29\"\ncost = 10\n";
const WIDE_TWO: &str = "kind = \"point-to-point\"\naddress = \"10.0.0.2/29\"\ncost = 10\n";
const WIDE_THREE: &str = "kind = \"point-to-point\"\naddress = \"10.0.0.3/29\"\ncost = 10\n";

// Three interfaces of a broadcast network.
const LAN_ONE: &str = "kind = \"broadcast\"\naddress = \"10.1.0.1/24\"\ncost = 10\n";
const LAN_TWO: &str = "kind = \"broadcast\"\naddress = \"10.1.0.2/24\"\ncost = 10\n";
const LAN_THREE: &str = "kind = \"broadcast\"\naddress = \"10.1.0.3/24\"\ncost = 10\n";

// An interface of a network of its own.
const STUB: &str = "kind = \"broadcast\"\naddress = \"192.168.3.1/24\"\ncost = 3\n";

// The Area ID of most.
const BACKBONE: &str = "0.0.0.0";

const FIRST: Router = Router {
    id: "1.1.1.1",
    area: BACKBONE,
    interfaces: &[(ONE, "")],
};

static CASES: [Case; 49] = [
    Case {
        name: "nothing wrong",
        routers: &[FIRST, Router { id: "2.2.2.2", area: BACKBONE, interfaces: &[(TWO, "")] }],
        faults: "",
        notes: "",
    },
    Case {
        name: "A1",
        routers: &[FIRST, Router { id: "1.1.1.1", area: BACKBONE, interfaces: &[(TWO, "")] }],
        faults: "b.toml: A1 SameRouter: router_id 1.1.1.1, a.toml: router_id 1.1.1.1\n",
        notes: "",
    },
    Case {
        name: "A1 is told once of a router of two interfaces",
        routers: &[FIRST, Router { id: "1.1.1.1", area: BACKBONE, interfaces: &[(TWO, ""), (STUB, "")] }],
        faults: "b.toml: A1 SameRouter: router_id 1.1.1.1, a.toml: router_id 1.1.1.1\n",
        notes: "b.toml: A13 NoNeighbor: interface 1: address 192.168.3.1/24\n  no other interface is on this network: it is a stub\n",
    },
    Case {
        name: "A2",
        routers: &[FIRST, Router { id: "2.2.2.2", area: BACKBONE, interfaces: &[(ONE, "")] }],
        faults: "b.toml: A2 SameAddress: interface 0: address 10.0.0.1/30, a.toml: interface 0: address 10.0.0.1/30\n",
        notes: "",
    },
    Case {
        name: "A3",
        routers: &[
            FIRST,
            Router {
                id: "2.2.2.2",
                area: "0.0.0.1",
                interfaces: &[(TWO, "")],
            },
        ],
        faults: "b.toml: A3 Area: interface 0: area 0.0.0.1, a.toml: interface 0: area 0.0.0.0\nb.toml: A18 Partitioned: router_id 2.2.2.2, a.toml: router_id 1.1.1.1\n",
        notes: "",
    },
    Case {
        name: "A4",
        routers: &[
            FIRST,
            Router { id: "2.2.2.2", area: BACKBONE, interfaces: &[("kind = \"broadcast\"\naddress = \"10.0.0.2/30\"\ncost = 10\n", "")] },
        ],
        faults: "b.toml: A4 Kind: interface 0: kind broadcast, a.toml: interface 0: kind point-to-point\nb.toml: A18 Partitioned: router_id 2.2.2.2, a.toml: router_id 1.1.1.1\n",
        notes: "",
    },
    Case {
        name: "A5",
        routers: &[FIRST, Router { id: "2.2.2.2", area: BACKBONE, interfaces: &[(TWO, "hello = 5\n")] }],
        faults: "b.toml: A5 Hello: interface 0: hello 5, a.toml: interface 0: hello 10\nb.toml: A18 Partitioned: router_id 2.2.2.2, a.toml: router_id 1.1.1.1\n",
        notes: "",
    },
    Case {
        name: "A6",
        routers: &[FIRST, Router { id: "2.2.2.2", area: BACKBONE, interfaces: &[(TWO, "dead = 50\n")] }],
        faults: "b.toml: A6 Dead: interface 0: dead 50, a.toml: interface 0: dead 40\nb.toml: A18 Partitioned: router_id 2.2.2.2, a.toml: router_id 1.1.1.1\n",
        notes: "",
    },
    Case {
        name: "A7",
        routers: &[FIRST, Router { id: "2.2.2.2", area: BACKBONE, interfaces: &[(TWO, "mtu = 1400\n")] }],
        faults: "b.toml: A7 Mtu: interface 0: mtu 1400, a.toml: interface 0: mtu 1500\nb.toml: A18 Partitioned: router_id 2.2.2.2, a.toml: router_id 1.1.1.1\n",
        notes: "",
    },
    Case {
        name: "A8",
        routers: &[FIRST, Router { id: "2.2.2.2", area: BACKBONE, interfaces: &[(WIDE_TWO, "")] }],
        faults: "a.toml: A8 Mask: interface 0: address 10.0.0.1/30, b.toml: interface 0: address 10.0.0.2/29\nb.toml: A18 Partitioned: router_id 2.2.2.2, a.toml: router_id 1.1.1.1\n",
        notes: "a.toml: A13 NoNeighbor: interface 0: address 10.0.0.1/30\n  no other interface is on this network: it is a stub\nb.toml: A13 NoNeighbor: interface 0: address 10.0.0.2/29\n  no other interface is on this network: it is a stub\n",
    },
    Case {
        name: "A9",
        routers: &[
            Router { id: "1.1.1.1", area: BACKBONE, interfaces: &[(WIDE_ONE, "")] },
            Router { id: "2.2.2.2", area: BACKBONE, interfaces: &[(WIDE_TWO, "")] },
            Router { id: "3.3.3.3", area: BACKBONE, interfaces: &[(WIDE_THREE, "")] },
        ],
        faults: "a.toml: A9 TooManyRouters: interface 0: address 10.0.0.1/29, c.toml: interface 0: address 10.0.0.3/29\nb.toml: A18 Partitioned: router_id 2.2.2.2, a.toml: router_id 1.1.1.1\nc.toml: A18 Partitioned: router_id 3.3.3.3, a.toml: router_id 1.1.1.1\n",
        notes: "",
    },
    Case {
        name: "A10",
        routers: &[
            Router { id: "1.1.1.1", area: BACKBONE, interfaces: &[(LAN_ONE, "priority = 0\n")] },
            Router { id: "2.2.2.2", area: BACKBONE, interfaces: &[(LAN_TWO, "priority = 0\n")] },
        ],
        faults: "a.toml: A10 NoDr: interface 0: priority 0, b.toml: interface 0: priority 0\nb.toml: A18 Partitioned: router_id 2.2.2.2, a.toml: router_id 1.1.1.1\n",
        notes: "",
    },
    Case {
        name: "no A10 where one can be elected",
        routers: &[
            Router { id: "1.1.1.1", area: BACKBONE, interfaces: &[(LAN_ONE, "priority = 0\n")] },
            Router { id: "2.2.2.2", area: BACKBONE, interfaces: &[(LAN_TWO, "priority = 1\n")] },
        ],
        faults: "",
        notes: "",
    },
    Case {
        name: "A11",
        routers: &[
            Router { id: "1.1.1.1", area: BACKBONE, interfaces: &[(ONE, "port = 5001\npeers = [5002]\n")] },
            Router { id: "2.2.2.2", area: BACKBONE, interfaces: &[(TWO, "port = 5002\n")] },
        ],
        faults: "a.toml: A11 OneSided: interface 0: port 5001, b.toml: interface 0: port 5002\n",
        notes: "",
    },
    Case {
        name: "A11 of an interface without a port",
        routers: &[
            Router { id: "1.1.1.1", area: BACKBONE, interfaces: &[(ONE, "peers = [5002]\n")] },
            Router { id: "2.2.2.2", area: BACKBONE, interfaces: &[(TWO, "port = 5002\n")] },
        ],
        faults: "a.toml: A11 OneSided: interface 0: no port, b.toml: interface 0: port 5002\n",
        notes: "",
    },
    Case {
        name: "ports that answer each other",
        routers: &[
            Router { id: "1.1.1.1", area: BACKBONE, interfaces: &[(ONE, "port = 5001\npeers = [5002]\n")] },
            Router { id: "2.2.2.2", area: BACKBONE, interfaces: &[(TWO, "port = 5002\npeers = [5001]\n")] },
        ],
        faults: "",
        notes: "",
    },
    Case {
        name: "A12",
        routers: &[
            FIRST,
            Router { id: "2.2.2.2", area: BACKBONE, interfaces: &[("kind = \"point-to-point\"\naddress = \"10.0.0.2/30\"\ncost = 20\n", "")] },
        ],
        faults: "",
        notes: "b.toml: A12 Cost: interface 0: cost 20, a.toml: interface 0: cost 10\n  traffic may take different paths in the two directions\n",
    },
    Case {
        name: "A13",
        routers: &[FIRST],
        faults: "",
        notes: "a.toml: A13 NoNeighbor: interface 0: address 10.0.0.1/30\n  no other interface is on this network: it is a stub\n",
    },
    Case {
        name: "A14",
        routers: &[
            Router { id: "1.1.1.1", area: BACKBONE, interfaces: &[(ONE, "transmit_delay = 1000\n")] },
            Router { id: "2.2.2.2", area: BACKBONE, interfaces: &[(TWO, "transmit_delay = 901\n")] },
        ],
        faults: "b.toml: A14 Delay: interface 0: transmit_delay 901, a.toml: interface 0: transmit_delay 1000\n",
        notes: "",
    },
    Case {
        name: "no A14 where one end has 900",
        routers: &[
            Router { id: "1.1.1.1", area: BACKBONE, interfaces: &[(ONE, "transmit_delay = 1000\n")] },
            Router { id: "2.2.2.2", area: BACKBONE, interfaces: &[(TWO, "transmit_delay = 900\n")] },
        ],
        faults: "",
        notes: "",
    },
    Case {
        name: "A14 where the first is not slow",
        routers: &[
            Router { id: "1.1.1.1", area: BACKBONE, interfaces: &[(WIDE_ONE, "")] },
            Router { id: "2.2.2.2", area: BACKBONE, interfaces: &[(WIDE_TWO, "transmit_delay = 3600\n")] },
            Router { id: "3.3.3.3", area: BACKBONE, interfaces: &[(WIDE_THREE, "transmit_delay = 2000\n")] },
        ],
        faults: "a.toml: A9 TooManyRouters: interface 0: address 10.0.0.1/29, c.toml: interface 0: address 10.0.0.3/29\nc.toml: A14 Delay: interface 0: transmit_delay 2000, b.toml: interface 0: transmit_delay 3600\nb.toml: A18 Partitioned: router_id 2.2.2.2, a.toml: router_id 1.1.1.1\nc.toml: A18 Partitioned: router_id 3.3.3.3, a.toml: router_id 1.1.1.1\n",
        notes: "",
    },
    Case {
        name: "A14 of one slow end of a broadcast network",
        routers: &[
            Router { id: "1.1.1.1", area: BACKBONE, interfaces: &[(ONE, "")] },
            Router { id: "2.2.2.2", area: BACKBONE, interfaces: &[(TWO, ""), (LAN_ONE, "priority = 0\ntransmit_delay = 901\n")] },
            Router { id: "3.3.3.3", area: BACKBONE, interfaces: &[(LAN_TWO, "")] },
        ],
        faults: "b.toml: A14 Delay: interface 1: transmit_delay 901, c.toml: interface 0: transmit_delay 1\n",
        notes: "",
    },
    Case {
        name: "A14 of each slow end of a broadcast network",
        routers: &[
            Router { id: "1.1.1.1", area: BACKBONE, interfaces: &[(LAN_ONE, "")] },
            Router { id: "2.2.2.2", area: BACKBONE, interfaces: &[(LAN_TWO, "transmit_delay = 3600\n")] },
            Router { id: "3.3.3.3", area: BACKBONE, interfaces: &[(LAN_THREE, "transmit_delay = 2000\n")] },
        ],
        faults: "b.toml: A14 Delay: interface 0: transmit_delay 3600, a.toml: interface 0: transmit_delay 1\nc.toml: A14 Delay: interface 0: transmit_delay 2000, a.toml: interface 0: transmit_delay 1\n",
        notes: "",
    },
    Case {
        name: "no A14 of a broadcast network with 900",
        routers: &[
            Router { id: "1.1.1.1", area: BACKBONE, interfaces: &[(LAN_ONE, "")] },
            Router { id: "2.2.2.2", area: BACKBONE, interfaces: &[(LAN_TWO, "transmit_delay = 900\n")] },
        ],
        faults: "",
        notes: "",
    },
    Case {
        name: "no A14 of a slow end with nobody there",
        routers: &[Router { id: "1.1.1.1", area: BACKBONE, interfaces: &[(STUB, "transmit_delay = 3600\n")] }],
        faults: "",
        notes: "a.toml: A13 NoNeighbor: interface 0: address 192.168.3.1/24\n  no other interface is on this network: it is a stub\n",
    },
    Case {
        name: "A15 in one file",
        routers: &[Router { id: "1.1.1.1", area: BACKBONE, interfaces: &[(ONE, "port = 5001\n"), (STUB, "port = 5001\n")] }],
        faults: "a.toml: A15 SamePort: interface 1: port 5001, a.toml: interface 0: port 5001\n",
        notes: "a.toml: A13 NoNeighbor: interface 0: address 10.0.0.1/30\n  no other interface is on this network: it is a stub\na.toml: A13 NoNeighbor: interface 1: address 192.168.3.1/24\n  no other interface is on this network: it is a stub\n",
    },
    Case {
        name: "A15 in two files",
        routers: &[
            Router { id: "1.1.1.1", area: BACKBONE, interfaces: &[(ONE, "port = 5001\n")] },
            Router { id: "2.2.2.2", area: BACKBONE, interfaces: &[(TWO, "port = 5001\n")] },
        ],
        faults: "b.toml: A15 SamePort: interface 0: port 5001, a.toml: interface 0: port 5001\n",
        notes: "",
    },
    Case {
        name: "A16, and A11 behind it",
        routers: &[
            Router { id: "1.1.1.1", area: BACKBONE, interfaces: &[(ONE, "port = 5001\npeers = [5002]\n")] },
            Router { id: "2.2.2.2", area: BACKBONE, interfaces: &[(TWO, "port = 5003\npeers = [5001]\n"), (STUB, "port = 5002\n")] },
        ],
        faults: "a.toml: A16 WrongSubnetPeer: interface 0: port 5001, b.toml: interface 1: port 5002\nb.toml: A11 OneSided: interface 0: port 5003, a.toml: interface 0: port 5001\n",
        notes: "b.toml: A13 NoNeighbor: interface 1: address 192.168.3.1/24\n  no other interface is on this network: it is a stub\n",
    },
    Case {
        name: "A17",
        routers: &[
            Router { id: "1.1.1.1", area: BACKBONE, interfaces: &[(ONE, "port = 5001\npeers = [5002, 5009]\n")] },
            Router { id: "2.2.2.2", area: BACKBONE, interfaces: &[(TWO, "port = 5002\npeers = [5001]\n")] },
        ],
        faults: "",
        notes: "a.toml: A17 UnknownPeer: interface 0: peers 5009\n  no router of these files listens on this port\n",
    },
    Case {
        name: "A16 and A17 once of a port that is twice in peers",
        routers: &[
            Router { id: "1.1.1.1", area: BACKBONE, interfaces: &[(ONE, "port = 5001\npeers = [5002, 5009, 5002, 5009, 5009]\n")] },
            Router { id: "2.2.2.2", area: BACKBONE, interfaces: &[(TWO, "port = 5003\npeers = [5001, 5001]\n"), (STUB, "port = 5002\n")] },
        ],
        faults: "a.toml: A16 WrongSubnetPeer: interface 0: port 5001, b.toml: interface 1: port 5002\nb.toml: A11 OneSided: interface 0: port 5003, a.toml: interface 0: port 5001\n",
        notes: "b.toml: A13 NoNeighbor: interface 1: address 192.168.3.1/24\n  no other interface is on this network: it is a stub\na.toml: A17 UnknownPeer: interface 0: peers 5009\n  no router of these files listens on this port\n",
    },
    Case {
        name: "A19 of a point-to-point network",
        routers: &[
            Router { id: "1.1.1.1", area: BACKBONE, interfaces: &[(ONE, "port = 5001\n")] },
            Router { id: "2.2.2.2", area: BACKBONE, interfaces: &[(TWO, "port = 5002\n")] },
        ],
        faults: "b.toml: A19 Unheard: interface 0: port 5002, a.toml: interface 0: port 5001\n",
        notes: "",
    },
    Case {
        name: "A19 of each interface once, with the first",
        routers: &[
            Router { id: "1.1.1.1", area: BACKBONE, interfaces: &[(LAN_ONE, "port = 5001\n")] },
            Router { id: "2.2.2.2", area: BACKBONE, interfaces: &[(LAN_TWO, "port = 5002\n")] },
            Router { id: "3.3.3.3", area: BACKBONE, interfaces: &[(LAN_THREE, "port = 5003\n")] },
        ],
        faults: "b.toml: A19 Unheard: interface 0: port 5002, a.toml: interface 0: port 5001\nc.toml: A19 Unheard: interface 0: port 5003, a.toml: interface 0: port 5001\n",
        notes: "",
    },
    Case {
        name: "A19 of the second and the third, which the first hears",
        routers: &[
            Router { id: "1.1.1.1", area: BACKBONE, interfaces: &[(LAN_ONE, "port = 5001\npeers = [5002, 5003]\n")] },
            Router { id: "2.2.2.2", area: BACKBONE, interfaces: &[(LAN_TWO, "port = 5002\npeers = [5001]\n")] },
            Router { id: "3.3.3.3", area: BACKBONE, interfaces: &[(LAN_THREE, "port = 5003\npeers = [5001]\n")] },
        ],
        faults: "c.toml: A19 Unheard: interface 0: port 5003, b.toml: interface 0: port 5002\n",
        notes: "",
    },
    Case {
        name: "no A19 where one names the other: that is A11",
        routers: &[
            Router { id: "1.1.1.1", area: BACKBONE, interfaces: &[(LAN_ONE, "port = 5001\npeers = [5002, 5003]\n")] },
            Router { id: "2.2.2.2", area: BACKBONE, interfaces: &[(LAN_TWO, "port = 5002\npeers = [5001]\n")] },
            Router { id: "3.3.3.3", area: BACKBONE, interfaces: &[(LAN_THREE, "port = 5003\npeers = [5001, 5002]\n")] },
        ],
        faults: "c.toml: A11 OneSided: interface 0: port 5003, b.toml: interface 0: port 5002\n",
        notes: "",
    },
    Case {
        name: "no A19 of an interface without a port",
        routers: &[
            Router { id: "1.1.1.1", area: BACKBONE, interfaces: &[(LAN_ONE, "port = 5001\npeers = [5003]\n")] },
            Router { id: "2.2.2.2", area: BACKBONE, interfaces: &[(LAN_TWO, "")] },
            Router { id: "3.3.3.3", area: BACKBONE, interfaces: &[(LAN_THREE, "port = 5003\npeers = [5001]\n")] },
        ],
        faults: "",
        notes: "",
    },
    Case {
        name: "no A19 of two networks",
        routers: &[
            Router { id: "1.1.1.1", area: BACKBONE, interfaces: &[(ONE, "port = 5001\npeers = [5002]\n"), (LAN_ONE, "port = 5003\n")] },
            Router { id: "2.2.2.2", area: BACKBONE, interfaces: &[(TWO, "port = 5002\npeers = [5001]\n"), (STUB, "port = 5004\n")] },
        ],
        faults: "",
        notes: "a.toml: A13 NoNeighbor: interface 1: address 10.1.0.1/24\n  no other interface is on this network: it is a stub\nb.toml: A13 NoNeighbor: interface 1: address 192.168.3.1/24\n  no other interface is on this network: it is a stub\n",
    },
    Case {
        name: "no A19 of two that may hear each other by bridges",
        routers: &[
            Router { id: "1.1.1.1", area: BACKBONE, interfaces: &[(ONE, "port = 5001\npeers = [6001]\n")] },
            Router { id: "2.2.2.2", area: BACKBONE, interfaces: &[(TWO, "port = 5002\npeers = [6002]\n")] },
        ],
        faults: "",
        notes: "a.toml: A17 UnknownPeer: interface 0: peers 6001\n  no router of these files listens on this port\nb.toml: A17 UnknownPeer: interface 0: peers 6002\n  no router of these files listens on this port\n",
    },
    Case {
        name: "A19 where one of two has no bridge",
        routers: &[
            Router { id: "1.1.1.1", area: BACKBONE, interfaces: &[(LAN_ONE, "port = 5001\npeers = [6001]\n")] },
            Router { id: "2.2.2.2", area: BACKBONE, interfaces: &[(LAN_TWO, "port = 5002\npeers = [6002]\n")] },
            Router { id: "3.3.3.3", area: BACKBONE, interfaces: &[(LAN_THREE, "port = 5003\n")] },
        ],
        faults: "c.toml: A19 Unheard: interface 0: port 5003, a.toml: interface 0: port 5001\n",
        notes: "a.toml: A17 UnknownPeer: interface 0: peers 6001\n  no router of these files listens on this port\nb.toml: A17 UnknownPeer: interface 0: peers 6002\n  no router of these files listens on this port\n",
    },
    Case {
        name: "A19 of one with a bridge, with an earlier one that has none",
        routers: &[
            Router { id: "1.1.1.1", area: BACKBONE, interfaces: &[(LAN_ONE, "port = 5001\npeers = [6001]\n")] },
            Router { id: "2.2.2.2", area: BACKBONE, interfaces: &[(LAN_TWO, "port = 5002\npeers = [5001]\n")] },
            Router { id: "3.3.3.3", area: BACKBONE, interfaces: &[(LAN_THREE, "port = 5003\npeers = [6003]\n")] },
        ],
        faults: "b.toml: A11 OneSided: interface 0: port 5002, a.toml: interface 0: port 5001\nc.toml: A19 Unheard: interface 0: port 5003, b.toml: interface 0: port 5002\n",
        notes: "a.toml: A17 UnknownPeer: interface 0: peers 6001\n  no router of these files listens on this port\nc.toml: A17 UnknownPeer: interface 0: peers 6003\n  no router of these files listens on this port\n",
    },
    Case {
        name: "no A19 of an interface with the port of an earlier one, and A18 last",
        routers: &[
            Router { id: "1.1.1.1", area: BACKBONE, interfaces: &[(LAN_ONE, "port = 5001\n")] },
            Router { id: "2.2.2.2", area: BACKBONE, interfaces: &[(LAN_TWO, "port = 5001\n")] },
            Router { id: "3.3.3.3", area: BACKBONE, interfaces: &[(LAN_THREE, "hello = 5\nport = 5003\n")] },
        ],
        faults: "b.toml: A15 SamePort: interface 0: port 5001, a.toml: interface 0: port 5001\nc.toml: A5 Hello: interface 0: hello 5, a.toml: interface 0: hello 10\nc.toml: A19 Unheard: interface 0: port 5003, a.toml: interface 0: port 5001\nc.toml: A18 Partitioned: router_id 3.3.3.3, a.toml: router_id 1.1.1.1\n",
        notes: "",
    },
    Case {
        name: "A18",
        routers: &[FIRST, Router { id: "2.2.2.2", area: BACKBONE, interfaces: &[(LAN_ONE, "")] }, Router { id: "3.3.3.3", area: BACKBONE, interfaces: &[(LAN_TWO, "")] }],
        faults: "b.toml: A18 Partitioned: router_id 2.2.2.2, a.toml: router_id 1.1.1.1\nc.toml: A18 Partitioned: router_id 3.3.3.3, a.toml: router_id 1.1.1.1\n",
        notes: "a.toml: A13 NoNeighbor: interface 0: address 10.0.0.1/30\n  no other interface is on this network: it is a stub\n",
    },
    Case {
        name: "no A18 where another way is left",
        routers: &[
            Router { id: "1.1.1.1", area: BACKBONE, interfaces: &[(ONE, ""), (LAN_ONE, "")] },
            Router { id: "2.2.2.2", area: BACKBONE, interfaces: &[(TWO, "hello = 5\n"), (LAN_TWO, "")] },
        ],
        faults: "b.toml: A5 Hello: interface 0: hello 5, a.toml: interface 0: hello 10\n",
        notes: "",
    },
    Case {
        name: "no A18 of two that agree where the first does not",
        routers: &[
            Router { id: "1.1.1.1", area: BACKBONE, interfaces: &[(LAN_ONE, "hello = 5\n"), (ONE, "")] },
            Router { id: "2.2.2.2", area: BACKBONE, interfaces: &[(LAN_TWO, ""), (TWO, "")] },
            Router { id: "3.3.3.3", area: BACKBONE, interfaces: &[(LAN_THREE, "")] },
        ],
        faults: "b.toml: A5 Hello: interface 0: hello 10, a.toml: interface 0: hello 5\nc.toml: A5 Hello: interface 0: hello 10, a.toml: interface 0: hello 5\n",
        notes: "",
    },
    Case {
        name: "no A18 behind A10 where another way is left",
        routers: &[
            Router { id: "1.1.1.1", area: BACKBONE, interfaces: &[(LAN_ONE, "priority = 0\n"), (ONE, "")] },
            Router { id: "2.2.2.2", area: BACKBONE, interfaces: &[(LAN_TWO, "priority = 0\n"), (TWO, "")] },
        ],
        faults: "a.toml: A10 NoDr: interface 0: priority 0, b.toml: interface 0: priority 0\n",
        notes: "",
    },
    Case {
        name: "A18 where the one that can be elected is in another area",
        routers: &[
            Router { id: "1.1.1.1", area: BACKBONE, interfaces: &[(LAN_ONE, "priority = 0\n")] },
            Router { id: "2.2.2.2", area: BACKBONE, interfaces: &[(LAN_TWO, "priority = 0\n")] },
            Router { id: "3.3.3.3", area: "0.0.0.1", interfaces: &[(LAN_THREE, "")] },
        ],
        faults: "c.toml: A3 Area: interface 0: area 0.0.0.1, a.toml: interface 0: area 0.0.0.0\nb.toml: A18 Partitioned: router_id 2.2.2.2, a.toml: router_id 1.1.1.1\nc.toml: A18 Partitioned: router_id 3.3.3.3, a.toml: router_id 1.1.1.1\n",
        notes: "c.toml: A20 LoneDr: interface 0: priority 1\n  if this router fails, the others elect no Designated Router: no adjacency forms, and no route uses the network (sections 9.4 and 10.4)\n",
    },
    Case {
        name: "A20",
        routers: &[
            Router { id: "1.1.1.1", area: BACKBONE, interfaces: &[(LAN_ONE, "")] },
            Router { id: "2.2.2.2", area: BACKBONE, interfaces: &[(LAN_TWO, "priority = 0\n")] },
            Router { id: "3.3.3.3", area: BACKBONE, interfaces: &[(LAN_THREE, "priority = 0\n")] },
        ],
        faults: "",
        notes: "a.toml: A20 LoneDr: interface 0: priority 1\n  if this router fails, the others elect no Designated Router: no adjacency forms, and no route uses the network (sections 9.4 and 10.4)\n",
    },
    Case {
        name: "A20 of the third",
        routers: &[
            Router { id: "1.1.1.1", area: BACKBONE, interfaces: &[(LAN_ONE, "priority = 0\n")] },
            Router { id: "2.2.2.2", area: BACKBONE, interfaces: &[(LAN_TWO, "priority = 0\n")] },
            Router { id: "3.3.3.3", area: BACKBONE, interfaces: &[(LAN_THREE, "priority = 7\n")] },
        ],
        faults: "",
        notes: "c.toml: A20 LoneDr: interface 0: priority 7\n  if this router fails, the others elect no Designated Router: no adjacency forms, and no route uses the network (sections 9.4 and 10.4)\n",
    },
    Case {
        name: "no A20 where two can be elected",
        routers: &[
            Router { id: "1.1.1.1", area: BACKBONE, interfaces: &[(LAN_ONE, "")] },
            Router { id: "2.2.2.2", area: BACKBONE, interfaces: &[(LAN_TWO, "priority = 0\n")] },
            Router { id: "3.3.3.3", area: BACKBONE, interfaces: &[(LAN_THREE, "")] },
        ],
        faults: "",
        notes: "",
    },
    Case {
        name: "no A20 of a point-to-point network",
        routers: &[
            Router { id: "1.1.1.1", area: BACKBONE, interfaces: &[(WIDE_ONE, "")] },
            Router { id: "2.2.2.2", area: BACKBONE, interfaces: &[(WIDE_TWO, "priority = 0\n")] },
            Router { id: "3.3.3.3", area: BACKBONE, interfaces: &[(WIDE_THREE, "priority = 0\n")] },
        ],
        faults: "a.toml: A9 TooManyRouters: interface 0: address 10.0.0.1/29, c.toml: interface 0: address 10.0.0.3/29\nb.toml: A18 Partitioned: router_id 2.2.2.2, a.toml: router_id 1.1.1.1\nc.toml: A18 Partitioned: router_id 3.3.3.3, a.toml: router_id 1.1.1.1\n",
        notes: "",
    },
];

// What was told, and the status.
#[derive(Drop)]
struct Outcome {
    out: Vec<u8>,
    err: Vec<u8>,
    status: Status,
}

// The text of a configuration.
fn text_of(alloc: Global, router: &Router) -> Result<String, AllocError> {
    let mut text =
        format!(in alloc; "router_id = \"{}\"\narea = \"{}\"\n", router.id, router.area)?;
    for (base, more) in router.interfaces {
        text.push_str(&format!(in alloc; "[[interface]]\n{base}{more}")?)?;
    }
    Ok(text)
}

// A file of this text, or one that could not be read.
fn named(alloc: Global, name: &str, text: Option<&str>) -> Result<NamedFile, AllocError> {
    let bytes = match text {
        Some(text) => {
            let mut copy = Vec::new(alloc);
            copy.extend_from_slice(text.as_bytes())?;
            Some(copy)
        }
        None => None,
    };
    Ok(NamedFile {
        name: String::from_str(alloc, name)?,
        bytes,
    })
}

const NAMES: [&str; 3] = ["a.toml", "b.toml", "c.toml"];

// Files of these configurations.
fn files_of(alloc: Global, routers: &[Router]) -> Result<Vec<NamedFile>, AllocError> {
    let mut files = Vec::new(alloc);
    for (number, router) in routers.iter().enumerate() {
        let text = text_of(alloc, router)?;
        files.push(named(alloc, NAMES[number], Some(text.as_str()))?)?;
    }
    Ok(files)
}

fn told_of(alloc: Global, files: &[NamedFile], how: Telling) -> Outcome {
    let mut out = Vec::new(alloc);
    let mut err = Vec::new(alloc);
    let status = check_area_text(alloc, files, how, &mut out, &mut err);
    Outcome { out, err, status }
}

#[test]
fn tells_each_fault(rt: HostRuntime) -> Result<(), Fail> {
    for case in &CASES {
        let name = case.name;
        let files = files_of(rt.alloc(), case.routers)?;
        let told = told_of(rt.alloc(), &files, Telling::Verdict);
        let status = if case.faults.is_empty() {
            Status::Done
        } else {
            Status::Refused
        };
        assert_eq!(rt; told.err.as_slice(), case.faults.as_bytes(), "{name}");
        assert_eq!(rt; told.out.len(), files.len() * "a.toml: ok\n".len(), "{name}");
        assert_eq!(rt; told.status, status, "{name}");
    }
    Ok(())
}

#[test]
fn tells_notes_where_it_explains(rt: HostRuntime) -> Result<(), Fail> {
    for case in &CASES {
        let name = case.name;
        let files = files_of(rt.alloc(), case.routers)?;
        let told = told_of(rt.alloc(), &files, Telling::Explained);
        let mut alone = Vec::new(rt.alloc());
        let mut none = Vec::new(rt.alloc());
        check_text(rt.alloc(), &files, Telling::Explained, &mut alone, &mut none);
        alone.extend_from_slice(case.notes.as_bytes())?;
        assert_eq!(rt; told.out.as_slice(), alone.as_slice(), "{name}");
        assert_eq!(rt; told.err.is_empty(), case.faults.is_empty(), "{name}");
    }
    Ok(())
}

// Three configurations with several faults each.
static MANY: [Router; 3] = [
    Router {
        id: "1.1.1.1",
        area: BACKBONE,
        interfaces: &[
            (ONE, "port = 5001\npeers = [5002]\n"),
            (LAN_ONE, "priority = 0\n"),
        ],
    },
    Router {
        id: "2.2.2.2",
        area: BACKBONE,
        interfaces: &[
            (LAN_TWO, "priority = 0\n"),
            (
                "kind = \"point-to-point\"\naddress = \"10.0.0.2/30\"\ncost = 20\n",
                "hello = 5\nmtu = 1400\nport = 5002\npeers = [5003]\n",
            ),
        ],
    },
    Router {
        id: "1.1.1.1",
        area: "0.0.0.1",
        interfaces: &[
            (
                "kind = \"point-to-point\"\naddress = \"10.1.0.2/25\"\ncost = 5\n",
                "",
            ),
            (STUB, ""),
        ],
    },
];

#[test]
fn tells_in_order(rt: HostRuntime) -> Result<(), Fail> {
    let files = files_of(rt.alloc(), &MANY)?;
    let told = told_of(rt.alloc(), &files, Telling::Verdict);
    assert_eq!(rt;
        told.err.as_slice(),
        b"a.toml: A10 NoDr: interface 1: priority 0, b.toml: interface 0: priority 0\nb.toml: A5 Hello: interface 1: hello 5, a.toml: interface 0: hello 10\nb.toml: A7 Mtu: interface 1: mtu 1400, a.toml: interface 0: mtu 1500\nc.toml: A1 SameRouter: router_id 1.1.1.1, a.toml: router_id 1.1.1.1\nc.toml: A2 SameAddress: interface 0: address 10.1.0.2/25, b.toml: interface 0: address 10.1.0.2/24\nc.toml: A8 Mask: interface 0: address 10.1.0.2/25, a.toml: interface 1: address 10.1.0.1/24\na.toml: A11 OneSided: interface 0: port 5001, b.toml: interface 1: port 5002\nb.toml: A18 Partitioned: router_id 2.2.2.2, a.toml: router_id 1.1.1.1\nc.toml: A18 Partitioned: router_id 1.1.1.1, a.toml: router_id 1.1.1.1\n".as_slice()
    );
    assert_eq!(rt; told.out.as_slice(), b"a.toml: ok\nb.toml: ok\nc.toml: ok\n".as_slice());
    assert_eq!(rt; told.status, Status::Refused);
    Ok(())
}

#[test]
fn tells_nothing_more_where_a_file_is_refused(rt: HostRuntime) -> Result<(), Fail> {
    let alloc = rt.alloc();
    let text = text_of(alloc, &FIRST)?;
    let good = Some(text.as_str());
    let files = [
        named(alloc, "a.toml", good)?,
        named(alloc, "b.toml", Some("x"))?,
        named(alloc, "c.toml", good)?,
    ];
    let told = told_of(alloc, &files, Telling::Verdict);
    assert_eq!(rt; told.out.as_slice(), b"a.toml: ok\nc.toml: ok\n".as_slice());
    assert_eq!(rt; told.err.as_slice(), b"b.toml: C1 NotToml\n".as_slice());
    assert_eq!(rt; told.status, Status::Refused);
    let files = [
        named(alloc, "a.toml", good)?,
        named(alloc, "b.toml", None)?,
        named(alloc, "c.toml", good)?,
    ];
    let told = told_of(alloc, &files, Telling::Verdict);
    assert_eq!(rt; told.out.as_slice(), b"a.toml: ok\n".as_slice());
    assert_eq!(rt; told.err.as_slice(), b"b.toml: not read\n".as_slice());
    assert_eq!(rt; told.status, Status::Stream);
    Ok(())
}

#[test]
fn explains_a_fault(rt: HostRuntime) -> Result<(), Fail> {
    let files = files_of(
        rt.alloc(),
        &[
            FIRST,
            Router {
                id: "2.2.2.2",
                area: BACKBONE,
                interfaces: &[(TWO, "hello = 5\n")],
            },
        ],
    )?;
    let told = told_of(rt.alloc(), &files, Telling::Explained);
    assert_eq!(rt;
        told.err.as_slice(),
        b"b.toml: A5 Hello: interface 0: hello 5, a.toml: interface 0: hello 10\n  each drops the other's Hellos: they never become neighbors (section 10.5)\nb.toml: A18 Partitioned: router_id 2.2.2.2, a.toml: router_id 1.1.1.1\n  the area is partitioned: over these networks no route leads there\n".as_slice()
    );
    assert_eq!(rt; told.status, Status::Refused);
    Ok(())
}

#[test]
fn warns_of_a_delay_over_900(rt: HostRuntime) -> Result<(), Fail> {
    let alloc = rt.alloc();
    for (delay, lines) in [(900, 1), (901, 2), (3600, 2)] {
        let text = format!(in alloc; "router_id = \"1.1.1.1\"\narea = \"0.0.0.0\"\n[[interface]]\n{ONE}transmit_delay = {delay}\n")?;
        let files = [named(alloc, "a.toml", Some(text.as_str()))?];
        for how in [Telling::Verdict, Telling::Explained, Telling::AllExplained] {
            let explain = how != Telling::Verdict;
            let mut out = Vec::new(alloc);
            let mut err = Vec::new(alloc);
            let status = check_text(alloc, &files, how, &mut out, &mut err);
            let ends = out.iter().filter(|byte| **byte == b'\n').count();
            let warning =
                format!(in alloc; "a.toml: ok\n  interface 0: transmit_delay {delay}: above 900")?;
            let is_warned = out.starts_with(warning.as_bytes());
            assert_eq!(rt; ends, if explain { lines } else { 1 }, "{delay}");
            assert_eq!(rt; is_warned, explain && lines == 2, "{delay}");
            assert_eq!(rt; status, Status::Done, "{delay}");
            assert!(rt; err.is_empty(), "{delay}");
        }
    }
    Ok(())
}

// A router that passes LSAs over is warned where it can become Designated Router.
#[test]
fn warns_of_leaves_that_can_lead(rt: HostRuntime) -> Result<(), Fail> {
    let alloc = rt.alloc();
    let line = "  interface 0: priority 7: as Designated Router it would not flood the LSAs that it passes over (other_lsas), so the other routers would get them late or not at all; set priority = 0 to keep it out of the election (RFC 2328, section 13.3)\n";
    for (others, interface, priority, is_warned) in [
        ("pass over", LAN_ONE, 7, true),
        ("pass over", LAN_ONE, 0, false),
        ("pass over", ONE, 7, false),
        ("refuse", LAN_ONE, 7, false),
    ] {
        let text = format!(in alloc; "router_id = \"1.1.1.1\"\narea = \"0.0.0.0\"\nother_lsas = \"{others}\"\n[[interface]]\n{interface}priority = {priority}\n")?;
        let files = [named(alloc, "a.toml", Some(text.as_str()))?];
        let mut out = Vec::new(alloc);
        let mut err = Vec::new(alloc);
        let status = check_text(alloc, &files, Telling::Explained, &mut out, &mut err);
        let told = if is_warned { line } else { "" };
        let wanted = format!(in alloc; "a.toml: ok\n{told}")?;
        assert!(rt; out.as_slice() == wanted.as_bytes());
        assert_eq!(rt; status, Status::Done);
        assert!(rt; err.is_empty());
    }
    Ok(())
}

#[test]
fn tells_of_failed_writes(rt: HostRuntime) -> Result<(), Fail> {
    let alloc = rt.alloc();
    let files = files_of(
        alloc,
        &[
            FIRST,
            Router {
                id: "2.2.2.2",
                area: BACKBONE,
                interfaces: &[(TWO, "hello = 5\n")],
            },
        ],
    )?;
    // Each line is a write and a flush.
    for left in 0..2 {
        let mut out = Vec::new(alloc);
        let mut err = Failing { left };
        let failed = check_area_text(alloc, &files, Telling::Verdict, &mut out, &mut err);
        assert_eq!(rt; failed, Status::Stream, "{left}");
        assert_eq!(rt; out.as_slice(), b"a.toml: ok\nb.toml: ok\n".as_slice(), "{left}");
    }
    let files = files_of(alloc, &[FIRST])?;
    for left in 0..4 {
        let mut out = Failing { left };
        let mut err = Vec::new(alloc);
        let failed = check_area_text(alloc, &files, Telling::Explained, &mut out, &mut err);
        assert_eq!(rt; failed, Status::Stream, "{left}");
        assert_eq!(rt; err.as_slice(), b"standard output: not written\n".as_slice(), "{left}");
    }
    let mut out = Failing { left: 4 };
    let mut err = Vec::new(alloc);
    let written = check_area_text(alloc, &files, Telling::Explained, &mut out, &mut err);
    assert_eq!(rt; written, Status::Done);
    Ok(())
}

#[test]
fn finds_and_shows(rt: HostRuntime) -> Result<(), Fail> {
    let alloc = rt.alloc();
    let mut configs = Vec::new(alloc);
    for router in [
        &FIRST,
        &Router {
            id: "2.2.2.2",
            area: BACKBONE,
            interfaces: &[(TWO, "dead = 50\n")],
        },
    ] {
        let text = text_of(alloc, router)?;
        match Config::from_text(alloc, &text) {
            Ok(config) => configs.push(config).map_err(AllocError::from)?,
            Err(fault) => assert!(rt; false, "{fault}"),
        }
    }
    let found = findings(alloc, &configs)?;
    assert_eq!(rt; found.len(), 2);
    assert_eq!(rt; found[1].fault, AreaFault::Partitioned);
    let finding = found[0];
    assert_eq!(rt; finding.fault, AreaFault::Dead);
    assert_eq!(rt; (finding.here.file, finding.here.link), (1, 0));
    assert_eq!(rt; (finding.other.file, finding.other.link), (0, 0));
    let told = NamedFinding {
        finding,
        here: "here",
        other: "there",
    };
    let shown = format!(in alloc; "{told}")?;
    assert_eq!(rt;
        shown.as_str(),
        "here: A6 Dead: interface 0: dead 50, there: interface 0: dead 40"
    );
    assert_eq!(rt; AreaFault::UnknownPeer(5009).text(), "A17 UnknownPeer");
    assert!(rt; AreaFault::Cost.is_note());
    assert!(rt; !AreaFault::Area.is_note());
    assert_eq!(rt; AreaFault::NoNeighbor.meaning(), "no other interface is on this network: it is a stub");
    assert!(rt; is_slow(901) && !is_slow(900));
    Ok(())
}
