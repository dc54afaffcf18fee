"""Configurations of Junos, in braces and as `set` lines."""
from .reasons import AUTH, HOST, SHORT, of_one

JUNOS_BRACES = {"r1.conf": """\
## Last commit: today
system { host-name edge1; }
interfaces {
    ge-0/0/0 {
        mtu 1514;
        unit 0 { family inet { address 10.0.0.1/30; } }
    }
    xe-0/0/1 { unit 0 { family inet { mtu 2000; address 10.0.1.1/24 { primary; } } } }
    ge-0/0/2 { unit 0 { family inet { address 10.0.2.0/31; } } }
    ge-0/0/3 { unit 0 { family inet { unnumbered-address lo0.0; } } }
    ge-0/0/4 { disable; unit 0 { family inet { address 10.0.4.1/24; } } }
    ge-0/0/5 { unit 7 { family inet { address 10.0.5.1/24; } } }
    lo0 { unit 0 { family inet { address 10.255.0.1/32; } } }
}
routing-options { router-id 10.255.0.1; }
protocols {
    ospf {
        export [ direct static ];
        reference-bandwidth 100g;
        overload;
        area 0.0.0.0 {
            interface ge-0/0/0.0 {
                interface-type p2p;
                metric 15;
                hello-interval 2;
                authentication { md5 1 key "x y"; }
            }
            interface xe-0/0/1.0 { priority 1; dead-interval 50; }
            interface ge-0/0/2.0;
            interface ge-0/0/3.0 { interface-type p2p; }
            interface ge-0/0/4.0;
            interface lo0.0 { passive; }
            inactive: interface ge-0/0/8.0 { metric 3; }
            interface ge-0/0/9.0 { colour blue; }
            area-range 10.0.0.0/8;
        }
        area 0.0.0.7 { nssa; interface ge-0/0/5.7 { metric 1; } }
    }
    bgp { group x { type internal; } }
}
"""}
JUNOS_SET = {"r1.conf": """\
set system host-name edge1
set interfaces ge-0/0/0 mtu 1514
set interfaces ge-0/0/0 unit 0 family inet address 10.0.0.1/30
set interfaces xe-0/0/1 unit 0 family inet mtu 2000
set interfaces xe-0/0/1 unit 0 family inet address 10.0.1.1/24 primary
set interfaces lo0 unit 0 family inet address 10.255.0.1/32
set routing-options router-id 10.255.0.1
set protocols ospf reference-bandwidth 100g
set protocols ospf overload
set protocols ospf area 0 interface ge-0/0/0.0 interface-type p2p
set protocols ospf area 0 interface ge-0/0/0 metric 15
set protocols ospf area 0 interface ge-0/0/0.0 hello-interval 2
set protocols ospf area 0 interface xe-0/0/1.0 priority 1
set protocols ospf area 0 interface xe-0/0/1.0 dead-interval 50
set protocols ospf area 0 interface ge-0/0/8.0 metric 3
deactivate protocols ospf area 0 interface ge-0/0/8.0
set protocols ospf area 0 interface lo0.0 passive
"""}
JUNOS_WANTED = {"10.255.0.1": [
    "0.0.0.0 stub_router", "point-to-point 10.0.0.1/30 cost 15 priority 128 hello 2 dead 8",
    "broadcast 10.0.1.1/24 cost 10 dead 50 mtu 2000"]}
METRIC = "cost 10: no metric in the file: 10000 Mbit/s by the name"
JUNOS_BRACES_REPORT = [
    "6: assumed: ge-0/0/0.0 10.0.0.1/30: dead 8: four times hello",
    f"8: assumed: xe-0/0/1.0 10.0.1.1/24: {METRIC}",
    f"9: left out: ge-0/0/2.0 10.0.2.0/31: {SHORT}",
    "11: left out: ge-0/0/4.0 10.0.4.1/24: the interface is down",
    "12: left out: ge-0/0/5.7 10.0.5.1/24: area 0.0.0.7",
    f"13: left out: lo0.0 10.255.0.1/32: {HOST}",
    "18: left out: protocols ospf export direct static: routes from outside the area are not "
    "imported",
    "26: left out: protocols ospf area 0.0.0.0 interface ge-0/0/0.0 authentication md5 ..: "
    f"{AUTH}",
    "30: left out: area 0.0.0.0 interface ge-0/0/3.0: unnumbered: the format needs an "
    "address with a subnet",
    "33: left out: protocols ospf area 0.0.0.0 inactive: interface ge-0/0/8.0: inactive",
    "34: not understood: colour, in: protocols ospf area 0.0.0.0 interface ge-0/0/9.0 colour ..",
    "34: left out: area 0.0.0.0 interface ge-0/0/9.0: no address in the file",
    "35: left out: protocols ospf area 0.0.0.0 area-range 10.0.0.0/8: routes to and from other "
    "areas are not computed",
    "37: left out: protocols ospf area 0.0.0.7 nssa: stub areas and NSSAs are written as "
    "normal areas"]
JUNOS_SET_REPORT = [
    "3: assumed: ge-0/0/0.0 10.0.0.1/30: dead 8: four times hello",
    f"5: assumed: xe-0/0/1.0 10.0.1.1/24: {METRIC}",
    f"6: left out: lo0.0 10.255.0.1/32: {HOST}",
    "16: left out: deactivate protocols ospf area 0 interface ge-0/0/8.0: inactive"]

# All interfaces, but for one that is named by its address.
JUNOS_ALL = {"r1.conf": """\
set interfaces ge-0/0/0 unit 0 family inet address 10.0.0.1/30
set interfaces ge-0/0/1 unit 0 family inet address 10.0.1.1/30
set interfaces lo0 unit 0 family inet address 127.0.0.1/32
set interfaces lo0 unit 0 family inet address 10.255.0.9/32
set protocols ospf area 5 interface all metric 3
set protocols ospf area 5 interface 10.0.1.1 metric 4
set protocols ospf overload timeout 60
"""}
JUNOS_ALL_WANTED = {"10.255.0.9": ["0.0.0.5", "broadcast 10.0.0.1/30 cost 3 priority 128",
                                   "broadcast 10.0.1.1/30 cost 4 priority 128"]}
JUNOS_ALL_REPORT = [
    f"r1.conf:4: left out: lo0.0 10.255.0.9/32: {HOST}",
    "r1.conf:7: left out: protocols ospf overload timeout 60: only for some time",
    "r1.conf: assumed: router_id 10.255.0.9: the file gives none: an address of it"]

# Each: its name, the dialect and options, the files and those named, what is wanted, and tables.
CASES = [
    ("Junos, braces", ["junos", "--area", "0"], JUNOS_BRACES, ["r1.conf"], JUNOS_WANTED,
     of_one("r1.conf", JUNOS_BRACES_REPORT), {}),
    ("Junos, set", ["junos"], JUNOS_SET, ["r1.conf"], JUNOS_WANTED,
     of_one("r1.conf", JUNOS_SET_REPORT), {}),
    ("Junos, all interfaces", ["junos"], JUNOS_ALL, ["r1.conf"], JUNOS_ALL_WANTED,
     JUNOS_ALL_REPORT, {}),
]
