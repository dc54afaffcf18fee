"""Configurations of BIRD 2."""
from .reasons import AUTH, EFFECT

BIRD = {"r1.conf": """\
# A border router.
log syslog all;
router id 10.255.0.1;
define COST = 15; /* of the
core */
include "peers.conf";
filter ok { if net ~ 10.0.0.0/8 then { accept; } else reject; }
protocol device { }
template ospf common { tick 2; rfc1583compat yes; }
protocol ospf v2 main from common {
  ipv4 { import all; export where source = RTS_STATIC; };
  ecmp yes;
  stub router yes;
  area 0 {
    stubnet 172.16.0.0/16;
    interface "-eth9", "eth*" {
      type ptp; cost COST; hello 5; dead count 3; retransmit 6; priority 7;
      authentication cryptographic; password "secret";
      transmit delay 2;
      colour blue;
    };
    interface "lo" { stub; };
    interface 10.5.0.0/16 { cost 20; type nbma; };
    interface -"eth*", "wg0" { authentication none; };
    interface "none*" { cost 2; };
  };
  area 0.0.0.1 { stub; interface "eth9" { cost 3; wait 40; }; };
}
protocol ospf v3 six { ipv6 {}; area 0 { interface "*"; }; }
""",
        "addresses": """\
lo               UNKNOWN        127.0.0.1/8 10.255.0.1/32 ::1/128
eth0@if7         UP             10.0.0.1/30 fe80::1/64
eth1             UP             10.0.1.1/31
eth5             UP             10.0.5.1/24 metric 100
eth9             UP             10.9.0.1/24
br0              UP             10.5.0.1/24
wg0              UNKNOWN        10.6.0.1/24
eth8             UP             10.8.0.1 peer 10.8.0.2/32
eth7             DOWN
eth6             UP             10.0.0/24
"""}
BIRD_WANTED = {"10.255.0.1": [
    "0.0.0.0 stub_router rfc3021",
    "point-to-point 10.0.0.1/30 cost 15 priority 7 hello 5 dead 15 retransmit 6 transmit_delay 2",
    "point-to-point 10.0.1.1/31 cost 15 priority 7 hello 5 dead 15 retransmit 6 transmit_delay 2",
    "point-to-point 10.0.5.1/24 cost 15 priority 7 hello 5 dead 15 retransmit 6 transmit_delay 2",
    "point-to-point 10.6.0.1/24 cost 10"]}
BIRD_REPORT = [
    'r1.conf:6: left out: include "peers.conf": not read: name a file that has all',
    f"r1.conf:9: left out: tick 2: {EFFECT}",
    "r1.conf:9: left out: rfc1583compat yes: routes from outside the area are not imported",
    "r1.conf:11: left out: export where source = RTS_STATIC: routes from outside the area are not "
    "imported",
    f"r1.conf:12: left out: ecmp yes: {EFFECT}",
    "r1.conf:15: left out: stubnet 172.16.0.0/16: a network without an address of this router",
    f"r1.conf:18: left out: authentication cryptographic: {AUTH}",
    f"r1.conf:18: left out: password ..: {AUTH}",
    "r1.conf:20: not understood: colour, in: colour ..",
    'r1.conf:25: left out: interface "none*": no address matches it',
    "r1.conf:27: left out: stub: stub areas and NSSAs are written as normal areas",
    "r1.conf:27: left out: wait 40: the wait timer is RouterDeadInterval",
    "r1.conf:29: left out: protocol ospf v3 six: OSPFv3",
    "addresses:1: left out: lo 10.255.0.1/32: add it as a table [[host]], with its cost",
    "addresses:5: left out: eth9 10.9.0.1/24: area 0.0.0.1",
    "addresses:6: left out: br0 10.5.0.1/24: network type nbma",
    "addresses:7: assumed: wg0 10.6.0.1/24: point-to-point: by the name",
    "addresses:8: left out: eth8 UP 10.8.0.1 peer 10.8.0.2/32: an address "
    "with a peer",
    "addresses:10: not understood: 10.0.0/24, in: eth6 UP 10.0.0/24"]

# Addresses and a Router ID that the file does not have.
BIRD_BARE = {
    "r1.conf": """\
protocol ospf {
  area 3 {
    interface "eth0", "eth1" { cost 1 + 2; stub no; };
    interface "*" { stub yes; cost 4; };
  };
}
""",
    "addresses": """\
lo    UNKNOWN  127.0.0.1/8 ::1/128
eth0  UP       10.0.1.2/24
eth1  UP       10.0.0.1/24
eth2  UP       10.0.2.1/24
"""}
BIRD_BARE_WANTED = {"10.0.0.1": [
    "0.0.0.3", "broadcast 10.0.1.2/24 cost 10", "broadcast 10.0.0.1/24 cost 10",
    "broadcast 10.0.2.1/24 cost 4 passive true"]}
BIRD_BARE_REPORT = [
    "r1.conf:3: not understood: 1, in: cost 1 ..",
    "r1.conf: assumed: router_id 10.0.0.1: the file gives none: the lowest address"]

# Each: its name, the dialect and options, the files and those named, what is wanted, and tables.
CASES = [
    ("BIRD", ["bird", "--area", "0", "--addresses", "addresses"], BIRD, ["r1.conf"], BIRD_WANTED,
     BIRD_REPORT, {}),
    ("BIRD, without a Router ID", ["bird", "--addresses", "addresses"], BIRD_BARE, ["r1.conf"],
     BIRD_BARE_WANTED, BIRD_BARE_REPORT, {}),
]
