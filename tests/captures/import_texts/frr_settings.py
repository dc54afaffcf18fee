"""Settings of interfaces and of OSPF in FRR: what the format has of them, and what it lacks."""
from .reasons import AUTH, BAD_ADDRESS, LOOPBACK, SHORT, SPEED, of_one

# By hand: a host of a loopback that is one already, and one too many.
HOSTS = {"r1.conf": """\
interface lo
 ip address 10.9.0.1/32
 ip address 10.9.0.1/24
 ip address 10.0.0.1/32
interface lo:1
 ip address 240.0.0.1/32
interface dummy0
 ip address 10.9.0.2/32
 ip ospf cost 8
interface eth0
 ip address 10.0.0.1/24
 ip ospf cost 10
interface eth1
 ip address 10.8.0.1/31
 ip ospf network point-to-point
 ip ospf cost 10
router ospf
 ospf router-id 1.1.1.1
 network 0.0.0.0/0 area 0
"""}
HOSTS_WANTED = {"1.1.1.1": ["0.0.0.0 rfc3021", "point-to-point 10.8.0.1/31 cost 10",
                            "host 10.9.0.1 cost 0", "host 10.0.0.1 cost 0",
                            "host 10.9.0.2 cost 8"]}
EARLIER = "an earlier interface has this address"
HOSTS_REPORT = [
    f"r1.conf:2: assumed: lo 10.9.0.1/32: {LOOPBACK}",
    f"r1.conf:3: assumed: lo 10.9.0.1/24: {LOOPBACK}",
    f"r1.conf:3: left out: lo 10.9.0.1/24: {EARLIER}",
    f"r1.conf:4: assumed: lo 10.0.0.1/32: {LOOPBACK}",
    f"r1.conf:6: assumed: lo:1 240.0.0.1/32: {LOOPBACK}",
    "r1.conf:6: left out: lo:1 240.0.0.1/32: the format has no interface with such an address",
    f"r1.conf:11: left out: eth0 10.0.0.1/24: {EARLIER}"]
# Everything of FRR that the format lacks.
ALL_OF_FRR = {"r1.conf": """\
hostname r1
interface eth0
 ip address 10.0.0.1/31
 ip ospf area 0
 ip ospf authentication message-digest
 ip ospf message-digest-key 1 md5 secret
interface eth1
 ip address 10.0.1.1/30
 ip ospf area 0
 ip ospf network point-to-multipoint
interface eth2
 ip unnumbered lo
 ip ospf area 0
interface eth3
 ip address 10.0.3.1/24
 ip ospf area 0
 ip ospf cost 70000
 ip ospf dead-interval minimal hello-multiplier 4
 ip ospf mtu-ignore
 ip ospf colour blue
 ip ospf cost ten
interface eth4
 ip address 10.0.4.1/24
 ip address 10.0.4.2/24
 ip address 10.0.5.1/24
 ip ospf area 0
 ip ospf cost 4
 ip ospf cost 5 10.0.5.1
 ip ospf hello-interval 40
 ip ospf dead-interval 40
 no ip ospf priority
interface eth5
 ip address 10.0.6.1/24
 ip ospf area 0
 shutdown
interface eth6
 ip address 10.0.7.0/24
 ip ospf area 0
interface eth7
 ip ospf area 0
interface eth8 vrf RED
 ip address 10.0.8.1/24
 ip ospf area 0
interface eth9
 ip address 10.0.9.1.1/24
interface gre1
 ip address 10.0.10.1/30
 ip ospf area 0
 bandwidth 100
interface eth10
 ip address 224.0.0.1/24
 ip ospf area 0
router ospf
 ospf router-id 1.1.1.1
 network 172.16.0.0/16 area 0
 network 172.17.0.0/16 area five
 area 0 virtual-link 2.2.2.2
 area 0 authentication message-digest
 area 0 tunnel 7
 max-metric router-lsa on-startup 60
 neighbor 10.0.0.9
 no log-adjacency-changes
 frobnicate 7
 auto-cost reference-bandwidth 1000
router ospf vrf RED
 ospf router-id 9.9.9.9
 frobnicate
router bgp 65000
 neighbor 10.0.0.2 remote-as 65001
"""}
ALL_OF_FRR_WANTED = {"1.1.1.1": [
    "0.0.0.0", "broadcast 10.0.3.1/24 cost 1", "broadcast 10.0.4.1/24 cost 4 hello 40 dead 160",
    "broadcast 10.0.5.1/24 cost 5 hello 40 dead 160", "point-to-point 10.0.10.1/30 cost 10"]}
ALL_OF_FRR_REPORT = [
    f"3: left out: eth0 10.0.0.1/31: {SHORT}",
    f"5: left out: ip ospf authentication message-digest: {AUTH}",
    f"6: left out: ip ospf message-digest-key ..: {AUTH}",
    "8: left out: eth1 10.0.1.1/30: network type point-to-multipoint",
    "13: left out: eth2: unnumbered: the format needs an address with a subnet",
    f"15: assumed: eth3 10.0.3.1/24: cost 1: {SPEED}",
    "17: left out: ip ospf cost 70000: 1 to 65535 wanted",
    "18: left out: ip ospf dead-interval minimal hello-multiplier 4: Hellos within a second; the "
    "default is written",
    "19: left out: ip ospf mtu-ignore: the MTU is compared always",
    "20: not understood: colour, in: ip ospf colour ..",
    "21: not understood: ten, in: ip ospf cost ten",
    "23: left out: eth4 10.0.4.1/24: dead 40: not above hello 40",
    "23: assumed: eth4 10.0.4.1/24: dead 160: four times hello",
    "24: left out: eth4 10.0.4.2/24: an earlier interface has this prefix",
    "25: left out: eth4 10.0.5.1/24: dead 40: not above hello 40",
    "25: assumed: eth4 10.0.5.1/24: dead 160: four times hello",
    "31: left out: no ip ospf priority: it is the default",
    "33: left out: eth5 10.0.6.1/24: the interface is down",
    "37: left out: eth6 10.0.7.0/24: the address of the network or its broadcast address",
    "40: left out: eth7: no address",
    "43: left out: eth8: another VRF or instance is another router",
    "45: not understood: 10.0.9.1.1/24, in: ip address 10.0.9.1.1/24",
    "47: assumed: gre1 10.0.10.1/30: point-to-point: by the name",
    f"51: left out: eth10 224.0.0.1/24: {BAD_ADDRESS}",
    "55: left out: network 172.16.0.0/16 area 0: no interface of the file has such an address",
    "56: not understood: five, in: network 172.17.0.0/16 area five",
    "57: left out: area 0 virtual-link 2.2.2.2: virtual links are not simulated",
    f"58: left out: area 0 authentication message-digest: {AUTH}",
    "59: not understood: tunnel, in: area 0 tunnel ..",
    "60: left out: max-metric router-lsa on-startup 60: only for some time",
    "61: left out: neighbor 10.0.0.9: neighbors are found by Hellos",
    "62: left out: no log-adjacency-changes: it is the default",
    "63: not understood: frobnicate, in: frobnicate ..",
    "65: left out: router ospf vrf RED: another VRF or instance is another router"]

# Passive interfaces: one alone, and two where another router is active; and suppressed prefixes.
PASSIVE = {
    "r1.conf": """\
interface eth0
 ip address 10.0.0.1/24
 ip ospf prefix-suppression
interface eth1
 ip address 10.0.1.1/24
interface eth2
 ip address 10.0.2.1/24
 ip ospf prefix-suppression
interface eth3
 ip address 10.0.3.1/24
 no ip ospf passive
 ip ospf cost 9
router ospf
 router-id 1.1.1.1
 network 10.0.0.0/8 area 0
 passive-interface default
 no passive-interface eth0
 auto-cost reference-bandwidth 10000
""",
    "r2.conf": """\
interface eth0
 ip address 10.0.0.2/24
interface eth1
 ip address 10.0.1.2/24
interface eth2
 ip address 10.0.3.2/24
 ip ospf passive
 ip ospf cost 9
 no ip ospf prefix-suppression
router ospf
 router-id 2.2.2.2
 network 10.0.0.0/8 area 0
 auto-cost reference-bandwidth 10000
"""}
PASSIVE_WANTED = {
    "1.1.1.1": ["0.0.0.0", "broadcast 10.0.0.1/24 cost 1 prefix_suppression true",
                "broadcast 10.0.1.1/24 cost 1 passive true",
                "broadcast 10.0.2.1/24 cost 1 passive true", "broadcast 10.0.3.1/24 cost 9"],
    "2.2.2.2": ["0.0.0.0", "broadcast 10.0.0.2/24 cost 1", "broadcast 10.0.1.2/24 cost 1",
                "broadcast 10.0.3.2/24 cost 9 passive true"]}
# By hand: the first network has 2.2.2.2 as its Designated Router, which does not suppress it.
PASSIVE_TABLES = {
    "1.1.1.1": ["10.0.0.0/24 1 attached", "10.0.1.0/24 1 attached", "10.0.2.0/24 1 attached",
                "10.0.3.0/24 9 attached"],
    "2.2.2.2": ["10.0.0.0/24 1 attached", "10.0.1.0/24 1 attached",
                "10.0.2.0/24 2 10.0.0.2>1.1.1.1@10.0.0.1", "10.0.3.0/24 9 attached"]}
# Passive interfaces alone: the first one is written as one that is not.
PASSIVE_ALONE = {"r1.conf": """\
interface eth0
 ip address 10.0.0.1/24
 ip ospf network point-to-point
interface eth1
 ip address 10.0.1.1/24
router ospf
 router-id 1.1.1.1
 network 10.0.0.0/8 area 0
 passive-interface default
"""}
PASSIVE_ALONE_WANTED = {"1.1.1.1": [
    "0.0.0.0", "broadcast 10.0.0.1/24 cost 10 priority 0",
    "broadcast 10.0.1.1/24 cost 10 passive true"]}
FRR_BARE = {
    "frr.conf": "interface eth0\n ip ospf area 0\n ip ospf cost 3\nrouter ospf\n",
    "addresses": "eth0  UP  10.0.0.9/30 fe80::1/64\neth1  UP  10.0.5.1/30\n"}
FRR_BARE_WANTED = {"10.0.5.1": ["0.0.0.0", "broadcast 10.0.0.9/30 cost 3"]}
FRR_BARE_REPORT = [
    "frr.conf: assumed: router_id 10.0.5.1: the file gives none: the highest address"]

# Each: its name, the dialect and options, the files and those named, what is wanted, and tables.
CASES = [
    ("FRR, all that is left out", ["frr"], ALL_OF_FRR, ["r1.conf"], ALL_OF_FRR_WANTED,
     of_one("r1.conf", ALL_OF_FRR_REPORT), {}),
    ("FRR, passive", ["frr"], PASSIVE, [*PASSIVE], PASSIVE_WANTED, [
        f"r1.conf:2: assumed: eth0 10.0.0.1/24: cost 1: {SPEED}",
        f"r1.conf:5: assumed: eth1 10.0.1.1/24: cost 1: {SPEED}",
        f"r1.conf:7: assumed: eth2 10.0.2.1/24: cost 1: {SPEED}",
        f"r2.conf:2: assumed: eth0 10.0.0.2/24: cost 1: {SPEED}",
        f"r2.conf:4: assumed: eth1 10.0.1.2/24: cost 1: {SPEED}"],
     PASSIVE_TABLES),
    ("FRR, passive alone", ["frr"], PASSIVE_ALONE, ["r1.conf"], PASSIVE_ALONE_WANTED, [
        f"r1.conf:2: assumed: eth0 10.0.0.1/24: cost 10: {SPEED}",
        "r1.conf:2: assumed: eth0 10.0.0.1/24: priority 0: it sends Hellos: the format has no "
        "router with passive interfaces alone",
        f"r1.conf:5: assumed: eth1 10.0.1.1/24: cost 10: {SPEED}"],
     {"1.1.1.1": ["10.0.0.0/24 10 attached", "10.0.1.0/24 10 attached"]}),
    ("FRR, hosts", ["frr"], HOSTS, ["r1.conf"], HOSTS_WANTED, HOSTS_REPORT,
     {"1.1.1.1": ["10.0.0.1/32 0 attached", "10.8.0.0/31 10 attached", "10.9.0.1/32 0 attached",
                  "10.9.0.2/32 8 attached"]}),
    ("FRR, without addresses", ["frr", "--addresses", "addresses"], FRR_BARE, ["frr.conf"],
     FRR_BARE_WANTED, FRR_BARE_REPORT, {}),
]
