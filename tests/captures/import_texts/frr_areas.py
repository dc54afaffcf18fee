"""Areas of FRR, most of them after its own topotests."""
from .reasons import LOOPBACK, SPEED

# Four routers, three of them on one network: after ospf_topo1, in one area.
TOPO1 = {
    "r1.conf": """\
hostname r1
!
interface r1-eth0
 description to the left
 ip address 10.0.1.1/24
 ip ospf area 0
!
interface r1-eth1
 ip address 10.0.3.2/24
 ip ospf area 0
!
router ospf
 ospf router-id 10.0.255.1
!
""",
    "r2.conf": """\
hostname r2
interface r2-eth0
ip address 10.0.2.1/24
interface r2-eth1
ip address 10.0.3.3/24
int r2-eth1
ip ospf priority 5
router ospf
ospf router-id 10.0.255.2
network 10.0.0.0/16 area 0.0.0.0
line vty
""",
    "r3.conf": """\
frr version 8.4.4
hostname r3
interface r3-eth0
 ip address 10.0.3.1/24
exit
interface r3-eth1
 ip address 10.0.10.1/24
 ip ospf cost 5
exit
router ospf
 ospf router-id 10.0.255.3
 network 10.0.3.0/24 area 0
 network 10.0.10.0/24 area 0
exit
end
""",
    "r4/zebra.conf": """\
hostname r4
interface r4-eth0
 ip address 10.0.10.2/24
interface r4-eth1
 ip address 10.0.4.1/24
""",
    "r4/ospfd.conf": """\
interface r4-eth0
 ip ospf cost 7
router ospf
 ospf router-id 10.0.255.4
 network 10.0.10.0/24 area 0
 network 10.0.4.0/24 area 0
 auto-cost reference-bandwidth 20000
"""}
TOPO1_WANTED = {
    "10.0.255.1": ["0.0.0.0", "broadcast 10.0.1.1/24 cost 10", "broadcast 10.0.3.2/24 cost 10"],
    "10.0.255.2": ["0.0.0.0", "broadcast 10.0.2.1/24 cost 10",
                   "broadcast 10.0.3.3/24 cost 10 priority 5"],
    "10.0.255.3": ["0.0.0.0", "broadcast 10.0.3.1/24 cost 10", "broadcast 10.0.10.1/24 cost 5"],
    "10.0.255.4": ["0.0.0.0", "broadcast 10.0.10.2/24 cost 7", "broadcast 10.0.4.1/24 cost 2"]}
TOPO1_REPORT = [
    f"r1.conf:5: assumed: r1-eth0 10.0.1.1/24: cost 10: {SPEED}",
    f"r1.conf:9: assumed: r1-eth1 10.0.3.2/24: cost 10: {SPEED}",
    f"r2.conf:3: assumed: r2-eth0 10.0.2.1/24: cost 10: {SPEED}",
    f"r2.conf:5: assumed: r2-eth1 10.0.3.3/24: cost 10: {SPEED}",
    f"r3.conf:4: assumed: r3-eth0 10.0.3.1/24: cost 10: {SPEED}",
    f"r4/zebra.conf:5: assumed: r4-eth1 10.0.4.1/24: cost 2: {SPEED}"]
# By hand: from r4, 7 to the link, 10 more to the network, 10 more to the stubs.
TOPO1_TABLES = {
    "10.0.255.4": [
        "10.0.1.0/24 27 10.0.10.2>10.0.255.3@10.0.10.1",
        "10.0.2.0/24 27 10.0.10.2>10.0.255.3@10.0.10.1",
        "10.0.3.0/24 17 10.0.10.2>10.0.255.3@10.0.10.1", "10.0.4.0/24 2 attached",
        "10.0.10.0/24 7 attached"],
    "10.0.255.1": [
        "10.0.1.0/24 10 attached", "10.0.2.0/24 20 10.0.3.2>10.0.255.2@10.0.3.3",
        "10.0.3.0/24 10 attached", "10.0.4.0/24 17 10.0.3.2>10.0.255.3@10.0.3.1",
        "10.0.10.0/24 15 10.0.3.2>10.0.255.3@10.0.3.1"]}

# Three routers in a triangle of point-to-point links, with loopbacks: after ospf_tilfa_topo1.
TRIANGLE = {
    "rt1.conf": """\
hostname rt1
interface lo
 ip address 1.1.1.1/32
 ip ospf area 0.0.0.0
interface eth-rt2
 ip address 10.0.1.1/24
 ip ospf area 0.0.0.0
 ip ospf network point-to-point
 ip ospf hello-interval 2
 ip ospf cost 10
interface eth-rt3
 ip address 10.0.2.1/24
 ip ospf area 0.0.0.0
 ip ospf network point-to-point
 ip ospf hello-interval 2
 ip ospf dead-interval 12
 ip ospf retransmit-interval 3
 ip ospf transmit-delay 2
 ip ospf cost 30
router ospf
 ospf router-id 1.1.1.1
 log-adjacency-changes
""",
    "rt2.conf": """\
hostname rt2
interface lo
 ip address 2.2.2.2/24
 ip ospf cost 3
interface eth-rt1
 ip address 10.0.1.2/24
 ip ospf network point-to-point
 ip ospf hello-interval 2
 ip ospf cost 10
interface eth-rt3
 ip address 10.0.3.2/24
 ip ospf network point-to-point
 ip ospf cost 10
interface dummy0
 ip address 192.168.2.1/24
 ip ospf cost 3
router ospf
 ospf router-id 2.2.2.2
 passive-interface dummy0
 passive-interface lo
 network 2.2.2.0/24 area 0
 network 10.0.0.0/8 area 0
 network 192.168.2.0/24 area 0
""",
    "rt3.conf": """\
hostname rt3
interface lo
 ip address 127.0.0.1/8
 ip address 3.3.3.3/32
 ip ospf area 0
interface eth-rt1
 ip address 10.0.2.3/24
 ip ospf area 0
 ip ospf network point-to-point
 ip ospf hello-interval 2
 ip ospf dead-interval 12
 ip ospf cost 30
interface eth-rt2
 ip address 10.0.3.3/24
 ip ospf area 0
 ip ospf network point-to-point
 ip ospf cost 10
router ospf
 max-metric router-lsa administrative
"""}
TRIANGLE_WANTED = {
    "1.1.1.1": ["0.0.0.0", "point-to-point 10.0.1.1/24 cost 10 hello 2 dead 8",
                "point-to-point 10.0.2.1/24 cost 30 hello 2 dead 12 retransmit 3 transmit_delay 2",
                "host 1.1.1.1 cost 0"],
    "2.2.2.2": ["0.0.0.0", "point-to-point 10.0.1.2/24 cost 10 hello 2 dead 8",
                "point-to-point 10.0.3.2/24 cost 10",
                "broadcast 192.168.2.1/24 cost 3 passive true", "host 2.2.2.2 cost 3"],
    "3.3.3.3": ["0.0.0.0 stub_router", "point-to-point 10.0.2.3/24 cost 30 hello 2 dead 12",
                "point-to-point 10.0.3.3/24 cost 10", "host 3.3.3.3 cost 0"]}
TRIANGLE_REPORT = [
    f"rt1.conf:3: assumed: lo 1.1.1.1/32: {LOOPBACK}",
    "rt1.conf:6: assumed: eth-rt2 10.0.1.1/24: dead 8: four times hello",
    "rt1.conf:22: left out: log-adjacency-changes: no effect on the LSDB of the area",
    "rt2.conf:6: assumed: eth-rt1 10.0.1.2/24: dead 8: four times hello",
    "rt3.conf:3: left out: lo 127.0.0.1/8: a loopback",
    f"rt3.conf:4: assumed: lo 3.3.3.3/32: {LOOPBACK}",
    "rt3.conf: assumed: router_id 3.3.3.3: the file gives none: the highest address"]
# By hand: 3.3.3.3 is a stub router, so 1.1.1.1 reaches what is behind it by 2.2.2.2 only if it has
# to; the link of both to 3.3.3.3 is their own.
TRIANGLE_TABLES = {
    "1.1.1.1": ["1.1.1.1/32 0 attached", "2.2.2.2/32 13 10.0.1.1>2.2.2.2",
                "3.3.3.3/32 20 10.0.1.1>2.2.2.2", "10.0.1.0/24 10 attached",
                "10.0.2.0/24 30 attached", "10.0.3.0/24 20 10.0.1.1>2.2.2.2",
                "192.168.2.0/24 13 10.0.1.1>2.2.2.2"],
    "3.3.3.3": ["1.1.1.1/32 65535 10.0.2.3>1.1.1.1", "2.2.2.2/32 65538 10.0.3.3>2.2.2.2",
                "3.3.3.3/32 0 attached", "10.0.1.0/24 65545 10.0.2.3>1.1.1.1,10.0.3.3>2.2.2.2",
                "10.0.2.0/24 30 attached", "10.0.3.0/24 10 attached",
                "192.168.2.0/24 65538 10.0.3.3>2.2.2.2"]}

# Routers whose OSPF is in a VRF, each in one of its own: after ospf_netns_vrf. The first has an
# interface outside of it too.
VRF = {
    f"r{it}/{name}": text
    for it in (1, 2)
    for name, text in (
        ("zebra.conf", f"interface r{it}-eth0 vrf cust{it}\n ip address 10.0.3.{it}/24\n"
         f"interface r{it}-eth1 vrf cust{it}\n ip address 10.0.1{it}.1/24\n"
         "interface mgmt\n ip address 10.0.3.9/24\n"),
        ("ospfd.conf", f"interface r{it}-eth0\n ip ospf cost 10\ninterface r{it}-eth1\n"
         f" ip ospf cost 10\nrouter ospf vrf cust{it}\n ospf router-id 10.0.255.{it}\n"
         " network 10.0.0.0/16 area 0\n"))}
VRF_WANTED = {f"10.0.255.{it}": ["0.0.0.0", f"broadcast 10.0.3.{it}/24 cost 10",
                                 f"broadcast 10.0.1{it}.1/24 cost 10"] for it in (1, 2)}
VRF_REPORT = [f"r{it}: assumed: VRF cust{it}: the only one that has OSPF" for it in (1, 2)]
# Two routers with parallel networks: after the topology ecmp of the basic tests.
ECMP = {
    f"r{it}.conf": "".join(
        f"interface r{it}-link{n}\n ip address 10.0.{n}.{it}/24\n ip ospf area 0.0.0.0\n"
        " ip ospf cost 10\n ip ospf hello-interval 1\n ip ospf dead-interval 4\n"
        for n in range(4)) +
    f"interface r{it}-net\n ip address 100.0.{it}.1/24\n ip ospf area 0.0.0.0\n ip ospf cost 1\n"
    f"router ospf\n ospf router-id 100.1.1.{it}\n redistribute static\n"
    for it in (1, 2)}
ECMP_WANTED = {
    f"100.1.1.{it}": ["0.0.0.0", *(f"broadcast 10.0.{n}.{it}/24 cost 10 hello 1 dead 4"
                                   for n in range(4)), f"broadcast 100.0.{it}.1/24 cost 1"]
    for it in (1, 2)}
ECMP_REPORT = [f"r{it}.conf:31: left out: redistribute static: routes from outside the area are "
               "not imported" for it in (1, 2)]
ECMP_TABLES = {"100.1.1.1": [
    *(f"10.0.{n}.0/24 10 attached" for n in range(4)), "100.0.1.0/24 1 attached",
    "100.0.2.0/24 11 " + ",".join(f"10.0.{n}.1>100.1.1.2@10.0.{n}.2" for n in range(4))]}

# A network whose Designated Router is chosen by priorities: after the topology lan.
LAN = {
    f"r{it}.conf": f"interface r{it}-s1\n ip address 10.0.0.{it}/24\n ip ospf area 0.0.0.3\n"
    f" ip ospf priority {priority}\n ip ospf cost 10\nrouter ospf\n router-id 100.1.1.{it}\n"
    for it, priority in ((1, 99), (2, 98), (3, 0), (4, 0))}
LAN_WANTED = {
    f"100.1.1.{it}": ["0.0.0.3", f"broadcast 10.0.0.{it}/24 cost 10 priority {priority}"]
    for it, priority in ((1, 99), (2, 98), (3, 0), (4, 0))}

# Two areas, and routers that are in one of them only.
AREAS = {
    "r1.conf": """\
interface eth0
 ip address 10.0.0.1/30
 ip ospf cost 10
interface eth1
 ip address 10.1.0.1/30
 ip ospf cost 10
router ospf
 ospf router-id 1.1.1.1
 network 10.0.0.0/24 area 0
 network 10.1.0.0/24 area 1
 area 1 range 10.1.0.0/16
""",
    "r2.conf": """\
interface eth0
 ip address 10.0.0.2/30
 ip ospf cost 10
router ospf
 ospf router-id 2.2.2.2
 network 10.0.0.0/24 area 0.0.0.0
"""}
AREAS_WANTED = {"1.1.1.1": ["0.0.0.0", "broadcast 10.0.0.1/30 cost 10"],
                "2.2.2.2": ["0.0.0.0", "broadcast 10.0.0.2/30 cost 10"]}
RANGE = ("r1.conf:11: left out: area 1 range 10.1.0.0/16: routes to and from other areas are not "
         "computed")
AREAS_REPORT = ["r1.conf:5: left out: eth1 10.1.0.1/30: area 0.0.0.1", RANGE]

# Each: its name, the dialect and options, the files and those named, what is wanted, and tables.
CASES = [
    ("FRR, ospf_topo1", ["frr"], TOPO1, ["r1.conf", "r2.conf", "r3.conf", "r4"], TOPO1_WANTED,
     TOPO1_REPORT, TOPO1_TABLES),
    ("FRR, a triangle", ["frr"], TRIANGLE, [*TRIANGLE], TRIANGLE_WANTED, TRIANGLE_REPORT,
     TRIANGLE_TABLES),
    ("FRR, ecmp", ["frr"], ECMP, [*ECMP], ECMP_WANTED, ECMP_REPORT, ECMP_TABLES),
    ("FRR, lan", ["frr"], LAN, [*LAN], LAN_WANTED, [],
     {"100.1.1.3": ["10.0.0.0/24 10 attached"]}),
    ("FRR, an area of two", ["frr", "--area", "0"], AREAS, [*AREAS], AREAS_WANTED, AREAS_REPORT,
     {"2.2.2.2": ["10.0.0.0/30 10 attached"]}),
    ("FRR, a VRF", ["frr"], VRF, ["r1", "r2"], VRF_WANTED, VRF_REPORT,
     {"10.0.255.1": ["10.0.3.0/24 10 attached", "10.0.11.0/24 10 attached",
                     "10.0.12.0/24 20 10.0.3.1>10.0.255.2@10.0.3.2"]}),
]
