"""Configurations of Cisco IOS."""
from .reasons import AUTH, HOST, of_one

# All prefixes are suppressed, but for one of a link that says otherwise and one that is passive.
SUPPRESSED = {"r1.cfg": """\
interface GigabitEthernet0/0
 ip address 10.0.0.1 255.255.255.252
 ip ospf network point-to-point
 ip ospf cost 5
interface GigabitEthernet0/1
 ip address 10.0.1.1 255.255.255.0
 ip ospf prefix-suppression disable
 ip ospf cost 6
interface GigabitEthernet0/2
 ip address 10.0.2.1 255.255.255.0
 ip ospf cost 7
router ospf 1
 router-id 1.1.1.1
 prefix-suppression
 passive-interface GigabitEthernet0/2
 network 10.0.0.0 0.0.255.255 area 0
"""}
SUPPRESSED_WANTED = {"1.1.1.1": [
    "0.0.0.0", "point-to-point 10.0.0.1/30 cost 5 prefix_suppression true",
    "broadcast 10.0.1.1/24 cost 6", "broadcast 10.0.2.1/24 cost 7 passive true"]}
IOS = {"r1.cfg": """\
!
version 15.7
hostname core1
banner motd ^C
router ospf 7
^C
interface Loopback0
 ip address 1.1.1.1 255.255.255.255
!
interface GigabitEthernet0/0
 description to core2
 ip address 10.0.0.1 255.255.255.252
 ip ospf network point-to-point
 ip ospf cost 10
 ip mtu 1400
!
interface FastEthernet0/1
 ip address 10.0.1.1 255.255.255.0
 ip address 10.0.11.1 255.255.255.0 secondary
 ip ospf 1 area 0
 ip ospf priority 0
 ip ospf hello-interval 5
!
interface Serial0/0
 ip address 10.0.2.1 255.255.255.252
 ip ospf authentication-key secret
!
interface Tunnel1
 ip unnumbered Loopback0
 ip ospf 1 area 0
!
interface GigabitEthernet0/2
 vrf forwarding RED
 ip address 10.0.3.1 255.255.255.0
!
interface Vlan10
 ip address dhcp
 ip ospf 3 area 0
!
interface Vlan11
 mtu 9000
 ip address 10.0.4.1 255.255.255.0
!
router ospf 1
 router-id 1.1.1.1
 auto-cost reference-bandwidth 1000
 passive-interface default
 passive-interface Vlan99
 no passive-interface GigabitEthernet0/0
 no passive-interface FastEthernet0/1
 no passive-interface Serial0/0
 network 10.0.0.0 0.0.3.255 area 0
 network 10.0.4.0 0.0.0.255 area 0
 network 1.1.1.1 0.0.0.0 area 0
 default-information originate always
 max-metric router-lsa include-stub
 nsf
 speed up
router ospf 2 vrf RED
 network 10.0.3.0 0.0.0.255 area 0
router ospf 3
 network 10.0.0.0 0.0.0.255 area 0
spanning-tree mode rapid-pvst
"""}
IOS_WANTED = {"1.1.1.1": [
    "0.0.0.0 stub_router", "point-to-point 10.0.0.1/30 cost 10 mtu 1400",
    "broadcast 10.0.1.1/24 cost 10 priority 0 hello 5 dead 20",
    "point-to-point 10.0.2.1/30 cost 647", "broadcast 10.0.4.1/24 cost 1 mtu 9000 passive true"]}
IOS_REPORT = [
    f"8: left out: Loopback0 1.1.1.1/32: {HOST}",
    "18: assumed: FastEthernet0/1 10.0.1.1/24: cost 10: no cost in the file: by FastEthernet and "
    "1000 Mbit/s",
    "18: assumed: FastEthernet0/1 10.0.1.1/24: dead 20: four times hello",
    "19: left out: ip address 10.0.11.1 255.255.255.0 secondary: a secondary address",
    "25: assumed: Serial0/0 10.0.2.1/30: point-to-point: by the name",
    "25: assumed: Serial0/0 10.0.2.1/30: cost 647: no cost in the file: by Serial and 1000 Mbit/s",
    f"26: left out: ip ospf authentication-key ..: {AUTH}",
    "30: left out: Tunnel1: unnumbered: the format needs an address with a subnet",
    "37: left out: ip address dhcp: the address is not in the file",
    "38: left out: ip ospf 3 area 0: another VRF or instance is another router",
    "38: left out: Vlan10: no address",
    "42: assumed: Vlan11 10.0.4.1/24: cost 1: no cost in the file: by Vlan and 1000 Mbit/s",
    "48: left out: passive-interface Vlan99: no such interface in the file",
    "55: left out: default-information originate always: routes from outside the area are not "
    "imported",
    "56: left out: max-metric router-lsa include-stub: include-stub: not in the format",
    "57: left out: nsf: graceful restart is not simulated",
    "58: not understood: speed, in: speed ..",
    "59: left out: router ospf 2 vrf RED: another VRF or instance is another router",
    "61: left out: router ospf 3: another VRF or instance is another router"]

# Each: its name, the dialect and options, the files and those named, what is wanted, and tables.
CASES = [
    ("IOS", ["ios"], IOS, ["r1.cfg"], IOS_WANTED, of_one("r1.cfg", IOS_REPORT), {}),
    ("IOS, suppressed", ["ios"], SUPPRESSED, ["r1.cfg"], SUPPRESSED_WANTED, [],
     {"1.1.1.1": ["10.0.1.0/24 6 attached", "10.0.2.0/24 7 attached"]}),
]
