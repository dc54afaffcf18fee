//! The numbers and contents of own LSAs over an area, against sums that were computed elsewhere.

use ospf_area::{Area, AreaLink, LinkSettings, PacketSource, Outputs};
use ospf_base::{
    Addr, AreaId, Instance, InterfaceKind, Kind, LsaKey, MAX_AGE, Prefix, RouterId, StubNetwork, is_mask,
};
use ospf_neighbour::iface::{Iface, IfaceSettings, IfaceState};
use ospf_lsa::{LinkKind, Lsa, LsaView};
use ospf_lsdb::Lsdb;
use ospf_neighbour::{NbrEvent, Neighbour, Neighbours};
use ospf_originate::own_lsas;
use ospf_area::update::{on_lsa, remove};
use std::alloc::Global;
use std::collections::BTreeSet;
use std::test::Fail;

const NO_FLOOR: i32 = i32::MIN;

// 0x80000001, the number that a router uses first.
const FIRST: i32 = -0x7fff_ffff;

// 255.255.255.252
const MASK: u32 = 0xffff_fffc;

// A router at an end of the link, and its address there.
#[derive(Clone, Copy)]
struct End {
    router: RouterId,
    address: Addr,
}

// 1.1.1.1 at 10.0.0.1
const ONE: End = End {
    router: RouterId(0x0101_0101),
    address: Addr(0x0a00_0001),
};

// 2.2.2.2 at 10.0.0.2
const TWO: End = End {
    router: RouterId(0x0202_0202),
    address: Addr(0x0a00_0002),
};

const ROUTER_KEY: LsaKey = LsaKey {
    kind: Kind::Router,
    id: 0x0101_0101,
    router: RouterId(0x0101_0101),
};

const NETWORK_KEY: LsaKey = LsaKey {
    kind: Kind::Network,
    id: 0x0a00_0001,
    router: RouterId(0x0101_0101),
};

fn full(alloc: Global, end: End) -> Neighbour {
    let mut neighbour = Neighbour::new(alloc, end.router, end.address);
    neighbour.event(NbrEvent::HelloReceived, 40);
    neighbour.event(NbrEvent::TwoWayReceived(true), 40);
    neighbour.event(NbrEvent::NegotiationDone, 40);
    neighbour.event(NbrEvent::ExchangeDone, 40);
    neighbour
}

fn neighbours(alloc: Global, other: Option<End>) -> Result<Neighbours, Fail> {
    let mut neighbours = Neighbours::new(alloc);
    if let Some(other) = other {
        if neighbours.get(other.router).is_some() {
            return Err("there already".into());
        }
        neighbours.add(full(alloc, other))?;
    }
    Ok(neighbours)
}

fn settings(own: End, kind: InterfaceKind) -> IfaceSettings {
    IfaceSettings {
        router: own.router,
        kind,
        address: own.address,
        mask: MASK,
        priority: 1,
        hello: 10,
        dead: 40,
    }
}

fn iface(own: End, state: IfaceState) -> Iface {
    let (kind, dr) = match state {
        IfaceState::Dr => (InterfaceKind::Broadcast, own.address),
        _ => (InterfaceKind::PointToPoint, Addr::NOWHERE),
    };
    Iface {
        settings: settings(own, kind),
        state,
        dr,
        backup: Addr::NOWHERE,
        wait: 0,
        hello_in: 0,
    }
}

// The link of cost 10, of a router that is its Designated Router or has it as point-to-point, and is fully adjacent to
// this one if there is one.
fn link(alloc: Global, own: End, state: IfaceState, other: Option<End>) -> Result<AreaLink, Fail> {
    let neighbours = neighbours(alloc, other)?;
    let iface = iface(own, state);
    let settings = LinkSettings {
        cost: 10,
        retransmit: 5,
        transmit_delay: 1,
        mtu: 1500,
        suppressed: false,
    };
    if neighbours.all().len() > 1 {
        return Err("more than one neighbour".into());
    }
    if !is_mask(iface.settings.mask) {
        return Err("a mask with a hole".into());
    }
    Ok(AreaLink {
        iface,
        settings,
        neighbours,
        delayed: Vec::new(alloc),
        elects: false,
    })
}

fn links(
    alloc: Global,
    own: End,
    state: IfaceState,
    other: Option<End>,
) -> Result<Vec<AreaLink>, Fail> {
    let mut links = Vec::new(alloc);
    links.push(link(alloc, own, state, other)?)?;
    Ok(links)
}

// A router that has just started.
fn area(alloc: Global, own: End, stub_router: bool, floor: i32, links: Vec<AreaLink>) -> Area {
    Area {
        router: own.router,
        area: AreaId(0),
        stub_router,
        passes_over: false,
        links,
        stubs: Vec::new(alloc),
        database: Lsdb::new(alloc),
        direct: Vec::new(alloc),
        numbering: Vec::new(alloc),
        floor,
        tick: 0,
        next_dd: 1,
        sent: BTreeSet::new(alloc),
        heard: Vec::new(alloc),
        max_seq: floor,
    }
}

// 1.1.1.1, with the link up, fully adjacent to 2.2.2.2 or not.
fn one(alloc: Global, stub_router: bool, floor: i32, other: Option<End>) -> Result<Area, Fail> {
    let links = links(alloc, ONE, IfaceState::PointToPoint, other)?;
    Ok(area(alloc, ONE, stub_router, floor, links))
}

// The links are others at a later tick.
fn go_on(area: &mut Area, links: Vec<AreaLink>, tick: u64) {
    area.links = links;
    area.tick = tick;
}

// What a step issues, as kinds, numbers and sums.
fn step(area: &mut Area, alloc: Global) -> Result<Vec<Instance>, Fail> {
    let mut out = Outputs::new(alloc);
    own_lsas(area, &mut out, alloc)?;
    let mut issued = Vec::new(alloc);
    for lsa in &out.issued {
        issued.push(lsa.view().instance())?;
    }
    Ok(issued)
}

// An LSA comes from 2.2.2.2.
fn hear(area: &mut Area, lsa: &Lsa, alloc: Global) -> Result<(), Fail> {
    let from = PacketSource {
        link: 0,
        router: TWO.router,
        address: TWO.address,
    };
    let mut out = Outputs::new(alloc);
    on_lsa(area, from, &lsa.view(), &mut out, alloc)?;
    Ok(())
}

// The copy of a key, which is at MaxAge, leaves.
fn leave(area: &mut Area, key: LsaKey, alloc: Global) -> Result<(), Fail> {
    if area.database.get(&key).is_none() {
        return Err("no copy".into());
    }
    let mut out = Outputs::new(alloc);
    remove(area, &mut out, alloc)?;
    Ok(())
}

// A step issues nothing.
fn rests(area: &mut Area, alloc: Global) -> Result<bool, Fail> {
    let issued = step(area, alloc)?;
    Ok(issued.is_empty())
}

// A step issues one LSA, of this key, number and sum.
fn issues(
    area: &mut Area,
    key: LsaKey,
    number: i32,
    sum: u16,
    alloc: Global,
) -> Result<bool, Fail> {
    let issued = step(area, alloc)?;
    let instance = Instance { key, number, sum };
    Ok(issued.len() == 1 && issued.iter().all(|i| i.is_same(&instance)))
}

// A step issues one LSA, with this number.
fn issues_number(area: &mut Area, number: i32, alloc: Global) -> Result<bool, Fail> {
    let issued = step(area, alloc)?;
    Ok(issued.len() == 1 && issued.iter().all(|i| i.number == number))
}

// At a later tick the link is in another state, fully adjacent to 2.2.2.2 or not.
fn change(
    area: &mut Area,
    state: IfaceState,
    other: Option<End>,
    tick: u64,
    alloc: Global,
) -> Result<(), Fail> {
    let links = links(alloc, ONE, state, other)?;
    go_on(area, links, tick);
    Ok(())
}

// The copy of a key is at MaxAge.
fn is_expired(area: &Area, key: LsaKey) -> bool {
    match area.database.get(&key) {
        Some(copy) => copy.age().ticks() == MAX_AGE,
        None => false,
    }
}

// Without a neighbour there is one stub link, and the first number.
#[test]
fn first_number(rt: HostRuntime) -> Result<(), Fail> {
    let alloc = rt.alloc();
    let mut area = one(alloc, false, NO_FLOOR, None)?;
    assert!(rt; issues_number(&mut area, FIRST, alloc)?);
    assert_eq!(rt; area.max_seq, FIRST);
    assert!(rt; has_one_stub_link(&area));
    Ok(())
}

fn has_one_stub_link(area: &Area) -> bool {
    match area.database.get(&ROUTER_KEY) {
        Some(copy) => is_one_stub_link(&copy.lsa()),
        None => false,
    }
}

fn is_one_stub_link(lsa: &LsaView<'_>) -> bool {
    match lsa.kind() {
        Kind::Router => {
            let mut links = lsa.links();
            match links.next() {
                Some(link) => matches!(link.kind, LinkKind::Stub) && links.next().is_none(),
                None => false,
            }
        }
        Kind::Network => false,
    }
}

// With 2.2.2.2 Full: the router-LSA of two links, byte for byte, and the next number.
#[test]
fn contents_with_a_neighbour(rt: HostRuntime) -> Result<(), Fail> {
    let alloc = rt.alloc();
    let mut area = one(alloc, false, FIRST, Some(TWO))?;
    assert!(rt; issues(&mut area, ROUTER_KEY, FIRST + 1, 0xe02d, alloc)?);
    assert!(rt; has_both_links(&area));
    Ok(())
}

fn has_both_links(area: &Area) -> bool {
    let expected = [
        0u8, 0, 2, 1, 1, 1, 1, 1, 1, 1, 1, 1, 0x80, 0, 0, 2, 0xe0, 0x2d, 0, 0x30, 0, 0, 0, 2, 2, 2,
        2, 2, 10, 0, 0, 1, 1, 0, 0, 10, 10, 0, 0, 0, 255, 255, 255, 252, 3, 0, 0, 10,
    ];
    lists(area, &expected)
}

// A change four ticks after the issue issues nothing, and at the fifth tick it does.
#[test]
fn a_change_waits(rt: HostRuntime) -> Result<(), Fail> {
    let alloc = rt.alloc();
    let mut area = one(alloc, false, NO_FLOOR, None)?;
    assert!(rt; issues_number(&mut area, FIRST, alloc)?);
    change(&mut area, IfaceState::PointToPoint, Some(TWO), 4, alloc)?;
    assert!(rt; rests(&mut area, alloc)?);
    change(&mut area, IfaceState::PointToPoint, Some(TWO), 5, alloc)?;
    assert!(rt; issues(&mut area, ROUTER_KEY, FIRST + 1, 0xe02d, alloc)?);
    Ok(())
}

// The metric to the neighbour is the largest, that of the subnet is not.
#[test]
fn stub_routers(rt: HostRuntime) -> Result<(), Fail> {
    let alloc = rt.alloc();
    let mut area = one(alloc, true, FIRST, Some(TWO))?;
    assert!(rt; issues(&mut area, ROUTER_KEY, FIRST + 1, 0x2ceb, alloc)?);
    Ok(())
}

fn stub(address: u32, length: u8, cost: u16) -> StubNetwork {
    let prefix = Prefix { address: Addr(address), length };
    StubNetwork { prefix, cost }
}

// 192.0.2.1 at no cost, and 192.0.2.7
fn hosts() -> [StubNetwork; 2] {
    [stub(0xc000_0201, 32, 0), stub(0xc000_0207, 32, 300)]
}

// 1.1.1.1, fully adjacent to 2.2.2.2 on the first link and alone on the second, at 10.0.0.5, with these stub networks.
fn one_with_stubs(alloc: Global, stub_router: bool, stubs: &[StubNetwork]) -> Result<Area, Fail> {
    let second = End { router: ONE.router, address: Addr(0x0a00_0005) };
    let mut links = links(alloc, ONE, IfaceState::PointToPoint, Some(TWO))?;
    links.push(link(alloc, second, IfaceState::Dr, None)?)?;
    let mut area = area(alloc, ONE, stub_router, FIRST, links);
    area.stubs = Vec::from_slice(alloc, stubs)?;
    Ok(area)
}

fn lists(area: &Area, expected: &[u8]) -> bool {
    match area.database.get(&ROUTER_KEY) {
        Some(copy) => copy.lsa().as_bytes()[2..] == expected[2..],
        None => false,
    }
}

// Behind the links of both interfaces, in order, those to the hosts: of 32 ones, at their own costs. Then nothing is due.
#[test]
fn hosts_behind_the_interfaces(rt: HostRuntime) -> Result<(), Fail> {
    let alloc = rt.alloc();
    let mut area = one_with_stubs(alloc, false, &hosts())?;
    assert!(rt; issues(&mut area, ROUTER_KEY, FIRST + 1, 0xfb12, alloc)?);
    let expected = [
        0u8, 0, 2, 1, 1, 1, 1, 1, 1, 1, 1, 1, 0x80, 0, 0, 2, 0xfb, 0x12, 0, 84, 0, 0, 0, 5, 2, 2, 2,
        2, 10, 0, 0, 1, 1, 0, 0, 10, 10, 0, 0, 0, 255, 255, 255, 252, 3, 0, 0, 10, 10, 0, 0, 4, 255,
        255, 255, 252, 3, 0, 0, 10, 192, 0, 2, 1, 255, 255, 255, 255, 3, 0, 0, 0, 192, 0, 2, 7, 255,
        255, 255, 255, 3, 0, 1, 44,
    ];
    assert!(rt; lists(&area, &expected));
    assert!(rt; rests(&mut area, alloc)?);
    Ok(())
}

// The metric to the neighbour is the largest, and those to the hosts are not.
#[test]
fn hosts_of_a_stub_router(rt: HostRuntime) -> Result<(), Fail> {
    let alloc = rt.alloc();
    let mut area = one_with_stubs(alloc, true, &hosts())?;
    assert!(rt; issues(&mut area, ROUTER_KEY, FIRST + 1, 0x47d0, alloc)?);
    let expected = [
        0u8, 0, 2, 1, 1, 1, 1, 1, 1, 1, 1, 1, 0x80, 0, 0, 2, 0x47, 0xd0, 0, 84, 0, 0, 0, 5, 2, 2, 2,
        2, 10, 0, 0, 1, 1, 0, 255, 255, 10, 0, 0, 0, 255, 255, 255, 252, 3, 0, 0, 10, 10, 0, 0, 4,
        255, 255, 255, 252, 3, 0, 0, 10, 192, 0, 2, 1, 255, 255, 255, 255, 3, 0, 0, 0, 192, 0, 2, 7,
        255, 255, 255, 255, 3, 0, 1, 44,
    ];
    assert!(rt; lists(&area, &expected));
    assert!(rt; rests(&mut area, alloc)?);
    Ok(())
}

// Networks of 24, 26 and no bits, each under its own mask.
#[test]
fn stub_networks_of_all_lengths(rt: HostRuntime) -> Result<(), Fail> {
    let alloc = rt.alloc();
    let stubs = [stub(0xc000_0200, 24, 7), stub(0xc633_6440, 26, 300), stub(0, 0, 1)];
    let mut area = one_with_stubs(alloc, false, &stubs)?;
    assert!(rt; issues(&mut area, ROUTER_KEY, FIRST + 1, 0xa3bd, alloc)?);
    let expected = [
        0u8, 0, 2, 1, 1, 1, 1, 1, 1, 1, 1, 1, 0x80, 0, 0, 2, 0xa3, 0xbd, 0, 96, 0, 0, 0, 6, 2, 2, 2,
        2, 10, 0, 0, 1, 1, 0, 0, 10, 10, 0, 0, 0, 255, 255, 255, 252, 3, 0, 0, 10, 10, 0, 0, 4, 255,
        255, 255, 252, 3, 0, 0, 10, 192, 0, 2, 0, 255, 255, 255, 0, 3, 0, 0, 7, 198, 51, 100, 64, 255,
        255, 255, 192, 3, 0, 1, 44, 0, 0, 0, 0, 0, 0, 0, 0, 3, 0, 0, 1,
    ];
    assert!(rt; lists(&area, &expected));
    assert!(rt; rests(&mut area, alloc)?);
    Ok(())
}

// As many as a router has at most: 192.0.2.1 at cost 1 to 192.0.2.63 at cost 63, behind two other links.
#[test]
fn as_many_stub_networks_as_there_may_be(rt: HostRuntime) -> Result<(), Fail> {
    let alloc = rt.alloc();
    let mut area = one(alloc, false, FIRST, Some(TWO))?;
    let mut stubs = Vec::new(alloc);
    for n in 1..=63u16 {
        stubs.push(stub(0xc000_0200 + u32::from(n), 32, n))?;
    }
    area.stubs = stubs;
    assert!(rt; issues(&mut area, ROUTER_KEY, FIRST + 1, 0xec6f, alloc)?);
    assert!(rt; has_size(&area, 804));
    assert!(rt; rests(&mut area, alloc)?);
    Ok(())
}

fn has_size(area: &Area, size: usize) -> bool {
    match area.database.get(&ROUTER_KEY) {
        Some(copy) => copy.lsa().as_bytes().len() == size,
        None => false,
    }
}

// A copy that says another cost or another length of a stub network than the router has is out of date, as is one that
// lists one fewer.
#[test]
fn stub_networks_that_change(rt: HostRuntime) -> Result<(), Fail> {
    let alloc = rt.alloc();
    let mut area = one_with_stubs(alloc, false, &hosts())?;
    assert!(rt; issues_number(&mut area, FIRST + 1, alloc)?);
    area.tick = 5;
    area.stubs[1].cost = 301;
    assert!(rt; issues_number(&mut area, FIRST + 2, alloc)?);
    area.tick = 10;
    area.stubs.truncate(1);
    assert!(rt; issues_number(&mut area, FIRST + 3, alloc)?);
    area.tick = 15;
    area.stubs[0].prefix = Prefix { address: Addr(0xc000_0200), length: 31 };
    assert!(rt; issues_number(&mut area, FIRST + 4, alloc)?);
    area.tick = 20;
    assert!(rt; rests(&mut area, alloc)?);
    Ok(())
}

// All links of a router, with their subnets suppressed.
fn suppress(area: &mut Area) {
    for link in &mut area.links {
        link.settings.suppressed = true;
    }
}

// A suppressed point-to-point link lists its neighbour alone. The broadcast link with no one on it is no transit-only
// network, and lists its subnet all the same.
#[test]
fn suppressed_subnets(rt: HostRuntime) -> Result<(), Fail> {
    let alloc = rt.alloc();
    let mut area = one_with_stubs(alloc, false, &[])?;
    suppress(&mut area);
    assert!(rt; issues(&mut area, ROUTER_KEY, FIRST + 1, 0x39d0, alloc)?);
    let expected = [
        0u8, 0, 2, 1, 1, 1, 1, 1, 1, 1, 1, 1, 0x80, 0, 0, 2, 0x39, 0xd0, 0, 48, 0, 0, 0, 2, 2, 2, 2,
        2, 10, 0, 0, 1, 1, 0, 0, 10, 10, 0, 0, 4, 255, 255, 255, 252, 3, 0, 0, 10,
    ];
    assert!(rt; lists(&area, &expected));
    assert!(rt; rests(&mut area, alloc)?);
    Ok(())
}

// With no neighbour a suppressed point-to-point link lists nothing, and the router still has a router-LSA.
#[test]
fn a_suppressed_link_alone(rt: HostRuntime) -> Result<(), Fail> {
    let alloc = rt.alloc();
    let mut area = one(alloc, false, FIRST, None)?;
    suppress(&mut area);
    assert!(rt; issues(&mut area, ROUTER_KEY, FIRST + 1, 0x3129, alloc)?);
    assert!(rt; has_size(&area, 24));
    assert!(rt; rests(&mut area, alloc)?);
    Ok(())
}

// A copy that lists a subnet is out of date once the subnet is suppressed, and the other way round.
#[test]
fn subnets_that_become_suppressed(rt: HostRuntime) -> Result<(), Fail> {
    let alloc = rt.alloc();
    let mut area = one(alloc, false, FIRST, Some(TWO))?;
    assert!(rt; issues_number(&mut area, FIRST + 1, alloc)?);
    suppress(&mut area);
    area.tick = 5;
    assert!(rt; issues_number(&mut area, FIRST + 2, alloc)?);
    assert!(rt; has_size(&area, 36));
    area.links[0].settings.suppressed = false;
    area.tick = 10;
    assert!(rt; issues_number(&mut area, FIRST + 3, alloc)?);
    assert!(rt; has_size(&area, 48));
    Ok(())
}

// The network-LSA of 10.0.0.1, of 1.1.1.1 and 2.2.2.2, has the network's mask unless that is suppressed: then it has 32
// ones, the checksum is another, and a copy under the mask is out of date.
#[test]
fn suppressed_networks(rt: HostRuntime) -> Result<(), Fail> {
    let alloc = rt.alloc();
    let links = links(alloc, ONE, IfaceState::Dr, Some(TWO))?;
    let mut area = area(alloc, ONE, false, FIRST, links);
    assert!(rt; issues_network(&mut area, FIRST + 1, 0x49f7, alloc)?);
    assert!(rt; has_mask(&area, MASK));
    suppress(&mut area);
    area.tick = 5;
    assert!(rt; issues(&mut area, NETWORK_KEY, FIRST + 2, 0x59e3, alloc)?);
    assert!(rt; has_mask(&area, 0xffff_ffff));
    assert!(rt; rests(&mut area, alloc)?);
    Ok(())
}

// A step issues two LSAs, the second one the network-LSA of this number and sum.
fn issues_network(area: &mut Area, number: i32, sum: u16, alloc: Global) -> Result<bool, Fail> {
    let issued = step(area, alloc)?;
    let instance = Instance { key: NETWORK_KEY, number, sum };
    Ok(issued.len() == 2 && issued[1].is_same(&instance))
}

// The copy of the network-LSA has this mask, and both routers behind it.
fn has_mask(area: &Area, mask: u32) -> bool {
    let [a, b, c, d] = mask.to_be_bytes();
    match area.database.get(&NETWORK_KEY) {
        Some(copy) => copy.lsa().as_bytes()[20..] == [a, b, c, d, 1, 1, 1, 1, 2, 2, 2, 2],
        None => false,
    }
}

// The other end of the link.
#[test]
fn the_other_router(rt: HostRuntime) -> Result<(), Fail> {
    let alloc = rt.alloc();
    let links = links(alloc, TWO, IfaceState::PointToPoint, Some(ONE))?;
    let mut area = area(alloc, TWO, false, FIRST, links);
    let key = LsaKey {
        kind: Kind::Router,
        id: 0x0202_0202,
        router: TWO.router,
    };
    assert!(rt; issues(&mut area, key, FIRST + 1, 0x8088, alloc)?);
    Ok(())
}

#[test]
fn numbers_begin_above_the_floor(rt: HostRuntime) -> Result<(), Fail> {
    let alloc = rt.alloc();
    let mut area = one(alloc, false, FIRST + 6, None)?;
    assert!(rt; issues(&mut area, ROUTER_KEY, FIRST + 7, 0x41f1, alloc)?);
    assert_eq!(rt; area.max_seq, FIRST + 7);
    Ok(())
}

// The last number, then a flush, and the first number once the copy has left.
#[test]
fn numbers_begin_again(rt: HostRuntime) -> Result<(), Fail> {
    let alloc = rt.alloc();
    let mut area = one(alloc, false, 0x7fff_fffe, None)?;
    assert!(rt; issues(&mut area, ROUTER_KEY, 0x7fff_ffff, 0x56e5, alloc)?);
    assert!(rt; goes_down(&mut area, alloc)?);
    leave(&mut area, ROUTER_KEY, alloc)?;
    assert!(rt; issues(&mut area, ROUTER_KEY, FIRST, 0x3328, alloc)?);
    assert_eq!(rt; area.max_seq, 0x7fff_ffff);
    Ok(())
}

// The link goes down: the router-LSA is flushed, and then left as it is.
fn goes_down(area: &mut Area, alloc: Global) -> Result<bool, Fail> {
    change(area, IfaceState::Down, None, 5, alloc)?;
    let first = rests(area, alloc)?;
    let then = rests(area, alloc)?;
    Ok(first && then && is_expired(area, ROUTER_KEY))
}

// A network-LSA that was flushed and is wanted again has the number after its last one.
#[test]
fn numbers_outlive_a_flush(rt: HostRuntime) -> Result<(), Fail> {
    let alloc = rt.alloc();
    let links = links(alloc, ONE, IfaceState::Dr, Some(TWO))?;
    let mut area = area(alloc, ONE, false, NO_FLOOR, links);
    step(&mut area, alloc)?;
    assert!(rt; stands_alone(&mut area, alloc)?);
    leave(&mut area, NETWORK_KEY, alloc)?;
    change(&mut area, IfaceState::Dr, Some(TWO), 5, alloc)?;
    assert!(rt; issues_number(&mut area, FIRST + 1, alloc)?);
    Ok(())
}

// No one is fully adjacent any more: the network-LSA is flushed.
fn stands_alone(area: &mut Area, alloc: Global) -> Result<bool, Fail> {
    change(area, IfaceState::Dr, None, 1, alloc)?;
    let none = rests(area, alloc)?;
    Ok(none && is_expired(area, NETWORK_KEY))
}

#[test]
fn a_newer_one_that_was_heard(rt: HostRuntime) -> Result<(), Fail> {
    let alloc = rt.alloc();
    let mut area = one(alloc, false, NO_FLOOR, Some(TWO))?;
    assert!(rt; issues_number(&mut area, FIRST, alloc)?);
    let lsa = Lsa::router(alloc, ONE.router, FIRST + 4, &[])?;
    hear(&mut area, &lsa, alloc)?;
    assert!(rt; issues_number(&mut area, FIRST + 5, alloc)?);
    Ok(())
}

// A network-LSA of the router's address that it does not want is flushed, all its other bytes as they were.
#[test]
fn one_that_is_not_wanted(rt: HostRuntime) -> Result<(), Fail> {
    let alloc = rt.alloc();
    let mut area = one(alloc, false, NO_FLOOR, Some(TWO))?;
    assert!(rt; issues_number(&mut area, FIRST, alloc)?);
    let routers = [ONE.router, TWO.router];
    let lsa = Lsa::network(alloc, ONE.address.0, ONE.router, FIRST + 2, MASK, &routers)?;
    hear(&mut area, &lsa, alloc)?;
    assert!(rt; flushes(&mut area, &lsa, alloc)?);
    assert!(rt; is_expired(&area, NETWORK_KEY));
    Ok(())
}

// A step issues nothing, and sends one datagram, an Update of the LSA at MaxAge.
fn flushes(area: &mut Area, lsa: &Lsa, alloc: Global) -> Result<bool, Fail> {
    let mut out = Outputs::new(alloc);
    own_lsas(area, &mut out, alloc)?;
    Ok(out.issued.is_empty() && was_flushed(&out, &lsa.view()))
}

fn was_flushed(out: &Outputs, lsa: &LsaView<'_>) -> bool {
    let [sent] = out.sent() else {
        return false;
    };
    match sent.bytes.get(28..) {
        Some(copy) => match LsaView::read(copy) {
            Ok(copy) => {
                let expired = copy.header().age.ticks() == MAX_AGE;
                expired && copy.as_bytes()[2..] == lsa.as_bytes()[2..]
            }
            Err(_) => false,
        },
        None => false,
    }
}
