//! A router with two links and three neighbours: what the tests in the files of `update/` start from.

use super::made::lsa_of;
use super::wired::{area_of, neighbour, waiting};
use ospf_area::{Area, AreaLink, LinkSettings, PacketSource, Outputs};
use ospf_base::{Addr, AreaId, InterfaceKind, RouterId};
use ospf_neighbour::iface::{Iface, IfaceSettings, IfaceState};
use ospf_lsa::{Lsa, LsaHeader};
use ospf_neighbour::Neighbours;
use ospf_packet::{Body, BodyValue, Packet, PacketValue, write_packet};
use ospf_area::update::{on_update, store};
use std::alloc::Global;
use std::test::Fail;

mod acknowledgements;
mod cells;
mod flooding;
mod leaving;
mod other_types;
mod requests;

// 0x80000001, the number that a router uses first, and the one that follows.
const FIRST: i32 = -0x7fff_ffff;

const SECOND: i32 = -0x7fff_fffe;

const OWN: RouterId = RouterId(9);

const MTU: u16 = 576;

const FROM_FIRST: PacketSource = PacketSource {
    link: 0,
    router: RouterId(1),
    address: Addr(1),
};

const FROM_SECOND: PacketSource = PacketSource {
    link: 0,
    router: RouterId(2),
    address: Addr(2),
};

const FROM_THIRD: PacketSource = PacketSource {
    link: 1,
    router: RouterId(3),
    address: Addr(3),
};

// ---- a router

fn neighbours(alloc: Global, others: &[u32], described: &[LsaHeader]) -> Result<Neighbours, Fail> {
    let mut neighbours = Neighbours::new(alloc);
    for router in others {
        let other = neighbour(alloc, *router, described)?;
        if neighbours.get(other.router()).is_none() {
            neighbours.add(other)?;
        }
    }
    Ok(neighbours)
}

// The Designated Router and its Backup of a link on which this router, at 0.0.0.101, is in a state.
fn elected(state: IfaceState) -> (Addr, Addr) {
    match state {
        IfaceState::Dr => (Addr(101), Addr(1)),
        IfaceState::Backup => (Addr(1), Addr(101)),
        _ => (Addr(1), Addr(2)),
    }
}

fn iface(address: Addr, kind: InterfaceKind, state: IfaceState) -> Iface {
    let (dr, backup) = elected(state);
    Iface {
        settings: IfaceSettings {
            router: OWN,
            kind,
            address,
            mask: 0xffff_ff00,
            priority: 1,
            hello: 10,
            dead: 40,
        },
        state,
        dr,
        backup,
        wait: 0,
        hello_in: 0,
    }
}

fn link(alloc: Global, iface: Iface, neighbours: Neighbours) -> AreaLink {
    AreaLink {
        iface,
        settings: LinkSettings {
            cost: 10,
            retransmit: 5,
            transmit_delay: 3,
            mtu: MTU,
            suppressed: false,
        },
        neighbours,
        delayed: Vec::new(alloc),
        elects: false,
    }
}

// A broadcast link to the neighbours 1 and 2, and a point-to-point link to neighbour 3.
fn links(alloc: Global, state: IfaceState, described: &[LsaHeader]) -> Result<Vec<AreaLink>, Fail> {
    let broadcast = iface(Addr(101), InterfaceKind::Broadcast, state);
    let other = iface(
        Addr(102),
        InterfaceKind::PointToPoint,
        IfaceState::PointToPoint,
    );
    let mut links = Vec::new(alloc);
    links.push(link(alloc, broadcast, neighbours(alloc, &[1, 2], &[])?))?;
    links.push(link(alloc, other, neighbours(alloc, &[3], described)?))?;
    Ok(links)
}

// A router in a state on the broadcast link; neighbour 1 is the Designated Router of it, if the router is not. All are
// Full, but for neighbour 3 in Loading where it has described this.
fn area(alloc: Global, state: IfaceState, described: &[LsaHeader]) -> Result<Area, Fail> {
    Ok(area_of(
        alloc,
        OWN,
        links(alloc, state, described)?,
        7,
        300,
    ))
}

// Router 7's LSA is installed and flooded, as if it had come from neighbour 3.
fn stores(area: &mut Area, number: i32, age: u16, alloc: Global) -> Result<(), Fail> {
    let lsa = lsa_of(alloc, 7, number, age)?;
    let mut out = Outputs::new(alloc);
    store(area, lsa, Some(FROM_THIRD), &mut out, alloc)?;
    Ok(())
}

// It is installed, and not flooded.
fn installs(area: &mut Area, number: i32, age: u16, alloc: Global) -> Result<(), Fail> {
    area.database
        .install(lsa_of(alloc, 7, number, age)?, 5, true)?;
    Ok(())
}

// The Designated Router of the broadcast link, with router 7's LSA installed.
fn holding(number: i32, age: u16, alloc: Global) -> Result<Area, Fail> {
    let mut area = area(alloc, IfaceState::Dr, &[])?;
    installs(&mut area, number, age, alloc)?;
    Ok(area)
}

// The same without an LSA, whose neighbour 3 has described this one.
fn loading_area(router: u32, number: i32, alloc: Global) -> Result<Area, Fail> {
    let described = lsa_of(alloc, router, number, 10)?.view().header();
    area(alloc, IfaceState::Dr, &[described])
}

// ---- what comes

// The bytes of an Update with the LSAs.
fn update_of(alloc: Global, lsas: Vec<Lsa>) -> Result<Vec<u8>, Fail> {
    let packet = PacketValue {
        router: RouterId(1),
        area: AreaId(0),
        body: BodyValue::Update(lsas),
    };
    let mut bytes = Vec::new(alloc);
    write_packet(&packet, &mut bytes)?;
    Ok(bytes)
}

fn takes_bytes(
    area: &mut Area,
    from: PacketSource,
    bytes: &[u8],
    out: &mut Outputs,
    alloc: Global,
) -> Result<(), Fail> {
    let packet = Packet::read(bytes)?;
    match packet.body {
        Body::Update(lsas) => on_update(area, from, lsas, out, alloc)?,
        _ => return Err("no Update".into()),
    }
    Ok(())
}

// Takes an Update with one LSA.
fn takes(
    area: &mut Area,
    from: PacketSource,
    lsa: Lsa,
    out: &mut Outputs,
    alloc: Global,
) -> Result<(), Fail> {
    let mut lsas = Vec::new(alloc);
    lsas.push(lsa)?;
    let bytes = update_of(alloc, lsas)?;
    takes_bytes(area, from, &bytes, out, alloc)
}

// ---- what is seen

// How many headers an Acknowledgment has: none in another packet.
fn headers_in(bytes: &[u8]) -> Result<usize, Fail> {
    let packet = Packet::read(bytes)?;
    let mut count: usize = 0;
    if let Body::Acknowledgment(headers) = packet.body {
        for _ in headers {
            count = count.wrapping_add(1);
        }
    }
    Ok(count)
}

// How many headers went out in Acknowledgments.
fn acknowledged(out: &Outputs) -> Result<usize, Fail> {
    let mut count: usize = 0;
    for sent in out.sent() {
        count = count.wrapping_add(headers_in(&sent.bytes)?);
    }
    Ok(count)
}

// How many acknowledgements wait for the next tick, on all links.
fn delayed(area: &Area) -> usize {
    let mut count: usize = 0;
    for link in &area.links {
        count = count.wrapping_add(link.delayed.len());
    }
    count
}

fn all_waiting(area: &Area) -> (usize, usize, usize) {
    (
        waiting(area, FROM_FIRST),
        waiting(area, FROM_SECOND),
        waiting(area, FROM_THIRD),
    )
}

// How many datagrams go out, and how many LSAs were taken.
fn counts(out: &Outputs) -> (usize, usize) {
    (out.sent.len(), out.taken.len())
}

fn header_of(alloc: Global, number: i32) -> Result<LsaHeader, Fail> {
    Ok(lsa_of(alloc, 7, number, 10)?.view().header())
}
