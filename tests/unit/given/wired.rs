//! Interfaces, neighbours and areas, for the tests of what goes on in an area.

use ospf_area::{Area, AreaLink, PacketSource, Outputs, source_of};
use ospf_base::{Addr, AreaId, InterfaceKind, RouterId};
use ospf_exchange::Local;
use ospf_neighbour::iface::{Iface, IfaceSettings, IfaceState};
use ospf_lsa::LsaHeader;
use ospf_lsdb::Lsdb;
use ospf_neighbour::{NbrEvent, Neighbour};
use ospf_packet::Description;
use std::alloc::Global;
use std::collections::BTreeSet;
use std::test::Fail;

/// The router of one interface.
pub(crate) const OWN: RouterId = RouterId(1);

/// What it knows in tick 7.
pub(crate) const LOCAL: Local = Local {
    router: OWN,
    mtu: 1500,
    tick: 7,
    passes_over: false,
};

/// Its interface, at 0.0.0.1.
pub(crate) fn iface(kind: InterfaceKind, state: IfaceState) -> Iface {
    iface_at(Addr(1), kind, state)
}

/// The same at another address.
pub(crate) fn iface_at(address: Addr, kind: InterfaceKind, state: IfaceState) -> Iface {
    Iface {
        settings: IfaceSettings {
            router: OWN,
            kind,
            address,
            mask: 0xffff_ff00,
            priority: 1,
            hello: 10,
            dead: 40,
        },
        state,
        dr: Addr::NOWHERE,
        backup: Addr::NOWHERE,
        wait: 0,
        hello_in: 10,
    }
}

/// What a Database Description says without headers.
pub(crate) fn description(mtu: u16, flags: u8, number: u32) -> Description {
    Description {
        mtu,
        options: 2,
        flags,
        number,
    }
}

/// A neighbour in Exchange.
pub(crate) fn in_exchange(alloc: Global, router: u32) -> Neighbour {
    let mut neighbour = Neighbour::new(alloc, RouterId(router), Addr(router));
    for event in [
        NbrEvent::HelloReceived,
        NbrEvent::TwoWayReceived(true),
        NbrEvent::NegotiationDone,
    ] {
        neighbour.event(event, 40);
    }
    neighbour
}

/// A neighbour in Full, or one in Loading that has described these.
pub(crate) fn neighbour(
    alloc: Global,
    router: u32,
    described: &[LsaHeader],
) -> Result<Neighbour, Fail> {
    let mut neighbour = in_exchange(alloc, router);
    if neighbour.is_exchanging() {
        neighbour.add_requests(described)?;
    }
    neighbour.event(NbrEvent::ExchangeDone, 40);
    Ok(neighbour)
}

/// A router's area with these links and an empty database, in a tick, with its next DD number.
pub(crate) fn area_of(
    alloc: Global,
    router: RouterId,
    links: Vec<AreaLink>,
    tick: u64,
    next_dd: u32,
) -> Area {
    Area {
        router,
        area: AreaId(0),
        stub_router: false,
        passes_over: false,
        links,
        stubs: Vec::new(alloc),
        database: Lsdb::new(alloc),
        direct: Vec::new(alloc),
        numbering: Vec::new(alloc),
        floor: i32::MIN,
        tick,
        next_dd,
        sent: BTreeSet::new(alloc),
        heard: Vec::new(alloc),
        max_seq: i32::MIN,
    }
}

/// How many datagrams go out.
pub(crate) fn count(out: &Outputs) -> usize {
    out.sent().len()
}

/// How many instances wait for the acknowledgement of a neighbour.
pub(crate) fn waiting(area: &Area, from: PacketSource) -> usize {
    match source_of(&area.links, from) {
        Some(neighbour) => neighbour.retransmission().len(),
        None => 99,
    }
}
