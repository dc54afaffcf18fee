//! Adjacencies of one router: Database Descriptions that come, and an election.

use super::made::{FIRST_NUMBER, require};
use super::wired::{OWN, count, description, iface};
use ospf_adjacency::{
    elect_on, is_broadcast, is_dropped, take_description, take_event, wants_adjacency,
};
use ospf_area::{LinkContext, Outputs, RouterContext, Outbox, request_turn, send_dd, send_request};
use ospf_base::{ALL_SPF_ROUTERS, Addr, AreaId, InterfaceKind, RouterId};
use ospf_exchange::Local;
use ospf_neighbour::iface::{Iface, IfaceState};
use ospf_lsa::Lsa;
use ospf_lsdb::Lsdb;
use ospf_neighbour::{Declared, NbrEvent, Neighbour, NeighbourState};
use ospf_packet::{Body, BodyValue, Description, Packet, PacketValue, write_packet};
use std::alloc::Global;
use std::test::Fail;

fn local(mtu: u16) -> Local {
    Local {
        router: OWN,
        mtu,
        tick: 7,
        passes_over: false,
    }
}

fn on_link(iface: Iface, mtu: u16) -> LinkContext {
    LinkContext {
        iface,
        local: local(mtu),
    }
}

// What was posted goes out of link 4, at address 0.0.0.1. Answers the router's next number.
fn send(outbox: Outbox, out: &mut Outputs) -> Result<u32, Fail> {
    let own = RouterContext {
        router: OWN,
        area: AreaId(0),
        tick: 7,
        passes_over: false,
    };
    let link = iface(InterfaceKind::Broadcast, IfaceState::DrOther);
    let number = outbox.next();
    outbox.send_all(out, own, 4, &link)?;
    Ok(number)
}

// A Database Description without headers, taken by a neighbour on a point-to-point link.
fn hear(
    neighbour: &mut Neighbour,
    description: Description,
    database: &Lsdb,
    out: &mut Outputs,
    alloc: Global,
) -> Result<bool, Fail> {
    let value = PacketValue {
        router: neighbour.router(),
        area: AreaId(0),
        body: BodyValue::Description(description, Vec::new(alloc)),
    };
    let mut bytes = Vec::new(alloc);
    write_packet(&value, &mut bytes)?;
    let Body::Description(fields, headers) = Packet::read(&bytes)?.body else {
        return Err("another packet".into());
    };
    let link = iface(InterfaceKind::PointToPoint, IfaceState::PointToPoint);
    let at = on_link(link, 576);
    let mut outbox = Outbox::new(100, alloc);
    let router = neighbour.router();
    let dropped = is_dropped(neighbour, router, fields, &headers, local(576));
    let taken = take_description(
        neighbour, router, fields, headers, database, &at, &mut outbox,
    )?;
    send(outbox, out)?;
    require(taken != dropped)?;
    Ok(taken)
}

// The flags, the number and how many headers a Database Description has.
fn description_in(bytes: &[u8]) -> Option<(u8, u32, usize)> {
    let Body::Description(fields, headers) = Packet::read(bytes).ok()?.body else {
        return None;
    };
    let mut count: usize = 0;
    for _ in headers {
        count = count.wrapping_add(1);
    }
    Some((fields.flags, fields.number, count))
}

// Those of the last packet.
fn last_sent(out: &Outputs) -> Option<(u8, u32, usize)> {
    description_in(&out.sent().last()?.bytes)
}

// A neighbour in ExStart on a point-to-point link, and the first packet to it.
fn starting(alloc: Global, out: &mut Outputs) -> Result<Neighbour, Fail> {
    let link = iface(InterfaceKind::PointToPoint, IfaceState::PointToPoint);
    let at = on_link(link, 576);
    let mut outbox = Outbox::new(50, alloc);
    let mut neighbour = Neighbour::new(alloc, RouterId(2), Addr(2));
    for event in [NbrEvent::HelloReceived, NbrEvent::TwoWayReceived(true)] {
        take_event(&mut neighbour, event, &at, &mut outbox)?;
    }
    require(send(outbox, out)? == 51)?;
    Ok(neighbour)
}

// A database with an LSA of each of so many routers.
fn filled(alloc: Global, count: u32) -> Result<Lsdb, Fail> {
    let mut database = Lsdb::new(alloc);
    for router in 0..count {
        let lsa = Lsa::router(alloc, RouterId(router), FIRST_NUMBER, &[])?;
        database.install(lsa, 0, true)?;
    }
    Ok(database)
}

// One byte over the interface's MTU it is dropped, in Init too.
#[test]
fn a_larger_mtu_is_dropped(rt: HostRuntime) -> Result<(), Fail> {
    let alloc = rt.alloc();
    let database = Lsdb::new(alloc);
    let mut out = Outputs::new(alloc);
    let mut neighbour = Neighbour::new(alloc, RouterId(2), Addr(2));
    let _ = neighbour.event(NbrEvent::HelloReceived, 40);
    let taken = hear(
        &mut neighbour,
        description(577, 7, 5),
        &database,
        &mut out,
        alloc,
    )?;
    assert_eq!(rt; taken, false);
    assert_eq!(rt; neighbour.state(), NeighbourState::Init);
    assert_eq!(rt; count(&out), 0);
    let taken = hear(
        &mut neighbour,
        description(576, 7, 5),
        &database,
        &mut out,
        alloc,
    )?;
    assert_eq!(rt; taken, true);
    assert_eq!(rt; neighbour.state(), NeighbourState::Exchange);
    Ok(())
}

// At MTU 576 a slave with 27 LSAs sends 26 headers and says that there are more, and then one.
#[test]
fn a_slave_sends_what_fits(rt: HostRuntime) -> Result<(), Fail> {
    let alloc = rt.alloc();
    let database = filled(alloc, 27)?;
    let mut out = Outputs::new(alloc);
    let mut neighbour = starting(alloc, &mut out)?;
    assert_eq!(rt; last_sent(&out), Some((7, 50, 0)));
    hear(
        &mut neighbour,
        description(576, 7, 900),
        &database,
        &mut out,
        alloc,
    )?;
    assert_eq!(rt; last_sent(&out), Some((2, 900, 26)));
    hear(
        &mut neighbour,
        description(576, 1, 901),
        &database,
        &mut out,
        alloc,
    )?;
    assert_eq!(rt; last_sent(&out), Some((0, 901, 1)));
    assert_eq!(rt; neighbour.state(), NeighbourState::Full);
    Ok(())
}

// A slave that gets a packet again sends its own again, and nothing else comes of it.
#[test]
fn a_slave_repeats_its_last(rt: HostRuntime) -> Result<(), Fail> {
    let alloc = rt.alloc();
    let database = filled(alloc, 27)?;
    let mut out = Outputs::new(alloc);
    let mut neighbour = starting(alloc, &mut out)?;
    hear(
        &mut neighbour,
        description(576, 7, 900),
        &database,
        &mut out,
        alloc,
    )?;
    let sent = count(&out);
    hear(
        &mut neighbour,
        description(576, 7, 900),
        &database,
        &mut out,
        alloc,
    )?;
    assert_eq!(rt; count(&out), sent.wrapping_add(1));
    assert_eq!(rt; last_sent(&out), Some((2, 900, 26)));
    assert_eq!(rt; neighbour.summary().len(), 1);
    Ok(())
}

// One that does not follow the last begins the adjacency anew, with the next number.
#[test]
fn a_mismatch_begins_anew(rt: HostRuntime) -> Result<(), Fail> {
    let alloc = rt.alloc();
    let database = filled(alloc, 27)?;
    let mut out = Outputs::new(alloc);
    let mut neighbour = starting(alloc, &mut out)?;
    hear(
        &mut neighbour,
        description(576, 7, 900),
        &database,
        &mut out,
        alloc,
    )?;
    hear(
        &mut neighbour,
        description(576, 3, 903),
        &database,
        &mut out,
        alloc,
    )?;
    assert_eq!(rt; neighbour.state(), NeighbourState::ExStart);
    assert_eq!(rt; last_sent(&out), Some((7, 100, 0)));
    assert!(rt; neighbour.summary().is_empty());
    Ok(())
}

// A neighbour in 2-Way, which declares this Designated Router.
fn two_way(alloc: Global, router: u32, priority: u8, dr: Addr) -> Neighbour {
    let mut neighbour = Neighbour::new(alloc, RouterId(router), Addr(router));
    let _ = neighbour.event(NbrEvent::HelloReceived, 40);
    let _ = neighbour.event(NbrEvent::TwoWayReceived(false), 40);
    neighbour.declare(Declared {
        priority,
        dr,
        backup: Addr::NOWHERE,
    });
    neighbour
}

// Of routers of priorities 1, 1 and 0 one declares itself Designated Router: the other of priority 1 becomes the Backup, and
// begins adjacencies with both, in rising Router ID.
#[test]
fn three_routers_elect(rt: HostRuntime) -> Result<(), Fail> {
    let alloc = rt.alloc();
    let mut link = iface(InterfaceKind::Broadcast, IfaceState::Down);
    link.settings.router = OWN;
    link.state = IfaceState::Waiting;
    let mut neighbours = [
        two_way(alloc, 2, 1, Addr(2)),
        two_way(alloc, 3, 0, Addr::NOWHERE),
    ];
    let number = u32::MAX;
    let mut out = Outputs::new(alloc);
    let mut outbox = Outbox::new(number, alloc);
    elect_on(&mut link, &mut neighbours, local(1500), &mut outbox)?;
    let number = send(outbox, &mut out)?;
    assert_eq!(rt;
        (link.state, link.dr, link.backup),
        (IfaceState::Backup, Addr(2), Addr(1))
    );
    assert_eq!(rt; number, 1);
    let mut begun = Vec::new(alloc);
    for packet in out.sent() {
        begun.push(packet.destination)?;
    }
    assert_eq!(rt; begun.as_slice(), [Addr(2), Addr(3)].as_slice());
    assert_eq!(rt; last_sent(&out), Some((7, 0, 0)));
    Ok(())
}

// A neighbour in Exchange, which declares nothing and may not be elected.
fn exchanging(alloc: Global, router: u32) -> Neighbour {
    let mut neighbour = two_way(alloc, router, 0, Addr::NOWHERE);
    let _ = neighbour.event(NbrEvent::AdjOk(true), 40);
    let _ = neighbour.event(NbrEvent::NegotiationDone, 40);
    neighbour
}

// Another Designated Router: the adjacency with the one before ends, and that with the new one begins.
#[test]
fn adjacencies_end(rt: HostRuntime) -> Result<(), Fail> {
    let alloc = rt.alloc();
    let mut link = iface(InterfaceKind::Broadcast, IfaceState::Down);
    link.settings.router = OWN;
    link.settings.priority = 0;
    link.state = IfaceState::DrOther;
    link.dr = Addr(2);
    let mut neighbours = [exchanging(alloc, 2), two_way(alloc, 3, 1, Addr(3))];
    let number = 50;
    let mut out = Outputs::new(alloc);
    let mut outbox = Outbox::new(number, alloc);
    elect_on(&mut link, &mut neighbours, local(1500), &mut outbox)?;
    let number = send(outbox, &mut out)?;
    assert_eq!(rt;
        (link.state, link.dr, link.backup),
        (IfaceState::DrOther, Addr(3), Addr::NOWHERE)
    );
    assert_eq!(rt; neighbours[0].state(), NeighbourState::TwoWay);
    assert_eq!(rt; neighbours[1].state(), NeighbourState::ExStart);
    assert_eq!(rt; (count(&out), last_sent(&out)), (1, Some((7, 50, 0))));
    assert_eq!(rt; number, 51);
    Ok(())
}

// A neighbour in Loading is Full once all that was requested has come.
#[test]
fn loading_is_done(rt: HostRuntime) -> Result<(), Fail> {
    let alloc = rt.alloc();
    let link = iface(InterfaceKind::Broadcast, IfaceState::Dr);
    let lsa = Lsa::router(alloc, RouterId(7), FIRST_NUMBER, &[])?;
    let mut neighbour = exchanging(alloc, 2);
    if neighbour.is_exchanging() {
        neighbour.add_requests(&[lsa.view().header()])?;
    }
    let _ = neighbour.event(NbrEvent::ExchangeDone, 40);
    let mut out = Outputs::new(alloc);
    for state in [NeighbourState::Loading, NeighbourState::Full] {
        let mut outbox = Outbox::new(50, alloc);
        request_turn(&mut neighbour, &on_link(link, 1500), &mut outbox)?;
        send(outbox, &mut out)?;
        assert_eq!(rt; (neighbour.state(), count(&out)), (state, 1));
        neighbour.remove_request(&lsa.view().key());
    }
    Ok(())
}

#[test]
fn adjacencies_with_the_designated_router(rt: HostRuntime) {
    let mut link = iface(InterfaceKind::Broadcast, IfaceState::DrOther);
    link.dr = Addr(2);
    assert!(rt; is_broadcast(&link));
    assert!(rt; wants_adjacency(&link, Addr(2)));
    assert!(rt; !wants_adjacency(&link, Addr(3)));
    link.backup = Addr(1);
    assert!(rt; wants_adjacency(&link, Addr(3)));
}

// On a point-to-point link all goes to all OSPF routers, on another to the neighbour.
#[test]
fn where_packets_go(rt: HostRuntime) -> Result<(), Fail> {
    let alloc = rt.alloc();
    let mut out = Outputs::new(alloc);
    let mut neighbour = starting(alloc, &mut out)?;
    let ends = iface(InterfaceKind::PointToPoint, IfaceState::PointToPoint);
    let link = iface(InterfaceKind::Broadcast, IfaceState::DrOther);
    let mut outbox = Outbox::new(50, alloc);
    send_dd(&neighbour, &on_link(ends, 576), &mut outbox)?;
    send_request(&neighbour, &on_link(link, 576), &mut outbox)?;
    request_turn(&mut neighbour, &on_link(link, 576), &mut outbox)?;
    send(outbox, &mut out)?;
    let mut ways = Vec::new(alloc);
    for packet in out.sent() {
        ways.push(packet.destination)?;
    }
    assert_eq!(rt;
        ways.as_slice(),
        [ALL_SPF_ROUTERS, ALL_SPF_ROUTERS, Addr(2)].as_slice()
    );
    Ok(())
}

// What goes out is behind what there was, from the interface's address.
#[test]
fn outputs_are_kept(rt: HostRuntime) -> Result<(), Fail> {
    let alloc = rt.alloc();
    let mut out = Outputs::new(alloc);
    let neighbour = starting(alloc, &mut out)?;
    let own = RouterContext {
        router: RouterId(5),
        area: AreaId(3),
        tick: 8,
        passes_over: false,
    };
    let link = iface(InterfaceKind::PointToPoint, IfaceState::PointToPoint);
    let mut outbox = Outbox::new(50, alloc);
    send_dd(&neighbour, &on_link(link, 576), &mut outbox)?;
    outbox.send_all(&mut out, own, 6, &link)?;
    let mut links = Vec::new(alloc);
    for sent in out.sent() {
        let packet = Packet::read(&sent.bytes)?;
        links.push((sent.link, sent.source, packet.router, packet.area))?;
    }
    assert_eq!(rt;
        links.as_slice(),
        [
            (4, Addr(1), OWN, AreaId(0)),
            (6, Addr(1), RouterId(5), AreaId(3)),
        ]
        .as_slice()
    );
    Ok(())
}
