//! Hellos of one link, and its timers.

use super::made::require;
use super::wired::{LOCAL, OWN, count, iface};
use ospf_adjacency::{
    go_down, go_up, receive_hello, is_at, is_named, is_settled, send_due_hello, send_hello,
    tick_neighbours, tick_timers,
};
use ospf_area::{LinkContext, Outputs, RouterContext, Outbox};
use ospf_base::{ALL_SPF_ROUTERS, Addr, AreaId, InterfaceKind, RouterId};
use ospf_neighbour::iface::{Iface, IfaceState};
use ospf_neighbour::{NbrEvent, Neighbour, NeighbourState, place_for};
use ospf_packet::{Body, BodyValue, Hello, Packet, PacketValue, write_packet};
use std::alloc::Global;
use std::test::Fail;

fn hello(priority: u8, dr: Addr, backup: Addr) -> Hello {
    Hello {
        mask: 0xffff_ff00,
        hello_interval: 10,
        options: 2,
        priority,
        dead_interval: 40,
        designated: dr,
        backup,
    }
}

fn on_link(iface: Iface) -> LinkContext {
    LinkContext {
        iface,
        local: LOCAL,
    }
}

// What was posted goes out of the link. Answers it, and the router's next number.
fn sent(outbox: Outbox, link: &Iface, alloc: Global) -> Result<(Outputs, u32), Fail> {
    let own = RouterContext {
        router: OWN,
        area: AreaId(0),
        tick: LOCAL.tick,
        passes_over: false,
    };
    let mut out = Outputs::new(alloc);
    let number = outbox.next();
    outbox.send_all(&mut out, own, 0, link)?;
    Ok((out, number))
}

// A neighbour that has been heard, or that has heard the router too.
fn neighbour(alloc: Global, router: u32, two_way: bool, dead: u32) -> Neighbour {
    let mut neighbour = Neighbour::new(alloc, RouterId(router), Addr(router));
    let _ = neighbour.event(NbrEvent::HelloReceived, dead);
    if two_way {
        let _ = neighbour.event(NbrEvent::TwoWayReceived(false), dead);
    }
    neighbour
}

// A first Hello makes a neighbour, which is heard only in one way: it is not answered. The priority that it brings is new.
#[test]
fn a_hello_makes_a_neighbour(rt: HostRuntime) -> Result<(), Fail> {
    let alloc = rt.alloc();
    let link = iface(InterfaceKind::Broadcast, IfaceState::DrOther);
    let mut neighbours = Vec::new(alloc);
    let mut outbox = Outbox::new(5, alloc);
    let said = hello(3, Addr(2), Addr::NOWHERE);
    let elects = receive_hello(
        &mut neighbours,
        RouterId(2),
        Addr(2),
        &said,
        false,
        &on_link(link),
        &mut outbox,
    )?;
    let (out, _) = sent(outbox, &link, alloc)?;
    assert_eq!(rt; elects, true);
    assert_eq!(rt; count(&out), 0);
    let first = neighbours.first().ok_or("none")?;
    assert_eq!(rt;
        (first.router(), first.state()),
        (RouterId(2), NeighbourState::Init)
    );
    assert_eq!(rt;
        (first.declared().priority, first.declared().dr),
        (3, Addr(2))
    );
    assert_eq!(rt; first.inactivity(), 40);
    Ok(())
}

// On a point-to-point link a neighbour that has heard the router begins an adjacency: the first packet goes out.
#[test]
fn heard_both_ways(rt: HostRuntime) -> Result<(), Fail> {
    let alloc = rt.alloc();
    let link = iface(InterfaceKind::PointToPoint, IfaceState::PointToPoint);
    let mut neighbours = vec![in alloc; neighbour(alloc, 2, false, 1)]?;
    let mut outbox = Outbox::new(5, alloc);
    let said = hello(1, Addr::NOWHERE, Addr::NOWHERE);
    let elects = receive_hello(
        &mut neighbours,
        RouterId(2),
        Addr(2),
        &said,
        true,
        &on_link(link),
        &mut outbox,
    )?;
    let (out, number) = sent(outbox, &link, alloc)?;
    assert_eq!(rt; elects, false);
    assert_eq!(rt; number, 6);
    let first = neighbours.first().ok_or("none")?;
    assert_eq!(rt;
        (first.state(), first.inactivity()),
        (NeighbourState::ExStart, 40)
    );
    let sent = out.sent().first().ok_or("nothing sent")?;
    let Body::Description(fields, headers) = Packet::read(&sent.bytes)?.body else {
        return Err("another packet".into());
    };
    let mut described: usize = 0;
    for _ in headers {
        described = described.wrapping_add(1);
    }
    assert_eq!(rt; (fields.number, fields.flags, described), (5, 7, 0));
    Ok(())
}

// Whether an election is due by a Hello of neighbour 2, which was in 2-Way, and its state then.
fn elects_by(
    alloc: Global,
    state: IfaceState,
    said: &Hello,
    named: bool,
) -> Result<(bool, NeighbourState), Fail> {
    let link = iface(InterfaceKind::Broadcast, state);
    let mut neighbours = vec![in alloc; neighbour(alloc, 2, true, 40)]?;
    let mut outbox = Outbox::new(5, alloc);
    let elects = receive_hello(
        &mut neighbours,
        RouterId(2),
        Addr(2),
        said,
        named,
        &on_link(link),
        &mut outbox,
    )?;
    let heard = neighbours.first().ok_or("none")?;
    Ok((elects, heard.state()))
}

// BackupSeen in Waiting, and NeighborChange above, each only where something is new. Who no longer names the router falls to Init.
#[test]
fn elections_by_hellos(rt: HostRuntime) -> Result<(), Fail> {
    let alloc = rt.alloc();
    let as_before = hello(0, Addr::NOWHERE, Addr::NOWHERE);
    let first = hello(1, Addr::NOWHERE, Addr::NOWHERE);
    let designated = hello(0, Addr(2), Addr::NOWHERE);
    let backup = hello(0, Addr(3), Addr(2));
    for (state, said, named, due) in [
        (IfaceState::DrOther, as_before, true, false),
        (IfaceState::DrOther, as_before, false, true),
        (IfaceState::Backup, first, true, true),
        (IfaceState::Dr, designated, true, true),
        (IfaceState::Waiting, first, true, false),
        (IfaceState::Waiting, designated, true, true),
        (IfaceState::Waiting, backup, true, true),
        (IfaceState::Waiting, backup, false, false),
    ] {
        let stays = if named {
            NeighbourState::TwoWay
        } else {
            NeighbourState::Init
        };
        assert_eq!(rt; elects_by(alloc, state, &said, named)?, (due, stays));
    }
    Ok(())
}

// A neighbour whose timer fires is removed, which elects where it was in 2-Way; the others' timers count.
#[test]
fn a_silent_neighbour_is_removed(rt: HostRuntime) -> Result<(), Fail> {
    let alloc = rt.alloc();
    for (two_way, due) in [(true, true), (false, false)] {
        let mut link = iface(InterfaceKind::Broadcast, IfaceState::Dr);
        let mut neighbours = vec![in alloc;
            neighbour(alloc, 2, two_way, 1),
            neighbour(alloc, 3, true, 9),
        ]?;
        assert_eq!(rt; tick_timers(&mut link, &mut neighbours), due);
        assert_eq!(rt; neighbours.len(), 1);
        let left = neighbours.first().ok_or("none")?;
        assert_eq!(rt; (left.router(), left.inactivity()), (RouterId(3), 8));
        tick_neighbours(&mut neighbours);
        assert_eq!(rt; neighbours.len(), 1);
    }
    Ok(())
}

#[test]
fn the_wait_timer_elects(rt: HostRuntime) -> Result<(), Fail> {
    let alloc = rt.alloc();
    let mut link = iface(InterfaceKind::Broadcast, IfaceState::Down);
    assert!(rt; go_up(&mut link));
    assert_eq!(rt; (link.state, link.wait), (IfaceState::Waiting, 40));
    assert!(rt; !go_up(&mut link));
    link.wait = 2;
    let mut neighbours = Vec::new(alloc);
    assert!(rt; !tick_timers(&mut link, &mut neighbours));
    assert!(rt; tick_timers(&mut link, &mut neighbours));
    Ok(())
}

// A link that goes down loses its neighbours, and one that is down stays as it is.
#[test]
fn a_link_goes_down(rt: HostRuntime) -> Result<(), Fail> {
    let alloc = rt.alloc();
    let mut link = iface(InterfaceKind::Broadcast, IfaceState::Backup);
    let mut neighbours = vec![in alloc; neighbour(alloc, 2, true, 40)]?;
    assert!(rt; go_down(&mut link, &mut neighbours));
    assert!(rt; link.state.is_down());
    assert!(rt; neighbours.is_empty());
    assert!(rt; !go_down(&mut link, &mut neighbours));
    assert!(rt; is_settled(IfaceState::Backup) && !is_settled(link.state));
    Ok(())
}

// The neighbours that the last Hello lists.
fn listed(out: &Outputs, alloc: Global) -> Result<Vec<RouterId>, Fail> {
    let last = out.sent().last().ok_or("nothing sent")?;
    require(last.destination == ALL_SPF_ROUTERS)?;
    let Body::Hello(_, neighbours) = Packet::read(&last.bytes)?.body else {
        return Err("another packet".into());
    };
    let mut all = Vec::new(alloc);
    for router in neighbours {
        all.push(router)?;
    }
    Ok(all)
}

// A Hello goes out each HelloInterval, and lists the neighbours in rising Router ID.
#[test]
fn a_hello_each_interval(rt: HostRuntime) -> Result<(), Fail> {
    let alloc = rt.alloc();
    let mut link = iface(InterfaceKind::Broadcast, IfaceState::DrOther);
    link.hello_in = 2;
    let neighbours = [
        neighbour(alloc, 2, false, 40),
        neighbour(alloc, 3, true, 40),
    ];
    let mut outbox = Outbox::new(5, alloc);
    send_due_hello(&mut link, &neighbours, &mut outbox)?;
    assert_eq!(rt; count(&sent(outbox, &link, alloc)?.0), 0);
    let mut outbox = Outbox::new(5, alloc);
    send_due_hello(&mut link, &neighbours, &mut outbox)?;
    let (out, _) = sent(outbox, &link, alloc)?;
    assert_eq!(rt; (count(&out), link.hello_in), (1, 10));
    assert_eq!(rt;
        listed(&out, alloc)?.as_slice(),
        [RouterId(2), RouterId(3)].as_slice()
    );
    let mut outbox = Outbox::new(5, alloc);
    send_due_hello(&mut link, &neighbours, &mut outbox)?;
    send_hello(&link, &neighbours, &mut outbox)?;
    assert_eq!(rt; count(&sent(outbox, &link, alloc)?.0), 1);
    Ok(())
}

// Whether a Hello that lists routers 2 and 4 names this one.
fn names(alloc: Global, router: u32) -> Result<bool, Fail> {
    let value = PacketValue {
        router: RouterId(9),
        area: AreaId(0),
        body: BodyValue::Hello(
            hello(1, Addr::NOWHERE, Addr::NOWHERE),
            vec![in alloc; RouterId(2), RouterId(4)]?,
        ),
    };
    let mut bytes = Vec::new(alloc);
    write_packet(&value, &mut bytes)?;
    match Packet::read(&bytes)?.body {
        Body::Hello(_, neighbours) => Ok(is_named(neighbours, RouterId(router))),
        _ => Err("another packet".into()),
    }
}

#[test]
fn who_is_named_and_where(rt: HostRuntime) -> Result<(), Fail> {
    let alloc = rt.alloc();
    assert!(rt; names(alloc, 4)?);
    assert!(rt; !names(alloc, 3)?);
    let neighbours = [
        neighbour(alloc, 2, false, 40),
        neighbour(alloc, 4, true, 40),
    ];
    for (router, place, is_there) in [
        (1, 0, false),
        (2, 0, true),
        (3, 1, false),
        (4, 1, true),
        (5, 2, false),
    ] {
        assert_eq!(rt; place_for(&neighbours, RouterId(router)), place);
        assert_eq!(rt; is_at(&neighbours, place, RouterId(router)), is_there);
    }
    Ok(())
}
