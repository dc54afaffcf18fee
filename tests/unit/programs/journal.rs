//! What a journal tells of routers, as text and as JSON.

use super::made::{FIRST, SECOND, key_of};
use super::worlds::{routers_of, start, three_on_a_network, two_on_a_link};
use ospf_base::{Addr, Kind, LsaKey, Prefix, RouterId};
use ospf_graph::{Hops, NextHop, Route};
use ospf_neighbour::iface::IfaceState;
use ospf_journal::{Dropped, DroppedAt, JournalLine, Object, Reported, RouterChange, Seen, SeenIface, dropped_of};
use ospf_neighbour::NeighbourState;
use ospf_world::{World, WorldEvent};
use std::alloc::Global;
use std::test::Fail;

const HERE: Addr = Addr(0x0a00_0001);
const THERE: Addr = Addr(0x0a00_0002);

// The lines of changes at a tick of the first router.
fn lines(tick: u64, changes: &[RouterChange], alloc: Global) -> Result<String, Fail> {
    let mut text = String::new(alloc);
    for change in changes {
        let line = JournalLine {
            tick,
            router: FIRST,
            change,
        };
        text.push_str(&format!(in alloc; "{line}\n")?)?;
    }
    Ok(text)
}

// The line and the object of a change, at tick 1204 of the first router.
fn both(change: &RouterChange, alloc: Global) -> Result<String, Fail> {
    let router = FIRST;
    let line = JournalLine {
        tick: 1204,
        router,
        change,
    };
    let object = Object {
        tick: 1204,
        router,
        change,
    };
    Ok(format!(in alloc; "{line}\n{object}")?)
}

fn network() -> LsaKey {
    LsaKey {
        kind: Kind::Network,
        id: HERE.0,
        router: FIRST,
    }
}

#[test]
fn each_change_is_printed(rt: HostRuntime) -> Result<(), Fail> {
    let alloc = rt.alloc();
    assert_eq!(rt; both(&RouterChange::Started, alloc)?.as_str(), "1204 1.1.1.1 started\n{\"tick\":1204,\"router\":\"1.1.1.1\",\"event\":\"started\"}");
    assert_eq!(rt; both(&RouterChange::Stopped, alloc)?.as_str(), "1204 1.1.1.1 stopped\n{\"tick\":1204,\"router\":\"1.1.1.1\",\"event\":\"stopped\"}");
    let dropped = RouterChange::Dropped(DroppedAt {
        link: 0,
        source: THERE,
        cause: Dropped::OwnPacket,
    });
    assert_eq!(rt; both(&dropped, alloc)?.as_str(), "1204 1.1.1.1 link 0 dropped R3 OwnPacket 10.0.0.2\n{\"tick\":1204,\"router\":\"1.1.1.1\",\"event\":\"dropped\",\"link\":0,\"cause\":\"R3 OwnPacket\",\"source\":\"10.0.0.2\"}");
    let neighbour = RouterChange::Neighbour {
        link: 0,
        router: SECOND,
        before: NeighbourState::Exchange,
        now: NeighbourState::Loading,
    };
    assert_eq!(rt; both(&neighbour, alloc)?.as_str(), "1204 1.1.1.1 link 0 neighbour 2.2.2.2 Exchange Loading\n{\"tick\":1204,\"router\":\"1.1.1.1\",\"event\":\"neighbour\",\"link\":0,\"neighbour\":\"2.2.2.2\",\"before\":\"Exchange\",\"now\":\"Loading\"}");
    let interface = RouterChange::Interface {
        link: 1,
        before: IfaceState::Waiting,
        now: SeenIface {
            state: IfaceState::Dr,
            dr: HERE,
            backup: THERE,
        },
    };
    assert_eq!(rt; both(&interface, alloc)?.as_str(), "1204 1.1.1.1 link 1 interface Waiting DR dr 10.0.0.1 backup 10.0.0.2\n{\"tick\":1204,\"router\":\"1.1.1.1\",\"event\":\"interface\",\"link\":1,\"before\":\"Waiting\",\"now\":\"DR\",\"dr\":\"10.0.0.1\",\"backup\":\"10.0.0.2\"}");
    Ok(())
}

#[test]
fn each_change_of_lsas_and_routes_is_printed(rt: HostRuntime) -> Result<(), Fail> {
    let alloc = rt.alloc();
    let issued = RouterChange::Issued {
        key: key_of(FIRST.0),
        number: -0x7fff_fffd,
    };
    assert_eq!(rt; both(&issued, alloc)?.as_str(), "1204 1.1.1.1 issued router 1.1.1.1 80000003\n{\"tick\":1204,\"router\":\"1.1.1.1\",\"event\":\"issued\",\"lsa\":\"router\",\"id\":\"1.1.1.1\",\"number\":\"80000003\"}");
    let flushed = RouterChange::Flushed {
        key: network(),
        number: -0x7fff_fffe,
    };
    assert_eq!(rt; both(&flushed, alloc)?.as_str(), "1204 1.1.1.1 flushed network 10.0.0.1 80000002\n{\"tick\":1204,\"router\":\"1.1.1.1\",\"event\":\"flushed\",\"lsa\":\"network\",\"id\":\"10.0.0.1\",\"number\":\"80000002\"}");
    let removed = RouterChange::Removed { key: network() };
    assert_eq!(rt; both(&removed, alloc)?.as_str(), "1204 1.1.1.1 removed network 10.0.0.1\n{\"tick\":1204,\"router\":\"1.1.1.1\",\"event\":\"removed\",\"lsa\":\"network\",\"id\":\"10.0.0.1\"}");
    let mut hops = Hops::new(alloc);
    hops.insert(NextHop::Attached)?;
    hops.insert(NextHop::PointToPoint {
        local: HERE,
        router: SECOND,
    })?;
    let prefix = Prefix::under(HERE, 0xffff_fffc).ok_or("no prefix")?;
    let route = RouterChange::Route(Route {
        prefix,
        cost: 10,
        hops,
    });
    assert_eq!(rt; both(&route, alloc)?.as_str(), "1204 1.1.1.1 route 10.0.0.0/30 10 attached,10.0.0.1>2.2.2.2\n{\"tick\":1204,\"router\":\"1.1.1.1\",\"event\":\"route\",\"prefix\":\"10.0.0.0/30\",\"cost\":10,\"hops\":\"attached,10.0.0.1>2.2.2.2\"}");
    let gone = RouterChange::NoRoute(prefix);
    assert_eq!(rt; both(&gone, alloc)?.as_str(), "1204 1.1.1.1 no route 10.0.0.0/30\n{\"tick\":1204,\"router\":\"1.1.1.1\",\"event\":\"no route\",\"prefix\":\"10.0.0.0/30\"}");
    Ok(())
}

// An event of the world, and what the first router's journal says of it at tick 0.
fn said(
    world: &mut World,
    seen: &mut Seen,
    event: WorldEvent,
    alloc: Global,
) -> Result<String, Fail> {
    let before = world.issued().len();
    world.step(event, alloc)?;
    let mut reported = Reported::nothing(alloc);
    for one in world.issued().iter().skip(before) {
        reported.issued.push(one.lsa.view().instance())?;
    }
    let changes = seen.follow(world.router(FIRST)?, reported, alloc)?;
    lines(0, &changes, alloc)
}

// The first router's link goes up and down, and the second one is heard meanwhile.
#[test]
fn a_link_is_followed(rt: HostRuntime) -> Result<(), Fail> {
    let alloc = rt.alloc();
    let mut world = two_on_a_link(alloc)?;
    let mut seen = Seen::nothing(alloc);
    let begins = said(&mut world, &mut seen, start(FIRST, 1), alloc)?;
    assert_eq!(rt; begins.as_str(), "0 1.1.1.1 started\n");
    let (router, link) = (FIRST, 0);
    let up = said(&mut world, &mut seen, WorldEvent::LinkUp { router, link }, alloc)?;
    assert_eq!(rt; up.as_str(), "0 1.1.1.1 link 0 interface Down Point-to-point dr 0.0.0.0 backup 0.0.0.0\n0 1.1.1.1 issued router 1.1.1.1 80000001\n0 1.1.1.1 route 10.0.0.0/30 10 attached\n");
    world.step(start(SECOND, 1), alloc)?;
    world.step(WorldEvent::LinkUp { router: SECOND, link }, alloc)?;
    // The second router's Hello, which does not list the first one yet.
    let datagram = world.datagrams().len() - 1;
    let heard = said(&mut world, &mut seen, WorldEvent::Deliver { datagram, router, link }, alloc)?;
    assert_eq!(rt; heard.as_str(), "0 1.1.1.1 link 0 neighbour 2.2.2.2 Down Init\n");
    let own = said(&mut world, &mut seen, WorldEvent::Tick { router }, alloc)?;
    assert_eq!(rt; own.as_str(), "");
    let down = said(&mut world, &mut seen, WorldEvent::LinkDown { router, link }, alloc)?;
    assert_eq!(rt; down.as_str(), "0 1.1.1.1 link 0 neighbour 2.2.2.2 Init Down\n0 1.1.1.1 link 0 interface Point-to-point Down dr 0.0.0.0 backup 0.0.0.0\n");
    for _ in 0..4 {
        let _quiet = said(&mut world, &mut seen, WorldEvent::Tick { router }, alloc)?;
    }
    Ok(())
}

// The first router of two runs, and its link is up.
fn first_of_two(alloc: Global) -> Result<World, Fail> {
    let mut world = two_on_a_link(alloc)?;
    world.step(start(FIRST, 1), alloc)?;
    world.step(WorldEvent::LinkUp { router: FIRST, link: 0 }, alloc)?;
    Ok(world)
}

// A router that ends loses all that it had.
#[test]
fn an_end_is_told(rt: HostRuntime) -> Result<(), Fail> {
    let alloc = rt.alloc();
    let world = first_of_two(alloc)?;
    let mut seen = Seen::of(world.router(FIRST)?, alloc)?;
    let same = seen.follow(world.router(FIRST)?, Reported::nothing(alloc), alloc)?;
    assert_eq!(rt; same.len(), 0);
    let changes = seen.end(alloc)?;
    assert_eq!(rt; lines(7, &changes, alloc)?.as_str(), "7 1.1.1.1 stopped\n7 1.1.1.1 link 0 interface Point-to-point Down dr 0.0.0.0 backup 0.0.0.0\n7 1.1.1.1 no route 10.0.0.0/30\n");
    Ok(())
}

// A Designated Router whose link goes down flushes its network-LSA. No neighbour is left to acknowledge that, so the LSA leaves the database
// in the same step.
#[test]
fn a_flush_and_a_removal_in_one_step(rt: HostRuntime) -> Result<(), Fail> {
    let alloc = rt.alloc();
    let mut world = three_on_a_network(alloc)?;
    for router in routers_of(&world, alloc)? {
        world.step(start(router, 1), alloc)?;
        world.step(WorldEvent::LinkUp { router, link: 0 }, alloc)?;
    }
    for _ in 0..120 {
        world.round(alloc)?;
    }
    let mut seen = Seen::of(world.router(SECOND)?, alloc)?;
    world.step(WorldEvent::LinkDown { router: SECOND, link: 0 }, alloc)?;
    let changes = seen.follow(world.router(SECOND)?, Reported::nothing(alloc), alloc)?;
    let mut own = Vec::new(alloc);
    for change in &changes {
        match change {
            RouterChange::Flushed { key, .. } => own.push(("flushed", *key))?,
            RouterChange::Removed { key } => own.push(("removed", *key))?,
            _ => {}
        }
    }
    let network = LsaKey {
        kind: Kind::Network,
        id: 0x0a01_0002,
        router: SECOND,
    };
    assert_eq!(rt; own.as_slice(), [("flushed", network), ("removed", network)].as_slice());
    Ok(())
}

// The cause of a drop before its delivery: its own Hello, and a link that is not there.
#[test]
fn a_drop_is_foretold(rt: HostRuntime) -> Result<(), Fail> {
    let alloc = rt.alloc();
    let world = first_of_two(alloc)?;
    let hello = &world.datagrams()[0].sent;
    let router = world.router(FIRST)?;
    let (source, destination, bytes) = (hello.source, hello.destination, &hello.bytes);
    let own = dropped_of(router, 0, source, destination, bytes);
    assert_eq!(rt; own, Some(Dropped::OwnPacket));
    let nowhere = dropped_of(router, 1, source, destination, bytes);
    assert_eq!(rt; nowhere, Some(Dropped::Packet));
    Ok(())
}
