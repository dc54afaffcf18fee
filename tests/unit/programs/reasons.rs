//! Why a router stands as it does, and what of a packet does not fit.

use super::made::{FIRST, SECOND};
use super::worlds::{OTHER, start, two_that_run, world_of};
use ospf_views::{detail_of, drop_reason, why};
use ospf_world::{World, WorldEvent};
use std::alloc::Global;
use std::test::Fail;

// The first router with other timers than the second one.
const HASTY: &str =
    "router_id = \"1.1.1.1\"\narea = \"0.0.0.0\"\n[[interface]]\nkind = \"point-to-point\"\naddress = \"10.0.0.1/30\"\ncost = 10\nhello = 5\n";

// What the first router says of its link, and of the second router there.
fn both(world: &World, alloc: Global) -> Result<String, Fail> {
    let router = world.router(FIRST)?;
    let link = why(router, 0, None, alloc)?.ok_or("no link")?;
    let neighbour = why(router, 0, Some(SECOND), alloc)?.ok_or("no link")?;
    Ok(format!(in alloc; "{link}-\n{neighbour}")?)
}

// From a link that is down to a neighbour that is Full.
#[test]
fn each_wait_is_told(rt: HostRuntime) -> Result<(), Fail> {
    let alloc = rt.alloc();
    let mut world = world_of(&[super::given::CONFIG, OTHER], alloc)?;
    let (router, link) = (FIRST, 0);
    world.step(start(FIRST, 1), alloc)?;
    assert_eq!(rt; both(&world, alloc)?.as_str(), "link 0 interface Down dr 0.0.0.0 backup 0.0.0.0\n  waiting for the link to come up\n-\nlink 0 neighbour 2.2.2.2 Down\n  waiting for the link to come up\n");
    world.step(WorldEvent::LinkUp { router, link }, alloc)?;
    assert_eq!(rt; both(&world, alloc)?.as_str(), "link 0 interface Point-to-point dr 0.0.0.0 backup 0.0.0.0\n  waiting for a Hello\n-\nlink 0 neighbour 2.2.2.2 Down\n  waiting for a Hello\n");
    world.step(start(SECOND, 1), alloc)?;
    world.step(WorldEvent::LinkUp { router: SECOND, link }, alloc)?;
    let datagram = world.datagrams().len() - 1;
    world.step(WorldEvent::Deliver { datagram, router, link }, alloc)?;
    assert_eq!(rt; both(&world, alloc)?.as_str(), "link 0 interface Point-to-point dr 0.0.0.0 backup 0.0.0.0\nlink 0 neighbour 2.2.2.2 Init\n  waiting for a Hello that lists 1.1.1.1\n-\nlink 0 neighbour 2.2.2.2 Init\n  waiting for a Hello that lists 1.1.1.1\n");
    for _ in 0..60 {
        world.round(alloc)?;
    }
    assert_eq!(rt; both(&world, alloc)?.as_str(), "link 0 interface Point-to-point dr 0.0.0.0 backup 0.0.0.0\nlink 0 neighbour 2.2.2.2 Full\n  waiting for nothing\n-\nlink 0 neighbour 2.2.2.2 Full\n  waiting for nothing\n");
    let nowhere = why(world.router(FIRST)?, 1, None, alloc)?;
    assert!(rt; nowhere.is_none());
    Ok(())
}

// The field of a datagram of the world that does not fit at the first router.
fn detail(world: &World, place: usize, alloc: Global) -> Result<Option<String>, Fail> {
    let sent = &world.datagrams().get(place).ok_or("no datagram")?.sent;
    match detail_of(world.router(FIRST)?, 0, &sent.bytes) {
        Some(detail) => Ok(Some(format!(in alloc; "{detail}")?)),
        None => Ok(None),
    }
}

// Why the first router would drop a datagram of the world.
fn drop(world: &World, place: usize, alloc: Global) -> Result<String, Fail> {
    let sent = &world.datagrams().get(place).ok_or("no datagram")?.sent;
    Ok(drop_reason(world.router(FIRST)?, 0, sent, alloc)?)
}

// A Hello of another interval does not fit, and an own one does.
#[test]
fn a_mismatch_is_explained(rt: HostRuntime) -> Result<(), Fail> {
    let alloc = rt.alloc();
    let mut world = world_of(&[HASTY, OTHER], alloc)?;
    for router in [FIRST, SECOND] {
        world.step(start(router, 1), alloc)?;
        world.step(WorldEvent::LinkUp { router, link: 0 }, alloc)?;
    }
    let last = world.datagrams().len() - 1;
    let other = detail(&world, last, alloc)?;
    assert_eq!(rt; other.as_deref(), Some("HelloInterval 10 there, 5 here"));
    assert!(rt; detail(&world, 0, alloc)?.is_none());
    assert_eq!(rt; drop(&world, last, alloc)?.as_str(), "  would drop the last packet from 10.0.0.2: R6 HelloMismatch: HelloInterval 10 there, 5 here\n");
    assert_eq!(rt; drop(&world, 0, alloc)?.as_str(), "  would drop the last packet from 10.0.0.1: R3 OwnPacket\n");
    Ok(())
}

// What is taken fits, and bytes that are no packet have no field.
#[test]
fn what_is_taken_fits(rt: HostRuntime) -> Result<(), Fail> {
    let alloc = rt.alloc();
    let world = two_that_run(alloc)?;
    let last = world.datagrams().len() - 1;
    assert!(rt; detail(&world, last, alloc)?.is_none());
    assert!(rt; drop(&world, last, alloc)?.is_empty());
    assert!(rt; detail_of(world.router(FIRST)?, 0, &[]).is_none());
    Ok(())
}
