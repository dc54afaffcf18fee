//! Two routers on a link, stepped by world events that are written by hand.

use super::given::{CONFIG, FIRST, SECOND};
use super::worlds::{start, two_on_a_link, two_that_run};
use ospf_base::RouterId;
use ospf_config::Config;
use ospf_world::{MOST_OFFERS, World, WorldEvent, WorldFault};
use std::alloc::Global;
use std::test::Fail;

mod acknowledged;
mod collisions;
mod random;
mod restarts;
mod watched;

const NOBODY: RouterId = RouterId(0x0909_0909);

// Each with what it is answered in a new world, in this order.
fn six() -> [(WorldEvent, Result<(), WorldFault>); 6] {
    [
        (
            WorldEvent::Tick { router: FIRST },
            Err(WorldFault::NotRunning),
        ),
        (
            WorldEvent::LinkUp {
                router: FIRST,
                link: 1,
            },
            Err(WorldFault::NoLink),
        ),
        (
            WorldEvent::Deliver {
                datagram: 0,
                router: FIRST,
                link: 0,
            },
            Err(WorldFault::NoDatagram),
        ),
        (
            WorldEvent::Tick { router: NOBODY },
            Err(WorldFault::NoRouter),
        ),
        (start(FIRST, 1), Ok(())),
        (start(FIRST, 2), Err(WorldFault::Running)),
    ]
}

#[test]
fn the_first_fault_is_answered(rt: HostRuntime) -> Result<(), Fail> {
    let alloc = rt.alloc();
    let mut world = two_on_a_link(alloc)?;
    for (event, answer) in six() {
        assert!(rt; world.step(event, alloc) == answer);
    }
    assert!(rt; world.router(FIRST).is_ok());
    assert!(rt; world.router(SECOND).is_err());
    Ok(())
}

#[test]
fn refused_events_are_counted(rt: HostRuntime) -> Result<(), Fail> {
    let alloc = rt.alloc();
    let mut world = two_on_a_link(alloc)?;
    let mut events = Vec::new(alloc);
    for (event, _) in six() {
        events.push(event)?;
    }
    assert_eq!(rt; world.run(&events, alloc)?, 5);
    Ok(())
}

#[test]
fn two_of_one_router_id_are_refused(rt: HostRuntime) -> Result<(), Fail> {
    let alloc = rt.alloc();
    let mut configs = Vec::new(alloc);
    configs.push(Config::from_text(alloc, CONFIG)?)?;
    configs.push(Config::from_text(alloc, CONFIG)?)?;
    match World::new(configs, alloc) {
        Ok(_) => Err(Fail::from("two of one Router ID")),
        Err(fault) => {
            assert_eq!(rt; fault, WorldFault::SameRouter);
            Ok(())
        }
    }
}

// Each datagram that was sent since comes in at the other router.
fn pass(world: &mut World, passed: usize, alloc: Global) -> Result<usize, Fail> {
    let mut next = passed;
    for _ in 0..1000u32 {
        let Some(datagram) = world.datagrams().get(next) else {
            return Ok(next);
        };
        let router = if datagram.router == FIRST {
            SECOND
        } else {
            FIRST
        };
        world.step(
            WorldEvent::Deliver {
                datagram: next,
                router,
                link: 0,
            },
            alloc,
        )?;
        next += 1;
    }
    Err(Fail::from("no end"))
}

#[test]
fn two_routers_agree(rt: HostRuntime) -> Result<(), Fail> {
    let alloc = rt.alloc();
    let mut world = two_that_run(alloc)?;
    let mut passed = 0;
    for _ in 0..20u32 {
        world.step(WorldEvent::Tick { router: FIRST }, alloc)?;
        world.step(WorldEvent::Tick { router: SECOND }, alloc)?;
        passed = pass(&mut world, passed, alloc)?;
    }
    let mine = world.router(FIRST)?.listing(alloc)?;
    let other = world.router(SECOND)?.listing(alloc)?;
    for listing in [&mine, &other] {
        let lsa = listing.lsas().get(1).ok_or("two LSAs")?;
        let instance = lsa.view().instance();
        assert_eq!(rt; instance.number, -0x7fff_fffe);
        assert_eq!(rt; instance.sum, 0x8088);
    }
    assert_eq!(rt; world.slots().len(), 2);
    assert!(rt; world.slots()[0].runs());
    assert_eq!(rt; world.issued().len(), 4);
    assert!(rt; world.held().len() >= 4);
    assert_eq!(rt; world.ticks().len(), 40);
    Ok(())
}

// How many of the two have a neighbour.
fn met(world: &World) -> Result<usize, Fail> {
    let mut count = 0;
    for router in [FIRST, SECOND] {
        if !world.router(router)?.neighbours(0).is_empty() {
            count += 1;
        }
    }
    Ok(count)
}

// The first two datagrams are a Hello of each.
#[test]
fn a_round_offers_as_many_as_it_may(rt: HostRuntime) -> Result<(), Fail> {
    let alloc = rt.alloc();
    for (most, expected) in [(0, 0), (1, 1), (2, 2), (MOST_OFFERS, 2), (u64::MAX, 2)] {
        let mut world = two_that_run(alloc)?;
        world.round_of(most, alloc)?;
        assert_eq!(rt; met(&world)?, expected, "{most}");
    }
    let mut world = two_that_run(alloc)?;
    for _ in 0..20u32 {
        world.round_of(0, alloc)?;
    }
    assert_eq!(rt; met(&world)?, 0);
    world.round(alloc)?;
    assert_eq!(rt; met(&world)?, 2);
    Ok(())
}

#[test]
fn faults_are_printed(rt: HostRuntime) -> Result<(), Fail> {
    let alloc = rt.alloc();
    for (fault, text) in [
        (WorldFault::NoRouter, "W1 NoRouter"),
        (WorldFault::NoDatagram, "W2 NoDatagram"),
        (WorldFault::NoLink, "W3 NoLink"),
        (WorldFault::Running, "W4 Running"),
        (WorldFault::NotRunning, "W5 NotRunning"),
        (WorldFault::Memory { stopped: true }, "W6 Memory"),
        (WorldFault::SameRouter, "W7 SameRouter"),
        (WorldFault::Floor, "W8 Floor"),
    ] {
        let printed = format!(in alloc; "{fault}")?;
        assert_eq!(rt; printed.as_str(), text);
    }
    Ok(())
}
