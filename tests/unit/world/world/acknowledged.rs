//! A flood that is awaited until it is acknowledged, whatever becomes of who acknowledged it.

use super::super::given::{FIRST, SECOND};
use super::super::worlds::{start, two_that_run};
use ospf_base::{Instance, Kind, LsaKey};
use ospf_world::{World, WorldEvent};
use std::alloc::Global;
use std::test::Fail;

// The router-LSA that the first router issues once the other is a Full neighbour.
const FLOODED: Instance = Instance {
    key: LsaKey {
        kind: Kind::Router,
        id: 0x0101_0101,
        router: FIRST,
    },
    number: -0x7fff_fffe,
    sum: 0xe02d,
};

// How often the second router installed, issued or acknowledged it.
fn times_held(world: &World) -> usize {
    let held = world.held().iter();
    held.filter(|holding| holding.router == SECOND && holding.instance == FLOODED)
        .count()
}

fn is_awaited(world: &World) -> Result<bool, Fail> {
    Ok(world.router(FIRST)?.awaits(0, SECOND, &FLOODED))
}

// The place of the only datagram that the second router sends as a second passes there.
fn sent_next(world: &mut World, alloc: Global) -> Result<usize, Fail> {
    let place = world.datagrams().len();
    world.step(WorldEvent::Tick { router: SECOND }, alloc)?;
    if world.datagrams().len() != place + 1 {
        return Err(Fail::from("one datagram"));
    }
    Ok(place)
}

// The flood comes 10 seconds after the link went up, and the delayed acknowledgement goes out 6 seconds later (section 13.5).
// The router that sent it starts again before it arrives: what `held` tells stays.
#[test]
fn a_flood_is_awaited_until_it_is_acknowledged(rt: HostRuntime) -> Result<(), Fail> {
    let alloc = rt.alloc();
    let mut world = two_that_run(alloc)?;
    for _ in 0..15u32 {
        world.round(alloc)?;
    }
    assert_eq!(rt; times_held(&world), 1);
    let datagram = sent_next(&mut world, alloc)?;
    world.step(WorldEvent::Stop { router: SECOND }, alloc)?;
    world.step(start(SECOND, 900), alloc)?;
    assert!(rt; is_awaited(&world)?);
    assert_eq!(rt; times_held(&world), 1);
    let arrives = WorldEvent::Deliver {
        datagram,
        router: FIRST,
        link: 0,
    };
    world.step(arrives, alloc)?;
    assert!(rt; !is_awaited(&world)?);
    assert_eq!(rt; times_held(&world), 1);
    Ok(())
}
