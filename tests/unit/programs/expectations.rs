//! Whether a router is as it is expected to be, and what is printed where it is not.

use super::made::{FIRST, SECOND};
use super::states::STATES;
use super::worlds::{OTHER, start, world_of};
use ospf_base::Addr;
use ospf_commands::{is_met, write_unmet};
use ospf_files::FailedStreams;
use ospf_neighbour::NeighbourState;
use ospf_script::Wanted;
use ospf_world::{World, WorldEvent};
use std::alloc::Global;
use std::test::Fail;

// The first router, alone on a network.
const ALONE: &str =
    "router_id = \"1.1.1.1\"\narea = \"0.0.0.0\"\n[[interface]]\nkind = \"broadcast\"\naddress = \"10.1.0.1/24\"\ncost = 10\n";

// What is printed of the first router where it is not as it is wanted to be.
fn unmet(world: &World, wanted: Wanted, alloc: Global) -> Result<String, Fail> {
    let (mut out, mut streams) = (Vec::new(alloc), FailedStreams::none());
    let router = world.router(FIRST)?;
    if !is_met(&wanted, router) {
        match write_unmet(alloc, FIRST, &wanted, router, &mut out, &mut streams) {
            Ok(()) => {}
            Err(_) => return Err("not written")?,
        }
    }
    Ok(String::from_utf8(out).map_err(|_| "no text")?)
}

// The second router is wanted as a neighbour in this state.
fn neighbour(state: NeighbourState) -> Wanted {
    Wanted::Neighbour {
        other: SECOND,
        state,
    }
}

// Of all states this one alone is met, and of another one the neighbours are printed.
fn stands(
    rt: &impl std::process::Abort,
    world: &World,
    state: NeighbourState,
    alloc: Global,
) -> Result<(), Fail> {
    for other in STATES {
        let printed = unmet(world, neighbour(other), alloc)?;
        let expected = if other == state {
            String::new(alloc)
        } else if other == NeighbourState::Full {
            format!(in alloc; "not met: expect full 1.1.1.1 2.2.2.2\n0 2.2.2.2 {state}\n")?
        } else {
            format!(in alloc; "not met: expect neighbour 1.1.1.1 2.2.2.2 {other}\n0 2.2.2.2 {state}\n")?
        };
        assert_eq!(rt; printed, expected);
    }
    Ok(())
}

#[test]
fn one_state_is_met(rt: HostRuntime) -> Result<(), Fail> {
    let alloc = rt.alloc();
    let mut world = world_of(&[super::given::CONFIG, OTHER], alloc)?;
    for router in [FIRST, SECOND] {
        world.step(start(router, 1), alloc)?;
        world.step(WorldEvent::LinkUp { router, link: 0 }, alloc)?;
    }
    // Who is no neighbour is Down.
    assert_eq!(rt; unmet(&world, neighbour(NeighbourState::Down), alloc)?.as_str(), "");
    let nobody = unmet(&world, neighbour(NeighbourState::Init), alloc)?;
    assert_eq!(rt; nobody.as_str(), "not met: expect neighbour 1.1.1.1 2.2.2.2 Init\n");
    let datagram = world.datagrams().len() - 1;
    let heard = WorldEvent::Deliver {
        datagram,
        router: FIRST,
        link: 0,
    };
    world.step(heard, alloc)?;
    stands(&rt, &world, NeighbourState::Init, alloc)?;
    for _ in 0..60 {
        world.round(alloc)?;
    }
    stands(&rt, &world, NeighbourState::Full, alloc)?;
    Ok(())
}

#[test]
fn elections_are_judged(rt: HostRuntime) -> Result<(), Fail> {
    let alloc = rt.alloc();
    let mut world = world_of(&[ALONE], alloc)?;
    let elected = |link: usize, dr: u32, backup: Option<u32>| Wanted::Dr {
        link,
        dr: Addr(dr),
        backup: backup.map(Addr),
    };
    world.step(start(FIRST, 1), alloc)?;
    assert!(rt; unmet(&world, elected(0, 0, Some(0)), alloc)?.is_empty());
    world.step(WorldEvent::LinkUp { router: FIRST, link: 0 }, alloc)?;
    let own = 0x0a01_0001;
    assert_eq!(rt; unmet(&world, elected(0, own, None), alloc)?.as_str(), "not met: expect dr 1.1.1.1 0 10.1.0.1\nlink 0 interface Waiting dr 0.0.0.0 backup 0.0.0.0\n");
    for _ in 0..60 {
        world.round(alloc)?;
    }
    assert!(rt; unmet(&world, elected(0, own, None), alloc)?.is_empty());
    assert!(rt; unmet(&world, elected(0, own, Some(0)), alloc)?.is_empty());
    assert_eq!(rt; unmet(&world, elected(0, own, Some(own)), alloc)?.as_str(), "not met: expect dr 1.1.1.1 0 10.1.0.1 10.1.0.1\nlink 0 interface DR dr 10.1.0.1 backup 0.0.0.0\n");
    assert_eq!(rt; unmet(&world, elected(1, own, None), alloc)?.as_str(), "not met: expect dr 1.1.1.1 1 10.1.0.1\n");
    Ok(())
}
