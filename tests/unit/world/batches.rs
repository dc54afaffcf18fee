//! Batches: what waits is handed over router by router.

use super::given::{FIRST, SECOND};
use super::worlds::two_that_run;
use ospf_commands::delivery::batch;
use ospf_neighbour::NeighbourState;
use ospf_world::{EventWatch, Unwatched, World, WorldEvent, WorldFault};
use std::alloc::Global;
use std::test::Fail;

// The events that came, in their order.
#[derive(Drop)]
struct Seen {
    events: Vec<WorldEvent>,
    has_room: bool,
}

impl EventWatch for Seen {
    fn comes(&mut self, _world: &World, event: &WorldEvent) {
        if self.events.push(*event).is_err() {
            self.has_room = false;
        }
    }

    fn came(&mut self, _world: &World, _event: &WorldEvent, _answer: &Result<(), WorldFault>) {}
}

fn nothing_seen(alloc: Global) -> Seen {
    Seen {
        events: Vec::new(alloc),
        has_room: true,
    }
}

// The first two datagrams are a Hello of each, from when their links came up; a tick sends none yet.
#[test]
fn a_wave_goes_router_by_router(rt: HostRuntime) -> Result<(), Fail> {
    let alloc = rt.alloc();
    let mut world = two_that_run(alloc)?;
    assert_eq!(rt; world.datagrams().len(), 2);
    let mut seen = nothing_seen(alloc);
    batch(&mut world, &mut seen, alloc)?;
    assert!(rt; seen.has_room);
    let expected = [
        WorldEvent::Tick { router: FIRST },
        WorldEvent::Tick { router: SECOND },
        WorldEvent::Deliver {
            datagram: 1,
            router: FIRST,
            link: 0,
        },
        WorldEvent::Deliver {
            datagram: 0,
            router: SECOND,
            link: 0,
        },
    ];
    assert!(rt; seen.events.len() >= expected.len());
    for (event, told) in seen.events.iter().zip(expected) {
        assert!(rt; *event == told);
    }
    // What they answer goes over as well: nothing waits.
    assert_eq!(rt; world.offered(), world.datagrams().len());
    Ok(())
}

// Whether both are Full.
fn are_full(world: &World) -> Result<bool, Fail> {
    let mut full = true;
    for router in [FIRST, SECOND] {
        let neighbours = world.router(router)?.neighbours(0);
        let neighbour = neighbours.first().ok_or("a neighbour")?;
        full &= neighbour.state() == NeighbourState::Full;
    }
    Ok(full)
}

#[test]
fn batches_lead_where_rounds_lead(rt: HostRuntime) -> Result<(), Fail> {
    let alloc = rt.alloc();
    let mut batched = two_that_run(alloc)?;
    let mut rounded = two_that_run(alloc)?;
    for _ in 0..20u32 {
        batch(&mut batched, &mut Unwatched, alloc)?;
        rounded.round(alloc)?;
    }
    assert!(rt; are_full(&batched)?);
    for router in [FIRST, SECOND] {
        let one = batched.router(router)?;
        let other = rounded.router(router)?;
        assert!(rt; one.table().changes(alloc, other.table())?.is_empty());
        let (mine, theirs) = (one.listing(alloc)?, other.listing(alloc)?);
        assert_eq!(rt; mine.lsas().len(), theirs.lsas().len());
        for (a, b) in mine.lsas().iter().zip(theirs.lsas()) {
            assert!(rt; a.view().instance() == b.view().instance());
        }
    }
    Ok(())
}

// What a round left waiting is in the first wave; a batch without routers that run is nothing.
#[test]
fn a_batch_takes_what_rounds_left(rt: HostRuntime) -> Result<(), Fail> {
    let alloc = rt.alloc();
    let mut world = two_that_run(alloc)?;
    for _ in 0..20u32 {
        world.round_of(0, alloc)?;
    }
    assert!(rt; world.offered() < world.datagrams().len());
    batch(&mut world, &mut Unwatched, alloc)?;
    assert_eq!(rt; world.offered(), world.datagrams().len());
    assert_eq!(rt; world.router(FIRST)?.neighbours(0).len(), 1);
    for router in [FIRST, SECOND] {
        world.step(WorldEvent::Stop { router }, alloc)?;
    }
    let sent = world.datagrams().len();
    batch(&mut world, &mut Unwatched, alloc)?;
    assert_eq!(rt; world.datagrams().len(), sent);
    Ok(())
}
