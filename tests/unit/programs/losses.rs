//! Rounds with losses, and who watches them.

use super::made::{FIRST, SECOND};
use super::worlds::two_that_run;
use ospf_base::{Addr, RouterId};
use ospf_neighbour::NeighbourState;
use ospf_commands::delivery::{Losses, round_losing};
use ospf_world::{EventWatch, MOST_OFFERS, Unwatched, World, WorldEvent, WorldFault};
use std::alloc::Global;
use std::test::Fail;

// An address of the network of the two routers, and one of another.
const WITHIN: Addr = Addr(0x0a00_0003);
const ELSEWHERE: Addr = Addr(0x0a00_0005);

// How many events came, how many of them were deliveries, and how many are over.
#[derive(Clone, Copy)]
struct Counts {
    came: u32,
    delivered: u32,
    over: u32,
}

impl EventWatch for Counts {
    fn comes(&mut self, _world: &World, event: &WorldEvent) {
        self.came = self.came.saturating_add(1);
        if matches!(event, WorldEvent::Deliver { .. }) {
            self.delivered = self.delivered.saturating_add(1);
        }
    }

    fn came(&mut self, _world: &World, _event: &WorldEvent, _answer: &Result<(), WorldFault>) {
        self.over = self.over.saturating_add(1);
    }
}

const NONE: Counts = Counts {
    came: 0,
    delivered: 0,
    over: 0,
};

// So many rounds with losses; what was counted.
fn lose(
    world: &mut World,
    losses: &mut Losses,
    rounds: u32,
    alloc: Global,
) -> Result<Counts, Fail> {
    let mut counts = NONE;
    for _ in 0..rounds {
        round_losing(world, MOST_OFFERS, losses, &mut counts, alloc)?;
    }
    Ok(counts)
}

// Whether the two routers are Full.
fn are_full(world: &World) -> Result<bool, Fail> {
    let mut full = true;
    for router in [FIRST, SECOND] {
        let neighbours = world.router(router)?.neighbours(0);
        full = full && neighbours.iter().any(|n| n.state() == NeighbourState::Full);
    }
    Ok(full)
}

// Where all is lost nobody is heard, and no delivery is an event.
#[test]
fn all_is_lost(rt: HostRuntime) -> Result<(), Fail> {
    let alloc = rt.alloc();
    let mut world = two_that_run(alloc)?;
    let mut losses = Losses::new(100, 1, None);
    let counts = lose(&mut world, &mut losses, 30, alloc)?;
    assert_eq!(rt; counts.came, 60);
    assert_eq!(rt; counts.delivered, 0);
    assert_eq!(rt; counts.over, 60);
    assert_eq!(rt; world.router(FIRST)?.neighbours(0).len(), 0);
    Ok(())
}

// Losses of none, and on a network that is not there, change nothing.
#[test]
fn nothing_is_lost(rt: HostRuntime) -> Result<(), Fail> {
    let alloc = rt.alloc();
    let mut world = two_that_run(alloc)?;
    let mut same = two_that_run(alloc)?;
    let mut other = two_that_run(alloc)?;
    for _ in 0..40 {
        world.round(alloc)?;
        other.round_watched(MOST_OFFERS, &mut Unwatched, alloc)?;
    }
    lose(&mut same, &mut Losses::new(0, 1, None), 20, alloc)?;
    lose(&mut same, &mut Losses::new(100, 1, Some(ELSEWHERE)), 20, alloc)?;
    assert!(rt; are_full(&world)?);
    assert!(rt; are_full(&same)?);
    assert!(rt; are_full(&other)?);
    assert_eq!(rt; same.datagrams().len(), world.datagrams().len());
    assert_eq!(rt; other.datagrams().len(), world.datagrams().len());
    Ok(())
}

// A tenth is lost on the network, and the routers come to Full all the same; twice the same, and otherwise by another number.
#[test]
fn some_is_lost(rt: HostRuntime) -> Result<(), Fail> {
    let alloc = rt.alloc();
    let mut delivered: [u32; 3] = [0, 0, 0];
    for (place, number) in [7, 7, 8].into_iter().enumerate() {
        let mut world = two_that_run(alloc)?;
        let mut losses = Losses::new(10, number, Some(WITHIN));
        let counts = lose(&mut world, &mut losses, 120, alloc)?;
        assert!(rt; are_full(&world)?);
        if place < 3 {
            delivered[place] = counts.delivered;
        }
    }
    assert_eq!(rt; delivered[0], delivered[1]);
    assert_ne!(rt; delivered[0], delivered[2]);
    Ok(())
}

// The events of a draw are watched too.
#[test]
fn a_draw_is_watched(rt: HostRuntime) -> Result<(), Fail> {
    let alloc = rt.alloc();
    let mut world = two_that_run(alloc)?;
    let mut counts = NONE;
    let mut generator = rand_pcg::Lcg64Xsh32::new(5, 0);
    world.draw_events_watched(&mut generator, 100, &mut counts, alloc)?;
    assert!(rt; 0 < counts.came && counts.came <= 100);
    assert_eq!(rt; counts.over, counts.came);
    let router: RouterId = FIRST;
    let before = counts.came;
    let _refused = world.step_watched(WorldEvent::Tick { router }, &mut counts, alloc);
    assert_eq!(rt; counts.came, before + 1);
    Ok(())
}
