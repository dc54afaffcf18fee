//! What a watch is told of events that are drawn, also of those that are refused.

use super::super::worlds::three_on_a_network;
use super::random::are_alike;
use ospf_world::{EventWatch, MOST_OFFERS, World, WorldEvent, WorldFault};
use rand_pcg::Lcg64Xsh32;
use std::test::Fail;

// What came of an event.
type Answer = Result<(), WorldFault>;

// Keeps all that it is told, as long as there is memory.
#[derive(Drop)]
struct Kept {
    comes: Vec<WorldEvent>,
    came: Vec<(WorldEvent, Answer)>,
    is_whole: bool,
}

impl EventWatch for Kept {
    fn comes(&mut self, _world: &World, event: &WorldEvent) {
        self.is_whole &= self.comes.push(*event).is_ok();
    }

    fn came(&mut self, _world: &World, event: &WorldEvent, answer: &Answer) {
        self.is_whole &= self.came.push((*event, *answer)).is_ok();
    }
}

#[test]
fn a_watch_is_told_of_refusals(rt: HostRuntime) -> Result<(), Fail> {
    let alloc = rt.alloc();
    let mut watch = Kept {
        comes: Vec::new(alloc),
        came: Vec::new(alloc),
        is_whole: true,
    };
    let mut world = three_on_a_network(alloc)?;
    let mut generator = Lcg64Xsh32::new(7, 0);
    world.draw_events_watched(&mut generator, 2000, &mut watch, alloc)?;
    world.round_watched(MOST_OFFERS, &mut watch, alloc)?;
    assert!(rt; watch.is_whole && watch.comes.len() == watch.came.len());
    // Step by step the same comes of what it was told.
    let mut again = three_on_a_network(alloc)?;
    let mut refused = 0;
    for (comes, (event, answer)) in watch.comes.iter().zip(&watch.came) {
        assert!(rt; comes == event && again.step(*event, alloc) == *answer);
        refused += usize::from(answer.is_err());
    }
    assert!(rt; are_alike(&world, &again));
    // No router runs at first, so some are refused.
    assert!(rt; refused > 0 && refused < watch.came.len());
    Ok(())
}
