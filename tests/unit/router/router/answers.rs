//! All that a router of one link answers.

use ospf_base::RouterId;
use ospf_neighbour::NeighbourState;
use ospf_router::{Router, Step};
use std::alloc::Global;
use std::io::Write;
use std::test::Fail;

#[derive(Drop, PartialEq, Debug)]
pub(crate) struct Answers {
    // The bytes of what it lists, and its table as it is printed.
    listing: Vec<u8>,
    table: Vec<u8>,
    neighbours: Vec<(RouterId, NeighbourState)>,
    // Of each neighbour, whether it is to acknowledge each LSA that is listed.
    awaits: Vec<bool>,
    floor: i32,
}

impl Answers {
    pub(crate) fn of(router: &Router, alloc: Global) -> Result<Answers, Fail> {
        let mut answers = Answers {
            listing: Vec::new(alloc),
            table: Vec::new(alloc),
            neighbours: Vec::new(alloc),
            awaits: Vec::new(alloc),
            floor: router.floor(),
        };
        for route in router.table().routes() {
            writeln!(answers.table, "{route}")?;
        }
        let listing = router.listing(alloc)?;
        for lsa in listing.lsas() {
            answers.listing.extend_from_slice(lsa.view().as_bytes())?;
        }
        for neighbour in router.neighbours(0) {
            let other = neighbour.router();
            answers.neighbours.push((other, neighbour.state()))?;
            for lsa in listing.lsas() {
                let instance = lsa.view().instance();
                answers.awaits.push(router.awaits(0, other, &instance))?;
            }
        }
        Ok(answers)
    }

    // Whether the only neighbour is Full, and has one LSA to acknowledge.
    pub(crate) fn has_one_to_acknowledge(&self) -> bool {
        let awaited = self.awaits.iter().filter(|awaited| **awaited).count();
        let states: &[(RouterId, NeighbourState)] = &self.neighbours;
        matches!(states, [(_, NeighbourState::Full)]) && awaited == 1
    }
}

// Whether nothing comes of a step.
pub(crate) fn is_silent(step: &Step) -> bool {
    let out = &step.out;
    let lsas = out.issued.is_empty() && out.taken.is_empty() && out.ended.is_empty();
    lsas && out.sent.is_empty() && !step.table_changed
}
