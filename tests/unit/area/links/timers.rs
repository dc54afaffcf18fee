//! What two routers repeat on a link, and a neighbour that falls silent.

use super::super::made::{FIRST, SECOND};
use super::super::written::UPDATE;
use super::{
    FROM_SECOND, Pair, Router, To, are_same, count_marked, counts_sent, is_sent, lsa_of, met,
    neighbour_state, pass, wait_for,
};
use ospf_area::{flood, context_of};
use ospf_adjacency::link_steps::count_timers;
use ospf_lsa::LsaView;
use ospf_neighbour::NeighbourState;
use std::alloc::{AllocError, Global};
use std::test::Fail;

// An LSA of 1.1.1.1 is flooded.
fn floods(router: &mut Router, alloc: Global) -> Result<(), Fail> {
    let lsa = lsa_of(alloc, FIRST, SECOND, 0x0a00_0001)?;
    floods_copy(router, &lsa.view(), alloc)?;
    Ok(())
}

fn floods_copy(router: &mut Router, lsa: &LsaView, alloc: Global) -> Result<(), AllocError> {
    let own = context_of(&router.area);
    flood(
        &mut router.area.links,
        lsa,
        None,
        own,
        &mut router.out,
        alloc,
    )?;
    Ok(())
}

// How many datagrams each has sent after so many ticks of 2.2.2.2.
fn sent_after(pair: &mut Pair, count: usize, alloc: Global) -> Result<[usize; 2], Fail> {
    wait_for(&mut pair.second, count, alloc)?;
    Ok(counts_sent(pair))
}

// How many after four ticks, after one more and after four more; and whether its last is the same as the one before.
type Waits = ([usize; 2], [usize; 2], [usize; 2], bool);

fn waited_by(pair: &mut Pair, alloc: Global) -> Result<Waits, Fail> {
    let early = sent_after(pair, 4, alloc)?;
    let due = sent_after(pair, 1, alloc)?;
    let later = sent_after(pair, 4, alloc)?;
    Ok((early, due, later, are_same(&pair.second, 2, 3)))
}

fn waiting(alloc: Global) -> Result<Waits, Fail> {
    let mut pair = met(alloc)?;
    waited_by(&mut pair, alloc)
}

// The first packet in ExStart goes out again after RxmtInterval and not a tick before.
#[test]
fn descriptions_are_repeated(rt: HostRuntime) -> Result<(), Fail> {
    let (early, due, later, same) = waiting(rt.alloc())?;
    assert_eq!(rt; early, [3, 3]);
    assert_eq!(rt; due, [3, 4]);
    assert_eq!(rt; later, [3, 4]);
    assert!(rt; same);
    Ok(())
}

// How many keys are marked as sent after so many ticks.
fn marked_after(router: &mut Router, count: usize, alloc: Global) -> Result<usize, Fail> {
    wait_for(router, count, alloc)?;
    Ok(count_marked(router))
}

// So does an LSA that is not acknowledged: how many keys are marked as sent in the tick before, and in its own.
fn flood_and_wait(router: &mut Router, alloc: Global) -> Result<[usize; 2], Fail> {
    floods(router, alloc)?;
    let before = marked_after(router, 4, alloc)?;
    Ok([before, marked_after(router, 1, alloc)?])
}

// Whether an Update went out, and the same again.
fn sent_twice(router: &Router, alloc: Global) -> Result<bool, AllocError> {
    Ok(is_sent(router, 4, UPDATE, alloc)? && are_same(router, 4, 5))
}

fn updated_by(pair: &mut Pair, alloc: Global) -> Result<([usize; 2], bool), Fail> {
    pass(pair, To::First(2), alloc)?;
    let marked = flood_and_wait(&mut pair.first, alloc)?;
    Ok((marked, sent_twice(&pair.first, alloc)?))
}

fn updates_after(alloc: Global) -> Result<([usize; 2], bool), Fail> {
    let mut pair = met(alloc)?;
    updated_by(&mut pair, alloc)
}

#[test]
fn updates_are_repeated(rt: HostRuntime) -> Result<(), Fail> {
    let (marked, twice) = updates_after(rt.alloc())?;
    assert_eq!(rt; marked, [0, 1]);
    assert!(rt; twice);
    Ok(())
}

fn count_for(router: &mut Router, count: usize, alloc: Global) {
    for _ in 0..count {
        count_timers(&mut router.area.links, alloc);
    }
}

// The state of 2.2.2.2 after so many ticks.
fn state_after(router: &mut Router, count: usize, alloc: Global) -> Option<NeighbourState> {
    count_for(router, count, alloc);
    neighbour_state(router, FROM_SECOND)
}

fn states_after(alloc: Global) -> Result<[Option<NeighbourState>; 2], Fail> {
    let mut pair = met(alloc)?;
    let before = state_after(&mut pair.first, 39, alloc);
    Ok([before, state_after(&mut pair.first, 1, alloc)])
}

// A neighbour is removed RouterDeadInterval after its last Hello.
#[test]
fn a_silent_neighbour_goes(rt: HostRuntime) -> Result<(), Fail> {
    let states = states_after(rt.alloc())?;
    assert_eq!(rt; states, [Some(NeighbourState::ExStart), None]);
    Ok(())
}
