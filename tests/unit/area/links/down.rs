//! A link that goes down, and one that is not there.

use super::super::made::SECOND;
use super::{
    FROM_SECOND, Pair, Router, are_in, are_same, counts_sent, goes_up, met, stands, to_first,
};
use ospf_area::PacketSource;
use ospf_base::Addr;
use ospf_neighbour::iface::IfaceState;
use ospf_adjacency::link_steps::take_down;
use ospf_neighbour::NeighbourState;
use std::alloc::Global;
use std::test::Fail;

fn goes_down(router: &mut Router, number: usize, alloc: Global) {
    take_down(&mut router.area, number, alloc);
}

const DOWN: (IfaceState, Addr, Addr) = (IfaceState::Down, Addr::NOWHERE, Addr::NOWHERE);

// Whether a link that goes down is as it should be, with so many datagrams sent. Then it comes up.
fn down_and_up(router: &mut Router, count: usize, alloc: Global) -> Result<bool, Fail> {
    goes_down(router, 0, alloc);
    let stands = stands(router, DOWN, FROM_SECOND, None, count);
    goes_up(router, 0, alloc)?;
    Ok(stands)
}

// Twice; and whether the last Hello is the same as the first.
fn down_twice(router: &mut Router, alloc: Global) -> Result<(bool, bool, bool), Fail> {
    let first = down_and_up(router, 3, alloc)?;
    let second = down_and_up(router, 4, alloc)?;
    Ok((first, second, are_same(router, 0, 4)))
}

fn going_down(alloc: Global) -> Result<(bool, bool, bool), Fail> {
    let mut pair = met(alloc)?;
    down_twice(&mut pair.first, alloc)
}

// A link that goes down forgets its neighbours, and begins as it began when it comes up.
#[test]
fn a_link_goes_down(rt: HostRuntime) -> Result<(), Fail> {
    let (first, second, same) = going_down(rt.alloc())?;
    assert!(rt; first);
    assert!(rt; second);
    assert!(rt; same);
    Ok(())
}

// All that may come of a link that is not there, and a link that is up and comes up again.
fn does_nothing(pair: &mut Pair, alloc: Global) -> Result<(), Fail> {
    let elsewhere = PacketSource {
        link: 7,
        router: SECOND,
        address: FROM_SECOND.address,
    };
    to_first(pair, 1, elsewhere, alloc)?;
    to_first(pair, 2, elsewhere, alloc)?;
    goes_up(&mut pair.first, 7, alloc)?;
    goes_down(&mut pair.first, 7, alloc);
    goes_up(&mut pair.first, 0, alloc)
}

// Whether each is in ExStart at the other then, and how many datagrams each has sent.
fn left_by(pair: &mut Pair, alloc: Global) -> Result<(bool, [usize; 2]), Fail> {
    does_nothing(pair, alloc)?;
    let begun = are_in(pair, NeighbourState::ExStart, NeighbourState::ExStart);
    Ok((begun, counts_sent(pair)))
}

fn doing_nothing(alloc: Global) -> Result<(bool, [usize; 2]), Fail> {
    let mut pair = met(alloc)?;
    left_by(&mut pair, alloc)
}

#[test]
fn nothing_is_done(rt: HostRuntime) -> Result<(), Fail> {
    let (begun, sent) = doing_nothing(rt.alloc())?;
    assert!(rt; begun);
    assert_eq!(rt; sent, [3, 3]);
    Ok(())
}
