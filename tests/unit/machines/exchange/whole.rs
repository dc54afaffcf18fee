//! When a Database Description is repeated, and whole exchanges of two neighbours.

use super::super::made::{FIRST_NUMBER, header_of};
use super::super::wired::description;
use super::{HIGH, HIGH_NUMBER, Heard, LOW, LOW_NUMBER, at_tick, filled, hear, slave, starting};
use ospf_exchange::{DdAnswer, Local, dd_sent, is_dd_due};
use ospf_lsdb::Lsdb;
use ospf_neighbour::{Neighbour, NeighbourState};
use std::alloc::Global;
use std::test::Fail;

// Whether the packet is to be sent again in each of two ticks, every 5.
fn due_in(neighbour: &Neighbour, first: u64, second: u64) -> (bool, bool) {
    (
        is_dd_due(neighbour, 5, first),
        is_dd_due(neighbour, 5, second),
    )
}

// The same, after it was sent in a tick.
fn due_after(neighbour: &mut Neighbour, sent: u64, first: u64, second: u64) -> (bool, bool) {
    dd_sent(neighbour, sent);
    due_in(neighbour, first, second)
}

// The slave answers in tick 30. Answers whether the packet is to be sent again in ticks 34 and 35.
fn due_after_answer(
    master: &mut Neighbour,
    database: &Lsdb,
    alloc: Global,
) -> Result<(bool, bool), Fail> {
    let answer = description(576, 2, HIGH_NUMBER);
    let local = at_tick(HIGH, 576, 30);
    hear(master, answer, &[], database, local, alloc)?.ok();
    Ok(due_in(master, 34, 35))
}

// Whether a slave is to send its packet again in tick 100.
fn slave_repeats(database: &Lsdb, alloc: Global) -> Result<bool, Fail> {
    Ok(is_dd_due(&slave(alloc, database)?, 5, 100))
}

type Due = (bool, bool);

// When the packet is due: as the exchange begins, after it was sent, after an answer, and as the tick count goes round.
fn times_due(alloc: Global, database: &Lsdb) -> Result<((Due, Due, Due), Due), Fail> {
    let mut master = starting(alloc, LOW, HIGH_NUMBER);
    let begun = due_in(&master, 14, 15);
    let sent = due_after(&mut master, 15, 19, 20);
    let answered = due_after_answer(&mut master, database, alloc)?;
    let round = due_after(&mut master, u64::MAX, 3, 4);
    Ok(((begun, sent, answered), round))
}

// The same of a master and a slave over the LSA of router 0.
fn times_of_both(alloc: Global) -> Result<((Due, Due, Due), Due, bool), Fail> {
    let database = filled(alloc, 0, 1)?;
    let (times, round) = times_due(alloc, &database)?;
    let repeats = slave_repeats(&database, alloc)?;
    Ok((times, round, repeats))
}

#[test]
fn the_master_repeats_its_packet(rt: HostRuntime) -> Result<(), Fail> {
    let then = (false, true);
    assert_eq!(rt;
        times_of_both(rt.alloc())?,
        ((then, then, then), then, false)
    );
    Ok(())
}

// The last packet of one side reaches the other.
fn deliver(
    from: &Neighbour,
    to: &mut Neighbour,
    database: &Lsdb,
    local: Local,
    alloc: Global,
) -> Result<Heard, Fail> {
    let sent = from.exchanging();
    let d = description(local.mtu, sent.flags, sent.number);
    hear(to, d, from.last_dd(), database, local, alloc)
}

// Both sides send, the higher router first. Answers whether that ends the exchange.
fn exchange_once(
    low: &mut Neighbour,
    high: &mut Neighbour,
    low_database: &Lsdb,
    high_database: &Lsdb,
    alloc: Global,
) -> Result<bool, Fail> {
    deliver(high, low, low_database, at_tick(LOW, 576, 12), alloc)??;
    let local = at_tick(HIGH, 576, 12);
    let answer = deliver(low, high, high_database, local, alloc)??;
    Ok(answer == DdAnswer::Ends)
}

// How often the higher router sends until it ends the exchange.
fn exchange(
    low: &mut Neighbour,
    high: &mut Neighbour,
    low_database: &Lsdb,
    high_database: &Lsdb,
    alloc: Global,
) -> Result<u32, Fail> {
    for sent in 1..20 {
        if exchange_once(low, high, low_database, high_database, alloc)? {
            return Ok(sent);
        }
    }
    Err(Fail::from("no end"))
}

// The same where both have 60 LSAs.
fn exchange_60(low: &mut Neighbour, high: &mut Neighbour, alloc: Global) -> Result<u32, Fail> {
    let database = filled(alloc, 0, 60)?;
    exchange(low, high, &database, &database, alloc)
}

// How often the higher router sends, the state of both, and whether their numbers are the same.
fn full_exchange(alloc: Global) -> Result<(u32, NeighbourState, NeighbourState, bool), Fail> {
    let mut low = starting(alloc, HIGH, LOW_NUMBER);
    let mut high = starting(alloc, LOW, HIGH_NUMBER);
    let sent = exchange_60(&mut low, &mut high, alloc)?;
    let same = low.exchanging().number == high.exchanging().number;
    Ok((sent, low.state(), high.state(), same))
}

#[test]
fn two_neighbours_become_full(rt: HostRuntime) -> Result<(), Fail> {
    let alloc = rt.alloc();
    // The first packet, and 26, 26 and 8 headers.
    assert_eq!(rt;
        full_exchange(alloc)?,
        (4, NeighbourState::Full, NeighbourState::Full, true)
    );
    Ok(())
}

// How many LSAs are requested, and whether the first is router 0's and the last router 39's.
fn requests_from_0_to_39(high: &Neighbour, alloc: Global) -> Result<(usize, bool, bool), Fail> {
    let first = Some(header_of(alloc, 0, FIRST_NUMBER)?);
    let last = Some(header_of(alloc, 39, FIRST_NUMBER)?);
    let requests = high.requests();
    Ok((
        requests.len(),
        requests.first().copied() == first,
        requests.last().copied() == last,
    ))
}

// How often the higher router sends where it has 5 of the other's 40 LSAs.
fn exchange_lacking(low: &mut Neighbour, high: &mut Neighbour, alloc: Global) -> Result<u32, Fail> {
    let low_database = filled(alloc, 0, 40)?;
    let high_database = filled(alloc, 30, 35)?;
    exchange(low, high, &low_database, &high_database, alloc)
}

// Also what it requests then.
fn exchange_and_requests(
    low: &mut Neighbour,
    high: &mut Neighbour,
    alloc: Global,
) -> Result<(u32, (usize, bool, bool)), Fail> {
    let sent = exchange_lacking(low, high, alloc)?;
    let requests = requests_from_0_to_39(high, alloc)?;
    Ok((sent, requests))
}

// Also the state of both.
fn lacking_exchange(
    alloc: Global,
) -> Result<((u32, (usize, bool, bool)), (NeighbourState, NeighbourState)), Fail> {
    let mut low = starting(alloc, HIGH, LOW_NUMBER);
    let mut high = starting(alloc, LOW, HIGH_NUMBER);
    let exchanged = exchange_and_requests(&mut low, &mut high, alloc)?;
    Ok((exchanged, (low.state(), high.state())))
}

#[test]
fn two_neighbours_request_what_they_lack(rt: HostRuntime) -> Result<(), Fail> {
    let states = (NeighbourState::Full, NeighbourState::Loading);
    // The slave needs two packets for its headers.
    assert_eq!(rt;
        lacking_exchange(rt.alloc())?,
        ((2, (35, true, true)), states)
    );
    Ok(())
}
