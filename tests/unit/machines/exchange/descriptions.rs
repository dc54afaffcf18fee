//! Which Database Descriptions are taken, and what goes out for them.

use super::super::made::{FIRST_NUMBER, header_of, lsa_of};
use super::super::wired::description;
use super::{
    HIGH, HIGH_NUMBER, Heard, LOW, LOW_NUMBER, at_tick, filled, hear, install, slave, starting,
};
use ospf_exchange::{DdAnswer, ExchangeFault, Local};
use ospf_lsa::LsaHeader;
use ospf_lsdb::Lsdb;
use ospf_neighbour::{NbrEvent, Neighbour, NeighbourState};
use ospf_packet::Description;
use std::alloc::Global;
use std::test::Fail;

// The neighbour's first packet, of this MTU, at an interface of MTU 1500.
fn hear_first(neighbour: &mut Neighbour, mtu: u16, alloc: Global) -> Result<Heard, Fail> {
    let database = filled(alloc, 0, 3)?;
    let local = at_tick(LOW, 1500, 11);
    let first = description(mtu, 7, 5);
    hear(neighbour, first, &[], &database, local, alloc)
}

// What a first packet of MTU 1501 answers, the state then, and whether the exchange is as before.
fn over_mtu(alloc: Global) -> Result<(Heard, NeighbourState, bool), Fail> {
    let mut neighbour = starting(alloc, HIGH, LOW_NUMBER);
    let before = neighbour.exchanging();
    let heard = hear_first(&mut neighbour, 1501, alloc)?;
    Ok((heard, neighbour.state(), neighbour.exchanging() == before))
}

type Within = (Heard, NeighbourState, usize);

// What a first packet of this MTU answers, the state then, and how many headers go out.
fn within_mtu(alloc: Global, mtu: u16) -> Result<Within, Fail> {
    let mut neighbour = starting(alloc, HIGH, LOW_NUMBER);
    let heard = hear_first(&mut neighbour, mtu, alloc)?;
    Ok((heard, neighbour.state(), neighbour.last_dd().len()))
}

// What both answer: the latter for an MTU of 1500 and of 1499.
fn answers_to_mtus(alloc: Global) -> Result<((Heard, NeighbourState, bool), Within, Within), Fail> {
    let over = over_mtu(alloc)?;
    let equal = within_mtu(alloc, 1500)?;
    let below = within_mtu(alloc, 1499)?;
    Ok((over, equal, below))
}

#[test]
fn a_larger_mtu_is_refused(rt: HostRuntime) -> Result<(), Fail> {
    let refused = (Err(ExchangeFault::Mtu), NeighbourState::ExStart, true);
    let taken = (Ok(DdAnswer::Sends), NeighbourState::Exchange, 3);
    assert_eq!(rt; answers_to_mtus(rt.alloc())?, (refused, taken, taken));
    Ok(())
}

// What the slave answers, in tick 12, to its master's packet without headers.
fn hear_master(
    neighbour: &mut Neighbour,
    flags: u8,
    number: u32,
    database: &Lsdb,
    alloc: Global,
) -> Result<Heard, Fail> {
    let next = description(576, flags, number);
    let local = at_tick(LOW, 576, 12);
    hear(neighbour, next, &[], database, local, alloc)
}

type Sending = (u32, u8, usize, bool);

// The number and the flags of the packet to send, how many headers it has, and whether the first is this router's.
fn to_send(neighbour: &Neighbour, router: u32, alloc: Global) -> Result<Sending, Fail> {
    let header = header_of(alloc, router, FIRST_NUMBER)?;
    let sent = neighbour.exchanging();
    let headers = neighbour.last_dd();
    let first = headers.first().copied() == Some(header);
    Ok((sent.number, sent.flags, headers.len(), first))
}

// What the slave sends first, and how many headers are then left.
fn first_of(database: &Lsdb, alloc: Global) -> Result<(Sending, usize), Fail> {
    let neighbour = slave(alloc, database)?;
    let first = to_send(&neighbour, 0, alloc)?;
    Ok((first, neighbour.summary().len()))
}

// What the master's last packet answers, what the slave sends last, and the state then.
fn last_of(database: &Lsdb, alloc: Global) -> Result<(Heard, Sending, NeighbourState), Fail> {
    let mut neighbour = slave(alloc, database)?;
    let heard = hear_master(&mut neighbour, 1, 0, database, alloc)?;
    let last = to_send(&neighbour, 26, alloc)?;
    Ok((heard, last, neighbour.state()))
}

// Both, of 27 LSAs.
fn sends_of_27(
    alloc: Global,
) -> Result<((Sending, usize), (Heard, Sending, NeighbourState)), Fail> {
    let database = filled(alloc, 0, 27)?;
    let first = first_of(&database, alloc)?;
    let last = last_of(&database, alloc)?;
    Ok((first, last))
}

#[test]
fn a_slave_sends_what_fits(rt: HostRuntime) -> Result<(), Fail> {
    let first = ((HIGH_NUMBER, 2, 26, true), 1);
    let last = (Ok(DdAnswer::Sends), (0, 0, 1, true), NeighbourState::Full);
    assert_eq!(rt; sends_of_27(rt.alloc())?, (first, last));
    Ok(())
}

type Again = (Heard, bool, usize);

type Mismatches = ((Heard, Heard, Heard), Heard, bool);

// What the master's last packet answers again, whether the exchange is as before, and how many headers go out again.
fn hear_again(neighbour: &mut Neighbour, database: &Lsdb, alloc: Global) -> Result<Again, Fail> {
    let before = neighbour.exchanging();
    let heard = hear_master(neighbour, 7, HIGH_NUMBER, database, alloc)?;
    let same = neighbour.exchanging() == before;
    Ok((heard, same, neighbour.last_dd().len()))
}

// What three packets answer: neither the last number nor the next one, the next one from a slave, and as the first.
fn hear_out_of_order(
    neighbour: &mut Neighbour,
    database: &Lsdb,
    alloc: Global,
) -> Result<(Heard, Heard, Heard), Fail> {
    let other = hear_master(neighbour, 1, 5, database, alloc)?;
    let no_master = hear_master(neighbour, 0, 0, database, alloc)?;
    let first = hear_master(neighbour, 5, 0, database, alloc)?;
    Ok((other, no_master, first))
}

// What the next packet answers with other Options.
fn hear_other_options(
    neighbour: &mut Neighbour,
    database: &Lsdb,
    alloc: Global,
) -> Result<Heard, Fail> {
    let options = Description {
        options: 0,
        ..description(576, 1, 0)
    };
    let local = at_tick(LOW, 576, 12);
    hear(neighbour, options, &[], database, local, alloc)
}

// What four packets answer that do not follow the last one, and whether the exchange is as before.
fn hear_mismatches(
    neighbour: &mut Neighbour,
    database: &Lsdb,
    alloc: Global,
) -> Result<Mismatches, Fail> {
    let before = neighbour.exchanging();
    let order = hear_out_of_order(neighbour, database, alloc)?;
    let options = hear_other_options(neighbour, database, alloc)?;
    Ok((order, options, neighbour.exchanging() == before))
}

// What a slave answers to both.
fn hear_both(database: &Lsdb, alloc: Global) -> Result<(Again, Mismatches), Fail> {
    let mut neighbour = slave(alloc, database)?;
    let again = hear_again(&mut neighbour, database, alloc)?;
    let others = hear_mismatches(&mut neighbour, database, alloc)?;
    Ok((again, others))
}

// The same of a slave of 27 LSAs.
fn repeat_and_mismatches(alloc: Global) -> Result<(Again, Mismatches), Fail> {
    let database = filled(alloc, 0, 27)?;
    hear_both(&database, alloc)
}

#[test]
fn a_repeat_changes_nothing(rt: HostRuntime) -> Result<(), Fail> {
    let refused = Err(ExchangeFault::Mismatch);
    let again = (Ok(DdAnswer::Repeats), true, 26);
    let others = ((refused, refused, refused), refused, true);
    assert_eq!(rt; repeat_and_mismatches(rt.alloc())?, (again, others));
    Ok(())
}

// What the master answers, in tick 11, to its slave's packet.
fn hear_slave(
    neighbour: &mut Neighbour,
    flags: u8,
    number: u32,
    headers: &[LsaHeader],
    database: &Lsdb,
    alloc: Global,
) -> Result<Heard, Fail> {
    let next = description(576, flags, number);
    let local = at_tick(HIGH, 576, 11);
    hear(neighbour, next, headers, database, local, alloc)
}

type Bare = (Heard, NeighbourState);

type Told = (Heard, (u8, u32), usize, bool);

// What a packet without headers answers, and the state then.
fn hear_bare(
    neighbour: &mut Neighbour,
    flags: u8,
    number: u32,
    database: &Lsdb,
    alloc: Global,
) -> Result<Bare, Fail> {
    let heard = hear_slave(neighbour, flags, number, &[], database, alloc)?;
    Ok((heard, neighbour.state()))
}

// What the slave's first packet answers, the flags and the number to send then, how many LSAs are requested, and
// whether they are what was told.
fn hear_told(neighbour: &mut Neighbour, database: &Lsdb, alloc: Global) -> Result<Told, Fail> {
    let told = [header_of(alloc, 8, FIRST_NUMBER)?];
    let heard = hear_slave(neighbour, 0, HIGH_NUMBER, &told, database, alloc)?;
    let sent = neighbour.exchanging();
    let requests = neighbour.requests();
    let same = requests == told.as_slice();
    Ok((heard, (sent.flags, sent.number), requests.len(), same))
}

// What the slave's first packet answers, and again.
fn hear_told_twice(
    neighbour: &mut Neighbour,
    database: &Lsdb,
    alloc: Global,
) -> Result<(Told, Told), Fail> {
    let taken = hear_told(neighbour, database, alloc)?;
    let again = hear_told(neighbour, database, alloc)?;
    Ok((taken, again))
}

// What the master answers to its slave's claim, to its first packet twice, and to its last.
fn hear_turns(database: &Lsdb, alloc: Global) -> Result<(Bare, (Told, Told), Bare), Fail> {
    let mut neighbour = starting(alloc, LOW, HIGH_NUMBER);
    // Both claim to be master.
    let claim = hear_bare(&mut neighbour, 7, LOW_NUMBER, database, alloc)?;
    let told = hear_told_twice(&mut neighbour, database, alloc)?;
    let ends = hear_bare(&mut neighbour, 0, 0, database, alloc)?;
    Ok((claim, told, ends))
}

// The same of a master of one LSA.
fn turns_of_master(alloc: Global) -> Result<(Bare, (Told, Told), Bare), Fail> {
    let database = filled(alloc, 0, 1)?;
    hear_turns(&database, alloc)
}

#[test]
fn the_higher_router_is_master(rt: HostRuntime) -> Result<(), Fail> {
    let not_taken = (Ok(DdAnswer::NotTaken), NeighbourState::ExStart);
    let sends = (Ok(DdAnswer::Sends), (1, 0), 1, true);
    let passed_over = (Ok(DdAnswer::PassedOver), (1, 0), 1, true);
    let ended = (Ok(DdAnswer::Ends), NeighbourState::Loading);
    assert_eq!(rt;
        turns_of_master(rt.alloc())?,
        (not_taken, (sends, passed_over), ended)
    );
    Ok(())
}

// What a slave's packet with another LS type answers, and the state then.
fn hear_other_type(
    neighbour: &mut Neighbour,
    database: &Lsdb,
    alloc: Global,
) -> Result<(Heard, NeighbourState), Fail> {
    let told = [LsaHeader {
        kind: 5,
        ..header_of(alloc, 8, FIRST_NUMBER)?
    }];
    let heard = hear_slave(neighbour, 0, HIGH_NUMBER, &told, database, alloc)?;
    Ok((heard, neighbour.state()))
}

// What a slave's packet of an LS type answers a master that passes over summaries and externals, the state then, and how
// many LSAs are requested.
fn hear_type_passed_over(kind: u8, alloc: Global) -> Result<(Heard, NeighbourState, usize), Fail> {
    let database = filled(alloc, 0, 2)?;
    let mut neighbour = starting(alloc, LOW, HIGH_NUMBER);
    let other = LsaHeader {
        kind,
        ..header_of(alloc, 8, FIRST_NUMBER)?
    };
    let told = [other, header_of(alloc, 9, FIRST_NUMBER)?];
    let local = Local {
        passes_over: true,
        ..at_tick(HIGH, 576, 11)
    };
    let next = description(576, 0, HIGH_NUMBER);
    let heard = hear(&mut neighbour, next, &told, &database, local, alloc)?;
    Ok((heard, neighbour.state(), neighbour.requests().len()))
}

#[test]
fn summaries_and_externals_are_passed_over(rt: HostRuntime) -> Result<(), Fail> {
    for kind in [3, 4, 5] {
        let passed = (Ok(DdAnswer::Sends), NeighbourState::Exchange, 1);
        assert_eq!(rt; hear_type_passed_over(kind, rt.alloc())?, passed);
    }
    for kind in [0, 6, 7, 9, 10, 11] {
        let refused = (
            Err(ExchangeFault::Mismatch),
            NeighbourState::Exchange,
            0,
        );
        assert_eq!(rt; hear_type_passed_over(kind, rt.alloc())?, refused);
    }
    Ok(())
}

// The state after SeqNumberMismatch, and how many headers are still to be described.
fn mismatch(neighbour: &mut Neighbour) -> (NeighbourState, usize) {
    neighbour.event(NbrEvent::SeqNumberMismatch, 40);
    (neighbour.state(), neighbour.summary().len())
}

// What such a packet answers the master, the state then, and the same after SeqNumberMismatch, which begins another
// exchange.
fn hear_and_mismatch(
    database: &Lsdb,
    alloc: Global,
) -> Result<(Bare, (NeighbourState, usize)), Fail> {
    let mut neighbour = starting(alloc, LOW, HIGH_NUMBER);
    let heard = hear_other_type(&mut neighbour, database, alloc)?;
    Ok((heard, mismatch(&mut neighbour)))
}

// The same over two LSAs.
fn mismatch_over_two(alloc: Global) -> Result<(Bare, (NeighbourState, usize)), Fail> {
    let database = filled(alloc, 0, 2)?;
    hear_and_mismatch(&database, alloc)
}

#[test]
fn another_ls_type_is_a_mismatch(rt: HostRuntime) -> Result<(), Fail> {
    let refused = (Err(ExchangeFault::Mismatch), NeighbourState::Exchange);
    let after = (NeighbourState::ExStart, 0);
    assert_eq!(rt; mismatch_over_two(rt.alloc())?, (refused, after));
    Ok(())
}

// A slave over a database with an LSA of router 0, and one of router 1 that has expired.
fn slave_of_expired(alloc: Global) -> Result<Neighbour, Fail> {
    let mut database = filled(alloc, 0, 2)?;
    install(&mut database, 1, FIRST_NUMBER, 3600, 5, alloc)?;
    slave(alloc, &database)
}

// Whether the first LSA that waits for an acknowledgement is the expired one, and when it was sent.
fn first_waiting(neighbour: &Neighbour, alloc: Global) -> Result<(bool, u64), Fail> {
    let expired = lsa_of(alloc, 1, FIRST_NUMBER, 3600)?;
    let listed = neighbour.retransmission().first().copied().ok_or("none")?;
    let same = listed.instance == expired.view().instance();
    Ok((same, listed.sent_at))
}

// How many headers the packet to send has, and how many LSAs wait for an acknowledgement.
fn sent_and_waiting(neighbour: &Neighbour) -> (usize, usize) {
    (neighbour.last_dd().len(), neighbour.retransmission().len())
}

// Both of such a slave.
fn waits_of_expired(alloc: Global) -> Result<((usize, usize), (bool, u64)), Fail> {
    let neighbour = slave_of_expired(alloc)?;
    let first = first_waiting(&neighbour, alloc)?;
    Ok((sent_and_waiting(&neighbour), first))
}

#[test]
fn expired_lsas_wait_for_an_acknowledgement(rt: HostRuntime) -> Result<(), Fail> {
    assert_eq!(rt; waits_of_expired(rt.alloc())?, ((1, 1), (true, 11)));
    Ok(())
}
