//! Two routers meet over a link, and exchange their databases.

use super::super::made::FIRST_NUMBER;
use super::super::written::{DESCRIPTION, HELLO, REQUEST, UPDATE};
use super::{
    FROM_FIRST, Pair, Router, Says, To, are_in, are_same, count_marked, counts_sent, describes,
    is_in, is_sent, linked, meet, met, pass_all, sends, wait_for,
};
use ospf_base::RouterId;
use ospf_lsa::Lsa;
use ospf_neighbour::NeighbourState;
use std::alloc::Global;
use std::test::Fail;

fn next_dd(router: &Router) -> u32 {
    router.area.next_dd
}

// What they have sent then.
fn have_met(pair: &Pair, alloc: Global) -> Result<bool, Fail> {
    let wanted = [Says::Greets(0), Says::Greets(1), Says::Describes(7, 100, 0)];
    Ok(
        sends(&pair.first, 0, &wanted)?
            && is_sent(&pair.first, 0, HELLO, alloc)?
            && is_sent(&pair.second, 2, DESCRIPTION, alloc)?,
    )
}

// Whether each is in Init at the other before that; whether they then have sent what they should; the DD numbers that follow;
// and whether each is in ExStart at the other.
type Meeting = (bool, bool, [u32; 2], bool);

fn met_by(pair: &mut Pair, alloc: Global) -> Result<Meeting, Fail> {
    let linked = are_in(pair, NeighbourState::Init, NeighbourState::Init);
    meet(pair, alloc)?;
    let sent = have_met(pair, alloc)?;
    let numbers = [next_dd(&pair.first), next_dd(&pair.second)];
    let begun = are_in(pair, NeighbourState::ExStart, NeighbourState::ExStart);
    Ok((linked, sent, numbers, begun))
}

fn meeting(alloc: Global) -> Result<Meeting, Fail> {
    let mut pair = linked(alloc, 1500)?;
    met_by(&mut pair, alloc)
}

#[test]
fn two_routers_meet(rt: HostRuntime) -> Result<(), Fail> {
    let (linked, sent, numbers, begun) = meeting(rt.alloc())?;
    assert!(rt; linked);
    assert!(rt; sent);
    assert_eq!(rt; numbers, [101, 201]);
    assert!(rt; begun);
    Ok(())
}

// 1.1.1.1 becomes the slave, by the first packet of 2.2.2.2; its own is dropped there.
const NEGOTIATION: [To; 3] = [To::Second(2), To::First(2), To::Second(3)];

// Then the packets of both until both wait for an LSA.
const EXCHANGE: [To; 3] = [To::First(3), To::First(4), To::Second(4)];

fn exchange(pair: &mut Pair, alloc: Global) -> Result<(), Fail> {
    pass_all(pair, &NEGOTIATION, alloc)?;
    pass_all(pair, &EXCHANGE, alloc)
}

// The Descriptions, Requests and the first Update.
fn have_exchanged(pair: &Pair, alloc: Global) -> Result<bool, Fail> {
    let first = [
        Says::Describes(0, 200, 1),
        Says::Describes(0, 201, 0),
        Says::Requests(1),
        Says::Updates(1),
    ];
    let second = [Says::Describes(1, 201, 1), Says::Requests(1)];
    Ok(
        sends(&pair.first, 3, &first)?
            && sends(&pair.second, 3, &second)?
            && is_sent(&pair.first, 5, REQUEST, alloc)?
            && is_sent(&pair.first, 6, UPDATE, alloc)?,
    )
}

// Whether they have sent what they should, how many keys are marked at 1.1.1.1, and whether each is in Loading at the other.
fn exchanged_by(pair: &mut Pair, alloc: Global) -> Result<(bool, usize, bool), Fail> {
    exchange(pair, alloc)?;
    let sent = have_exchanged(pair, alloc)?;
    let loading = are_in(pair, NeighbourState::Loading, NeighbourState::Loading);
    Ok((sent, count_marked(&pair.first), loading))
}

fn exchanging(alloc: Global) -> Result<(bool, usize, bool), Fail> {
    let mut pair = met(alloc)?;
    exchanged_by(&mut pair, alloc)
}

#[test]
fn two_routers_exchange(rt: HostRuntime) -> Result<(), Fail> {
    let (sent, marked, loading) = exchanging(rt.alloc())?;
    assert!(rt; sent);
    assert_eq!(rt; marked, 1);
    assert!(rt; loading);
    Ok(())
}

// The last packet of each comes again: how many datagrams each has sent, and whether the slave sent the same.
fn repeat_both(pair: &mut Pair, alloc: Global) -> Result<([usize; 2], bool), Fail> {
    pass_all(pair, &NEGOTIATION, alloc)?;
    pass_all(pair, &[To::First(2), To::Second(3)], alloc)?;
    Ok((counts_sent(pair), are_same(&pair.first, 3, 4)))
}

// A packet comes that does not follow: whether the master sends its first, and is in ExStart.
fn begin_anew(master: &mut Router, alloc: Global) -> Result<(bool, bool), Fail> {
    describes(master, FROM_FIRST, 0, alloc)?;
    let sent = sends(master, 5, &[Says::Describes(7, 201, 0)])?;
    Ok((sent, is_in(master, FROM_FIRST, NeighbourState::ExStart)))
}

// How many datagrams each has sent when the last of each came again; whether the slave sent the same; whether the master
// begins anew.
type Repeats = ([usize; 2], bool, (bool, bool));

fn repeated_by(pair: &mut Pair, alloc: Global) -> Result<Repeats, Fail> {
    let (sent, same) = repeat_both(pair, alloc)?;
    Ok((sent, same, begin_anew(&mut pair.second, alloc)?))
}

fn repeating(alloc: Global) -> Result<Repeats, Fail> {
    let mut pair = met(alloc)?;
    repeated_by(&mut pair, alloc)
}

// The slave repeats its last, the master passes over one that comes again, and begins anew by one that does not follow.
#[test]
fn descriptions_come_again(rt: HostRuntime) -> Result<(), Fail> {
    let (sent, same, begun) = repeating(rt.alloc())?;
    assert_eq!(rt; sent, [5, 5]);
    assert!(rt; same);
    assert_eq!(rt; begun, (true, true));
    Ok(())
}

// So many LSAs in a database, of the routers from this one on.
fn fill(router: &mut Router, from: u32, count: u32, alloc: Global) -> Result<(), Fail> {
    for place in 0..count {
        let id = RouterId(from.wrapping_add(place));
        let lsa = Lsa::router(alloc, id, FIRST_NUMBER, &[])?;
        router.area.database.install(lsa, 0, true)?;
    }
    Ok(())
}

// Then the packets until the slave has no header left.
const SLAVE_ENDS: [To; 3] = [To::First(3), To::Second(4), To::First(5)];

// They have more LSAs than a packet has room for.
fn filled(alloc: Global) -> Result<Pair, Fail> {
    let mut pair = linked(alloc, 576)?;
    fill_both(&mut pair, alloc)?;
    Ok(pair)
}

fn fill_both(pair: &mut Pair, alloc: Global) -> Result<(), Fail> {
    meet(pair, alloc)?;
    fill(&mut pair.first, 1, 27, alloc)?;
    fill(&mut pair.second, 1000, 53, alloc)
}

const SLAVE_SENDS: [Says; 5] = [
    Says::Describes(2, 200, 26),
    Says::Describes(0, 201, 1),
    Says::Requests(26),
    Says::Describes(0, 202, 0),
    Says::Requests(44),
];

const MASTER_SENDS: [Says; 3] = [
    Says::Describes(3, 201, 26),
    Says::Requests(26),
    Says::Describes(3, 202, 26),
];

// Whether the slave, and the master, have sent what they should.
fn exchange_many(pair: &mut Pair, alloc: Global) -> Result<(bool, bool), Fail> {
    pass_all(pair, &NEGOTIATION, alloc)?;
    pass_all(pair, &SLAVE_ENDS, alloc)?;
    wait_for(&mut pair.first, 5, alloc)?;
    let slave = sends(&pair.first, 3, &SLAVE_SENDS)?;
    Ok((slave, sends(&pair.second, 3, &MASTER_SENDS)?))
}

fn exchanging_many(alloc: Global) -> Result<(bool, bool), Fail> {
    let mut pair = filled(alloc)?;
    exchange_many(&mut pair, alloc)
}

// At MTU 576: 26 headers and then one, and a Request of 44 entries of 52.
#[test]
fn what_fits_a_small_mtu(rt: HostRuntime) -> Result<(), Fail> {
    let (slave, master) = exchanging_many(rt.alloc())?;
    assert!(rt; slave);
    assert!(rt; master);
    Ok(())
}
