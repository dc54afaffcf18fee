//! Which LSAs are requested of a neighbour, and what its Requests are answered.

use super::super::made::{FIRST_NUMBER, header_of};
use super::super::wired::description;
use super::{HIGH, LOW, at_tick, bytes_of, filled, hear, install, slave, starting};
use ospf_base::{Kind, LsaKey, RouterId};
use ospf_exchange::{ExchangeFault, is_request_due, is_request_repeat_due, next_request, on_request};
use ospf_lsa::LsaHeader;
use ospf_lsdb::Lsdb;
use ospf_neighbour::{Neighbour, NeighbourState};
use ospf_packet::{Body, BodyValue, Packet, RequestEntry, Requests};
use std::alloc::Global;
use std::collections::BTreeSet;
use std::test::Fail;

// The number that it uses next.
const NEXT_NUMBER: i32 = FIRST_NUMBER + 1;

// The headers of the LSAs of these routers and numbers.
fn headers_of(alloc: Global, told: &[(u32, i32)]) -> Result<Vec<LsaHeader>, Fail> {
    let mut headers = Vec::new(alloc);
    for (router, number) in told {
        headers.push(header_of(alloc, *router, *number)?)?;
    }
    Ok(headers)
}

fn requested<'a>(packet: Packet<'a>) -> Option<Requests<'a>> {
    match packet.body {
        Body::Request(entries) => Some(entries),
        _ => None,
    }
}

// Whether these are the keys of the router-LSAs of routers 1 and 3, in order.
fn are_one_and_three(keys: &BTreeSet<LsaKey>) -> bool {
    let mut expected = [1, 3].iter();
    let mut same = true;
    for key in keys {
        if Some(&key.id) != expected.next() || key.kind != Kind::Router {
            same = false;
        }
    }
    same
}

// How many keys a Request is answered with, and whether they are those of routers 1 and 3. `None` where it is not taken.
type Answer = Result<Option<(usize, bool)>, ExchangeFault>;

fn answer_to(
    neighbour: &Neighbour,
    requests: Requests<'_>,
    database: &Lsdb,
    alloc: Global,
) -> Result<Answer, Fail> {
    match on_request(neighbour, requests, database, alloc) {
        Ok(Some(keys)) => Ok(Ok(Some((keys.len(), are_one_and_three(&keys))))),
        Ok(None) => Ok(Ok(None)),
        Err(ExchangeFault::Memory) => Err(Fail::from(ExchangeFault::Memory)),
        Err(fault) => Ok(Err(fault)),
    }
}

fn ask_bytes(
    neighbour: &Neighbour,
    bytes: &[u8],
    database: &Lsdb,
    alloc: Global,
) -> Result<Answer, Fail> {
    let asked = requested(Packet::read(bytes)?).ok_or("no request")?;
    answer_to(neighbour, asked, database, alloc)
}

// What a Request for these LS types and routers is answered with, written and read.
fn ask(
    neighbour: &Neighbour,
    asked: &[(u32, u32)],
    database: &Lsdb,
    alloc: Global,
) -> Result<Answer, Fail> {
    let entries = entries_of(alloc, asked)?;
    let bytes = bytes_of(alloc, neighbour.router(), BodyValue::Request(entries))?;
    ask_bytes(neighbour, &bytes, database, alloc)
}

fn entries_of(alloc: Global, asked: &[(u32, u32)]) -> Result<Vec<RequestEntry>, Fail> {
    let mut entries = Vec::new(alloc);
    for (kind, router) in asked {
        entries.push(entry_of(*kind, *router))?;
    }
    Ok(entries)
}

fn entry_of(kind: u32, router: u32) -> RequestEntry {
    RequestEntry {
        kind,
        id: router,
        router: RouterId(router),
    }
}

// The master's packet of this number, before its last, tells the slave of these routers' LSAs.
fn hear_of(
    neighbour: &mut Neighbour,
    number: u32,
    told: &[(u32, i32)],
    database: &Lsdb,
    alloc: Global,
) -> Result<(), Fail> {
    let headers = headers_of(alloc, told)?;
    let next = description(576, 3, number);
    let local = at_tick(LOW, 576, 12);
    hear(neighbour, next, &headers, database, local, alloc)?.ok();
    Ok(())
}

// Whether these routers' LSAs are requested, in this order.
fn requests_are(neighbour: &Neighbour, wanted: &[(u32, i32)], alloc: Global) -> Result<bool, Fail> {
    let headers = headers_of(alloc, wanted)?;
    Ok(neighbour.requests() == headers.as_slice())
}

// The first LSAs of routers 0 and 1, and the next of router 2.
fn with_a_next(alloc: Global) -> Result<Lsdb, Fail> {
    let mut database = filled(alloc, 0, 2)?;
    install(&mut database, 2, NEXT_NUMBER, 0, 5, alloc)?;
    Ok(database)
}

// A slave that is told of four LSAs.
fn told_of_four(database: &Lsdb, alloc: Global) -> Result<Neighbour, Fail> {
    let mut neighbour = slave(alloc, database)?;
    let told = [
        (0, FIRST_NUMBER),
        (1, NEXT_NUMBER),
        (2, FIRST_NUMBER),
        (3, FIRST_NUMBER),
    ];
    hear_of(&mut neighbour, 0, &told, database, alloc)?;
    Ok(neighbour)
}

// Whether the newer ones are requested, and the state then.
fn newer_of_four(database: &Lsdb, alloc: Global) -> Result<(bool, NeighbourState), Fail> {
    let neighbour = told_of_four(database, alloc)?;
    let wanted = [(1, NEXT_NUMBER), (3, FIRST_NUMBER)];
    let requested = requests_are(&neighbour, &wanted, alloc)?;
    Ok((requested, neighbour.state()))
}

// The same over a database that has one of them and a later one.
fn newer_than_held(alloc: Global) -> Result<(bool, NeighbourState), Fail> {
    let database = with_a_next(alloc)?;
    newer_of_four(&database, alloc)
}

#[test]
fn only_newer_lsas_are_wanted(rt: HostRuntime) -> Result<(), Fail> {
    assert_eq!(rt;
        newer_than_held(rt.alloc())?,
        (true, NeighbourState::Exchange)
    );
    Ok(())
}

// Two packets tell of one LSA.
fn hear_twice(neighbour: &mut Neighbour, database: &Lsdb, alloc: Global) -> Result<(), Fail> {
    let first = [(7, FIRST_NUMBER), (8, FIRST_NUMBER)];
    hear_of(neighbour, 0, &first, database, alloc)?;
    let second = [(9, FIRST_NUMBER), (7, NEXT_NUMBER)];
    hear_of(neighbour, 1, &second, database, alloc)
}

// A slave that they tell of it.
fn told_twice(database: &Lsdb, alloc: Global) -> Result<Neighbour, Fail> {
    let mut neighbour = slave(alloc, database)?;
    hear_twice(&mut neighbour, database, alloc)?;
    Ok(neighbour)
}

// Whether it is requested once: the later header takes the place of the other.
fn is_requested_once(database: &Lsdb, alloc: Global) -> Result<bool, Fail> {
    let neighbour = told_twice(database, alloc)?;
    let wanted = [(7, NEXT_NUMBER), (8, FIRST_NUMBER), (9, FIRST_NUMBER)];
    requests_are(&neighbour, &wanted, alloc)
}

// The same over one LSA.
fn is_requested_once_over_one(alloc: Global) -> Result<bool, Fail> {
    let database = filled(alloc, 0, 1)?;
    is_requested_once(&database, alloc)
}

#[test]
fn an_lsa_told_twice_is_requested_once(rt: HostRuntime) -> Result<(), Fail> {
    assert!(rt; is_requested_once_over_one(rt.alloc())?);
    Ok(())
}

// The headers of the first LSAs of 50 routers.
fn fifty_headers(alloc: Global) -> Result<Vec<LsaHeader>, Fail> {
    let mut told = Vec::new(alloc);
    for router in 0..50 {
        told.push(header_of(alloc, router, FIRST_NUMBER)?)?;
    }
    Ok(told)
}

// The master's last packet tells of all these. Answers whether a Request was due before, the state then, and whether
// one is due then.
fn hear_last(
    neighbour: &mut Neighbour,
    told: &[LsaHeader],
    alloc: Global,
) -> Result<(bool, NeighbourState, bool), Fail> {
    let database = filled(alloc, 0, 0)?;
    let before = is_request_due(neighbour);
    let last = description(9000, 1, 0);
    let local = at_tick(LOW, 9000, 12);
    hear(neighbour, last, told, &database, local, alloc)?.ok();
    Ok((before, neighbour.state(), is_request_due(neighbour)))
}

// Whether the Request is to be sent again in this tick, every 5.
fn repeats_in(neighbour: &Neighbour, tick: u64) -> bool {
    is_request_repeat_due(neighbour, 5, tick)
}

// A Request of MTU 576 in tick 20. Answers for how many LSAs it asks, whether one is due, and whether it is to be sent
// again in ticks 24 and 25.
fn request_some(neighbour: &mut Neighbour) -> (usize, bool, bool, bool) {
    next_request(neighbour, 576, 20);
    (
        neighbour.asked_headers().len(),
        is_request_due(neighbour),
        repeats_in(neighbour, 24),
        repeats_in(neighbour, 25),
    )
}

// A Request of MTU 9000 in tick 25. Answers whether it asks for all these, and is to be sent again in tick 29.
fn request_all(neighbour: &mut Neighbour, told: &[LsaHeader]) -> (bool, bool) {
    next_request(neighbour, 9000, 25);
    (neighbour.asked_headers() == told, repeats_in(neighbour, 29))
}

type Asked = ((usize, bool, bool, bool), (bool, bool));

// What `hear_last` answers for these, and what the Requests after it do.
fn hear_and_request(
    neighbour: &mut Neighbour,
    told: &[LsaHeader],
    alloc: Global,
) -> Result<((bool, NeighbourState, bool), Asked), Fail> {
    let heard = hear_last(neighbour, told, alloc)?;
    let some = request_some(neighbour);
    let all = request_all(neighbour, told);
    Ok((heard, (some, all)))
}

// A slave that has no LSA.
fn slave_of_none(alloc: Global) -> Result<Neighbour, Fail> {
    let database = Lsdb::new(alloc);
    slave(alloc, &database)
}

// The same of such a slave.
fn request_told(
    told: &[LsaHeader],
    alloc: Global,
) -> Result<((bool, NeighbourState, bool), Asked), Fail> {
    let mut neighbour = slave_of_none(alloc)?;
    hear_and_request(&mut neighbour, told, alloc)
}

// The same for 50 LSAs.
fn request_50(alloc: Global) -> Result<((bool, NeighbourState, bool), Asked), Fail> {
    let told = fifty_headers(alloc)?;
    request_told(&told, alloc)
}

#[test]
fn a_request_has_room_for_44(rt: HostRuntime) -> Result<(), Fail> {
    let heard = (false, NeighbourState::Loading, true);
    let asked = ((44, false, false, true), (true, false));
    assert_eq!(rt; request_50(rt.alloc())?, (heard, asked));
    Ok(())
}

// Whether a Request for these is a bad one.
fn is_bad(
    neighbour: &Neighbour,
    asked: &[(u32, u32)],
    database: &Lsdb,
    alloc: Global,
) -> Result<bool, Fail> {
    let answer = ask(neighbour, asked, database, alloc)?;
    Ok(answer == Err(ExchangeFault::BadRequest))
}

// Whether each Request is a bad one that asks for one without a copy, in each place, or for another LS type.
fn all_are_bad(neighbour: &Neighbour, database: &Lsdb, alloc: Global) -> Result<bool, Fail> {
    let mut all = true;
    for asked in [
        [(1, 9), (1, 1), (1, 3)],
        [(1, 1), (1, 9), (1, 3)],
        [(1, 1), (1, 3), (1, 9)],
        [(1, 1), (1, 3), (5, 1)],
        [(1, 1), (2, 3), (1, 4)],
    ] {
        if !is_bad(neighbour, &asked, database, alloc)? {
            all = false;
        }
    }
    Ok(all)
}

// Routers 3, 1 and 3.
const TWICE_FOR_ONE: [(u32, u32); 3] = [(1, 3), (1, 1), (1, 3)];

// What a neighbour below Exchange is answered.
fn answer_below(database: &Lsdb, alloc: Global) -> Result<Answer, Fail> {
    let below = starting(alloc, HIGH, 1);
    ask(&below, &TWICE_FOR_ONE, database, alloc)
}

// What a slave is answered, and whether all bad ones are refused.
fn answers_to_slave(database: &Lsdb, alloc: Global) -> Result<(Answer, bool), Fail> {
    let neighbour = slave(alloc, database)?;
    let keys = ask(&neighbour, &TWICE_FOR_ONE, database, alloc)?;
    let bad = all_are_bad(&neighbour, database, alloc)?;
    Ok((keys, bad))
}

// What both say over LSAs 1 to 4.
fn answers(alloc: Global) -> Result<((Answer, bool), Answer), Fail> {
    let database = filled(alloc, 1, 5)?;
    let of_slave = answers_to_slave(&database, alloc)?;
    let below = answer_below(&database, alloc)?;
    Ok((of_slave, below))
}

#[test]
fn a_request_is_answered_in_order(rt: HostRuntime) -> Result<(), Fail> {
    let of_slave = (Ok(Some((2, true))), true);
    assert_eq!(rt; answers(rt.alloc())?, (of_slave, Ok(None)));
    Ok(())
}
