//! Datagrams made by hand, for two routers that agree. An independent program computed their sums.

use super::{LATER_FLOOR, SECOND, listed, rounds, start_above, step, two_after};
use hex::decode;
use ospf_base::{Addr, Instance, Kind, LsaKey, RouterId};
use ospf_neighbour::NeighbourState;
use ospf_router::{Dropped, Event, Router, Sent, Step};
use std::alloc::Global;
use std::test::Fail;

const FIRST_ID: RouterId = RouterId(0x0101_0101);

const SECOND_ID: RouterId = RouterId(0x0202_0202);

// An instance of the router-LSA of 1.1.1.1.
const fn own(number: i32, sum: u16) -> Instance {
    Instance {
        key: LsaKey {
            kind: Kind::Router,
            id: 0x0101_0101,
            router: FIRST_ID,
        },
        number,
        sum,
    }
}

// 1.1.1.1, 20 seconds after the link went up.
fn agreed(alloc: Global) -> Result<Router, Fail> {
    let (first, _second) = two_after(20, alloc)?;
    Ok(first)
}

// 1.1.1.1 gets these bytes from 2.2.2.2.
pub(crate) fn hear(router: &mut Router, bytes: &[u8], alloc: Global) -> Result<Step, Fail> {
    let event = Event::Datagram {
        link: 0,
        source: Addr(0x0a00_0002),
        destination: Addr(0xe000_0005),
        bytes,
    };
    step(router, event, alloc)
}

// The same, in hexadecimal.
fn hear_text(router: &mut Router, text: &str, alloc: Global) -> Result<Step, Fail> {
    let bytes = decode(alloc, text)?;
    hear(router, &bytes, alloc)
}

// Whether a datagram was taken, the table is as it was, and this alone was sent.
fn sends_alone(step: &Step, text: &str, alloc: Global) -> Result<bool, Fail> {
    let wanted = decode(alloc, text)?;
    let [sent] = step.out.sent() else {
        return Ok(false);
    };
    let taken = step.dropped.is_none() && !step.table_changed;
    Ok(taken && sent.bytes.as_slice() == wanted.as_slice())
}

// Whether this alone answers what 2.2.2.2 sends, in hexadecimal, and the table is as it was.
fn answers(router: &mut Router, text: &str, answer: &str, alloc: Global) -> Result<bool, Fail> {
    let heard = hear_text(router, text, alloc)?;
    sends_alone(&heard, answer, alloc)
}

// Whether nothing comes of what 2.2.2.2 sends. It is dropped for this cause, or it is taken.
fn is_silent(
    router: &mut Router,
    bytes: &[u8],
    cause: Option<Dropped>,
    alloc: Global,
) -> Result<bool, Fail> {
    let heard = hear(router, bytes, alloc)?;
    Ok(heard.out.sent().is_empty() && !heard.table_changed && heard.dropped == cause)
}

// The same of what is taken, in hexadecimal.
fn is_silent_text(router: &mut Router, text: &str, alloc: Global) -> Result<bool, Fail> {
    let bytes = decode(alloc, text)?;
    is_silent(router, &bytes, None, alloc)
}

// How many LSAs are listed.
fn count_listed(router: &Router, alloc: Global) -> Result<usize, Fail> {
    let listing = router.listing(alloc)?;
    Ok(listing.lsas().len())
}

// The state of the neighbour.
fn state(router: &Router) -> Result<NeighbourState, Fail> {
    let neighbour = router.neighbours(0).first().ok_or("a neighbour")?;
    Ok(neighbour.state())
}

// The router-LSA of 1.1.1.1 with the number 80000005, which an earlier run of it has issued.
const OF_AN_EARLIER_RUN: &str =
    "0204004c02020202000000007cc3000000000000000000000000000100640201010101010101010180000005da30003000000002020202020a0000010100000a0a000000fffffffc0300000a";

// And the one that takes its place, a second old.
const OUTDOES_IT: &str =
    "0204004c01010101000000008126000000000000000000000000000100010201010101010101010180000006d831003000000002020202020a0000010100000a0a000000fffffffc0300000a";

// Section 13.4: it is outdone.
#[test]
fn an_own_lsa_of_an_earlier_run(rt: HostRuntime) -> Result<(), Fail> {
    let alloc = rt.alloc();
    let mut first = agreed(alloc)?;
    assert!(rt; answers(&mut first, OF_AN_EARLIER_RUN, OUTDOES_IT, alloc)?);
    assert_eq!(rt; listed(&first, 0, alloc)?, (-0x7fff_fffa, 0xd831));
    assert_eq!(rt; first.floor(), -0x7fff_fffa);
    assert_eq!(rt; count_listed(&first, alloc)?, 2);
    Ok(())
}

// A network-LSA of 1.1.1.1, which has no network.
const UNWANTED: &str =
    "0204003c02020202000000001d330000000000000000000000000001006402020a000001010101018000000347f80020fffffffc0101010102020202";

// The same at age 3600.
const FLUSHES_IT: &str =
    "0204003c0101010100000000118900000000000000000000000000010e1002020a000001010101018000000347f80020fffffffc0101010102020202";

const FLUSH_IS_ACKNOWLEDGED: &str =
    "0205002c0202020200000000159a000000000000000000000e1002020a000001010101018000000347f80020";

const FLUSHED: Instance = Instance {
    key: LsaKey {
        kind: Kind::Network,
        id: 0x0a00_0001,
        router: FIRST_ID,
    },
    number: -0x7fff_fffd,
    sum: 0x47f8,
};

// Section 13.4: it is flushed, and the flush is awaited until it is acknowledged.
#[test]
fn an_unwanted_network_lsa(rt: HostRuntime) -> Result<(), Fail> {
    let alloc = rt.alloc();
    let mut first = agreed(alloc)?;
    assert!(rt; answers(&mut first, UNWANTED, FLUSHES_IT, alloc)?);
    assert_eq!(rt; count_listed(&first, alloc)?, 2);
    assert!(rt; first.awaits(0, SECOND_ID, &FLUSHED));
    assert!(rt; is_silent_text(&mut first, FLUSH_IS_ACKNOWLEDGED, alloc)?);
    assert!(rt; !first.awaits(0, SECOND_ID, &FLUSHED));
    Ok(())
}

// It answers the router-LSA of 1.1.1.1 with the number 80000002.
const ACKNOWLEDGMENT: &str =
    "0205002c020202020000000093640000000000000000000000010201010101010101010180000002e02d0030";

#[test]
fn a_late_acknowledgment_changes_nothing(rt: HostRuntime) -> Result<(), Fail> {
    let alloc = rt.alloc();
    let mut first = agreed(alloc)?;
    assert!(rt; is_silent_text(&mut first, ACKNOWLEDGMENT, alloc)?);
    assert_eq!(rt; state(&first)?, NeighbourState::Full);
    assert_eq!(rt; listed(&first, 0, alloc)?, (-0x7fff_fffe, 0xe02d));
    Ok(())
}

// The first Database Description of 2.2.2.2, whose first number is 200.
const FIRST_DESCRIPTION: &str = "020200200202020200000000f12e0000000000000000000005dc0207000000c8";

// What 1.1.1.1 sends as the next second passes.
fn sent_next(first: &mut Router, alloc: Global) -> Result<Sent, Fail> {
    let mut ticked = step(first, Event::Tick, alloc)?;
    Ok(ticked.out.sent.pop().ok_or("a datagram")?)
}

// What 2.2.2.2 makes of it.
fn second_hears(second: &mut Router, sent: &Sent, alloc: Global) -> Result<Step, Fail> {
    let event = Event::Datagram {
        link: 0,
        source: sent.source,
        destination: sent.destination,
        bytes: &sent.bytes,
    };
    step(second, event, alloc)
}

// Section 10.8: the second Hello of 1.1.1.1 names 2.2.2.2, which begins to describe its database.
#[test]
fn the_first_description(rt: HostRuntime) -> Result<(), Fail> {
    let alloc = rt.alloc();
    let (mut first, mut second) = two_after(9, alloc)?;
    let hello = sent_next(&mut first, alloc)?;
    let heard = second_hears(&mut second, &hello, alloc)?;
    assert!(rt; sends_alone(&heard, FIRST_DESCRIPTION, alloc)?);
    Ok(())
}

// The last Database Description of 2.2.2.2, which is the master.
const LAST_OF_MASTER: &str =
    "02020034020202020000000063b80000000000000000000005dc0201000000c9000a0201020202020202020280000001032f0024";

const LAST_OF_SLAVE: &str = "020200200101010100000000f3360000000000000000000005dc0200000000c9";

// Its number is none that is due.
const STRANGE: &str = "020200200202020200000000f12d0000000000000000000005dc0203000000cd";

// Whether it is taken, and the exchange is to begin.
fn begins_anew(first: &mut Router, alloc: Global) -> Result<bool, Fail> {
    let strange = hear_text(first, STRANGE, alloc)?;
    Ok(strange.dropped.is_none() && state(first)? == NeighbourState::ExStart)
}

// Section 10.6: the first is answered by what answered it before, the second begins the exchange anew.
#[test]
fn descriptions_in_state_full(rt: HostRuntime) -> Result<(), Fail> {
    let alloc = rt.alloc();
    let mut first = agreed(alloc)?;
    assert!(rt; answers(&mut first, LAST_OF_MASTER, LAST_OF_SLAVE, alloc)?);
    assert_eq!(rt; state(&first)?, NeighbourState::Full);
    assert!(rt; begins_anew(&mut first, alloc)?);
    Ok(())
}

// What 2.2.2.2 sends 16 seconds after the link went up: it was 80000002 at an age of 6 seconds that came last.
const DELAYED: &str =
    "0205002c0202020200000000935f0000000000000000000000060201010101010101010180000002e02d0030";

// The Acknowledgment, before it arrives.
fn held_back(second: &mut Router, alloc: Global) -> Result<Sent, Fail> {
    let mut ticked = step(second, Event::Tick, alloc)?;
    if !sends_alone(&ticked, DELAYED, alloc)? {
        return Err(Fail::from("another datagram"));
    }
    Ok(ticked.out.sent.pop().ok_or("a datagram")?)
}

// 1.1.1.1, 15 seconds after the link went up, and the Acknowledgment, which has not come.
pub(crate) fn first_and_held(alloc: Global) -> Result<(Router, Sent), Fail> {
    let (first, mut second) = two_after(15, alloc)?;
    let held = held_back(&mut second, alloc)?;
    Ok((first, held))
}

// Whether of all the instances that it may be 80000002 is awaited, of no neighbour but 2.2.2.2.
fn awaits_the_second(router: &Router) -> bool {
    let flooded = own(-0x7fff_fffe, 0xe02d);
    let of_others = router.awaits(1, SECOND_ID, &flooded) || router.awaits(0, FIRST_ID, &flooded);
    let others = router.awaits(0, SECOND_ID, &own(-0x7fff_ffff, 0xe02d))
        || router.awaits(0, SECOND_ID, &own(-0x7fff_fffe, 0xe02e));
    router.awaits(0, SECOND_ID, &flooded) && !of_others && !others
}

#[test]
fn flooded_is_awaited_until_acknowledged(rt: HostRuntime) -> Result<(), Fail> {
    let alloc = rt.alloc();
    let (mut first, held) = first_and_held(alloc)?;
    assert!(rt; awaits_the_second(&first));
    assert!(rt; is_silent(&mut first, &held.bytes, None, alloc)?);
    assert!(rt; !first.awaits(0, SECOND_ID, &own(-0x7fff_fffe, 0xe02d)));
    Ok(())
}

// 2.2.2.2 starts anew, and its first Hello comes to 1.1.1.1.
fn start_anew(first: &mut Router, alloc: Global) -> Result<Router, Fail> {
    let mut second = start_above(SECOND, 900, LATER_FLOOR, alloc)?;
    let mut up = step(&mut second, Event::LinkUp { link: 0 }, alloc)?;
    let hello = up.out.sent.pop().ok_or("a Hello")?;
    let _heard = hear(first, &hello.bytes, alloc)?;
    Ok(second)
}

// Whether it has heard of 2.2.2.2 alone, and awaits no Acknowledgment.
fn is_begun(first: &Router) -> Result<bool, Fail> {
    let awaits = first.awaits(0, SECOND_ID, &own(-0x7fff_fffe, 0xe02d));
    Ok(!awaits && state(first)? == NeighbourState::Init)
}

// The Hello has ended the adjacency: nothing is awaited, and the Acknowledgment that was held back is dropped.
#[test]
fn an_ended_adjacency_awaits_nothing(rt: HostRuntime) -> Result<(), Fail> {
    let alloc = rt.alloc();
    let (mut first, held) = first_and_held(alloc)?;
    drop(start_anew(&mut first, alloc)?);
    assert!(rt; is_begun(&first)?);
    assert!(rt; is_silent(&mut first, &held.bytes, Some(Dropped::State), alloc)?);
    Ok(())
}

// 2.2.2.2 starts anew, and 5 seconds pass.
fn agree_anew(first: &mut Router, alloc: Global) -> Result<(), Fail> {
    let mut anew = start_anew(first, alloc)?;
    rounds(first, &mut anew, 5, alloc)
}

// Section 13.7: the Acknowledgment of 80000002 does not answer 80000004, which the new adjacency awaits.
#[test]
fn an_acknowledgment_answers_its_instance(rt: HostRuntime) -> Result<(), Fail> {
    let alloc = rt.alloc();
    let (mut first, held) = first_and_held(alloc)?;
    agree_anew(&mut first, alloc)?;
    assert_eq!(rt; state(&first)?, NeighbourState::Full);
    assert!(rt; first.awaits(0, SECOND_ID, &own(-0x7fff_fffc, 0xdc2f)));
    assert!(rt; is_silent(&mut first, &held.bytes, None, alloc)?);
    assert!(rt; first.awaits(0, SECOND_ID, &own(-0x7fff_fffc, 0xdc2f)));
    Ok(())
}
