//! Seats of a forwarding table, what its refusals are called, and one list of tables that is known in two places.

use super::given::{FAR, far_answer, two_routers};
use ospf_base::Addr;
use ospf_fib::{Closed, Fib, MAX_SEATS, OpenRefused};
use ospf_fib::index::Opened;
use ospf_spf::{Change, RouteTable};
use std::fmt::Write;
use std::test::Fail;

mod many;

#[test]
fn as_many_seats_as_there_are(rt: HostRuntime) -> Result<(), Fail> {
    let alloc = rt.alloc();
    let (mut writer, mut seats) = Fib::open(alloc, &rt, MAX_SEATS)?;
    assert!(rt; seats.len() == 64);
    for seat in &mut seats {
        assert!(rt; seat.lookup(FAR, 0) == Ok(None));
    }
    let _told = writer.publish(&two_routers(alloc, 5)?)?;
    for seat in &mut seats {
        assert!(rt; seat.lookup(FAR, 7) == Ok(Some(far_answer(1, 15))));
        assert!(rt; seat.lookup(Addr(0x0a09_0909), 0) == Ok(None));
    }
    Ok(())
}

#[test]
fn closed_by_the_writers_end(rt: HostRuntime) -> Result<(), Fail> {
    let alloc = rt.alloc();
    let (mut writer, mut seats) = Fib::open(alloc, &rt, 1)?;
    let mut seat = seats.pop().ok_or("a seat")?;
    let told = writer.publish(&two_routers(alloc, 5)?)?;
    assert!(rt; seat.lookup(FAR, 0) == Ok(Some(far_answer(1, 15))));
    drop(writer);
    assert!(rt; seat.lookup(FAR, 0) == Err(Closed));
    seat.learn(told);
    assert!(rt; seat.lookup(FAR, 0) == Err(Closed));
    Ok(())
}

// The changes that lead to a table publish what the table does, also where routes come and go.
#[test]
fn published_by_changes(rt: HostRuntime) -> Result<(), Fail> {
    let alloc = rt.alloc();
    let (mut writer, mut seats) = Fib::open(alloc, &rt, 1)?;
    let mut seat = seats.pop().ok_or("a seat")?;
    for version in 1u64..8 {
        let table = two_routers(alloc, version as u16 % 3)?;
        let changes = writer.shown().table().changes(alloc, &table)?;
        let told = writer.publish_changes(&changes)?;
        let expected = far_answer(version, 10 + version % 3);
        assert!(rt; seat.lookup(FAR, 0) == Ok(Some(expected)));
        seat.learn(told);
    }
    let _told = writer.publish_changes(&[])?;
    assert!(rt; seat.lookup(FAR, 0) == Ok(Some(far_answer(8, 11))));
    let _told = writer.publish(&two_routers(alloc, 5)?)?;
    assert!(rt; seat.lookup(FAR, 0) == Ok(Some(far_answer(9, 15))));
    let gone = [Change::Gone(far_answer(9, 15).prefix)];
    let _told = writer.publish_changes(&gone)?;
    assert!(rt; seat.lookup(FAR, 0) == Ok(None));
    Ok(())
}

#[test]
fn refusals_are_printed(rt: HostRuntime) -> Result<(), Fail> {
    let mut text = String::new(rt.alloc());
    write!(text, "{OpenRefused}; {Closed}")?;
    assert_eq!(rt; text.as_str(), "OpenRefused; Closed");
    Ok(())
}

#[test]
fn one_list_in_two_places(rt: HostRuntime) -> Result<(), Fail> {
    let table = RouteTable::empty(rt.alloc());
    let (counter, opened) = Opened::new();
    let mut there = opened.known();
    assert!(rt; there.count() == 1);
    let more = opened.added(&counter, &table).ok_or("added")?;
    assert!(rt; more.count() == 2);
    // A table is added only where nothing was added meanwhile.
    assert!(rt; opened.added(&counter, &table).is_none());
    assert!(rt; opened.close(&counter).is_none());
    let list = more.close(&counter).ok_or("closed")?;
    // Once it is closed nobody adds.
    assert!(rt; more.copy().added(&counter, &table).is_none());
    let here = list.known();
    assert!(rt; there.begins(&here) && !here.begins(&there));
    there.take_later(&here);
    assert!(rt; there.count() == 2);
    assert!(rt; here.begins(&there.copy()));
    let Ok(opened) = list.open(&counter) else {
        return Err("opened".into());
    };
    assert!(rt; opened.count() == 2);
    let mut list = opened.close(&counter).ok_or("closed again")?;
    list.covers(&counter, &there);
    Ok(())
}
