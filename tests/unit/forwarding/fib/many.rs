//! A writer that publishes many tables of many routes, beside three readers.

use super::super::given::{FIRST, FIRST_NUMBER, SECOND, link};
use ospf_base::{Addr, Prefix};
use ospf_fib::{Answer, Fib, Seat, Writer};
use ospf_graph::NextHop;
use ospf_lsa::{LinkKind, Listing, Lsa};
use ospf_spf::RouteTable;
use std::alloc::Global;
use std::sync::Wait;
use std::sync::atomic::{AtomicU64, Ordering};
use std::test::Fail;
use std::thread::{self, Threads, join};

// How many tables are published, of how many routes, and how many different ones there are.
const PUBLISHED: u64 = 500;

const ROUTES: u32 = 100;

const TABLES: u64 = 4;

// The most turns of a wait.
const TURNS: u64 = 1_000_000_000;

// The table of the first of two routers, at this metric, with so many stubs behind the second.
fn table_of(alloc: Global, metric: u16) -> Result<RouteTable, Fail> {
    let first = [link(LinkKind::PointToPoint, SECOND.0, 0x0a00_0001, metric)];
    let mut second = Vec::new(alloc);
    second.push(link(LinkKind::PointToPoint, FIRST.0, 0x0a00_0002, 1))?;
    for k in 0..ROUTES {
        second.push(link(LinkKind::Stub, 0x1400_0000 | k << 8, 0xffff_ff00, k as u16))?;
    }
    let mut listing = Listing::new(alloc);
    listing.add(Lsa::router(alloc, FIRST, FIRST_NUMBER, &first)?)?;
    listing.add(Lsa::router(alloc, SECOND, FIRST_NUMBER, &second)?)?;
    let table = RouteTable::of(alloc, &listing, FIRST)?;
    Ok(table)
}

// The whole answer for a stub, at a version: the metric goes with the version.
fn expected(version: u64, stub: u32) -> Option<Answer> {
    Some(Answer {
        version,
        prefix: Prefix::under(Addr(0x1400_0000 | stub << 8), 0xffff_ff00)?,
        cost: (stub as u64).wrapping_add(1 + version % TABLES),
        hop: NextHop::PointToPoint {
            local: Addr(0x0a00_0001),
            router: SECOND,
        },
        hops: 1,
    })
}

// How far all have come.
#[derive(Drop)]
struct Signs {
    published: AtomicU64,
    finished: AtomicU64,
}

fn wait_for(sign: &AtomicU64, value: u64) -> bool {
    for _ in 0..TURNS {
        if sign.load(Ordering::SeqCst) >= value {
            return true;
        }
        thread::yield_now();
    }
    false
}

// Each answer is the whole answer of one published table, and none is earlier than the one before.
fn reads(mut seat: Seat, signs: &Signs) -> bool {
    let mut right = true;
    let mut last = 0;
    let mut stub = 0u32;
    for _ in 0..TURNS {
        let done = signs.published.load(Ordering::SeqCst) >= PUBLISHED;
        stub = (stub.wrapping_add(7)) % ROUTES;
        match seat.lookup(Addr(0x1400_0001 | stub << 8), 0) {
            Ok(Some(answer)) => {
                right = right
                    && answer.version >= last
                    && Some(answer) == expected(answer.version, stub);
                last = answer.version;
            }
            Ok(None) => right = right && last == 0,
            Err(_) => right = false,
        }
        if done {
            break;
        }
        // A reader that is stopped within a lookup would hold the writer up.
        thread::yield_now();
    }
    signs.finished.fetch_add(1, Ordering::SeqCst);
    right && last == PUBLISHED
}

// It keeps the writer until all readers have finished.
fn publishes<R: Wait + Drop>(mut writer: Writer<R>, tables: &[RouteTable], signs: &Signs) -> bool {
    let mut right = true;
    for version in 1..=PUBLISHED {
        let told = match tables.get((version % TABLES) as usize) {
            Some(table) => writer.publish(table).is_ok(),
            None => false,
        };
        right = right && told;
        signs.published.store(version, Ordering::SeqCst);
    }
    let finished = wait_for(&signs.finished, 3);
    right && finished
}

fn race<R: Threads + Wait + Sync>(
    rt: &R,
    writer: Writer<&R>,
    tables: &[RouteTable],
    seats: (Seat, Seat, Seat),
) -> bool {
    let signs = Signs {
        published: AtomicU64::new(0),
        finished: AtomicU64::new(0),
    };
    let signs = &signs;
    let (first, second, third) = seats;
    let (by_writer, by_readers) = join(
        rt,
        move || publishes(writer, tables, signs),
        move || three_readers(rt, first, second, third, signs),
    );
    by_writer && by_readers
}

fn three_readers<R: Threads + Wait + Sync>(
    rt: &R,
    first: Seat,
    second: Seat,
    third: Seat,
    signs: &Signs,
) -> bool {
    let (a, b) = join(
        rt,
        move || reads(first, signs),
        move || two_readers(rt, second, third, signs),
    );
    a && b
}

fn two_readers<R: Threads + Wait + Sync>(rt: &R, second: Seat, third: Seat, signs: &Signs) -> bool {
    let (a, b) = join(
        rt,
        move || reads(second, signs),
        move || reads(third, signs),
    );
    a && b
}

fn opened_race<R: Threads + Wait + Sync>(rt: &R, alloc: Global, tables: &[RouteTable]) -> bool {
    let Ok((writer, mut seats)) = Fib::open(alloc, rt, 3) else {
        return false;
    };
    match (seats.pop(), seats.pop(), seats.pop()) {
        (Some(first), Some(second), Some(third)) => race(
            rt,
            writer,
            tables,
            (first, second, third),
        ),
        _ => false,
    }
}

#[test]
fn many_tables_beside_three_readers(rt: HostRuntime) -> Result<(), Fail> {
    let alloc = rt.alloc();
    let mut tables = Vec::new(alloc);
    for metric in 1..=TABLES {
        tables.push(table_of(alloc, metric as u16)?)?;
    }
    assert!(rt; opened_race(&rt, alloc, &tables));
    Ok(())
}
