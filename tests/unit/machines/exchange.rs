//! The exchange with a neighbour: what the tests in the files of `exchange/` start from, how faults are printed, and the
//! order of a walk.

use super::made::{FIRST_NUMBER, lsa_of};
use super::wired::description;
use ospf_base::{Addr, AreaId, RouterId};
use ospf_exchange::{DdAnswer, ExchangeFault, Local, begin, on_dd};
use ospf_lsa::LsaHeader;
use ospf_lsdb::Lsdb;
use ospf_neighbour::{NbrEvent, Neighbour};
use ospf_packet::{Body, BodyValue, Description, Headers, Packet, PacketValue, write_packet};
use std::alloc::Global;
use std::test::Fail;

mod descriptions;
mod requests;
mod whole;

// The router with the lower ID, which becomes the slave.
const LOW: RouterId = RouterId(0x0101_0101);

// The router with the higher ID, which becomes the master.
const HIGH: RouterId = RouterId(0x0202_0202);

// The number with which the lower router begins.
const LOW_NUMBER: u32 = 7000;

// The number with which the higher router begins: the next one is 0.
const HIGH_NUMBER: u32 = u32::MAX;

// Installs the LSA of a router, of this number and age, in a tick.
fn install(
    database: &mut Lsdb,
    router: u32,
    number: i32,
    age: u16,
    tick: u64,
    alloc: Global,
) -> Result<(), Fail> {
    let lsa = lsa_of(alloc, router, number, age)?;
    database.install(lsa, tick, true)?;
    Ok(())
}

// A database with the first LSAs of the routers from one number up to another, at age 0.
fn filled(alloc: Global, from: u32, to: u32) -> Result<Lsdb, Fail> {
    let mut database = Lsdb::new(alloc);
    for router in from..to {
        install(&mut database, router, FIRST_NUMBER, 0, 0, alloc)?;
    }
    Ok(database)
}

// A neighbour in ExStart, with the number of the first packet to it.
fn starting(alloc: Global, router: RouterId, number: u32) -> Neighbour {
    let mut neighbour = Neighbour::new(alloc, router, Addr(1));
    neighbour.event(NbrEvent::HelloReceived, 40);
    neighbour.event(NbrEvent::TwoWayReceived(true), 40);
    begin(&mut neighbour, number, 10);
    neighbour
}

fn at_tick(router: RouterId, mtu: u16, tick: u64) -> Local {
    Local {
        router,
        mtu,
        tick,
        passes_over: false,
    }
}

fn described<'a>(packet: Packet<'a>) -> Option<(Description, Headers<'a>)> {
    match packet.body {
        Body::Description(d, headers) => Some((d, headers)),
        _ => None,
    }
}

// What a packet answers.
type Heard = Result<DdAnswer, ExchangeFault>;

// The bytes of a neighbour's packet.
fn bytes_of(alloc: Global, router: RouterId, body: BodyValue) -> Result<Vec<u8>, Fail> {
    let packet = PacketValue {
        router,
        area: AreaId(0),
        body,
    };
    let mut bytes = Vec::new(alloc);
    write_packet(&packet, &mut bytes)?;
    Ok(bytes)
}

// Want of memory ends a test, and is no answer.
fn answered(heard: Heard) -> Result<Heard, Fail> {
    match heard {
        Err(ExchangeFault::Memory) => Err(Fail::from(ExchangeFault::Memory)),
        _ => Ok(heard),
    }
}

fn hear_bytes(
    neighbour: &mut Neighbour,
    bytes: &[u8],
    database: &Lsdb,
    local: Local,
    alloc: Global,
) -> Result<Heard, Fail> {
    let sender = neighbour.router();
    let (read, told) = described(Packet::read(bytes)?).ok_or("no description")?;
    answered(on_dd(neighbour, sender, read, told, database, local, alloc))
}

// A neighbour's packet, written and read.
fn hear(
    neighbour: &mut Neighbour,
    d: Description,
    headers: &[LsaHeader],
    database: &Lsdb,
    local: Local,
    alloc: Global,
) -> Result<Heard, Fail> {
    let told = Vec::from_slice(alloc, headers)?;
    let bytes = bytes_of(alloc, neighbour.router(), BodyValue::Description(d, told))?;
    hear_bytes(neighbour, &bytes, database, local, alloc)
}

// The slave's side of an exchange that has begun, at MTU 576.
fn slave(alloc: Global, database: &Lsdb) -> Result<Neighbour, Fail> {
    let mut neighbour = starting(alloc, HIGH, LOW_NUMBER);
    let first = description(576, 7, HIGH_NUMBER);
    hear(
        &mut neighbour,
        first,
        &[],
        database,
        at_tick(LOW, 576, 11),
        alloc,
    )?
    .ok();
    Ok(neighbour)
}

// Whether a fault is printed as this text.
fn is_printed(fault: ExchangeFault, text: &str, alloc: Global) -> Result<bool, Fail> {
    let printed = format!(in alloc; "{fault}")?;
    Ok(printed.as_str() == text)
}

// Whether each fault is printed as its number and name.
fn are_printed(alloc: Global) -> Result<bool, Fail> {
    let mtu = is_printed(ExchangeFault::Mtu, "E1 Mtu", alloc)?;
    let mismatch = is_printed(ExchangeFault::Mismatch, "E2 Mismatch", alloc)?;
    let bad_request = is_printed(ExchangeFault::BadRequest, "E3 BadRequest", alloc)?;
    let memory = is_printed(ExchangeFault::Memory, "E4 Memory", alloc)?;
    Ok(mtu && mismatch && bad_request && memory)
}

#[test]
fn faults_are_printed(rt: HostRuntime) -> Result<(), Fail> {
    assert!(rt; are_printed(rt.alloc())?);
    Ok(())
}

// The LSAs of routers 3 to 5, and then that of router 1.
fn ticked(alloc: Global) -> Result<Lsdb, Fail> {
    let mut database = filled(alloc, 3, 6)?;
    database.tick();
    install(&mut database, 1, FIRST_NUMBER, 0, 1, alloc)?;
    Ok(database)
}

// Whether a walk meets these routers' LSAs at these ages, in this order.
fn walk_is(database: &Lsdb, wanted: &[(u32, u16)]) -> bool {
    let mut expected = wanted.iter();
    let mut same = true;
    for entry in database.entries() {
        let header = entry.header();
        if expected.next() != Some(&(header.id, header.age.ticks())) {
            same = false;
        }
    }
    same && expected.next().is_none()
}

#[test]
fn a_walk_goes_in_order(rt: HostRuntime) -> Result<(), Fail> {
    let database = ticked(rt.alloc())?;
    assert!(rt; walk_is(&database, &[(1, 0), (3, 1), (4, 1), (5, 1)]));
    Ok(())
}
