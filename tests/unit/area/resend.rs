//! Requests that are answered, repeats, and Database Descriptions over an MTU of 576.

use super::made::{key_of, require};
use super::wired::count;
use ospf_adjacency::{repeat, take_description, take_event, take_request};
use ospf_area::{LinkContext, Outputs, RouterContext, Outbox, Sent, request_turn};
use ospf_base::{Addr, AreaId, Instance, InterfaceKind, RouterId};
use ospf_exchange::Local;
use ospf_neighbour::iface::{Iface, IfaceSettings, IfaceState};
use ospf_lsa::{Lsa, LsaHeader, LsaView};
use ospf_lsdb::Lsdb;
use ospf_neighbour::{NbrEvent, Neighbour, NeighbourState};
use ospf_packet::{Body, BodyValue, Description, Packet, PacketValue, RequestEntry, write_packet};
use std::alloc::Global;
use std::test::Fail;

// 0x80000001, the number that a router uses first.
const FIRST: i32 = -0x7fff_ffff;

const MTU: u16 = 576;

const RETRANSMIT: u16 = 5;

const DELAY: u16 = 3;

const LOCAL: Local = Local {
    router: RouterId(9),
    mtu: MTU,
    tick: 7,
    passes_over: false,
};

fn at_tick(tick: u64) -> Local {
    Local { tick, ..LOCAL }
}

// ---- a router with one neighbour

fn iface() -> Iface {
    Iface {
        settings: IfaceSettings {
            router: LOCAL.router,
            kind: InterfaceKind::Broadcast,
            address: Addr(9),
            mask: 0xffff_ff00,
            priority: 1,
            hello: 10,
            dead: 40,
        },
        state: IfaceState::Dr,
        dr: Addr(9),
        backup: Addr(2),
        wait: 0,
        hello_in: 0,
    }
}

fn on_link(local: Local) -> LinkContext {
    LinkContext {
        iface: iface(),
        local,
    }
}

// What was posted goes out of the link.
fn send(outbox: Outbox, out: &mut Outputs) -> Result<(), Fail> {
    let own = RouterContext {
        router: LOCAL.router,
        area: AreaId(0),
        tick: LOCAL.tick,
        passes_over: false,
    };
    outbox.send_all(out, own, 0, &iface())?;
    Ok(())
}

// The router-LSA of a router without links, ten ticks old.
fn lsa_of(alloc: Global, router: u32) -> Result<Lsa, Fail> {
    super::made::lsa_of(alloc, router, FIRST, 10)
}

// A database with the router-LSAs of the routers up to this one.
fn database_of(alloc: Global, count: u32) -> Result<Lsdb, Fail> {
    let mut database = Lsdb::new(alloc);
    for router in 0..count {
        database.install(lsa_of(alloc, router)?, 5, true)?;
    }
    Ok(database)
}

fn headers_of(alloc: Global, count: u32) -> Result<Vec<LsaHeader>, Fail> {
    let mut headers = Vec::new(alloc);
    for router in 0..count {
        headers.push(lsa_of(alloc, router)?.view().header())?;
    }
    Ok(headers)
}

// A neighbour in ExStart, to which the first Database Description has gone out with the number 300.
fn starting(alloc: Global, router: u32) -> Result<Neighbour, Fail> {
    let mut neighbour = Neighbour::new(alloc, RouterId(router), Addr(router));
    let mut outbox = Outbox::new(300, alloc);
    let mut out = Outputs::new(alloc);
    for event in [NbrEvent::HelloReceived, NbrEvent::TwoWayReceived(true)] {
        take_event(&mut neighbour, event, &on_link(LOCAL), &mut outbox)?;
    }
    send(outbox, &mut out)?;
    require(count(&out) == 1)?;
    Ok(neighbour)
}

// A neighbour in Loading that has described these, or in Full.
fn loading(alloc: Global, described: &[LsaHeader]) -> Result<Neighbour, Fail> {
    let mut neighbour = starting(alloc, 2)?;
    neighbour.event(NbrEvent::NegotiationDone, 40);
    if neighbour.is_exchanging() {
        neighbour.add_requests(described)?;
    }
    neighbour.event(NbrEvent::ExchangeDone, 40);
    Ok(neighbour)
}

// ---- what comes

fn bytes_of(alloc: Global, body: BodyValue) -> Result<Vec<u8>, Fail> {
    let packet = PacketValue {
        router: RouterId(12),
        area: AreaId(0),
        body,
    };
    let mut bytes = Vec::new(alloc);
    write_packet(&packet, &mut bytes)?;
    Ok(bytes)
}

// Takes a Database Description with these flags and this number, and no headers. Answers whether it was taken.
fn describes(
    neighbour: &mut Neighbour,
    flags: u8,
    number: u32,
    database: &Lsdb,
    out: &mut Outputs,
    alloc: Global,
) -> Result<bool, Fail> {
    let fields = Description {
        mtu: MTU,
        options: 2,
        flags,
        number,
    };
    let bytes = bytes_of(alloc, BodyValue::Description(fields, Vec::new(alloc)))?;
    takes_description(neighbour, &bytes, database, out, alloc)
}

fn takes_description(
    neighbour: &mut Neighbour,
    bytes: &[u8],
    database: &Lsdb,
    out: &mut Outputs,
    alloc: Global,
) -> Result<bool, Fail> {
    let packet = Packet::read(bytes)?;
    let Body::Description(fields, headers) = packet.body else {
        return Err("no Database Description".into());
    };
    let sender = neighbour.router();
    let mut outbox = Outbox::new(301, alloc);
    let taken = take_description(
        neighbour,
        sender,
        fields,
        headers,
        database,
        &on_link(LOCAL),
        &mut outbox,
    )?;
    send(outbox, out)?;
    Ok(taken)
}

// Takes a Request for the router-LSAs of these routers. Answers how many keys were answered.
fn requests(
    neighbour: &mut Neighbour,
    routers: &[u32],
    database: &Lsdb,
    out: &mut Outputs,
    alloc: Global,
) -> Result<usize, Fail> {
    let mut entries = Vec::new(alloc);
    for router in routers {
        entries.push(RequestEntry {
            kind: 1,
            id: *router,
            router: RouterId(*router),
        })?;
    }
    let bytes = bytes_of(alloc, BodyValue::Request(entries))?;
    takes_request(neighbour, &bytes, database, out, alloc)
}

fn takes_request(
    neighbour: &mut Neighbour,
    bytes: &[u8],
    database: &Lsdb,
    out: &mut Outputs,
    alloc: Global,
) -> Result<usize, Fail> {
    let packet = Packet::read(bytes)?;
    let Body::Request(entries) = packet.body else {
        return Err("no Request".into());
    };
    if !neighbour.is_exchanging() {
        return Err("below Exchange".into());
    }
    let mut outbox = Outbox::new(301, alloc);
    let keys = take_request(
        neighbour,
        entries,
        database,
        &on_link(LOCAL),
        DELAY,
        &mut outbox,
    )?;
    send(outbox, out)?;
    Ok(keys.len())
}

// What is sent again at a tick, and how many keys are among it.
fn repeats(
    neighbour: &mut Neighbour,
    tick: u64,
    database: &Lsdb,
    alloc: Global,
) -> Result<(Outputs, usize), Fail> {
    let mut outbox = Outbox::new(301, alloc);
    let keys = repeat(
        neighbour,
        database,
        &on_link(at_tick(tick)),
        RETRANSMIT,
        DELAY,
        &mut outbox,
    )?;
    let mut out = Outputs::new(alloc);
    send(outbox, &mut out)?;
    Ok((out, keys.len()))
}

// ---- what goes out

fn last_bytes(out: &Outputs) -> Result<&[u8], Fail> {
    let last = out.sent().last().ok_or("nothing sent")?;
    Ok(&last.bytes)
}

// The flags, the number and how many headers the last packet has, a Database Description.
fn last_description(out: &Outputs) -> Result<(u8, u32, usize), Fail> {
    let Body::Description(fields, headers) = Packet::read(last_bytes(out)?)?.body else {
        return Err("another packet".into());
    };
    let mut count: usize = 0;
    for _ in headers {
        count = count.wrapping_add(1);
    }
    Ok((fields.flags, fields.number, count))
}

// How many entries the last packet has, a Request.
fn last_request(out: &Outputs) -> Result<usize, Fail> {
    let Body::Request(entries) = Packet::read(last_bytes(out)?)?.body else {
        return Err("another packet".into());
    };
    let mut count: usize = 0;
    for _ in entries {
        count = count.wrapping_add(1);
    }
    Ok(count)
}

// How many LSAs a packet has, the age of the last, and its Advertising Router.
fn update_in(packet: &Sent) -> Result<(usize, u16, u32), Fail> {
    let Body::Update(lsas) = Packet::read(&packet.bytes)?.body else {
        return Err("another packet".into());
    };
    let mut count: usize = 0;
    let mut found = (9999, 0);
    for lsa in lsas {
        let header = LsaView::read(lsa)?.header();
        count = count.wrapping_add(1);
        found = (header.age.ticks(), header.router.0);
    }
    Ok((count, found.0, found.1))
}

// ---- Database Descriptions

// I, M and MS; M and MS; MS.
const FIRST_OF_MASTER: u8 = 7;

const LAST_OF_MASTER: u8 = 1;

const MORE: u8 = 2;

// Whether a Database Description was taken, how many datagrams have gone out, and the last of them.
type Told = (bool, usize, (u8, u32, usize));

fn told(
    neighbour: &mut Neighbour,
    flags: u8,
    number: u32,
    database: &Lsdb,
    out: &mut Outputs,
    alloc: Global,
) -> Result<Told, Fail> {
    let taken = describes(neighbour, flags, number, database, out, alloc)?;
    Ok((taken, count(out), last_description(out)?))
}

fn slave_told(
    slave: &mut Neighbour,
    database: &Lsdb,
    alloc: Global,
) -> Result<(Told, Told, Told), Fail> {
    let mut out = Outputs::new(alloc);
    let first = told(slave, FIRST_OF_MASTER, 700, database, &mut out, alloc)?;
    let second = told(slave, LAST_OF_MASTER, 701, database, &mut out, alloc)?;
    let third = told(slave, LAST_OF_MASTER, 701, database, &mut out, alloc)?;
    Ok((first, second, third))
}

fn slave_of_27(alloc: Global) -> Result<((Told, Told, Told), NeighbourState), Fail> {
    let database = database_of(alloc, 27)?;
    let mut slave = starting(alloc, 12)?;
    let told = slave_told(&mut slave, &database, alloc)?;
    Ok((told, slave.state()))
}

// 26 headers with M set, then one; and that last packet again where the master repeats its own.
#[test]
fn a_slave_with_27_lsas(rt: HostRuntime) -> Result<(), Fail> {
    let ((first, second, third), state) = slave_of_27(rt.alloc())?;
    assert_eq!(rt; first, (true, 1, (MORE, 700, 26)));
    assert_eq!(rt; second, (true, 2, (0, 701, 1)));
    assert_eq!(rt; third, (true, 3, (0, 701, 1)));
    assert_eq!(rt; state, NeighbourState::Full);
    Ok(())
}

fn master_told(
    master: &mut Neighbour,
    database: &Lsdb,
    alloc: Global,
) -> Result<(Told, Told), Fail> {
    let mut out = Outputs::new(alloc);
    let first = told(master, MORE, 300, database, &mut out, alloc)?;
    let second = told(master, MORE, 300, database, &mut out, alloc)?;
    Ok((first, second))
}

// How many datagrams go out again at a tick.
fn repeat_count(
    neighbour: &mut Neighbour,
    tick: u64,
    database: &Lsdb,
    alloc: Global,
) -> Result<usize, Fail> {
    let (out, _) = repeats(neighbour, tick, database, alloc)?;
    Ok(count(&out))
}

// Also the last of them, a Database Description.
fn described_again(
    master: &mut Neighbour,
    tick: u64,
    database: &Lsdb,
    alloc: Global,
) -> Result<(usize, (u8, u32, usize)), Fail> {
    let (out, _) = repeats(master, tick, database, alloc)?;
    Ok((count(&out), last_description(&out)?))
}

// A master that has one LSA, and a slave's packet twice; and what it sends at three ticks.
fn master_of_one(
    alloc: Global,
) -> Result<((Told, Told), usize, (usize, (u8, u32, usize)), usize), Fail> {
    let database = database_of(alloc, 1)?;
    let mut master = starting(alloc, 3)?;
    let told = master_told(&mut master, &database, alloc)?;
    let early = repeat_count(&mut master, 11, &database, alloc)?;
    let due = described_again(&mut master, 12, &database, alloc)?;
    let again = repeat_count(&mut master, 16, &database, alloc)?;
    Ok((told, early, due, again))
}

// The slave's packet again is passed over; the master sends its own again after RxmtInterval, and not a tick before.
#[test]
fn a_master_gets_one_again(rt: HostRuntime) -> Result<(), Fail> {
    let ((first, second), early, due, again) = master_of_one(rt.alloc())?;
    assert_eq!(rt; first, (true, 1, (LAST_OF_MASTER, 301, 1)));
    assert_eq!(rt; second, (true, 1, (LAST_OF_MASTER, 301, 1)));
    assert_eq!(rt; early, 0);
    assert_eq!(rt; due, (1, (LAST_OF_MASTER, 301, 1)));
    assert_eq!(rt; again, 0);
    Ok(())
}

// ---- Requests

fn asked(neighbour: &mut Neighbour, alloc: Global) -> Result<usize, Fail> {
    let mut outbox = Outbox::new(301, alloc);
    request_turn(neighbour, &on_link(LOCAL), &mut outbox)?;
    let mut out = Outputs::new(alloc);
    send(outbox, &mut out)?;
    last_request(&out)
}

// How many datagrams go out again at a tick, how many keys are among them, and how many entries the last has, a Request.
fn asked_again(
    neighbour: &mut Neighbour,
    tick: u64,
    database: &Lsdb,
    alloc: Global,
) -> Result<(usize, usize, usize), Fail> {
    let (out, keys) = repeats(neighbour, tick, database, alloc)?;
    Ok((count(&out), keys, last_request(&out)?))
}

// A neighbour that has described 50 LSAs, and what it is asked at once and at two ticks.
fn asked_of_50(alloc: Global) -> Result<(usize, usize, (usize, usize, usize)), Fail> {
    let database = Lsdb::new(alloc);
    let mut neighbour = loading(alloc, &headers_of(alloc, 50)?)?;
    let first = asked(&mut neighbour, alloc)?;
    let early = repeat_count(&mut neighbour, 11, &database, alloc)?;
    let due = asked_again(&mut neighbour, 12, &database, alloc)?;
    Ok((first, early, due))
}

#[test]
fn a_request_has_44_entries(rt: HostRuntime) -> Result<(), Fail> {
    let (first, early, due) = asked_of_50(rt.alloc())?;
    assert_eq!(rt; first, 44);
    assert_eq!(rt; early, 0);
    assert_eq!(rt; due, (1, 0, 44));
    Ok(())
}

// Where the first datagram goes, and what it and the last have, which are Updates.
fn updates_in(out: &Outputs) -> Result<(Addr, (usize, u16, u32), (usize, u16, u32)), Fail> {
    let sent = out.sent();
    let first = sent.first().ok_or("nothing sent")?;
    let last = sent.last().ok_or("nothing sent")?;
    Ok((first.destination, update_in(first)?, update_in(last)?))
}

// What a Request of 24 keys, one of them twice, is answered with.
fn answers_to_24(
    alloc: Global,
) -> Result<(usize, usize, (Addr, (usize, u16, u32), (usize, u16, u32))), Fail> {
    let database = database_of(alloc, 30)?;
    let mut neighbour = loading(alloc, &[])?;
    let mut out = Outputs::new(alloc);
    let routers = [
        24, 23, 22, 21, 20, 19, 18, 17, 16, 15, 14, 13, 12, 11, 10, 9, 8, 7, 6, 5, 4, 3, 2, 1, 24,
    ];
    let keys = requests(&mut neighbour, &routers, &database, &mut out, alloc)?;
    Ok((count(&out), keys, updates_in(&out)?))
}

// Each key once, in order, as many in an Update as fit, three ticks older: 22 of 24 bytes in 528.
#[test]
fn a_request_is_answered(rt: HostRuntime) -> Result<(), Fail> {
    let (datagrams, keys, (destination, first, last)) = answers_to_24(rt.alloc())?;
    assert_eq!(rt; (datagrams, keys), (2, 24));
    assert_eq!(rt; destination, Addr(2));
    assert_eq!(rt; first, (22, 13, 22));
    assert_eq!(rt; last, (2, 13, 24));
    Ok(())
}

// What a Request for a copy that is not there comes to: datagrams and keys, the last datagram, and the neighbour's state.
fn missing_copy(alloc: Global) -> Result<((usize, usize), (u8, u32, usize), NeighbourState), Fail> {
    let database = database_of(alloc, 3)?;
    let mut neighbour = loading(alloc, &[])?;
    let mut out = Outputs::new(alloc);
    let keys = requests(&mut neighbour, &[1, 7], &database, &mut out, alloc)?;
    Ok((
        (count(&out), keys),
        last_description(&out)?,
        neighbour.state(),
    ))
}

#[test]
fn a_missing_copy_begins_anew(rt: HostRuntime) -> Result<(), Fail> {
    let (counts, last, state) = missing_copy(rt.alloc())?;
    assert_eq!(rt; counts, (1, 0));
    assert_eq!(rt; last, (FIRST_OF_MASTER, 301, 0));
    assert_eq!(rt; state, NeighbourState::ExStart);
    Ok(())
}

// ---- retransmission lists

// How many datagrams go out again at a tick, how many keys are among them, and what the first has, an Update.
fn updated_again(
    neighbour: &mut Neighbour,
    tick: u64,
    database: &Lsdb,
    alloc: Global,
) -> Result<(usize, usize, (usize, u16, u32)), Fail> {
    let (out, keys) = repeats(neighbour, tick, database, alloc)?;
    let (_, first, _) = updates_in(&out)?;
    Ok((count(&out), keys, first))
}

// A neighbour that some instances wait for, and what it is sent at three ticks.
fn sent_to_one(alloc: Global) -> Result<(usize, (usize, usize, (usize, u16, u32)), usize), Fail> {
    let database = database_of(alloc, 4)?;
    let mut neighbour = loading(alloc, &[])?;
    lists(&mut neighbour, alloc)?;
    let early = repeat_count(&mut neighbour, 11, &database, alloc)?;
    let due = updated_again(&mut neighbour, 12, &database, alloc)?;
    let again = repeat_count(&mut neighbour, 13, &database, alloc)?;
    Ok((early, due, again))
}

// What is due goes out in one Update, and what is not stays. A copy that has gone is not sent.
#[test]
fn what_is_due_goes_again(rt: HostRuntime) -> Result<(), Fail> {
    let (early, due, again) = sent_to_one(rt.alloc())?;
    assert_eq!(rt; early, 0);
    assert_eq!(rt; due, (1, 2, (2, 13, 3)));
    assert_eq!(rt; again, 1);
    Ok(())
}

// Routers 3 and 1 wait since tick 7, router 2 since tick 8, and router 60 since tick 7.
fn lists(neighbour: &mut Neighbour, alloc: Global) -> Result<(), Fail> {
    for (router, tick) in [(3, 7), (2, 8), (1, 7), (60, 7)] {
        let header = lsa_of(alloc, router)?.view().header();
        let instance = Instance {
            key: key_of(router),
            number: header.number,
            sum: header.sum,
        };
        if neighbour.is_exchanging() {
            neighbour.relist(instance, tick)?;
        }
    }
    Ok(())
}
