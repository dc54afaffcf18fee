//! Two routers over one link, each call by hand: what the tests in the files of `links/` start from.

use super::made::{FIRST, FIRST_NUMBER, SECOND};
use super::wired::area_of;
use super::written::bytes_of;
use ospf_area::{Area, AreaLink, LinkSettings, PacketSource, Outputs, Sent, source_of, context_of};
use ospf_base::{Addr, AreaId, InterfaceKind, RouterId};
use ospf_neighbour::iface::{Iface, IfaceSettings, IfaceState};
use ospf_adjacency::link_steps::{
    count_timers, repeat_all, send_hellos, take_description, take_hello, take_request, take_up,
};
use ospf_lsa::Lsa;
use ospf_neighbour::{NeighbourState, Neighbours};
use ospf_packet::{
    Body, BodyValue, Description, Headers, Hello, Lsas, Neighbours as Named, Packet, PacketValue,
    Requests, write_packet,
};
use std::alloc::{AllocError, Global};
use std::test::Fail;

mod down;
mod exchange;
mod lan;
mod posted;
mod timers;

// ---- routers

// A router with one link, and what it has sent.
#[derive(Drop)]
struct Router {
    area: Area,
    out: Outputs,
}

// A router whose only link is down. Its next DD number is a hundred times its place.
fn router_of(
    alloc: Global,
    settings: IfaceSettings,
    mtu: u16,
    next_dd: u32,
) -> Result<Router, Fail> {
    let link = AreaLink {
        iface: Iface {
            settings,
            state: IfaceState::Down,
            dr: Addr::NOWHERE,
            backup: Addr::NOWHERE,
            wait: 0,
            hello_in: 0,
        },
        settings: LinkSettings {
            cost: 10,
            retransmit: 5,
            transmit_delay: 1,
            mtu: if mtu == 576 { 576 } else { 1500 },
            suppressed: false,
        },
        neighbours: Neighbours::new(alloc),
        delayed: Vec::new(alloc),
        elects: false,
    };
    let mut links = Vec::new(alloc);
    links.push(link)?;
    let area = area_of(alloc, settings.router, links, 0, next_dd);
    Ok(Router {
        area,
        out: Outputs::new(alloc),
    })
}

// 10.0.0.1 or 10.0.0.2, in 10.0.0.0/30.
fn point_to_point(router: RouterId, address: u32) -> IfaceSettings {
    IfaceSettings {
        router,
        kind: InterfaceKind::PointToPoint,
        address: Addr(address),
        mask: 0xffff_fffc,
        priority: 1,
        hello: 10,
        dead: 40,
    }
}

const FROM_FIRST: PacketSource = PacketSource {
    link: 0,
    router: FIRST,
    address: Addr(0x0a00_0001),
};

const FROM_SECOND: PacketSource = PacketSource {
    link: 0,
    router: SECOND,
    address: Addr(0x0a00_0002),
};

fn neighbour_state(router: &Router, from: PacketSource) -> Option<NeighbourState> {
    match source_of(&router.area.links, from) {
        Some(neighbour) => Some(neighbour.state()),
        None => None,
    }
}

fn is_in(router: &Router, from: PacketSource, state: NeighbourState) -> bool {
    neighbour_state(router, from) == Some(state)
}

// The state, the Designated Router and the Backup of its link.
fn iface_state(router: &Router) -> Option<(IfaceState, Addr, Addr)> {
    match router.area.links.first() {
        Some(link) => Some((link.iface.state, link.iface.dr, link.iface.backup)),
        None => None,
    }
}

// ---- what comes

// Whether a link has room for one neighbour more, if it is there.
fn has_room(area: &Area, number: usize) -> bool {
    match area.links.get(number) {
        Some(link) => link.neighbours.all().len() < 255,
        None => true,
    }
}

// Whether a neighbour is in Exchange or above, if it is there.
fn is_answered(area: &Area, from: PacketSource) -> bool {
    match source_of(&area.links, from) {
        Some(neighbour) => neighbour.state().is_exchanging(),
        None => true,
    }
}

fn hears_hello(
    router: &mut Router,
    from: PacketSource,
    hello: &Hello,
    named: Named<'_>,
    alloc: Global,
) -> Result<(), Fail> {
    if !has_room(&router.area, from.link) {
        return Err("no room".into());
    }
    take_hello(&mut router.area, from, hello, named, &mut router.out, alloc)?;
    Ok(())
}

fn hears_request(
    router: &mut Router,
    from: PacketSource,
    requests: Requests<'_>,
    alloc: Global,
) -> Result<(), Fail> {
    if !is_answered(&router.area, from) {
        return Err("below Exchange".into());
    }
    take_request(&mut router.area, from, requests, &mut router.out, alloc)?;
    Ok(())
}

// The router takes the bytes of a packet.
fn hears(router: &mut Router, from: PacketSource, bytes: &[u8], alloc: Global) -> Result<(), Fail> {
    match Packet::read(bytes)?.body {
        Body::Hello(hello, named) => hears_hello(router, from, &hello, named, alloc),
        Body::Description(fields, headers) => {
            take_description(
                &mut router.area,
                from,
                fields,
                headers,
                &mut router.out,
                alloc,
            )?;
            Ok(())
        }
        Body::Request(requests) => hears_request(router, from, requests, alloc),
        _ => Err("another packet".into()),
    }
}

// The bytes of one of the datagrams that a router has sent.
fn bytes_at(router: &Router, place: usize, alloc: Global) -> Result<Vec<u8>, Fail> {
    let sent = router.out.sent().get(place).ok_or("nothing sent")?;
    Ok(Vec::from_slice(alloc, &sent.bytes)?)
}

// A tick, but for the ages of the database and delayed acknowledgements.
fn ticks(router: &mut Router, alloc: Global) -> Result<(), Fail> {
    let area = &mut router.area;
    area.tick = area.tick.wrapping_add(1);
    let own = context_of(area);
    count_timers(&mut area.links, alloc);
    send_hellos(&mut area.links, own, &mut router.out, alloc)?;
    repeat_all(
        &mut area.links,
        &area.database,
        own,
        &mut area.sent,
        &mut router.out,
        alloc,
    )?;
    Ok(())
}

fn goes_up(router: &mut Router, number: usize, alloc: Global) -> Result<(), Fail> {
    take_up(&mut router.area, number, &mut router.out, alloc)?;
    Ok(())
}

// ---- what goes out

fn count_sent(router: &Router) -> usize {
    router.out.sent().len()
}

// How many keys are marked as sent in this tick.
fn count_marked(router: &Router) -> usize {
    router.area.sent.len()
}

// Whether its interface, a neighbour, and how many datagrams it has sent are these.
fn stands(
    router: &Router,
    elected: (IfaceState, Addr, Addr),
    from: PacketSource,
    state: Option<NeighbourState>,
    count: usize,
) -> bool {
    iface_state(router) == Some(elected)
        && neighbour_state(router, from) == state
        && count_sent(router) == count
}

// Whether a datagram that a router has sent has these bytes.
fn is_sent(router: &Router, place: usize, text: &str, alloc: Global) -> Result<bool, AllocError> {
    let bytes = bytes_of(alloc, text)?;
    Ok(is_sent_as(router, place, &bytes))
}

fn is_sent_as(router: &Router, place: usize, bytes: &[u8]) -> bool {
    match router.out.sent().get(place) {
        Some(sent) => sent.bytes.as_slice() == bytes,
        None => false,
    }
}

// Whether two datagrams that a router has sent have the same bytes.
fn are_same(router: &Router, one: usize, other: usize) -> bool {
    match (router.out.sent().get(one), router.out.sent().get(other)) {
        (Some(one), Some(other)) => one.bytes.as_slice() == other.bytes.as_slice(),
        _ => false,
    }
}

// What a packet says: the routers that a Hello names; the flags, the number and how many headers a Database Description has;
// how many LSAs a Request or an Update.
#[derive(Clone, Copy, Debug, PartialEq, Eq)]
enum Says {
    Greets(usize),
    Describes(u8, u32, usize),
    Requests(usize),
    Updates(usize),
}

fn count_names(all: Named<'_>) -> usize {
    let mut count: usize = 0;
    for _ in all {
        count = count.wrapping_add(1);
    }
    count
}

fn count_headers(all: Headers<'_>) -> usize {
    let mut count: usize = 0;
    for _ in all {
        count = count.wrapping_add(1);
    }
    count
}

fn count_requests(all: Requests<'_>) -> usize {
    let mut count: usize = 0;
    for _ in all {
        count = count.wrapping_add(1);
    }
    count
}

fn count_lsas(all: Lsas<'_>) -> usize {
    let mut count: usize = 0;
    for _ in all {
        count = count.wrapping_add(1);
    }
    count
}

fn said(bytes: &[u8]) -> Result<Says, Fail> {
    match Packet::read(bytes)?.body {
        Body::Hello(_, named) => Ok(Says::Greets(count_names(named))),
        Body::Description(fields, headers) => Ok(Says::Describes(
            fields.flags,
            fields.number,
            count_headers(headers),
        )),
        Body::Request(entries) => Ok(Says::Requests(count_requests(entries))),
        Body::Update(lsas) => Ok(Says::Updates(count_lsas(lsas))),
        Body::Acknowledgment(_) => Err("another packet".into()),
    }
}

fn is_said(sent: &Sent, wanted: Says) -> Result<bool, Fail> {
    Ok(said(&sent.bytes)? == wanted)
}

// Whether this is what a router has sent from a place on.
fn sends(router: &Router, place: usize, wanted: &[Says]) -> Result<bool, Fail> {
    if count_sent(router) != place.wrapping_add(wanted.len()) {
        return Ok(false);
    }
    for (sent, says) in router.out.sent().iter().skip(place).zip(wanted) {
        if !is_said(sent, *says)? {
            return Ok(false);
        }
    }
    Ok(true)
}

// ---- two routers

// The router-LSA of a router on the link between 1.1.1.1 and 2.2.2.2.
fn lsa_of(alloc: Global, router: RouterId, other: RouterId, address: u32) -> Result<Lsa, Fail> {
    let links = super::made::linked(other, address);
    Ok(Lsa::router(alloc, router, FIRST_NUMBER, &links)?)
}

// 1.1.1.1 and 2.2.2.2.
#[derive(Drop)]
struct Pair {
    first: Router,
    second: Router,
}

// Whether each is in a state at the other.
fn are_in(pair: &Pair, first: NeighbourState, second: NeighbourState) -> bool {
    is_in(&pair.first, FROM_SECOND, second) && is_in(&pair.second, FROM_FIRST, first)
}

fn counts_sent(pair: &Pair) -> [usize; 2] {
    [count_sent(&pair.first), count_sent(&pair.second)]
}

// To whom one of the datagrams comes that the other has sent.
#[derive(Clone, Copy)]
enum To {
    First(usize),
    Second(usize),
}

fn to_first(pair: &mut Pair, place: usize, from: PacketSource, alloc: Global) -> Result<(), Fail> {
    let bytes = bytes_at(&pair.second, place, alloc)?;
    hears(&mut pair.first, from, &bytes, alloc)
}

fn to_second(pair: &mut Pair, place: usize, alloc: Global) -> Result<(), Fail> {
    let bytes = bytes_at(&pair.first, place, alloc)?;
    hears(&mut pair.second, FROM_FIRST, &bytes, alloc)
}

fn pass(pair: &mut Pair, to: To, alloc: Global) -> Result<(), Fail> {
    match to {
        To::First(place) => to_first(pair, place, FROM_SECOND, alloc),
        To::Second(place) => to_second(pair, place, alloc),
    }
}

fn pass_all(pair: &mut Pair, all: &[To], alloc: Global) -> Result<(), Fail> {
    for to in all {
        pass(pair, *to, alloc)?;
    }
    Ok(())
}

fn pair_of(alloc: Global, mtu: u16) -> Result<Pair, Fail> {
    let first = router_of(alloc, point_to_point(FIRST, 0x0a00_0001), mtu, 100)?;
    let second = router_of(alloc, point_to_point(SECOND, 0x0a00_0002), mtu, 200)?;
    Ok(Pair { first, second })
}

// Their link comes up, and they hear each other's first Hello.
fn linked(alloc: Global, mtu: u16) -> Result<Pair, Fail> {
    let mut pair = pair_of(alloc, mtu)?;
    link_up(&mut pair, alloc)?;
    Ok(pair)
}

fn link_up(pair: &mut Pair, alloc: Global) -> Result<(), Fail> {
    goes_up(&mut pair.first, 0, alloc)?;
    goes_up(&mut pair.second, 0, alloc)?;
    pass_all(pair, &[To::First(0), To::Second(0)], alloc)
}

// So many ticks of a router.
fn wait_for(router: &mut Router, count: usize, alloc: Global) -> Result<(), Fail> {
    for _ in 0..count {
        ticks(router, alloc)?;
    }
    Ok(())
}

// They hear the Hellos that follow a HelloInterval later.
fn meet(pair: &mut Pair, alloc: Global) -> Result<(), Fail> {
    wait_for(&mut pair.first, 10, alloc)?;
    wait_for(&mut pair.second, 10, alloc)?;
    pass_all(pair, &[To::Second(1), To::First(1)], alloc)
}

// Each has its own LSA, and they are about to exchange them.
fn met(alloc: Global) -> Result<Pair, Fail> {
    let mut pair = linked(alloc, 1500)?;
    prepare(&mut pair, alloc)?;
    Ok(pair)
}

fn prepare(pair: &mut Pair, alloc: Global) -> Result<(), Fail> {
    meet(pair, alloc)?;
    installs(&mut pair.first, FROM_FIRST, SECOND, alloc)?;
    installs(&mut pair.second, FROM_SECOND, FIRST, alloc)
}

// A router's own LSA, of its link to another.
fn installs(router: &mut Router, own: PacketSource, other: RouterId, alloc: Global) -> Result<(), Fail> {
    let lsa = lsa_of(alloc, own.router, other, own.address.0)?;
    router.area.database.install(lsa, 0, false)?;
    Ok(())
}

// The bytes of a Database Description of 1.1.1.1.
fn description(alloc: Global, flags: u8, number: u32) -> Result<Vec<u8>, Fail> {
    let fields = Description {
        mtu: 1500,
        options: 2,
        flags,
        number,
    };
    let packet = PacketValue {
        router: FIRST,
        area: AreaId(0),
        body: BodyValue::Description(fields, Vec::new(alloc)),
    };
    let mut bytes = Vec::new(alloc);
    write_packet(&packet, &mut bytes)?;
    Ok(bytes)
}

// It comes to a router, with a number of its own.
fn describes(router: &mut Router, from: PacketSource, flags: u8, alloc: Global) -> Result<(), Fail> {
    let bytes = description(alloc, flags, 900)?;
    hears(router, from, &bytes, alloc)
}

// Whether what a router has sent from a place on went there.
fn sends_to(router: &Router, place: usize, wanted: &[Addr]) -> bool {
    if count_sent(router) != place.wrapping_add(wanted.len()) {
        return false;
    }
    for (sent, destination) in router.out.sent().iter().skip(place).zip(wanted) {
        if sent.destination != *destination {
            return false;
        }
    }
    true
}
