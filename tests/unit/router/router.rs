//! Two routers on a link, whose datagrams are passed by hand; what is dropped; one that stops.

use answers::{Answers, is_silent};
use hex::decode;
use ospf_base::{Addr, Prefix, RouterId, StubNetwork};
use ospf_config::Config;
use ospf_neighbour::NeighbourState;
use ospf_router::{Dropped, Event, Outputs, Router, Sent, StartFault, Step, Stopped};
use std::alloc::Global;
use std::collections::VecDeque;
use std::fmt::Write;
use std::test::Fail;

mod answers;
mod crafted;
mod hostile;

const FIRST: &str =
    "router_id = \"1.1.1.1\"\narea = \"0.0.0.0\"\n[[interface]]\nkind = \"point-to-point\"\naddress = \"10.0.0.1/30\"\ncost = 10\n";

const SECOND: &str =
    "router_id = \"2.2.2.2\"\narea = \"0.0.0.0\"\n[[interface]]\nkind = \"point-to-point\"\naddress = \"10.0.0.2/30\"\ncost = 10\n";

// No number is below it.
const NO_FLOOR: i32 = -0x8000_0000;

// A floor above all numbers that these routers come to from none.
const LATER_FLOOR: i32 = -0x7fff_ff00;

// A datagram on its way.
#[derive(Drop)]
struct Waiting {
    to_first: bool,
    sent: Sent,
}

fn start_above(text: &str, dd_start: u32, floor: i32, alloc: Global) -> Result<Router, Fail> {
    let config = Config::from_text(alloc, text)?;
    Ok(Router::start(&config, dd_start, floor, alloc)?)
}

fn start(text: &str, dd_start: u32, alloc: Global) -> Result<Router, Fail> {
    start_above(text, dd_start, NO_FLOOR, alloc)
}

fn put(queue: &mut VecDeque<Waiting>, to_first: bool, out: Outputs) -> Result<(), Fail> {
    for sent in out.sent {
        queue.push_back(Waiting { to_first, sent })?;
    }
    Ok(())
}

// A router that met want of memory takes no step, and answers as one that has not started.
fn stands_still(router: &mut Router, alloc: Global) -> Fail {
    let steps = router.step(Event::Tick, alloc).is_ok();
    let floor = router.floor();
    if steps || (floor != NO_FLOOR && floor != LATER_FLOOR) {
        return Fail::from("it goes on");
    }
    if !router.neighbours(0).is_empty() || !router.table().routes().is_empty() {
        return Fail::from("it has something");
    }
    Fail::from("Memory: stopped")
}

fn step(router: &mut Router, event: Event<'_>, alloc: Global) -> Result<Step, Fail> {
    match router.step(event, alloc) {
        Ok(step) => Ok(step),
        Err(Stopped) => Err(stands_still(router, alloc)),
    }
}

// Takes an event, and puts what is sent behind what waits.
fn take(
    router: &mut Router,
    event: Event<'_>,
    to_first: bool,
    queue: &mut VecDeque<Waiting>,
    alloc: Global,
) -> Result<(), Fail> {
    let Step { out, .. } = step(router, event, alloc)?;
    put(queue, to_first, out)
}

fn deliver(
    router: &mut Router,
    waiting: &Waiting,
    queue: &mut VecDeque<Waiting>,
    alloc: Global,
) -> Result<(), Fail> {
    let event = Event::Datagram {
        link: 0,
        source: waiting.sent.source,
        destination: waiting.sent.destination,
        bytes: &waiting.sent.bytes,
    };
    take(router, event, !waiting.to_first, queue, alloc)
}

// Passes on what waits, and what comes of it, at most a thousand datagrams.
fn pass(
    first: &mut Router,
    second: &mut Router,
    queue: &mut VecDeque<Waiting>,
    alloc: Global,
) -> Result<(), Fail> {
    for _ in 0..1000u32 {
        let Some(waiting) = queue.pop_front() else {
            return Ok(());
        };
        if waiting.to_first {
            deliver(first, &waiting, queue, alloc)?;
        } else {
            deliver(second, &waiting, queue, alloc)?;
        }
    }
    Err(Fail::from("no end"))
}

fn round(
    first: &mut Router,
    second: &mut Router,
    queue: &mut VecDeque<Waiting>,
    alloc: Global,
) -> Result<(), Fail> {
    take(first, Event::Tick, false, queue, alloc)?;
    take(second, Event::Tick, true, queue, alloc)?;
    pass(first, second, queue, alloc)
}

// So many seconds, in each of which all that is sent arrives.
fn rounds(first: &mut Router, second: &mut Router, count: u32, alloc: Global) -> Result<(), Fail> {
    let mut queue = VecDeque::new(alloc);
    for _ in 0..count {
        round(first, second, &mut queue, alloc)?;
    }
    Ok(())
}

// Both ends of the link go up.
fn bring_up(first: &mut Router, second: &mut Router, alloc: Global) -> Result<(), Fail> {
    let mut queue = VecDeque::new(alloc);
    take(first, Event::LinkUp { link: 0 }, false, &mut queue, alloc)?;
    take(second, Event::LinkUp { link: 0 }, true, &mut queue, alloc)?;
    pass(first, second, &mut queue, alloc)
}

// The two routers, so many seconds after their link went up.
fn two_after(count: u32, alloc: Global) -> Result<(Router, Router), Fail> {
    let mut first = start(FIRST, 100, alloc)?;
    let mut second = start(SECOND, 200, alloc)?;
    bring_up(&mut first, &mut second, alloc)?;
    rounds(&mut first, &mut second, count, alloc)?;
    Ok((first, second))
}

// The number and the sum of the router-LSA at a place of the listing.
fn listed(router: &Router, place: usize, alloc: Global) -> Result<(i32, u16), Fail> {
    let listing = router.listing(alloc)?;
    let lsa = listing.lsas().get(place).ok_or("an LSA")?;
    let instance = lsa.view().instance();
    Ok((instance.number, instance.sum))
}

// Who the neighbour is, and its state.
fn heard(router: &Router) -> Option<(RouterId, NeighbourState)> {
    let neighbour = router.neighbours(0).first()?;
    Some((neighbour.router(), neighbour.state()))
}

// Whether the router-LSAs are those that each has issued second.
fn are_listed(first: &Router, second: &Router, alloc: Global) -> Result<bool, Fail> {
    let of_first = listed(first, 0, alloc)?;
    let of_second = listed(second, 1, alloc)?;
    Ok(of_first == (-0x7fff_fffe, 0xe02d) && of_second == (-0x7fff_fffe, 0x8088))
}

#[test]
fn two_routers_agree(rt: HostRuntime) -> Result<(), Fail> {
    let alloc = rt.alloc();
    let (first, second) = two_after(20, alloc)?;
    let expected = Some((RouterId(0x0202_0202), NeighbourState::Full));
    assert_eq!(rt; heard(&first), expected);
    assert!(rt; are_listed(&first, &second, alloc)?);
    let cost = first
        .table()
        .lookup(Addr(0x0a00_0002))
        .map(|route| route.cost);
    assert_eq!(rt; cost, Some(10));
    assert_eq!(rt; first.floor(), -0x7fff_fffe);
    Ok(())
}

fn cost_to(router: &Router, address: u32) -> Option<u64> {
    let route = router.table().lookup(Addr(address))?;
    Some(route.cost)
}

fn stub(address: u32, length: u8, cost: u16) -> StubNetwork {
    let prefix = Prefix { address: Addr(address), length };
    StubNetwork { prefix, cost }
}

// 2.2.2.2 has the hosts 192.0.2.7 and 192.0.2.1: each costs 1.1.1.1 the link and what it costs 2.2.2.2.
#[test]
fn hosts_are_reached(rt: HostRuntime) -> Result<(), Fail> {
    let alloc = rt.alloc();
    let mut config = Config::from_text(alloc, SECOND)?;
    config.stubs.push(stub(0xc000_0207, 32, 300))?;
    config.stubs.push(stub(0xc000_0201, 32, 0))?;
    let mut first = start(FIRST, 100, alloc)?;
    let mut second = Router::start(&config, 200, NO_FLOOR, alloc)?;
    bring_up(&mut first, &mut second, alloc)?;
    rounds(&mut first, &mut second, 20, alloc)?;
    assert_eq!(rt; cost_to(&first, 0xc000_0207), Some(310));
    assert_eq!(rt; cost_to(&first, 0xc000_0201), Some(10));
    assert_eq!(rt; cost_to(&first, 0xc000_0206), None);
    assert_eq!(rt; cost_to(&second, 0xc000_0207), Some(300));
    assert_eq!(rt; cost_to(&second, 0xc000_0201), Some(0));
    Ok(())
}

// The network 198.51.100.0/24 behind 2.2.2.2, and no address beside it.
#[test]
fn stub_networks_are_reached(rt: HostRuntime) -> Result<(), Fail> {
    let alloc = rt.alloc();
    let mut config = Config::from_text(alloc, SECOND)?;
    config.stubs.push(stub(0xc633_6400, 24, 5))?;
    let mut first = start(FIRST, 100, alloc)?;
    let mut second = Router::start(&config, 200, NO_FLOOR, alloc)?;
    bring_up(&mut first, &mut second, alloc)?;
    rounds(&mut first, &mut second, 20, alloc)?;
    assert_eq!(rt; cost_to(&first, 0xc633_6463), Some(15));
    assert_eq!(rt; cost_to(&first, 0xc633_6563), None);
    assert_eq!(rt; cost_to(&second, 0xc633_6463), Some(5));
    Ok(())
}

// Two routers whose subnets are suppressed or not, after 20 ticks, and 192.0.2.7 behind the second.
fn two_suppressed(alloc: Global, one: bool, two: bool) -> Result<(Router, Router), Fail> {
    let mut config = Config::from_text(alloc, FIRST)?;
    config.interfaces[0].prefix_suppression = one;
    let mut first = Router::start(&config, 100, NO_FLOOR, alloc)?;
    let mut config = Config::from_text(alloc, SECOND)?;
    config.interfaces[0].prefix_suppression = two;
    config.stubs.push(stub(0xc000_0207, 32, 0))?;
    let mut second = Router::start(&config, 200, NO_FLOOR, alloc)?;
    bring_up(&mut first, &mut second, alloc)?;
    rounds(&mut first, &mut second, 20, alloc)?;
    Ok((first, second))
}

// The subnet of a link is hidden where both ends suppress it: then no one reaches an address in it, and all that lies
// behind the link is reached over it as before. One end alone does not hide it.
#[test]
fn subnets_are_hidden(rt: HostRuntime) -> Result<(), Fail> {
    let alloc = rt.alloc();
    let (first, second) = two_suppressed(alloc, true, true)?;
    assert_eq!(rt; cost_to(&first, 0x0a00_0002), None);
    assert_eq!(rt; cost_to(&second, 0x0a00_0001), None);
    assert_eq!(rt; cost_to(&first, 0xc000_0207), Some(10));
    let (first, second) = two_suppressed(alloc, true, false)?;
    assert_eq!(rt; cost_to(&first, 0x0a00_0002), Some(20));
    assert_eq!(rt; cost_to(&second, 0x0a00_0001), Some(10));
    Ok(())
}

// The first Hello of 1.1.1.1, to all routers of the link.
const HELLO: &str =
    "0201002c0101010100000000f9a000000000000000000000fffffffc000a0201000000280000000000000000";

#[test]
fn a_link_goes_up(rt: HostRuntime) -> Result<(), Fail> {
    let alloc = rt.alloc();
    let mut router = start(FIRST, 100, alloc)?;
    assert!(rt; router.has_link(0));
    assert!(rt; !router.has_link(1));
    let went = step(&mut router, Event::LinkUp { link: 0 }, alloc)?;
    let sent = went.out.sent().first().ok_or("a Hello")?;
    assert_eq!(rt; sent.source, Addr(0x0a00_0001));
    assert_eq!(rt; sent.destination, Addr(0xe000_0005));
    let hello = decode(alloc, HELLO)?;
    assert_eq!(rt; sent.bytes.as_slice(), hello.as_slice());
    assert!(rt; went.table_changed);
    Ok(())
}

// The Hello comes back to the router that sent it.
#[test]
fn its_own_hello_is_dropped(rt: HostRuntime) -> Result<(), Fail> {
    let alloc = rt.alloc();
    let mut router = start(FIRST, 100, alloc)?;
    let mut went = step(&mut router, Event::LinkUp { link: 0 }, alloc)?;
    let hello = went.out.sent.pop().ok_or("a Hello")?;
    let before = Answers::of(&router, alloc)?;
    let event = Event::Datagram {
        link: 0,
        source: hello.source,
        destination: hello.destination,
        bytes: &hello.bytes,
    };
    let heard = step(&mut router, event, alloc)?;
    assert_eq!(rt; heard.dropped, Some(Dropped::OwnPacket));
    assert!(rt; is_silent(&heard) && Answers::of(&router, alloc)? == before);
    Ok(())
}

#[test]
fn refusals_are_printed(rt: HostRuntime) -> Result<(), Fail> {
    let mut text = String::new(rt.alloc());
    write!(
        text,
        "{Stopped}; {}; {}",
        StartFault::Floor,
        StartFault::Memory
    )?;
    assert_eq!(rt; text.as_str(), "S1 Stopped; S2 Floor; S3 Memory");
    Ok(())
}

const LAN: &str =
    "router_id = \"2.2.2.2\"\narea = \"0.0.0.0\"\n[[interface]]\nkind = \"broadcast\"\naddress = \"10.1.0.2/24\"\ncost = 10\n";

// A datagram from an address to another, in hexadecimal, and why it is dropped, if it is.
struct Case {
    source: u32,
    destination: u32,
    bytes: &'static str,
    dropped: Option<Dropped>,
}

const ALL_ROUTERS: u32 = 0xe000_0005;

const ALL_DESIGNATED: u32 = 0xe000_0006;

const NEIGHBOUR: u32 = 0x0a01_0001;

const LAN_HELLO: &str =
    "0201002c0101010100000000fa9c00000000000000000000ffffff00000a0201000000280000000000000000";

const EMPTY_REQUEST: &str = "020300180101010100000000fbe200000000000000000000";

// In their order: what is wrong with the Hello is another area, the router's own Router ID, an interval of 11 seconds; the
// last ones come after the Hello itself.
const CASES: [Case; 10] = [
    Case {
        source: NEIGHBOUR,
        destination: ALL_ROUTERS,
        bytes: "0201",
        dropped: Some(Dropped::Packet),
    },
    Case {
        source: NEIGHBOUR,
        destination: ALL_ROUTERS,
        bytes: "0201002c0101010100000001fa9b00000000000000000000ffffff00000a0201000000280000000000000000",
        dropped: Some(Dropped::Area),
    },
    Case {
        source: NEIGHBOUR,
        destination: ALL_ROUTERS,
        bytes: "0201002c0202020200000000f89a00000000000000000000ffffff00000a0201000000280000000000000000",
        dropped: Some(Dropped::OwnPacket),
    },
    Case {
        source: NEIGHBOUR,
        destination: ALL_DESIGNATED,
        bytes: LAN_HELLO,
        dropped: Some(Dropped::Destination),
    },
    Case {
        source: 0x0a02_0001,
        destination: ALL_ROUTERS,
        bytes: LAN_HELLO,
        dropped: Some(Dropped::Subnet),
    },
    Case {
        source: NEIGHBOUR,
        destination: ALL_ROUTERS,
        bytes: "0201002c0101010100000000fa9b00000000000000000000ffffff00000b0201000000280000000000000000",
        dropped: Some(Dropped::HelloMismatch),
    },
    Case {
        source: NEIGHBOUR,
        destination: ALL_ROUTERS,
        bytes: EMPTY_REQUEST,
        dropped: Some(Dropped::NoNeighbour),
    },
    Case {
        source: NEIGHBOUR,
        destination: ALL_ROUTERS,
        bytes: LAN_HELLO,
        dropped: None,
    },
    Case {
        source: NEIGHBOUR,
        destination: ALL_ROUTERS,
        bytes: "0201002c0303030300000000f69800000000000000000000ffffff00000a0201000000280000000000000000",
        dropped: Some(Dropped::WrongRouter),
    },
    Case {
        source: NEIGHBOUR,
        destination: ALL_ROUTERS,
        bytes: EMPTY_REQUEST,
        dropped: Some(Dropped::State),
    },
];

// Whether the datagram is dropped as it is to be, and then changes no answer and puts nothing out.
fn is_judged(router: &mut Router, case: &Case, alloc: Global) -> Result<bool, Fail> {
    let bytes = decode(alloc, case.bytes)?;
    let before = Answers::of(router, alloc)?;
    let event = Event::Datagram {
        link: 0,
        source: Addr(case.source),
        destination: Addr(case.destination),
        bytes: &bytes,
    };
    let went = step(router, event, alloc)?;
    let is_same = is_silent(&went) && Answers::of(router, alloc)? == before;
    Ok(went.dropped == case.dropped && (went.dropped.is_none() || is_same))
}

#[test]
fn each_drop_is_told(rt: HostRuntime) -> Result<(), Fail> {
    let alloc = rt.alloc();
    let mut router = start(LAN, 100, alloc)?;
    let [first, ..] = &CASES;
    // The link is down.
    assert!(rt; is_judged(&mut router, first, alloc)?);
    let _up = step(&mut router, Event::LinkUp { link: 0 }, alloc)?;
    for case in &CASES {
        assert!(rt; is_judged(&mut router, case, alloc)?);
    }
    assert_eq!(rt; router.neighbours(0).len(), 1);
    Ok(())
}

#[test]
fn the_last_number_is_no_floor(rt: HostRuntime) -> Result<(), Fail> {
    let alloc = rt.alloc();
    let config = Config::from_text(alloc, FIRST)?;
    match Router::start(&config, 1, 0x7fff_ffff, alloc) {
        Ok(_) => Err(Fail::from("started")),
        Err(fault) => {
            assert_eq!(rt; fault, StartFault::Floor);
            Ok(())
        }
    }
}
