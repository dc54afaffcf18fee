//! Two routers, each driven in a thread of its own, over a link in memory, beside a reader of each one's table.

use super::super::given::{CONFIG, NO_FLOOR};
use ospf_base::{Addr, Prefix, RouterId};
use ospf_config::Config;
use ospf_drive::{Arrival, LONGEST, Wire, WireFault, drive};
use ospf_fib::{Answer, Fib, Seat, Writer};
use ospf_graph::NextHop;
use ospf_router::{Router, Sent};
use std::alloc::{AllocError, Global};
use std::collections::VecDeque;
use std::sync::atomic::{AtomicU64, Ordering};
use std::sync::{Mutex, Wait};
use std::test::Fail;
use std::thread::{self, Threads, join};

// The router at the other end of the link; it has a network of its own too.
const SECOND: &str =
    "router_id = \"2.2.2.2\"\narea = \"0.0.0.0\"\n[[interface]]\nkind = \"point-to-point\"\naddress = \"10.0.0.2/30\"\ncost = 10\n[[interface]]\nkind = \"broadcast\"\naddress = \"192.168.2.1/24\"\ncost = 3\n";

// How many seconds each router is driven: three Hellos, and as many again.
const SECONDS: u64 = 60;

// The version that is published last.
const LAST: u64 = 2;

// The most turns of a wait.
const TURNS: u64 = 1_000_000_000;

// One end of the link: the datagrams that come to it, the seconds that have passed there, and how often its reader has looked.
#[derive(Drop)]
struct End {
    inbox: Mutex<VecDeque<Sent>>,
    seconds: AtomicU64,
    looked: AtomicU64,
}

impl End {
    fn new(alloc: Global) -> End {
        End {
            inbox: Mutex::new(VecDeque::new(alloc)),
            seconds: AtomicU64::new(0),
            looked: AtomicU64::new(0),
        }
    }
}

// A wire between two ends, which hands over nothing before the reader of its own end has begun a look and ended it.
#[derive(Drop)]
struct GatedWire<'a, R: Wait> {
    rt: &'a R,
    alloc: Global,
    own: &'a End,
    other: &'a End,
    // How many links are still to go up, the last one first.
    down: usize,
    failed: u64,
}

// Puts the bytes at the front of the buffer, where it holds them.
fn fill(buffer: &mut [u8; LONGEST], bytes: &[u8]) {
    if bytes.len() <= LONGEST {
        buffer[..bytes.len()].copy_from_slice(bytes);
    }
}

impl<'a, R: Wait> GatedWire<'a, R> {
    // Waits until the reader has begun a look after this call and ended it, if it does not take too long.
    fn wait_for_a_look(&self) {
        let before = self.own.looked.load(Ordering::SeqCst);
        let wanted = before.wrapping_add(2);
        for _ in 0..TURNS {
            if self.own.looked.load(Ordering::SeqCst) >= wanted {
                return;
            }
            thread::yield_now();
        }
    }

    // The datagram that came first, if one is there.
    fn datagram(&self, buffer: &mut [u8; LONGEST]) -> Option<Arrival> {
        let sent = self.own.inbox.lock(self.rt).pop_front()?;
        fill(buffer, &sent.bytes);
        Some(Arrival::Datagram {
            link: 0,
            source: sent.source,
            destination: sent.destination,
            length: sent.bytes.len(),
        })
    }

    // A second, or the end; and neither while the other router is a second behind.
    fn second(&self) -> Option<Arrival> {
        let passed = self.own.seconds.load(Ordering::SeqCst);
        if passed > self.other.seconds.load(Ordering::SeqCst) {
            return None;
        }
        if passed >= SECONDS {
            return Some(Arrival::End);
        }
        self.own
            .seconds
            .store(passed.wrapping_add(1), Ordering::SeqCst);
        Some(Arrival::Tick)
    }

    // First the links go up; then come datagrams, and where there is none a second.
    fn next(&mut self, buffer: &mut [u8; LONGEST]) -> Option<Arrival> {
        if self.down > 0 {
            self.down -= 1;
            return Some(Arrival::LinkUp { link: self.down });
        }
        for _ in 0..TURNS {
            if let Some(arrival) = self.datagram(buffer) {
                return Some(arrival);
            }
            if let Some(arrival) = self.second() {
                return Some(arrival);
            }
            thread::yield_now();
        }
        None
    }

    // Puts a copy into the inbox of the other end. The second link has no other end.
    fn pass_on(&self, sent: &Sent) -> Result<(), AllocError> {
        if sent.link != 0 {
            return Ok(());
        }
        let copy = Sent {
            link: 0,
            source: sent.source,
            destination: sent.destination,
            bytes: sent.bytes.to_vec(self.alloc)?,
        };
        self.other.inbox.lock(self.rt).push_back(copy)?;
        Ok(())
    }
}

impl<'a, R: Wait> Wire for GatedWire<'a, R> {
    ghost use Rattle.ospf_drive.specs.Traffic.Carried.{Untold};

    ghost traffic = { λ _. Untold };

    ghost failed = { λ wire. wire.failed };

    fn recv(&mut self, buffer: &mut [u8; LONGEST]) -> Result<Arrival, WireFault> {
        self.wait_for_a_look();
        match self.next(buffer) {
            Some(arrival) => Ok(arrival),
            None => {
                self.failed += 1;
                Err(WireFault)
            }
        }
    }

    fn send(&mut self, sent: &Sent) -> Result<(), WireFault> {
        match self.pass_on(sent) {
            Ok(()) => Ok(()),
            Err(_) => {
                self.failed += 1;
                Err(WireFault)
            }
        }
    }

    fn failures(&self) -> u64 {
        self.failed
    }
}

// A route of a router, an address that it leads to, and the version of the first table that has it.
#[derive(Drop)]
struct Expected {
    address: Addr,
    since: u64,
    prefix: Prefix,
    cost: u64,
    hop: NextHop,
}

// The network of the link.
fn link_network() -> Prefix {
    Prefix {
        address: Addr(0x0a00_0000),
        length: 30,
    }
}

// The network behind the second router.
fn far_network() -> Prefix {
    Prefix {
        address: Addr(0xc0a8_0200),
        length: 24,
    }
}

// A router that is to be driven: its links go up, the last one first, and its tables come to have these routes.
#[derive(Drop)]
struct Plan {
    config: &'static str,
    links: usize,
    routes: [Expected; 2],
}

// The link goes up, and then the second router tells of its network.
fn first_plan() -> Plan {
    let near = Expected {
        address: Addr(0x0a00_0002),
        since: 1,
        prefix: link_network(),
        cost: 10,
        hop: NextHop::Attached,
    };
    let far = Expected {
        address: Addr(0xc0a8_0209),
        since: 2,
        prefix: far_network(),
        cost: 13,
        hop: NextHop::PointToPoint {
            local: Addr(0x0a00_0001),
            router: RouterId(0x0202_0202),
        },
    };
    Plan {
        config: CONFIG,
        links: 1,
        routes: [near, far],
    }
}

// Its network comes first, and the link once it may tell of it, five seconds later (section 12.4, MinLSInterval).
fn second_plan() -> Plan {
    let near = Expected {
        address: Addr(0xc0a8_0209),
        since: 1,
        prefix: far_network(),
        cost: 3,
        hop: NextHop::Attached,
    };
    let later = Expected {
        address: Addr(0x0a00_0001),
        since: 2,
        prefix: link_network(),
        cost: 10,
        hop: NextHop::Attached,
    };
    Plan {
        config: SECOND,
        links: 2,
        routes: [near, later],
    }
}

// Whether it is the answer of one of the tables, of the last one that was seen or the next.
fn is_of_one_table(expected: &Expected, answer: Option<Answer>, last: u64) -> bool {
    let Some(answer) = answer else {
        return last < expected.since;
    };
    let version = answer.version;
    let whole = Answer {
        version,
        prefix: expected.prefix,
        cost: expected.cost,
        hop: expected.hop,
        hops: 1,
    };
    let in_turn = version == last || version == last.wrapping_add(1);
    in_turn && version >= expected.since && version <= LAST && answer == whole
}

// What a look finds: whether all is right, and the last version that answered; `None` where the table is closed.
fn look(seat: &mut Seat, routes: &[Expected; 2], last: u64) -> Option<(bool, u64)> {
    let (mut right, mut seen) = (true, last);
    for expected in routes {
        let answer = seat.lookup(expected.address, 0).ok()?;
        right = right && is_of_one_table(expected, answer, seen);
        seen = answer.map_or(seen, |answer| answer.version);
    }
    Some((right, seen))
}

// Looks until the table is closed. Whether all answers were right, and the last table was seen.
fn reads(mut seat: Seat, own: &End, routes: &[Expected; 2]) -> bool {
    let (mut all_right, mut last) = (true, 0);
    for _ in 0..TURNS {
        let Some((right, seen)) = look(&mut seat, routes, last) else {
            break;
        };
        all_right = all_right && right;
        last = seen;
        own.looked.fetch_add(1, Ordering::SeqCst);
        thread::yield_now();
    }
    all_right && last == LAST
}

// Drives a router to its end. Whether it has published.
fn drives<R: Wait, S: Wait + Drop>(
    rt: &R,
    alloc: Global,
    plan: &Plan,
    ends: (&End, &End),
    mut writer: Writer<S>,
) -> Option<bool> {
    let config = Config::from_text(alloc, plan.config).ok()?;
    let mut router = Router::start(&config, 100, NO_FLOOR, alloc).ok()?;
    let mut wire = GatedWire {
        rt,
        alloc,
        own: ends.0,
        other: ends.1,
        down: plan.links,
        failed: 0,
    };
    let told = drive(rt, alloc, &mut router, &mut wire, &mut writer).ok()?;
    Some(told.is_some())
}

// One router and its reader. Whether all was right.
fn side<R: Threads + Wait + Sync>(
    rt: &R,
    alloc: Global,
    plan: &Plan,
    ends: (&End, &End),
) -> Option<bool> {
    let (writer, mut seats) = Fib::open(alloc, rt, 1).ok()?;
    let seat = seats.pop()?;
    let (driven, read) = join(
        rt,
        move || drives(rt, alloc, plan, ends, writer),
        move || reads(seat, ends.0, &plan.routes),
    );
    Some(read && driven?)
}

// The same; and then the other router does not wait for this one.
fn side_to_its_end<R: Threads + Wait + Sync>(
    rt: &R,
    alloc: Global,
    plan: &Plan,
    ends: (&End, &End),
) -> bool {
    let right = side(rt, alloc, plan, ends);
    ends.0.seconds.store(u64::MAX, Ordering::SeqCst);
    matches!(right, Some(true))
}

fn both_sides<R: Threads + Wait + Sync>(rt: &R, alloc: Global) -> bool {
    let (a, b) = (End::new(alloc), End::new(alloc));
    let (a, b) = (&a, &b);
    let (first, second) = join(
        rt,
        move || side_to_its_end(rt, alloc, &first_plan(), (a, b)),
        move || side_to_its_end(rt, alloc, &second_plan(), (b, a)),
    );
    first && second
}

#[test]
fn two_routers_beside_readers(rt: HostRuntime) -> Result<(), Fail> {
    assert!(rt; both_sides(&rt, rt.alloc()));
    Ok(())
}
