//! Two routers pass each other their datagrams until the first one has a route to the network of the
//! second. `docs/LIBRARY.md` goes through this program.
#![tactic(auto)]

use ospf_base::{Addr, NO_FLOOR};
use ospf_config::Config;
use ospf_fib::{Fib, Found};
use ospf_router::{Event, Router, Sent};
use std::alloc::Global;
use std::sync::Wait;

const FIRST: &str =
    "router_id = \"1.1.1.1\"\narea = \"0.0.0.0\"\n[[interface]]\nkind = \"point-to-point\"\naddress = \"10.0.0.1/30\"\ncost = 10\n";

const SECOND: &str =
    "router_id = \"2.2.2.2\"\narea = \"0.0.0.0\"\n[[interface]]\nkind = \"point-to-point\"\naddress = \"10.0.0.2/30\"\ncost = 10\n[[interface]]\nkind = \"broadcast\"\naddress = \"192.168.2.1/24\"\ncost = 5\n";

// The link between the two, and the one behind the second.
const BETWEEN: usize = 0;

const BEHIND: usize = 1;

// 192.168.2.9, behind the second.
const HOST: Addr = Addr(0xc0a8_0209);

// Nothing is remembered of a run before this one.
const DD_START: u32 = 1;

// By then they are Full, and each has issued its LSA anew.
const SECONDS: u32 = 60;

fn main(rt: HostRuntime) -> Result<(), anyhow::Error> {
    if let Some(found) = looked_up(&rt, rt.alloc())? {
        println!(rt; "{found}")?;
    }
    Ok(())
}

/// The route that the first router has to the host, out of a table that threads could share.
pub fn looked_up(rt: &impl Wait, alloc: Global) -> Result<Option<Found>, anyhow::Error> {
    let first = met(alloc)?;
    let (mut writer, mut seats) = Fib::open(alloc, rt, 1)?;
    writer.publish(first.table())?;
    let Some(mut seat) = seats.pop() else {
        return Ok(None);
    };
    let answer = seat.lookup(HOST, 0)?;
    Ok(answer.map(|answer| Found {
        address: HOST,
        answer,
    }))
}

// The first router, once it has met the second.
fn met(alloc: Global) -> Result<Router, anyhow::Error> {
    let mut first = started(FIRST, alloc)?;
    let mut second = started(SECOND, alloc)?;
    let mut to_second = sent_on(&mut first, Event::LinkUp { link: BETWEEN }, alloc)?;
    let mut to_first = sent_on(&mut second, Event::LinkUp { link: BETWEEN }, alloc)?;
    sent_on(&mut second, Event::LinkUp { link: BEHIND }, alloc)?;
    for _ in 0..SECONDS {
        let answers = hand(&to_second, &mut second, alloc)?;
        to_second = hand(&to_first, &mut first, alloc)?;
        to_first = answers;
    }
    Ok(first)
}

// A router of this configuration, all of whose links are down.
fn started(config: &str, alloc: Global) -> Result<Router, anyhow::Error> {
    let config = Config::from_text(alloc, config)?;
    Ok(Router::start(&config, DD_START, NO_FLOOR, alloc)?)
}

// What a router sends on an event.
fn sent_on(
    router: &mut Router,
    event: Event<'_>,
    alloc: Global,
) -> Result<Vec<Sent>, anyhow::Error> {
    let step = router.step(event, alloc)?;
    Ok(step.out.sent)
}

// Hands a router what the other has sent over the link between them, and has a second
// pass there. What it sends on that.
fn hand(arriving: &[Sent], router: &mut Router, alloc: Global) -> Result<Vec<Sent>, anyhow::Error> {
    let mut sent = Vec::new(alloc);
    for datagram in arriving.iter().filter(|datagram| datagram.link == BETWEEN) {
        let event = Event::Datagram {
            link: BETWEEN,
            source: datagram.source,
            destination: datagram.destination,
            bytes: &datagram.bytes,
        };
        for answer in sent_on(router, event, alloc)? {
            sent.push(answer)?;
        }
    }
    for repeat in sent_on(router, Event::Tick, alloc)? {
        sent.push(repeat)?;
    }
    Ok(sent)
}
