//! The arrivals of two routers that come to agree over a link, and what a driver does of one's.

use super::super::given::{CONFIG, FIRST, NO_FLOOR, SECOND};
use super::super::worlds::{OTHER, two_that_run};
use ospf_base::{Addr, RouterId};
use ospf_config::Config;
use ospf_drive::{DriveFault, MemoryWire, Scripted, Wire, drive};
use ospf_fib::Fib;
use ospf_router::{Router, Sent};
use ospf_world::{World, WorldEvent};
use std::alloc::Global;
use std::sync::Wait;
use std::test::Fail;

// How many seconds the routers take: they are Full neighbours after 10.
const SECONDS: u32 = 20;

// A router, with what comes over its wire.
#[derive(Drop)]
pub(crate) struct Side {
    pub(crate) config: &'static str,
    pub(crate) dd_start: u32,
    pub(crate) arrivals: Vec<Scripted>,
}

impl Side {
    // Its link goes up first.
    fn new(config: &'static str, dd_start: u32, alloc: Global) -> Result<Side, Fail> {
        let mut arrivals = Vec::new(alloc);
        arrivals.push(Scripted::LinkUp { link: 0 })?;
        Ok(Side {
            config,
            dd_start,
            arrivals,
        })
    }

    pub(crate) fn started(&self, alloc: Global) -> Result<Router, Fail> {
        let config = Config::from_text(alloc, self.config)?;
        Ok(Router::start(&config, self.dd_start, NO_FLOOR, alloc)?)
    }

    // A wire that hands over all of them, where no call fails.
    pub(crate) fn wire(
        &self,
        good_receives: Option<usize>,
        good_sends: Option<usize>,
        alloc: Global,
    ) -> Result<MemoryWire, Fail> {
        let mut copied = Vec::new(alloc);
        for arrival in &self.arrivals {
            copied.push(copy_of(arrival, alloc)?)?;
        }
        Ok(MemoryWire::new(alloc, copied, good_receives, good_sends))
    }
}

fn copy_of(arrival: &Scripted, alloc: Global) -> Result<Scripted, Fail> {
    Ok(match arrival {
        Scripted::Datagram {
            link,
            source,
            destination,
            bytes,
        } => Scripted::Datagram {
            link: *link,
            source: *source,
            destination: *destination,
            bytes: bytes.to_vec(alloc)?,
        },
        Scripted::Tick => Scripted::Tick,
        Scripted::LinkUp { link } => Scripted::LinkUp { link: *link },
        Scripted::LinkDown { link } => Scripted::LinkDown { link: *link },
        Scripted::End => Scripted::End,
    })
}

fn arrival_of(sent: &Sent, alloc: Global) -> Result<Scripted, Fail> {
    Ok(Scripted::Datagram {
        link: 0,
        source: sent.source,
        destination: sent.destination,
        bytes: sent.bytes.to_vec(alloc)?,
    })
}

// Each datagram from this place on comes in at the other router. The answer is the place behind the last one.
fn pass(
    world: &mut World,
    sides: &mut [Side; 2],
    passed: usize,
    alloc: Global,
) -> Result<usize, Fail> {
    for datagram in passed..passed + 1000 {
        let Some(sent) = world.datagrams().get(datagram) else {
            return Ok(datagram);
        };
        let (router, side) = if sent.router == FIRST {
            (SECOND, 1)
        } else {
            (FIRST, 0)
        };
        sides[side].arrivals.push(arrival_of(&sent.sent, alloc)?)?;
        let link = 0;
        world.step(
            WorldEvent::Deliver {
                datagram,
                router,
                link,
            },
            alloc,
        )?;
    }
    Err(Fail::from("no end"))
}

// Both routers, with an end behind what comes.
pub(crate) fn two_sides(alloc: Global) -> Result<[Side; 2], Fail> {
    let mut sides = [
        Side::new(CONFIG, 100, alloc)?,
        Side::new(OTHER, 200, alloc)?,
    ];
    let mut world = two_that_run(alloc)?;
    let mut passed = 0;
    for _ in 0..SECONDS {
        let routers: [RouterId; 2] = [FIRST, SECOND];
        for place in 0..2usize {
            let router = routers[place];
            world.step(WorldEvent::Tick { router }, alloc)?;
            sides[place].arrivals.push(Scripted::Tick)?;
        }
        passed = pass(&mut world, &mut sides, passed, alloc)?;
    }
    for side in &mut sides {
        side.arrivals.push(Scripted::End)?;
    }
    Ok(sides)
}

// What went out: each datagram's link, source, destination and bytes.
pub(crate) type Out = Vec<(usize, Addr, Addr, Vec<u8>)>;

// Whether something was told, or the fault; what went out, and how often the wire failed.
pub(crate) type Driven = (Result<bool, DriveFault>, Out, u64);

// Drives the router over the wire.
pub(crate) fn driven<R: Wait>(
    rt: &R,
    side: &Side,
    mut wire: MemoryWire,
    alloc: Global,
) -> Result<Driven, Fail> {
    let (mut writer, _seats) = Fib::open(alloc, rt, 1)?;
    let mut router = side.started(alloc)?;
    let driven = drive(rt, alloc, &mut router, &mut wire, &mut writer);
    let told = driven.map(|told| told.is_some());
    let mut out = Vec::new(alloc);
    for sent in wire.sent() {
        let bytes = sent.bytes.to_vec(alloc)?;
        out.push((sent.link, sent.source, sent.destination, bytes))?;
    }
    Ok((told, out, wire.failures()))
}
