//! Two routers in `drive_all`, over wires of which neither hands over anything before the other was asked too.

use super::arrivals::{Out, Side, driven, two_sides};
use ospf_drive::{Arrival, DriverJob, LONGEST, MemoryWire, Wire, WireFault, drive_all};
use ospf_fib::Fib;
use ospf_router::{Router, Sent};
use std::alloc::{AllocError, Global};
use std::sync::atomic::{AtomicU64, Ordering};
use std::sync::{Arc, Mutex, Wait};
use std::test::Fail;
use std::thread::{self, Threads};

// The most turns of a wait.
const TURNS: u64 = 1_000_000_000;

// What both wires share: whether each was asked, and what went out of each.
#[derive(Drop)]
struct Shared {
    asked: [AtomicU64; 2],
    out: [Mutex<Out>; 2],
}

impl Shared {
    fn new(alloc: Global) -> Shared {
        Shared {
            asked: [AtomicU64::new(0), AtomicU64::new(0)],
            out: [Mutex::new(Vec::new(alloc)), Mutex::new(Vec::new(alloc))],
        }
    }
}

// A wire in memory that waits at first for the other one.
#[derive(Drop)]
struct Beside<R: Wait + Copy + Drop> {
    rt: R,
    alloc: Global,
    own: usize,
    shared: Arc<Shared>,
    inner: MemoryWire,
    failed: u64,
}

impl<R: Wait + Copy + Drop> Beside<R> {
    // Whether the other wire was asked too, before it took too long.
    fn meets_the_other(&self) -> bool {
        self.shared.asked[self.own].store(1, Ordering::SeqCst);
        for _ in 0..TURNS {
            if self.shared.asked[1 - self.own].load(Ordering::SeqCst) == 1 {
                return true;
            }
            thread::yield_now();
        }
        false
    }

    fn keep(&self, sent: &Sent) -> Result<(), AllocError> {
        let bytes = sent.bytes.to_vec(self.alloc)?;
        let mut out = self.shared.out[self.own].lock(&self.rt);
        out.push((sent.link, sent.source, sent.destination, bytes))?;
        Ok(())
    }
}

impl<R: Wait + Copy + Drop> Wire for Beside<R> {
    ghost use Rattle.ospf_drive.specs.Traffic.Carried.{Untold};

    ghost traffic = { λ _. Untold };

    ghost failed = { λ wire. wire.failed };

    fn recv(&mut self, buffer: &mut [u8; LONGEST]) -> Result<Arrival, WireFault> {
        if self.meets_the_other() {
            if let Ok(arrival) = self.inner.recv(buffer) {
                return Ok(arrival);
            }
        }
        self.failed += 1;
        Err(WireFault)
    }

    fn send(&mut self, sent: &Sent) -> Result<(), WireFault> {
        match self.keep(sent) {
            Ok(()) => Ok(()),
            Err(_) => {
                self.failed += 1;
                Err(WireFault)
            }
        }
    }

    fn failures(&self) -> u64 {
        self.failed
    }
}

// A router that is to be driven, over the wire of this number.
fn job_of<R: Wait + Copy + Drop>(
    rt: R,
    alloc: Global,
    side: &Side,
    own: usize,
    shared: &Arc<Shared>,
) -> Result<DriverJob<Router, Beside<R>, R>, Fail> {
    let (writer, _seats) = Fib::open(alloc, rt, 1)?;
    let wire = Beside {
        rt,
        alloc,
        own,
        shared: shared.clone()?,
        inner: side.wire(None, None, alloc)?,
        failed: 0,
    };
    Ok((side.started(alloc)?, wire, writer))
}

// Whether both came to the end, published, list two LSAs, and sent what each sends that is driven alone.
fn beside<R: Threads + Wait + Copy + Send + Drop + 'static>(
    rt: R,
    alloc: Global,
) -> Result<bool, Fail> {
    let sides = two_sides(alloc)?;
    let shared = Arc::new(alloc, Shared::new(alloc)).map_err(AllocError::from)?;
    let mut jobs = Vec::new(alloc);
    for own in 0..2usize {
        jobs.push(job_of(rt, alloc, &sides[own], own, &shared)?)?;
    }
    let results = drive_all(&rt, alloc, jobs)?;
    let mut all = results.len() == 2;
    for (own, result) in results.into_iter().enumerate() {
        let Ok((router, _writer, told)) = result else {
            return Ok(false);
        };
        let wire = sides[own].wire(None, None, alloc)?;
        let (_, alone, _) = driven(&rt, &sides[own], wire, alloc)?;
        let is_sent = shared.out[own].lock(&rt).as_slice() == alone.as_slice();
        let is_done = told.is_some() && router.listing(alloc)?.lsas().len() == 2;
        all = all && is_sent && is_done && !alone.is_empty();
    }
    Ok(all)
}

#[test]
fn each_router_is_driven_beside_the_other(rt: HostRuntime) -> Result<(), Fail> {
    assert!(rt; beside(rt, rt.alloc())?);
    Ok(())
}
