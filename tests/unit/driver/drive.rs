//! A driver over the wire in memory, whose calls fail one by one.

use super::given::{CONFIG, HELLO, NO_FLOOR};
use ospf_base::Addr;
use ospf_config::Config;
use ospf_drive::{DriveFault, MemoryWire, Scripted, Wire, WireFault, drive};
use ospf_fib::Fib;
use ospf_router::Router;
use std::alloc::{AllocError, Global};
use std::sync::Wait;
use std::test::Fail;

mod all;
mod arrivals;
mod beside;
mod fails;
mod machines;

// The link goes up, a second passes, and the Hello comes; with an end or without.
fn script(alloc: Global, ends: bool) -> Result<Vec<Scripted>, AllocError> {
    let mut arrivals = Vec::with_capacity(alloc, 4)?;
    arrivals.push(Scripted::LinkUp { link: 0 })?;
    arrivals.push(Scripted::Tick)?;
    arrivals.push(Scripted::Datagram {
        link: 0,
        source: Addr(0x0a00_0002),
        destination: Addr(0xe000_0005),
        bytes: HELLO.to_vec(alloc)?,
    })?;
    if ends {
        arrivals.push(Scripted::End)?;
    }
    Ok(arrivals)
}

// Whether something was told, or the fault; how many datagrams went out, and how often the wire failed.
type Played = (Result<bool, DriveFault>, usize, u64);

// Drives a router over the wire.
fn play<R: Wait>(rt: &R, alloc: Global, mut wire: MemoryWire) -> Result<Played, Fail> {
    let (mut writer, _seats) = Fib::open(alloc, rt, 1)?;
    let mut router = Router::start(&Config::from_text(alloc, CONFIG)?, 100, NO_FLOOR, alloc)?;
    let driven = drive(rt, alloc, &mut router, &mut wire, &mut writer);
    let told = driven.map(|told| told.is_some());
    Ok((told, wire.sent().len(), wire.failures()))
}

// A Hello goes out as the link goes up, and the first Database Description to the neighbour that lists the router.
#[test]
fn each_send_fails_once(rt: HostRuntime) -> Result<(), Fail> {
    let alloc = rt.alloc();
    for good in 0..2usize {
        let wire = MemoryWire::new(alloc, script(alloc, true)?, None, Some(good));
        assert!(rt; play(&rt, alloc, wire)? == (Err(DriveFault::Send), good, 1));
    }
    let wire = MemoryWire::new(alloc, script(alloc, true)?, None, Some(2));
    assert!(rt; play(&rt, alloc, wire)? == (Ok(true), 2, 0));
    Ok(())
}

// The script without an end fails where it stops.
#[test]
fn each_receive_fails_once(rt: HostRuntime) -> Result<(), Fail> {
    let alloc = rt.alloc();
    for (ends, good, sent) in [
        (true, Some(0), 0),
        (true, Some(1), 1),
        (true, Some(2), 1),
        (true, Some(3), 2),
        (false, None, 2),
    ] {
        let wire = MemoryWire::new(alloc, script(alloc, ends)?, good, None);
        assert!(rt; play(&rt, alloc, wire)? == (Err(DriveFault::Recv), sent, 1));
    }
    Ok(())
}

#[test]
fn faults_are_printed(rt: HostRuntime) -> Result<(), Fail> {
    let alloc = rt.alloc();
    for (fault, text) in [
        (DriveFault::Recv, "U1 Recv"),
        (DriveFault::Send, "U2 Send"),
        (DriveFault::Stopped, "U3 Stopped"),
        (DriveFault::Publish, "U4 Publish"),
        (DriveFault::Thread, "U5 Thread"),
    ] {
        let printed = format!(in alloc; "{fault}")?;
        assert_eq!(rt; printed.as_str(), text);
    }
    let printed = format!(in alloc; "{WireFault}")?;
    assert_eq!(rt; printed.as_str(), "the wire failed");
    Ok(())
}
