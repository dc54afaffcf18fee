//! A driver over all that comes to one of two routers, where each call of its wire fails in turn.

use super::arrivals::{driven, two_sides};
use ospf_drive::DriveFault;
use std::test::Fail;

// What went out is a beginning of what goes out where none fails.
#[test]
fn each_receive_of_an_agreement_fails(rt: HostRuntime) -> Result<(), Fail> {
    let alloc = rt.alloc();
    let [side, _] = &two_sides(alloc)?;
    let (told, all, failures) = driven(&rt, side, side.wire(None, None, alloc)?, alloc)?;
    assert_eq!(rt; (told, failures), (Ok(true), 0));
    let count = side.arrivals.len();
    assert!(rt; count > 25, "{count}");
    for good in 0..count {
        let wire = side.wire(Some(good), None, alloc)?;
        let (told, out, failures) = driven(&rt, side, wire, alloc)?;
        assert_eq!(rt; (told, failures), (Err(DriveFault::Recv), 1), "{good}");
        assert!(rt; all.starts_with(&out), "{good}");
    }
    Ok(())
}

// What went out is what went out before that call.
#[test]
fn each_send_of_an_agreement_fails(rt: HostRuntime) -> Result<(), Fail> {
    let alloc = rt.alloc();
    let [side, _] = &two_sides(alloc)?;
    let (_, all, _) = driven(&rt, side, side.wire(None, None, alloc)?, alloc)?;
    assert!(rt; all.len() > 8);
    for good in 0..all.len() {
        let wire = side.wire(None, Some(good), alloc)?;
        let (told, out, failures) = driven(&rt, side, wire, alloc)?;
        assert_eq!(rt; (told, failures), (Err(DriveFault::Send), 1), "{good}");
        assert!(rt; out.as_slice() == &all[..good], "{good}");
    }
    Ok(())
}
