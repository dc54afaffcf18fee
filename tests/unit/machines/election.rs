//! Elections that were worked out by hand.

use ospf_base::{Addr, RouterId};
use ospf_neighbour::iface::{Candidate, Elected, elect};
use std::test::Fail;

const NONE: Addr = Addr(0);

const A: Addr = Addr(0x0a01_0001);

const B: Addr = Addr(0x0a01_0002);

const C: Addr = Addr(0x0a01_0003);

const ONE: RouterId = RouterId(0x0101_0101);

const TWO: RouterId = RouterId(0x0202_0202);

const THREE: RouterId = RouterId(0x0303_0303);

fn candidate(id: RouterId, address: Addr, priority: u8, dr: Addr, backup: Addr) -> Candidate {
    Candidate {
        id,
        address,
        priority,
        dr,
        backup,
    }
}

#[test]
fn none_declares(rt: HostRuntime) -> Result<(), Fail> {
    let all = [
        candidate(ONE, A, 1, NONE, NONE),
        candidate(TWO, B, 1, NONE, NONE),
        candidate(THREE, C, 0, NONE, NONE),
    ];
    assert!(rt; elect(&all, TWO) == Elected { dr: B, backup: A });
    assert!(rt; elect(&all, ONE) == Elected { dr: B, backup: B });
    assert!(rt; elect(&all, THREE) == Elected { dr: B, backup: B });
    Ok(())
}

#[test]
fn two_declare(rt: HostRuntime) -> Result<(), Fail> {
    let all = [
        candidate(ONE, A, 1, A, NONE),
        candidate(TWO, B, 1, NONE, B),
        candidate(THREE, C, 5, NONE, NONE),
    ];
    assert!(rt; elect(&all, ONE) == Elected { dr: A, backup: B });
    assert!(rt; elect(&all, TWO) == Elected { dr: A, backup: B });
    assert!(rt; elect(&all, THREE) == Elected { dr: A, backup: B });
    let left = [
        candidate(TWO, B, 1, NONE, B),
        candidate(THREE, C, 5, NONE, NONE),
    ];
    assert!(rt; elect(&left, TWO) == Elected { dr: B, backup: C });
    assert!(rt; elect(&left, THREE) == Elected { dr: B, backup: B });
    Ok(())
}

#[test]
fn priority_zero(rt: HostRuntime) -> Result<(), Fail> {
    let all = [candidate(ONE, A, 0, NONE, NONE)];
    assert!(rt;
        elect(&all, ONE)
            == Elected {
                dr: NONE,
                backup: NONE
            }
    );
    Ok(())
}
