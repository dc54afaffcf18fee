//! Lines written by hand.

use ospf_base::{Addr, Prefix, RouterId};
use ospf_fib::Answer;
use ospf_files::{FailedStreams, print_lookup, print_routes};
use ospf_graph::{Hops, NextHop, Route};
use std::test::Fail;

static LINES: &str = "10.0.0.0/30 10 attached
10.9.0.0/16 12 10.0.0.1>2.2.2.2
lookup 10.9.1.1 10.9.0.0/16 12 10.0.0.1>2.2.2.2
lookup 11.0.0.1 none
";

#[test]
fn shows_routes_and_lookups(rt: HostRuntime) -> Result<(), Fail> {
    let alloc = rt.alloc();
    let mut out = Vec::new(alloc);
    let mut streams = FailedStreams::none();
    let near = Prefix {
        address: Addr(0x0a00_0000),
        length: 30,
    };
    let far = Prefix {
        address: Addr(0x0a09_0000),
        length: 16,
    };
    let hop = NextHop::PointToPoint {
        local: Addr(0x0a00_0001),
        router: RouterId(0x0202_0202),
    };
    let mut routes = Vec::new(alloc);
    for (prefix, cost, hop) in [(near, 10, NextHop::Attached), (far, 12, hop)] {
        let mut hops = Hops::new(alloc);
        hops.insert(hop)?;
        routes.push(Route { prefix, cost, hops })?;
    }
    assert!(rt; print_routes(alloc, &routes, &mut out, &mut streams).is_ok());
    let found = Answer {
        version: 1,
        prefix: far,
        cost: 12,
        hop,
        hops: 1,
    };
    for (address, answer) in [(Addr(0x0a09_0101), Some(found)), (Addr(0x0b00_0001), None)] {
        assert!(rt; print_lookup(alloc, address, answer, &mut out, &mut streams).is_ok());
    }
    assert_eq!(rt; out.as_slice(), LINES.as_bytes());
    Ok(())
}
