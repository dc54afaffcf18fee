//! Tables of small areas.

use super::made::{FIRST_NUMBER, link};
use ospf_base::{Addr, RouterId};
use ospf_graph::NextHop;
use ospf_lsa::{Link, LinkKind, Listing, Lsa};
use ospf_spf::{RouteTable, Tree};
use std::alloc::Global;
use std::test::Fail;

// Two routers with a link and a network between them, at one cost, and a stub of the second.
fn listing(alloc: Global) -> Result<Listing, Fail> {
    let first = [
        link(LinkKind::PointToPoint, 0x0202_0202, 0x0a00_0001, 10),
        link(LinkKind::Transit, 0x0a01_0002, 0x0a01_0001, 10),
    ];
    let second = [
        link(LinkKind::PointToPoint, 0x0101_0101, 0x0a00_0002, 10),
        link(LinkKind::Transit, 0x0a01_0002, 0x0a01_0002, 10),
        link(LinkKind::Stub, 0xc0a8_0200, 0xffff_ff00, 5),
    ];
    let routers = [RouterId(0x0101_0101), RouterId(0x0202_0202)];
    let mut listing = Listing::new(alloc);
    listing.add(Lsa::router(alloc, routers[0], FIRST_NUMBER, &first)?)?;
    listing.add(Lsa::router(alloc, routers[1], FIRST_NUMBER, &second)?)?;
    listing.add(Lsa::network(
        alloc,
        0x0a01_0002,
        routers[1],
        FIRST_NUMBER,
        0xffff_ff00,
        &routers,
    )?)?;
    Ok(listing)
}

#[test]
fn link_and_network_tie(rt: HostRuntime) -> Result<(), Fail> {
    let alloc = rt.alloc();
    let listing = listing(alloc)?;
    let table = RouteTable::of(alloc, &listing, RouterId(0x0101_0101))?;
    assert!(rt; table.routes().len() == 2);
    let far = table.lookup(Addr(0xc0a8_0209)).ok_or("a route")?;
    assert!(rt; far.cost == 15);
    let hops = [
        NextHop::PointToPoint {
            local: Addr(0x0a00_0001),
            router: RouterId(0x0202_0202),
        },
        NextHop::Lan {
            local: Addr(0x0a01_0001),
            router: RouterId(0x0202_0202),
            address: Addr(0x0a01_0002),
        },
    ];
    assert!(rt; far.hops.as_slice() == hops.as_slice());
    assert!(rt; table.lookup(Addr(0x0a02_0001)).is_none());
    Ok(())
}

#[test]
fn root_not_listed(rt: HostRuntime) -> Result<(), Fail> {
    let alloc = rt.alloc();
    let listing = listing(alloc)?;
    let table = RouteTable::of(alloc, &listing, RouterId(0x0303_0303))?;
    assert!(rt; table.routes().is_empty());
    Ok(())
}

// The links of router 2.2.2.2: to 1.1.1.1, a stub, the network between them at its address there, and a stub
// of this metric.
fn links_of_second(stub_metric: u16) -> [Link; 4] {
    [
        link(LinkKind::PointToPoint, 0x0101_0101, 0x0a00_0002, 10),
        link(LinkKind::Stub, 0x0a00_0000, 0xffff_fffc, 10),
        link(LinkKind::Transit, 0x0a01_0002, 0x0a01_0002, 10),
        link(LinkKind::Stub, 0x0a09_0000, 0xffff_0000, stub_metric),
    ]
}

// Routers 1.1.1.1 and 2.2.2.2 with a link, at this metric for the first, and a network between them.
fn two_routers(alloc: Global, metric: u16, second: &[Link]) -> Result<Listing, Fail> {
    let first = [
        link(LinkKind::PointToPoint, 0x0202_0202, 0x0a00_0001, metric),
        link(LinkKind::Stub, 0x0a00_0000, 0xffff_fffc, 10),
        link(LinkKind::Transit, 0x0a01_0002, 0x0a01_0001, 10),
    ];
    let routers = [RouterId(0x0101_0101), RouterId(0x0202_0202)];
    let mut listing = Listing::new(alloc);
    listing.add(Lsa::router(alloc, routers[0], FIRST_NUMBER, &first)?)?;
    listing.add(Lsa::router(alloc, routers[1], FIRST_NUMBER, second)?)?;
    listing.add(Lsa::network(
        alloc,
        0x0a01_0002,
        routers[1],
        FIRST_NUMBER,
        0xffff_ff00,
        &routers,
    )?)?;
    Ok(listing)
}

#[test]
fn tree_is_kept_for_stubs(rt: HostRuntime) -> Result<(), Fail> {
    let alloc = rt.alloc();
    let made_of = two_routers(alloc, 10, &links_of_second(1))?;
    let tree = Tree::of(alloc, &made_of, RouterId(0x0101_0101))?;
    assert!(rt; tree.holds_for(&made_of));
    // the root, the other router over the link, the network, and the other router over the network at the same cost, each
    // put among the candidates once and taken once, and the question that ends the search
    assert!(rt; tree.looks() == 2 * 4 + 1);
    let other = two_routers(alloc, 10, &links_of_second(2))?;
    if !tree.holds_for(&other) {
        return Err(Fail::from("the graph is the same"));
    }
    let table = tree.routes(alloc, &other)?;
    let last = table.routes().last().ok_or("a route")?;
    assert!(rt; last.prefix.address == Addr(0x0a09_0000));
    assert!(rt; last.cost == 12);
    Ok(())
}

#[test]
fn tree_falls_with_a_metric(rt: HostRuntime) -> Result<(), Fail> {
    let alloc = rt.alloc();
    let made_of = two_routers(alloc, 10, &links_of_second(1))?;
    let tree = Tree::of(alloc, &made_of, RouterId(0x0101_0101))?;
    let other = two_routers(alloc, 11, &links_of_second(1))?;
    assert!(rt; !tree.holds_for(&other));
    Ok(())
}

#[test]
fn tree_falls_with_the_order_of_links(rt: HostRuntime) -> Result<(), Fail> {
    let alloc = rt.alloc();
    let [back, stub, lan, far] = links_of_second(1);
    let also = link(LinkKind::Transit, 0x0a01_0002, 0x0a01_0007, 10);
    let made_of = two_routers(alloc, 10, &[back, stub, lan, also, far])?;
    let tree = Tree::of(alloc, &made_of, RouterId(0x0101_0101))?;
    let other = two_routers(alloc, 10, &[back, stub, also, lan, far])?;
    assert!(rt; !tree.holds_for(&other));
    let table = RouteTable::of(alloc, &other, RouterId(0x0101_0101))?;
    let far = table.lookup(Addr(0x0a09_0001)).ok_or("a route")?;
    let hop = NextHop::Lan {
        local: Addr(0x0a01_0001),
        router: RouterId(0x0202_0202),
        address: Addr(0x0a01_0007),
    };
    assert!(rt; far.hops.as_slice().last() == Some(&hop));
    Ok(())
}
