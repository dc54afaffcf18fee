//! What failures do to the tables of a small area.

use super::made::{FIRST, FIRST_NUMBER, SECOND, THIRD, link as link_of, router_bytes, stub, to};
use ospf_base::{Addr, Prefix, RouterId};
use ospf_graph::{NextHop, Route};
use ospf_lsa::{Link, LinkKind, Listing, Lsa, LsaView};
use ospf_spf::RouteTable;
use ospf_whatif::{
    AreaFailure, AreaGraph, KeptRoot, Loss, Outage, RouteChange, WithoutFault, all_failures,
    single_failures, without,
};
use std::alloc::Global;
use std::test::Fail;

const LAST: RouterId = RouterId(0x0404_0404);

// The type 3 link of such an interface.
fn subnet(own: u32) -> Link {
    stub(own & 0xffff_fffc, 0xffff_fffc, 10)
}

fn prefix(address: u32, mask: u32) -> Result<Prefix, Fail> {
    Ok(Prefix::under(Addr(address), mask).ok_or("a mask")?)
}

// A triangle of three routers and a fourth behind the third, all links at cost 10. Each router but the first has a
// stub of its own; the first two both tell 10.0.0.0/8.
fn listing(alloc: Global) -> Result<Listing, Fail> {
    let first = [
        to(SECOND, 0x0a00_0001, 10),
        subnet(0x0a00_0001),
        to(THIRD, 0x0a00_0005, 10),
        subnet(0x0a00_0005),
        stub(0x0a00_0000, 0xff00_0000, 100),
    ];
    let second = [
        to(FIRST, 0x0a00_0002, 10),
        subnet(0x0a00_0002),
        to(THIRD, 0x0a00_0009, 10),
        subnet(0x0a00_0009),
        stub(0x0a00_0000, 0xff00_0000, 100),
        stub(0xc0a8_0200, 0xffff_ff00, 5),
    ];
    let third = [
        to(FIRST, 0x0a00_0006, 10),
        subnet(0x0a00_0006),
        to(SECOND, 0x0a00_000a, 10),
        subnet(0x0a00_000a),
        to(LAST, 0x0a00_000d, 10),
        subnet(0x0a00_000d),
        stub(0xc0a8_0300, 0xffff_ff00, 5),
    ];
    let last = [
        to(THIRD, 0x0a00_000e, 10),
        subnet(0x0a00_000e),
        stub(0xac10_0400, 0xffff_ff00, 1),
    ];
    let mut listing = Listing::new(alloc);
    listing.add(Lsa::router(alloc, FIRST, FIRST_NUMBER, &first)?)?;
    listing.add(Lsa::router(alloc, SECOND, FIRST_NUMBER, &second)?)?;
    listing.add(Lsa::router(alloc, THIRD, FIRST_NUMBER, &third)?)?;
    listing.add(Lsa::router(alloc, LAST, FIRST_NUMBER, &last)?)?;
    Ok(listing)
}

fn link(a: RouterId, b: RouterId, address: u32) -> Result<AreaFailure, Fail> {
    Ok(AreaFailure::Link {
        a,
        b,
        subnet: prefix(address, 0xffff_fffc)?,
    })
}

// What becomes of the routes of the first router.
fn effect(alloc: Global, failure: &AreaFailure) -> Result<Vec<RouteChange>, Fail> {
    let listing = listing(alloc)?;
    let table = RouteTable::of(alloc, &listing, FIRST)?;
    let area = AreaGraph::of(alloc, &listing)?;
    let outage = Outage::of(alloc, &listing, failure)?;
    let kept = KeptRoot::of(alloc, &area, FIRST)?;
    Ok(kept.effect(alloc, &listing, &area, &outage, &table)?)
}

fn is_to(route: &Route, address: u32, mask: u32, cost: u64) -> Result<bool, Fail> {
    Ok(route.prefix == prefix(address, mask)? && route.cost == cost)
}

#[test]
fn failures_stand_in_order(rt: HostRuntime) -> Result<(), Fail> {
    let alloc = rt.alloc();
    let failures = single_failures(alloc, &listing(alloc)?)?;
    let wanted = [
        link(FIRST, SECOND, 0x0a00_0000)?,
        link(FIRST, THIRD, 0x0a00_0004)?,
        link(SECOND, THIRD, 0x0a00_0008)?,
        link(THIRD, LAST, 0x0a00_000c)?,
        AreaFailure::Router(FIRST),
        AreaFailure::Router(SECOND),
        AreaFailure::Router(THIRD),
        AreaFailure::Router(LAST),
    ];
    assert!(rt; failures.as_slice() == wanted.as_slice());
    Ok(())
}

#[test]
fn link_of_a_triangle(rt: HostRuntime) -> Result<(), Fail> {
    let effect = effect(rt.alloc(), &link(FIRST, SECOND, 0x0a00_0000)?)?;
    assert!(rt; effect.len() == 3);
    assert!(rt; is_to(&effect[0].before, 0x0a00_0000, 0xffff_fffc, 10)?);
    assert!(rt; matches!(&effect[0].loss, Loss::Gone));
    assert!(rt; is_to(&effect[1].before, 0x0a00_0008, 0xffff_fffc, 20)?);
    let over_third = [NextHop::PointToPoint {
        local: Addr(0x0a00_0005),
        router: THIRD,
    }];
    let Loss::Moved(moved) = &effect[1].loss else {
        return Err("other hops".into());
    };
    assert!(rt; is_to(moved, 0x0a00_0008, 0xffff_fffc, 20)?);
    assert!(rt; effect[1].before.hops.as_slice().len() == 2);
    assert!(rt; moved.hops.as_slice() == over_third.as_slice());
    assert!(rt; is_to(&effect[2].before, 0xc0a8_0200, 0xffff_ff00, 15)?);
    let Loss::Dearer(dearer) = &effect[2].loss else {
        return Err("a higher cost".into());
    };
    assert!(rt; is_to(dearer, 0xc0a8_0200, 0xffff_ff00, 25)?);
    Ok(())
}

#[test]
fn router_that_others_are_behind(rt: HostRuntime) -> Result<(), Fail> {
    let effect = effect(rt.alloc(), &AreaFailure::Router(THIRD))?;
    assert!(rt; effect.len() == 4);
    assert!(rt; is_to(&effect[0].before, 0x0a00_0008, 0xffff_fffc, 20)?);
    assert!(rt; matches!(&effect[0].loss, Loss::Moved(_)));
    assert!(rt; is_to(&effect[1].before, 0x0a00_000c, 0xffff_fffc, 20)?);
    assert!(rt; matches!(&effect[1].loss, Loss::Cut));
    assert!(rt; is_to(&effect[2].before, 0xac10_0400, 0xffff_ff00, 21)?);
    assert!(rt; matches!(&effect[2].loss, Loss::Cut));
    assert!(rt; is_to(&effect[3].before, 0xc0a8_0300, 0xffff_ff00, 15)?);
    assert!(rt; matches!(&effect[3].loss, Loss::Gone));
    Ok(())
}

#[test]
fn two_failures_one_after_the_other(rt: HostRuntime) -> Result<(), Fail> {
    let alloc = rt.alloc();
    let before = listing(alloc)?;
    let half = without(alloc, &before, &link(FIRST, SECOND, 0x0a00_0000)?)?;
    let left = without(alloc, &half, &link(FIRST, THIRD, 0x0a00_0004)?)?;
    let table = RouteTable::of(alloc, &left, FIRST)?;
    assert!(rt; table.routes().len() == 1);
    assert!(rt; is_to(&table.routes()[0], 0x0a00_0000, 0xff00_0000, 100)?);
    Ok(())
}

// An area of 1.1.1.1 and 2.2.2.2, of which the second has so many links: the two to the first, and
// stubs, each of another host.
fn with_many_links(alloc: Global, count: u32) -> Result<Listing, Fail> {
    let first = [to(SECOND, 0x0a00_0001, 10), subnet(0x0a00_0001)];
    let mut links = Vec::new(alloc);
    links.push(to(FIRST, 0x0a00_0002, 10))?;
    links.push(subnet(0x0a00_0002))?;
    for number in 0..count - 2 {
        links.push(stub(0xac10_0000 + number, 0xffff_ffff, 1))?;
    }
    let second = router_bytes(alloc, SECOND, &links)?;
    let mut listing = Listing::new(alloc);
    listing.add(Lsa::router(alloc, FIRST, FIRST_NUMBER, &first)?)?;
    listing.add(Lsa::copy(alloc, &LsaView::read(&second)?)?)?;
    Ok(listing)
}

#[test]
fn links_are_too_many_only_where_they_are_told_again(rt: HostRuntime) -> Result<(), Fail> {
    let alloc = rt.alloc();
    let gone = link(FIRST, SECOND, 0x0a00_0000)?;
    // 1,361 links are left: the most that a router-LSA has that is made.
    let most = with_many_links(alloc, 1363)?;
    let left = without(alloc, &most, &gone)?;
    let links = left.lsas()[1].view().links().count();
    assert!(rt; links == 1361);
    // One more.
    let many = with_many_links(alloc, 1364)?;
    assert!(rt; without(alloc, &many, &gone).err() == Some(WithoutFault::Links));
    // A router-LSA that keeps all of them stays, byte for byte.
    let elsewhere = link(FIRST, THIRD, 0x0a00_0004)?;
    let same = without(alloc, &many, &elsewhere)?;
    assert!(rt; same.lsas()[1].view().as_bytes() == many.lsas()[1].view().as_bytes());
    Ok(())
}

fn interface(router: RouterId, address: u32, mask: u32) -> Result<AreaFailure, Fail> {
    Ok(AreaFailure::Stub {
        router,
        prefix: prefix(address, mask)?,
    })
}

#[test]
fn interfaces_to_stub_networks_fail_too(rt: HostRuntime) -> Result<(), Fail> {
    let alloc = rt.alloc();
    let failures = all_failures(alloc, &listing(alloc)?)?;
    // After those of `single_failures`, of which there are eight: what is no subnet of a link.
    let wanted = [
        interface(FIRST, 0x0a00_0000, 0xff00_0000)?,
        interface(SECOND, 0x0a00_0000, 0xff00_0000)?,
        interface(SECOND, 0xc0a8_0200, 0xffff_ff00)?,
        interface(THIRD, 0xc0a8_0300, 0xffff_ff00)?,
        interface(LAST, 0xac10_0400, 0xffff_ff00)?,
    ];
    assert!(rt; failures.len() == 13);
    assert!(rt; &failures[8..] == wanted.as_slice());
    Ok(())
}

// A router on 10.1.0.0/24 with another one, at 10.1.0.1; with a link without an address, the fifth of its interfaces; with a link
// in 10.2.0.0/30, and its own address there as a host route; a
// loopback; a LAN of two addresses; 10.0.0.0/8, in which its address lies; and 0.0.0.0/8, in which no address of it lies.
fn kinds(alloc: Global) -> Result<Listing, Fail> {
    let first = [
        link_of(LinkKind::Transit, 0x0a01_0002, 0x0a01_0001, 10),
        to(SECOND, 5, 10),
        to(SECOND, 0x0a02_0001, 10),
        stub(0x0a02_0000, 0xffff_fffc, 10),
        stub(0x0a02_0001, 0xffff_ffff, 0),
        stub(0x0101_0101, 0xffff_ffff, 0),
        stub(0, 0xff00_0000, 1),
        stub(0xac10_0000, 0xffff_fffe, 7),
        stub(0x0a00_0000, 0xff00_0000, 1),
    ];
    let mut listing = Listing::new(alloc);
    listing.add(Lsa::router(alloc, FIRST, FIRST_NUMBER, &first)?)?;
    Ok(listing)
}

#[test]
fn loopbacks_and_subnets_of_links_do_not_fail(rt: HostRuntime) -> Result<(), Fail> {
    let alloc = rt.alloc();
    let wanted = [
        AreaFailure::Router(FIRST),
        interface(FIRST, 0, 0xff00_0000)?,
        interface(FIRST, 0xac10_0000, 0xffff_fffe)?,
    ];
    assert!(rt; all_failures(alloc, &kinds(alloc)?)?.as_slice() == wanted.as_slice());
    Ok(())
}

#[test]
fn interface_to_a_stub_network(rt: HostRuntime) -> Result<(), Fail> {
    // A LAN of one router is gone.
    let lan = effect(rt.alloc(), &interface(LAST, 0xac10_0400, 0xffff_ff00)?)?;
    assert!(rt; lan.len() == 1);
    assert!(rt; is_to(&lan[0].before, 0xac10_0400, 0xffff_ff00, 21)?);
    assert!(rt; matches!(&lan[0].loss, Loss::Gone));
    // One of two routers is reached over the other.
    let dual = effect(rt.alloc(), &interface(FIRST, 0x0a00_0000, 0xff00_0000)?)?;
    assert!(rt; dual.len() == 1);
    assert!(rt; is_to(&dual[0].before, 0x0a00_0000, 0xff00_0000, 100)?);
    let Loss::Dearer(dearer) = &dual[0].loss else {
        return Err("a higher cost".into());
    };
    assert!(rt; is_to(dearer, 0x0a00_0000, 0xff00_0000, 110)?);
    let far = effect(rt.alloc(), &interface(SECOND, 0x0a00_0000, 0xff00_0000)?)?;
    assert!(rt; far.is_empty());
    Ok(())
}
