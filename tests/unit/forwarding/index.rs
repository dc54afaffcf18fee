//! Lookups in tables of each shape.

use super::made::{FIRST_NUMBER, stub, to};
use ospf_base::{Addr, RouterId};
use ospf_fib::index::IndexedTable;
use ospf_fib::index::counts::most_hops;
use ospf_fib::index::numbering::{SetNumbers, numbers_of};
use ospf_lsa::{Link, Listing, Lsa};
use ospf_spf::RouteTable;
use std::alloc::Global;
use std::test::Fail;

const ROOT: RouterId = RouterId(0x0101_0101);

// How many routers stand behind the root, and how many stubs each of them has.
const ROUTERS: u32 = 80;

const STUBS: u32 = 1250;

// The routing table of the root, with its index.
fn indexed(alloc: Global, listing: &Listing) -> Result<IndexedTable, Fail> {
    let table = RouteTable::of(alloc, listing, ROOT)?;
    let mut indexed = IndexedTable::empty(alloc)?;
    let changes = indexed.table().changes(alloc, &table)?;
    indexed.edit(alloc, &changes)?;
    Ok(indexed)
}

// The table of one router that has these stubs.
fn table_of(alloc: Global, stubs: &[Link]) -> Result<IndexedTable, Fail> {
    let mut listing = Listing::new(alloc);
    listing.add(Lsa::router(alloc, ROOT, FIRST_NUMBER, stubs)?)?;
    let table = indexed(alloc, &listing)?;
    Ok(table)
}

#[test]
fn no_route(rt: HostRuntime) -> Result<(), Fail> {
    let table = IndexedTable::empty(rt.alloc())?;
    assert!(rt; table.routes().is_empty());
    for address in [0, 0x0a00_0001, 0xffff_ffff] {
        assert!(rt; table.lookup(Addr(address)).is_none());
    }
    Ok(())
}

#[test]
fn default_route_alone(rt: HostRuntime) -> Result<(), Fail> {
    let table = table_of(rt.alloc(), &[stub(0, 0, 7)])?;
    for address in [0, 1, 0x7fff_ffff, 0x8000_0000, 0xffff_ffff] {
        let route = table.lookup(Addr(address)).ok_or("a route")?;
        assert_eq!(rt; route.cost, 7);
        assert_eq!(rt; route.prefix.length, 0);
    }
    Ok(())
}

// An address whose first k bits are ones, and the next one a zero, is held by prefixes of at most k bits.
#[test]
fn nested_from_the_default_to_a_host(rt: HostRuntime) -> Result<(), Fail> {
    let alloc = rt.alloc();
    let mut stubs = Vec::new(alloc);
    let mut mask = 0;
    stubs.push(stub(0, 0, 1))?;
    for k in 0u16..32 {
        mask = mask | 0x8000_0000u32 >> k;
        stubs.push(stub(mask, mask, k.wrapping_add(2)))?;
    }
    let table = table_of(alloc, &stubs)?;
    assert_eq!(rt; table.routes().len(), 33);
    for k in 0u8..32 {
        let address = 0xffff_ffff ^ 0x8000_0000u32 >> k;
        let route = table.lookup(Addr(address)).ok_or("a route")?;
        assert_eq!(rt; route.prefix.length, k);
        assert_eq!(rt; route.cost, k as u64 + 1);
    }
    let host = table.lookup(Addr(0xffff_ffff)).ok_or("a route")?;
    assert_eq!(rt; host.prefix.length, 32);
    Ok(())
}

// Neighbours in one block, and a prefix that ends where the next one begins.
#[test]
fn ends_of_prefixes(rt: HostRuntime) -> Result<(), Fail> {
    let stubs = [
        stub(0x0a00_0000, 0xffff_ff00, 1),
        stub(0x0a00_0080, 0xffff_ff80, 2),
        stub(0x0a00_0100, 0xffff_ff00, 3),
        stub(0xffff_fffe, 0xffff_fffe, 4),
    ];
    let mut table = table_of(rt.alloc(), &stubs)?;
    let expected = [
        (0x09ff_ffff, None),
        (0x0a00_0000, Some(1)),
        (0x0a00_007f, Some(1)),
        (0x0a00_0080, Some(2)),
        (0x0a00_00ff, Some(2)),
        (0x0a00_0100, Some(3)),
        (0x0a00_01ff, Some(3)),
        (0x0a00_0200, None),
        (0xffff_fffd, None),
        (0xffff_ffff, Some(4)),
    ];
    for (address, cost) in expected {
        assert_eq!(rt; table.lookup(Addr(address)).map(|route| route.cost), cost);
    }
    table.clear(rt.alloc())?;
    assert!(rt; table.lookup(Addr(0x0a00_0080)).is_none());
    Ok(())
}

// Prefixes that crowd at the beginning of a block, and one at its end.
#[test]
fn prefixes_not_spread_evenly(rt: HostRuntime) -> Result<(), Fail> {
    let alloc = rt.alloc();
    let mut stubs = Vec::new(alloc);
    for k in 0u16..100 {
        stubs.push(stub(0x0a00_0000 | k as u32, 0xffff_ffff, k))?;
    }
    stubs.push(stub(0x0a00_ff00, 0xffff_ff00, 100))?;
    let table = table_of(alloc, &stubs)?;
    for k in 0u16..100 {
        let route = table.lookup(Addr(0x0a00_0000 | k as u32)).ok_or("a route")?;
        assert_eq!(rt; route.cost, k as u64);
    }
    for address in [0x0a00_0064, 0x0a00_7fff, 0x0a00_feff, 0x0a01_0000] {
        assert!(rt; table.lookup(Addr(address)).is_none());
    }
    for address in [0x0a00_ff00, 0x0a00_ff7f, 0x0a00_ffff] {
        assert_eq!(rt;
            table.lookup(Addr(address)).map(|route| route.cost),
            Some(100)
        );
    }
    Ok(())
}

// A router behind the root that has every third of 30 stubs from this one on, and one that all have.
fn third(alloc: Global, k: u32) -> Result<Lsa, Fail> {
    let mut links = Vec::new(alloc);
    links.push(to(ROOT, 0x0a01_0000 | k, 10))?;
    links.push(stub(0x1500_0000, 0xffff_ff00, 1))?;
    for s in 0u32..10 {
        let address = 0x1400_0000 | s.wrapping_mul(3).wrapping_add(k) << 8;
        links.push(stub(address, 0xffff_ff00, s as u16))?;
    }
    let lsa = Lsa::router(alloc, RouterId(0x0202_0000 | k), FIRST_NUMBER, &links)?;
    Ok(lsa)
}

// The routes by turns are over three routers, and the last is over all of them.
#[test]
fn each_set_of_hops_stands_once(rt: HostRuntime) -> Result<(), Fail> {
    let alloc = rt.alloc();
    let mut listing = Listing::new(alloc);
    let mut links = Vec::new(alloc);
    for k in 0u32..3 {
        links.push(to(RouterId(0x0202_0000 | k), 0x0a00_0000 | k, 10))?;
        listing.add(third(alloc, k)?)?;
    }
    listing.add(Lsa::router(alloc, ROOT, FIRST_NUMBER, &links)?)?;
    let table = indexed(alloc, &listing)?;
    let routes = table.routes();
    assert_eq!(rt; routes.len(), 31);
    for route in routes {
        let found = table.lookup(route.prefix.address).ok_or("a route")?;
        assert_eq!(rt; found.cost, route.cost);
        assert!(rt; found.hops == route.hops.as_slice());
    }
    let numbering = SetNumbers::with_room(alloc, routes.len(), most_hops(routes, &[])?)?;
    let numbers = Vec::with_capacity(alloc, routes.len())?;
    let (sets, numbers) = numbers_of(numbering, numbers, routes);
    assert_eq!(rt; sets.sets.len(), 5);
    assert_eq!(rt; sets.hops.len(), 6);
    for (place, number) in numbers.iter().enumerate() {
        assert_eq!(rt; *number, if place < 30 { place % 3 + 1 } else { 4 });
    }
    Ok(())
}

#[test]
fn a_hundred_thousand_routes(rt: HostRuntime) -> Result<(), Fail> {
    let alloc = rt.alloc();
    let mut listing = Listing::new(alloc);
    let mut links = Vec::new(alloc);
    for k in 0..ROUTERS {
        let id = RouterId(0x0202_0000 | k);
        links.push(to(id, 0x0a00_0000 | k, 10))?;
        let mut stubs = Vec::new(alloc);
        stubs.push(to(ROOT, 0x0a01_0000 | k, 10))?;
        for s in 0..STUBS {
            stubs.push(stub(0x1400_0000 | k << 16 | s << 2, 0xffff_fffc, k as u16))?;
        }
        listing.add(Lsa::router(alloc, id, FIRST_NUMBER, &stubs)?)?;
    }
    listing.add(Lsa::router(alloc, ROOT, FIRST_NUMBER, &links)?)?;
    let table = indexed(alloc, &listing)?;
    assert_eq!(rt; table.routes().len(), 100_000);
    for k in 0..ROUTERS {
        for s in 0..STUBS {
            let route = table
                .lookup(Addr(0x1400_0003 | k << 16 | s << 2))
                .ok_or("a route")?;
            assert_eq!(rt; route.prefix.address.0, 0x1400_0000 | k << 16 | s << 2);
            assert_eq!(rt; route.cost, k as u64 + 10);
        }
        assert!(rt;
            table
                .lookup(Addr(0x1400_0000 | k << 16 | STUBS << 2))
                .is_none()
        );
    }
    Ok(())
}
