//! Edits of tables in which routes are replaced, beside a search of all routes for the longest prefix.

use super::made::{draw, require};
use ospf_base::{Addr, Prefix, RouterId, mask_of};
use ospf_fib::index::{IndexedTable, can_replace, put_routes};
use ospf_spf::{Change, Hops, NextHop, Route, RouteTable, copy_changes, is_same_route};
use std::alloc::Global;
use std::test::Fail;

const TEN: u32 = 0x0a00_0000;

// The hops from one neighbour on, so many.
fn hops(alloc: Global, first: u32, count: u32) -> Result<Hops, Fail> {
    let mut list = Vec::new(alloc);
    for k in first..first.wrapping_add(count) {
        list.push(NextHop::PointToPoint {
            local: Addr(0xc0a8_0000 | k),
            router: RouterId(k),
        })?;
    }
    Ok(Hops::of(list))
}

fn prefix(address: u32, length: u8) -> Result<Prefix, Fail> {
    let prefix = Prefix::under(Addr(address), mask_of(length)).ok_or("a prefix")?;
    Ok(prefix)
}

// Puts a route at this cost over so many neighbours, the first of which has the number of the cost.
fn put(alloc: Global, prefix: Prefix, cost: u32, count: u32) -> Result<Change, Fail> {
    Ok(Change::Put(Route {
        prefix,
        cost: cost as u64,
        hops: hops(alloc, cost, count)?,
    }))
}

// The place of the route of longest prefix that holds the address.
fn longest(routes: &[Route], address: Addr) -> Option<usize> {
    let mut best = None;
    let mut length = 0;
    for (place, route) in routes.iter().enumerate() {
        if route.prefix.holds(address) && (best.is_none() || route.prefix.length > length) {
            best = Some(place);
            length = route.prefix.length;
        }
    }
    best
}

fn answers_at(table: &IndexedTable, address: Addr) -> bool {
    let routes = table.routes();
    match (table.lookup(address), longest(routes, address)) {
        (None, None) => true,
        (Some(found), Some(place)) => {
            let route = &routes[place];
            found.prefix == route.prefix
                && found.cost == route.cost
                && found.hops == route.hops.as_slice()
        }
        _ => false,
    }
}

// Whether lookups answer so at both ends of each prefix, and just outside of it.
fn answers(table: &IndexedTable) -> bool {
    for route in table.routes() {
        let first = route.prefix.address.0;
        let last = first | !mask_of(route.prefix.length);
        for address in [first, last, first.wrapping_sub(1), last.wrapping_add(1)] {
            if !answers_at(table, Addr(address)) {
                return false;
            }
        }
    }
    true
}

fn are_same(a: &[Route], b: &[Route]) -> bool {
    a.len() == b.len()
        && a.iter()
            .zip(b)
            .all(|(x, y)| x.prefix == y.prefix && is_same_route(x, y))
}

// One table three times: with its index, edited in one pass, and with its routes in their places where they stay.
#[derive(Drop)]
struct Tables {
    alloc: Global,
    indexed: IndexedTable,
    passed: RouteTable,
    alone: RouteTable,
}

impl Tables {
    fn of(alloc: Global, routes: &[(u32, u8)]) -> Result<Tables, Fail> {
        let mut tables = Tables {
            alloc,
            indexed: IndexedTable::empty(alloc)?,
            passed: RouteTable::empty(alloc),
            alone: RouteTable::empty(alloc),
        };
        let mut table = RouteTable::empty(alloc);
        for (address, length) in routes {
            table.change(put(alloc, prefix(*address, *length)?, 10, 1)?)?;
        }
        let changes = tables.alone.changes(alloc, &table)?;
        tables.edit(&changes)?;
        Ok(tables)
    }

    // Makes the changes of each, and compares them.
    fn edit(&mut self, changes: &[Change]) -> Result<(), Fail> {
        self.indexed.edit(self.alloc, changes)?;
        self.passed.edit(self.alloc, changes)?;
        if can_replace(self.alone.routes(), changes) {
            let copies = copy_changes(self.alloc, changes)?;
            put_routes(&mut self.alone, self.alloc, copies);
        } else {
            self.alone.edit(self.alloc, changes)?;
        }
        require(are_same(self.indexed.routes(), self.passed.routes()))?;
        require(are_same(self.alone.routes(), self.passed.routes()))?;
        require(answers(&self.indexed))
    }

    fn cost_at(&self, address: u32) -> Option<u64> {
        self.indexed.lookup(Addr(address)).map(|route| route.cost)
    }

    fn hops_at(&self, address: u32) -> Option<usize> {
        self.indexed
            .lookup(Addr(address))
            .map(|route| route.hops.len())
    }
}

// A default route, two networks within a larger one, and one within the first of them.
fn nested(alloc: Global) -> Result<Tables, Fail> {
    Tables::of(
        alloc,
        &[
            (0, 0),
            (TEN, 8),
            (TEN | 0x0001_0000, 16),
            (TEN | 0x0001_0200, 24),
            (TEN | 0x0003_0000, 16),
        ],
    )
}

#[test]
fn a_cost_changes(rt: HostRuntime) -> Result<(), Fail> {
    let mut tables = nested(rt.alloc())?;
    tables.edit(&[put(rt.alloc(), prefix(TEN | 0x0001_0000, 16)?, 7, 1)?])?;
    assert_eq!(rt; tables.cost_at(TEN | 0x0001_0000), Some(7));
    assert_eq!(rt; tables.cost_at(TEN | 0x0001_0200), Some(10));
    assert_eq!(rt; tables.cost_at(TEN | 0x0001_0300), Some(7));
    assert_eq!(rt; tables.cost_at(TEN | 0x0002_0000), Some(10));
    Ok(())
}

#[test]
fn hops_change_and_change_back(rt: HostRuntime) -> Result<(), Fail> {
    let alloc = rt.alloc();
    let mut tables = nested(alloc)?;
    let wider = prefix(TEN, 8)?;
    for count in [3, 1, 2] {
        tables.edit(&[put(alloc, wider, 10, count)?])?;
        for address in [TEN, TEN | 0x0002_0000, TEN | 0x00ff_ffff] {
            assert_eq!(rt; tables.hops_at(address), Some(count as usize));
        }
        assert_eq!(rt; tables.hops_at(TEN | 0x0003_0000), Some(1));
    }
    Ok(())
}

// All ranges that the default route answers are within its prefix.
#[test]
fn the_default_route_changes(rt: HostRuntime) -> Result<(), Fail> {
    let alloc = rt.alloc();
    let mut tables = nested(alloc)?;
    tables.edit(&[put(alloc, prefix(0, 0)?, 99, 2)?])?;
    for address in [0, TEN - 1, TEN | 0x0100_0000, 0xffff_ffff] {
        assert_eq!(rt; tables.cost_at(address), Some(99));
        assert_eq!(rt; tables.hops_at(address), Some(2));
    }
    assert_eq!(rt; tables.cost_at(TEN), Some(10));
    Ok(())
}

// Where no route answers, what is kept for its ranges looks like a default route.
#[test]
fn no_default_route(rt: HostRuntime) -> Result<(), Fail> {
    let alloc = rt.alloc();
    let mut tables = Tables::of(alloc, &[(TEN, 8)])?;
    tables.edit(&[put(alloc, prefix(TEN, 8)?, 5, 2)?])?;
    assert_eq!(rt; tables.cost_at(TEN), Some(5));
    assert_eq!(rt; tables.cost_at(TEN - 1), None);
    assert_eq!(rt; tables.cost_at(0), None);
    assert_eq!(rt; tables.cost_at(0xffff_ffff), None);
    Ok(())
}

// One route more or fewer among those that are replaced.
#[test]
fn routes_come_and_go(rt: HostRuntime) -> Result<(), Fail> {
    let alloc = rt.alloc();
    let mut tables = nested(alloc)?;
    let inner = prefix(TEN | 0x0001_0280, 25)?;
    tables.edit(&[
        put(alloc, prefix(TEN, 8)?, 6, 1)?,
        put(alloc, inner, 3, 2)?,
        put(alloc, prefix(TEN | 0x0003_0000, 16)?, 5, 3)?,
    ])?;
    assert_eq!(rt; tables.cost_at(TEN | 0x0001_0280), Some(3));
    tables.edit(&[
        Change::Gone(inner),
        put(alloc, prefix(TEN | 0x0003_0000, 16)?, 4, 1)?,
    ])?;
    assert_eq!(rt; tables.cost_at(TEN | 0x0001_0280), Some(10));
    tables.edit(&[Change::Gone(inner)])?;
    tables.edit(&[])?;
    assert_eq!(rt; tables.cost_at(TEN | 0x0003_0000), Some(4));
    Ok(())
}

// Each edit takes a set more, until there is no room and the index is made anew.
#[test]
fn sets_run_full(rt: HostRuntime) -> Result<(), Fail> {
    let alloc = rt.alloc();
    let mut tables = nested(alloc)?;
    for cost in 0..60u32 {
        let count = 1 + cost % 3;
        tables.edit(&[
            put(alloc, prefix(TEN, 8)?, cost, count)?,
            put(alloc, prefix(TEN | 0x0001_0200, 24)?, cost, 1)?,
        ])?;
        assert_eq!(rt; tables.hops_at(TEN), Some(count as usize));
        assert_eq!(rt; tables.cost_at(TEN | 0x0001_0200), Some(cost as u64));
    }
    Ok(())
}

// Some of the routes are replaced, and where routes go, some of them do.
fn drawn_changes(tables: &Tables, drawn: &mut u64, go: bool) -> Result<Vec<Change>, Fail> {
    let mut changes = Vec::new(tables.alloc);
    for route in tables.passed.routes() {
        match draw(drawn, 12) {
            0 | 1 => {
                let (cost, count) = (draw(drawn, 9), 1 + draw(drawn, 3));
                changes.push(put(tables.alloc, route.prefix, cost, count)?)?;
            }
            2 if go => changes.push(Change::Gone(route.prefix))?,
            _ => {}
        }
    }
    Ok(changes)
}

#[test]
fn drawn_tables(rt: HostRuntime) -> Result<(), Fail> {
    let mut drawn = 7;
    for _ in 0..12 {
        let mut routes = Vec::new(rt.alloc());
        for _ in 0..1 + draw(&mut drawn, 40) {
            let length = draw(&mut drawn, 33) as u8;
            let address = draw(&mut drawn, 4) << 30
                | draw(&mut drawn, 4) << 22
                | draw(&mut drawn, 4) << 14
                | draw(&mut drawn, 8);
            routes.push((address & mask_of(length), length))?;
        }
        let mut tables = Tables::of(rt.alloc(), &routes)?;
        for round in 0..40 {
            let changes = drawn_changes(&tables, &mut drawn, round % 10 == 9)?;
            tables.edit(&changes)?;
        }
    }
    Ok(())
}
