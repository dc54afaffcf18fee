//! The database and the routing table.

use super::made::{FIRST_NUMBER, linked};
use ospf_base::{Age, RouterId};
use ospf_lsa::Lsa;
use ospf_lsdb::Lsdb;
use ospf_spf::RouteTable;
use std::alloc::Global;
use std::test::Fail;

// The router-LSA of a router with a link to another and the stub of its subnet.
fn linked_lsa(alloc: Global, age: u16) -> Result<Lsa, Fail> {
    let links = linked(RouterId(0x0202_0202), 0x0a00_0001);
    let mut lsa = Lsa::router(alloc, RouterId(0x0101_0101), FIRST_NUMBER, &links)?;
    lsa.set_age(Age::new(age));
    Ok(lsa)
}

// How many routes a router has over what a database lists.
fn routes_over(alloc: Global, lsdb: &Lsdb) -> Result<usize, Fail> {
    let table = RouteTable::of(alloc, &lsdb.listing(alloc)?, RouterId(0x0101_0101))?;
    Ok(table.routes().len())
}

#[test]
fn one_that_expires_takes_its_routes_along(rt: HostRuntime) -> Result<(), Fail> {
    let alloc = rt.alloc();
    let mut lsdb = Lsdb::new(alloc);
    lsdb.install(linked_lsa(alloc, 3599)?, 0, true)?;
    assert_eq!(rt; routes_over(alloc, &lsdb)?, 1);
    assert_eq!(rt; lsdb.tick(), 1);
    assert_eq!(rt; lsdb.listing(alloc)?.lsas().len(), 0);
    assert_eq!(rt; routes_over(alloc, &lsdb)?, 0);
    Ok(())
}
