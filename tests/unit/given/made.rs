//! Router-LSAs, their links and keys, and numbers that are drawn.

use ospf_base::{Age, Kind, LsaKey, RouterId, lsa_sum};
use ospf_lsa::{Link, LinkKind, Lsa, LsaHeader};
use std::alloc::Global;
use std::test::Fail;

pub(crate) const FIRST: RouterId = RouterId(0x0101_0101);

pub(crate) const SECOND: RouterId = RouterId(0x0202_0202);

pub(crate) const THIRD: RouterId = RouterId(0x0303_0303);

/// The number that a router uses first.
pub(crate) const FIRST_NUMBER: i32 = -0x7fff_ffff;

/// A link, its values in the order of `LinkKind`, Link ID, Link Data and metric.
pub(crate) fn link(kind: LinkKind, id: u32, link_data: u32, metric: u16) -> Link {
    Link {
        id,
        link_data,
        kind,
        metric,
    }
}

/// The type 1 link to a router, from this address.
pub(crate) fn to(router: RouterId, address: u32, metric: u16) -> Link {
    link(LinkKind::PointToPoint, router.0, address, metric)
}

/// The type 3 link of a prefix.
pub(crate) fn stub(address: u32, mask: u32, metric: u16) -> Link {
    link(LinkKind::Stub, address, mask, metric)
}

// The number of a kind of link in a router-LSA.
fn kind_number(kind: LinkKind) -> u8 {
    match kind {
        LinkKind::PointToPoint => 1,
        LinkKind::Transit => 2,
        LinkKind::Stub => 3,
        LinkKind::Virtual => 4,
    }
}

/// The bytes of a router-LSA of these links, which may be more than one has that is made.
pub(crate) fn router_bytes(alloc: Global, id: RouterId, links: &[Link]) -> Result<Vec<u8>, Fail> {
    let count = links.len() as u16;
    let size = 24 + 12 * count;
    let mut bytes = Vec::new(alloc);
    bytes.extend_from_slice(&[0, 0, 2, 1])?;
    bytes.extend_from_slice(&id.0.to_be_bytes())?;
    bytes.extend_from_slice(&id.0.to_be_bytes())?;
    bytes.extend_from_slice(&FIRST_NUMBER.to_be_bytes())?;
    bytes.extend_from_slice(&[0, 0])?;
    bytes.extend_from_slice(&size.to_be_bytes())?;
    bytes.extend_from_slice(&[0, 0])?;
    bytes.extend_from_slice(&count.to_be_bytes())?;
    for link in links {
        bytes.extend_from_slice(&link.id.to_be_bytes())?;
        bytes.extend_from_slice(&link.link_data.to_be_bytes())?;
        bytes.extend_from_slice(&[kind_number(link.kind), 0])?;
        bytes.extend_from_slice(&link.metric.to_be_bytes())?;
    }
    let sum = lsa_sum(&bytes).to_be_bytes();
    bytes[16] = sum[0];
    bytes[17] = sum[1];
    Ok(bytes)
}

/// The links of a router at this address on the link between 1.1.1.1 and 2.2.2.2: to the other, and of the prefix.
pub(crate) fn linked(other: RouterId, address: u32) -> [Link; 2] {
    [to(other, address, 10), stub(0x0a00_0000, 0xffff_fffc, 10)]
}

/// A key of router-LSAs.
pub(crate) fn key_of(router: u32) -> LsaKey {
    LsaKey {
        kind: Kind::Router,
        id: router,
        router: RouterId(router),
    }
}

/// The router-LSA of a router without links, of this number and age.
pub(crate) fn lsa_of(alloc: Global, router: u32, number: i32, age: u16) -> Result<Lsa, Fail> {
    let mut lsa = Lsa::router(alloc, RouterId(router), number, &[])?;
    lsa.set_age(Age::new(age));
    Ok(lsa)
}

/// The header of one at age 0.
pub(crate) fn header_of(alloc: Global, router: u32, number: i32) -> Result<LsaHeader, Fail> {
    Ok(lsa_of(alloc, router, number, 0)?.view().header())
}

/// The next number drawn.
pub(crate) fn draw(drawn: &mut u64, below: u32) -> u32 {
    *drawn = drawn
        .wrapping_mul(6_364_136_223_846_793_005)
        .wrapping_add(1_442_695_040_888_963_407);
    (*drawn >> 33) as u32 % below
}

/// Ends a test where something does not hold.
pub(crate) fn require(holds: bool) -> Result<(), Fail> {
    if holds { Ok(()) } else { Err("not so".into()) }
}
