//! LSAs that were computed elsewhere, recency at its edges, and listings.

use super::made::{FIRST_NUMBER, draw, linked};
use ospf_base::{Age, Kind, LsaKey, RouterId};
use ospf_lsa::{
    Link, LinkKind, Listing, ListingFault, Lsa, LsaFault, LsaHeader, LsaView, Recency, newer,
};
use std::alloc::Global;
use std::collections::BTreeMap;
use std::test::Fail;

// The router-LSA of 1.1.1.1: a link to 2.2.2.2 and the stub network 10.0.0.0/30.
const FIRST: [u8; 48] = [
    0x00, 0x00, 0x02, 0x01, 0x01, 0x01, 0x01, 0x01, 0x01, 0x01, 0x01, 0x01, 0x80, 0x00, 0x00, 0x01,
    0xe2, 0x2c, 0x00, 0x30, 0x00, 0x00, 0x00, 0x02, 0x02, 0x02, 0x02, 0x02, 0x0a, 0x00, 0x00, 0x01,
    0x01, 0x00, 0x00, 0x0a, 0x0a, 0x00, 0x00, 0x00, 0xff, 0xff, 0xff, 0xfc, 0x03, 0x00, 0x00, 0x0a,
];

// The router-LSA of 2.2.2.2: the link back, and two stub networks.
const SECOND: [u8; 60] = [
    0x00, 0x00, 0x02, 0x01, 0x02, 0x02, 0x02, 0x02, 0x02, 0x02, 0x02, 0x02, 0x80, 0x00, 0x00, 0x01,
    0x97, 0xf1, 0x00, 0x3c, 0x00, 0x00, 0x00, 0x03, 0x01, 0x01, 0x01, 0x01, 0x0a, 0x00, 0x00, 0x02,
    0x01, 0x00, 0x00, 0x0a, 0x0a, 0x00, 0x00, 0x00, 0xff, 0xff, 0xff, 0xfc, 0x03, 0x00, 0x00, 0x0a,
    0xc0, 0xa8, 0x02, 0x00, 0xff, 0xff, 0xff, 0x00, 0x03, 0x00, 0x00, 0x05,
];

// The network-LSA of 10.1.0.2/24 by 2.2.2.2, with 1.1.1.1 and 2.2.2.2.
const NETWORK: [u8; 32] = [
    0x00, 0x00, 0x02, 0x02, 0x0a, 0x01, 0x00, 0x02, 0x02, 0x02, 0x02, 0x02, 0x80, 0x00, 0x00, 0x01,
    0x29, 0x10, 0x00, 0x20, 0xff, 0xff, 0xff, 0x00, 0x01, 0x01, 0x01, 0x01, 0x02, 0x02, 0x02, 0x02,
];

fn first_links() -> [Link; 2] {
    linked(RouterId(0x0202_0202), 0x0a00_0001)
}

#[test]
fn reads_what_others_made(rt: HostRuntime) -> Result<(), Fail> {
    assert!(rt; LsaView::read(&FIRST).is_ok());
    assert!(rt; LsaView::read(&SECOND).is_ok());
    let view = LsaView::read(&NETWORK)?;
    match view.kind() {
        Kind::Router => assert!(rt; false, "a network-LSA"),
        Kind::Network => {
            assert!(rt; view.mask() == 0xffff_ff00);
            let mut attached = view.attached();
            assert!(rt; attached.next() == Some(RouterId(0x0101_0101)));
            assert!(rt; attached.next() == Some(RouterId(0x0202_0202)));
            assert!(rt; attached.next() == None);
        }
    }
    Ok(())
}

#[test]
fn walks_links(rt: HostRuntime) -> Result<(), Fail> {
    let view = LsaView::read(&FIRST)?;
    let header = view.header();
    assert!(rt; header.number == FIRST_NUMBER);
    assert!(rt; header.sum == 0xe22c);
    assert!(rt; header.length == 48);
    let [first, second] = first_links();
    match view.kind() {
        Kind::Router => {
            let mut links = view.links();
            assert!(rt; links.next() == Some(first));
            assert!(rt; links.next() == Some(second));
            assert!(rt; links.next() == None);
        }
        Kind::Network => assert!(rt; false, "a router-LSA"),
    }
    Ok(())
}

// The first LSA with some bytes set.
fn changed(changes: &[(usize, u8)]) -> [u8; 48] {
    let mut bytes = FIRST;
    for (at, byte) in changes {
        if *at < 48 {
            bytes[*at] = *byte;
        }
    }
    bytes
}

#[test]
fn tells_the_first_fault(rt: HostRuntime) -> Result<(), Fail> {
    let cases: [(&[(usize, u8)], Option<LsaFault>, &str); 5] = [
        (&[(16, 0), (17, 0)], Some(LsaFault::Sum), "zero sum"),
        (&[(47, 0x0b)], Some(LsaFault::Sum), "wrong sum"),
        (
            &[(35, 0), (16, 0x2e), (17, 0xea)],
            Some(LsaFault::ZeroMetric),
            "a link that costs nothing",
        ),
        (
            &[(47, 0), (16, 0xb5), (17, 0x63)],
            None,
            "a stub that costs nothing",
        ),
        (&[(0, 0xff), (1, 0xff)], None, "an age above the greatest"),
    ];
    for (changes, fault, name) in cases {
        let bytes = changed(changes);
        assert!(rt; LsaView::read(&bytes).err() == fault, "{name}");
    }
    assert!(rt; LsaView::read(&FIRST[..47]).err() == Some(LsaFault::Short));
    assert!(rt; LsaView::read(&FIRST[..19]).err() == Some(LsaFault::Short));
    let mut longer = [0u8; 49];
    longer[..48].copy_from_slice(&FIRST);
    assert!(rt; LsaView::read(&longer).err() == Some(LsaFault::Length));
    let oldest = changed(&[(0, 0xff), (1, 0xff)]);
    assert!(rt; LsaView::read(&oldest)?.header().age == Age::new(3600));
    Ok(())
}

#[test]
fn makes_the_same_bytes(rt: HostRuntime) -> Result<(), Fail> {
    let first = Lsa::router(
        rt.alloc(),
        RouterId(0x0101_0101),
        FIRST_NUMBER,
        &first_links(),
    )?;
    assert!(rt; first.view().as_bytes() == FIRST.as_slice());
    let back = [
        Link {
            id: 0x0101_0101,
            link_data: 0x0a00_0002,
            kind: LinkKind::PointToPoint,
            metric: 10,
        },
        Link {
            id: 0x0a00_0000,
            link_data: 0xffff_fffc,
            kind: LinkKind::Stub,
            metric: 10,
        },
        Link {
            id: 0xc0a8_0200,
            link_data: 0xffff_ff00,
            kind: LinkKind::Stub,
            metric: 5,
        },
    ];
    let second = Lsa::router(rt.alloc(), RouterId(0x0202_0202), FIRST_NUMBER, &back)?;
    assert!(rt; second.view().as_bytes() == SECOND.as_slice());
    let network = Lsa::network(
        rt.alloc(),
        0x0a01_0002,
        RouterId(0x0202_0202),
        FIRST_NUMBER,
        0xffff_ff00,
        &[RouterId(0x0101_0101), RouterId(0x0202_0202)],
    )?;
    assert!(rt; network.view().as_bytes() == NETWORK.as_slice());
    Ok(())
}

// Why a router-LSA of this one link and number is not made.
fn refusal(alloc: Global, number: i32, link: Link) -> Option<LsaFault> {
    Lsa::router(alloc, RouterId(1), number, &[link]).err()
}

#[test]
fn makes_no_other(rt: HostRuntime) -> Result<(), Fail> {
    let alloc = rt.alloc();
    let [link, stub] = first_links();
    let holed = Link {
        link_data: 0xff00_ff00,
        ..stub
    };
    let free = Link { metric: 0, ..link };
    assert!(rt; refusal(alloc, FIRST_NUMBER, holed) == Some(LsaFault::Mask));
    assert!(rt; refusal(alloc, FIRST_NUMBER, free) == Some(LsaFault::ZeroMetric));
    assert!(rt; refusal(alloc, i32::MIN, link) == Some(LsaFault::Number));
    assert!(rt; refusal(alloc, i32::MIN, free) == Some(LsaFault::ZeroMetric));
    let many = [link; 1362];
    let most = Lsa::router(alloc, RouterId(1), FIRST_NUMBER, &many[..1361])?;
    assert!(rt; most.view().as_bytes().len() == 16356);
    let long = Lsa::router(alloc, RouterId(1), i32::MIN, &many);
    assert!(rt; long.err() == Some(LsaFault::Length));
    let network = Lsa::network(alloc, 1, RouterId(1), FIRST_NUMBER, 0xff00_ff00, &[]);
    assert!(rt; network.err() == Some(LsaFault::Mask));
    let unused = Lsa::network(alloc, 1, RouterId(1), i32::MIN, 0, &[]);
    assert!(rt; unused.err() == Some(LsaFault::Number));
    Ok(())
}

// The header of an instance.
fn instance(age: u16, number: i32, sum: u16) -> LsaHeader {
    LsaHeader {
        age: Age::new(age),
        options: 2,
        kind: 1,
        id: 1,
        router: RouterId(1),
        number,
        sum,
        length: 24,
    }
}

#[test]
fn compares_at_the_edges(rt: HostRuntime) {
    let ages = [
        (0, 0, Recency::Same),
        (0, 900, Recency::Same),
        (0, 901, Recency::Newer),
        (901, 0, Recency::Older),
        (3600, 3599, Recency::Newer),
        (3600, 3600, Recency::Same),
        (2699, 3599, Recency::Same),
        (2698, 3599, Recency::Newer),
    ];
    for (a, b, want) in ages {
        let (a, b) = (instance(a, 7, 9), instance(b, 7, 9));
        assert!(rt; newer(&a, &b) == want, "{a:?} {b:?}");
    }
    let numbers = [
        (instance(3600, i32::MAX, 1), instance(0, -0x7fff_ffff, 9)),
        (instance(0, 8, 1), instance(3600, 7, 9)),
        (instance(0, 7, 2), instance(3600, 7, 1)),
    ];
    for (a, b) in numbers {
        assert!(rt; newer(&a, &b) == Recency::Newer, "{a:?} {b:?}");
        assert!(rt; newer(&b, &a) == Recency::Older, "{b:?} {a:?}");
    }
}

// A network-LSA of 10.0.0.1/24 by a router.
fn network_by(alloc: Global, id: u32, router: u32) -> Result<Lsa, LsaFault> {
    Lsa::network(alloc, id, RouterId(router), FIRST_NUMBER, 0xffff_ff00, &[])
}

#[test]
fn lists_in_order(rt: HostRuntime) -> Result<(), Fail> {
    let alloc = rt.alloc();
    let mut listing = Listing::new(alloc);
    for (id, router) in [(5, 9), (5, 2), (7, 1), (5, 4)] {
        listing.add(network_by(alloc, id, router)?)?;
    }
    listing.add(Lsa::copy(alloc, &LsaView::read(&SECOND)?)?)?;
    listing.add(Lsa::copy(alloc, &LsaView::read(&FIRST)?)?)?;
    let routers: Vec<u32> = listing
        .lsas()
        .iter()
        .map(|lsa| lsa.view().key().router.0)
        .collect(alloc)?;
    assert!(rt; routers.as_slice() == [0x0101_0101, 0x0202_0202, 2, 4, 9, 1].as_slice());
    let top = listing.network(5).map(|lsa| lsa.view().key().router);
    assert!(rt; top == Some(RouterId(9)));
    assert!(rt; listing.network(6).is_none());
    let key = LsaKey {
        kind: Kind::Network,
        id: 5,
        router: RouterId(4),
    };
    assert!(rt; listing.get(&key).map(|lsa| lsa.view().key()) == Some(key));
    let absent = LsaKey {
        router: RouterId(3),
        ..key
    };
    assert!(rt; listing.get(&absent).is_none());
    Ok(())
}

#[test]
fn lists_no_other(rt: HostRuntime) -> Result<(), Fail> {
    let alloc = rt.alloc();
    let mut listing = Listing::new(alloc);
    let mut old = Lsa::copy(alloc, &LsaView::read(&FIRST)?)?;
    old.set_age(Age::new(3600));
    assert!(rt; old.view().header().age == Age::new(3600));
    assert!(rt; listing.add(old).err() == Some(ListingFault::MaxAge));
    listing.add(Lsa::copy(alloc, &LsaView::read(&FIRST)?)?)?;
    let mut twice = Lsa::copy(alloc, &LsaView::read(&FIRST)?)?;
    twice.set_age(Age::new(3600));
    assert!(rt; listing.add(twice).err() == Some(ListingFault::Twice));
    assert!(rt; listing.lsas().len() == 1);
    Ok(())
}

// The network-LSA of 10.0.0.1/24 of this key, with another number.
fn network_again(alloc: Global, id: u32, router: u32, number: i32) -> Result<Lsa, LsaFault> {
    Lsa::network(alloc, id, RouterId(router), number, 0xffff_ff00, &[])
}

// The keys of a listing's networks, by Link State ID and Advertising Router, with their numbers.
fn listed_networks(alloc: Global, listing: &Listing) -> Result<Vec<(u32, u32, i32)>, Fail> {
    let mut found = Vec::new(alloc);
    for lsa in listing.lsas() {
        let header = lsa.view().header();
        found.push((header.id, header.router.0, header.number))?;
    }
    Ok(found)
}

#[test]
fn puts_where_the_key_belongs(rt: HostRuntime) -> Result<(), Fail> {
    let alloc = rt.alloc();
    let mut listing = Listing::new(alloc);
    // the first, in front of it, behind all, and in the middle
    for (id, router) in [(5, 4), (5, 2), (7, 1), (5, 9)] {
        listing.put(network_by(alloc, id, router)?)?;
    }
    let number = FIRST_NUMBER;
    let want = [
        (5, 2, number),
        (5, 4, number),
        (5, 9, number),
        (7, 1, number),
    ];
    assert!(rt; listed_networks(alloc, &listing)?.as_slice() == want.as_slice());
    Ok(())
}

#[test]
fn puts_in_the_place_of_its_key(rt: HostRuntime) -> Result<(), Fail> {
    let alloc = rt.alloc();
    let mut listing = Listing::new(alloc);
    for (id, router) in [(5, 2), (5, 4), (5, 9), (7, 1)] {
        listing.put(network_by(alloc, id, router)?)?;
    }
    let number = FIRST_NUMBER;
    for (id, router, at) in [(5, 2, 0), (5, 9, 2), (7, 1, 3)] {
        let again = network_again(alloc, id, router, number + 1 + at)?;
        listing.put(again)?;
        assert!(rt; listing.lsas().len() == 4);
        let key = LsaKey {
            kind: Kind::Network,
            id,
            router: RouterId(router),
        };
        let there = listing.get(&key).map(|lsa| lsa.view().header().number);
        assert!(rt; there == Some(number + 1 + at));
    }
    let want = [
        (5, 2, number + 1),
        (5, 4, number),
        (5, 9, number + 3),
        (7, 1, number + 4),
    ];
    assert!(rt; listed_networks(alloc, &listing)?.as_slice() == want.as_slice());
    Ok(())
}

#[test]
fn puts_none_that_leaves(rt: HostRuntime) -> Result<(), Fail> {
    let alloc = rt.alloc();
    let mut listing = Listing::new(alloc);
    let mut old = Lsa::copy(alloc, &LsaView::read(&FIRST)?)?;
    old.set_age(Age::new(3600));
    assert!(rt; listing.put(old).err() == Some(ListingFault::MaxAge));
    assert!(rt; listing.lsas().is_empty());
    let mut young = Lsa::copy(alloc, &LsaView::read(&FIRST)?)?;
    young.set_age(Age::new(3599));
    listing.put(young)?;
    let mut again = Lsa::copy(alloc, &LsaView::read(&FIRST)?)?;
    again.set_age(Age::new(3600));
    assert!(rt; listing.put(again).err() == Some(ListingFault::MaxAge));
    assert!(rt; listing.lsas().len() == 1);
    assert!(rt; listing.lsas()[0].view().header().age == Age::new(3599));
    Ok(())
}

#[test]
fn puts_as_a_map_does(rt: HostRuntime) -> Result<(), Fail> {
    let alloc = rt.alloc();
    let mut listing = Listing::new(alloc);
    let mut plain: BTreeMap<LsaKey, i32> = BTreeMap::new(alloc);
    let mut drawn = 11;
    for k in 0..4000 {
        let (id, router) = (draw(&mut drawn, 12), draw(&mut drawn, 9));
        let number = FIRST_NUMBER + k;
        let lsa = if draw(&mut drawn, 4) == 0 {
            Lsa::router(alloc, RouterId(id), number, &[])?
        } else {
            network_again(alloc, id, router, number)?
        };
        plain.insert(lsa.view().key(), number)?;
        listing.put(lsa)?;
        assert!(rt; listing.lsas().len() == plain.len());
        if k % 50 == 0 {
            for (lsa, (key, number)) in listing.lsas().iter().zip(plain.iter()) {
                let header = lsa.view().header();
                assert!(rt; header.key() == Some(*key) && header.number == *number);
            }
        }
    }
    assert!(rt; plain.len() == 12 + 12 * 9);
    Ok(())
}

#[test]
fn prints_each_fault(rt: HostRuntime) -> Result<(), Fail> {
    let alloc = rt.alloc();
    let faults = [
        (LsaFault::Short, "L1 Short"),
        (LsaFault::Length, "L2 Length"),
        (LsaFault::Sum, "L3 Sum"),
        (LsaFault::Kind, "L4 Kind"),
        (LsaFault::Links, "L5 Links"),
        (LsaFault::Mask, "L6 Mask"),
        (LsaFault::ZeroMetric, "L7 ZeroMetric"),
        (LsaFault::IdMismatch, "L8 IdMismatch"),
        (LsaFault::Number, "L9 Number"),
        (LsaFault::Memory, "L10 Memory"),
    ];
    for (fault, text) in faults.iter() {
        assert!(rt; format!(in alloc; "{fault}")?.as_str() == *text);
    }
    let twice = ListingFault::Twice;
    assert!(rt; format!(in alloc; "{twice}")?.as_str() == "K1 Twice");
    Ok(())
}

#[test]
fn names_what_a_header_names(rt: HostRuntime) -> Result<(), Fail> {
    let header = LsaView::read(&NETWORK)?.header();
    let key = LsaKey {
        kind: Kind::Network,
        id: 0x0a01_0002,
        router: RouterId(0x0202_0202),
    };
    assert!(rt; header.key() == Some(key));
    let mut other = header;
    other.kind = 5;
    assert!(rt; other.key() == None);
    Ok(())
}
