//! The edges that touch a vertex, beside all edges of the graph.

use super::made::{FIRST_NUMBER, draw};
use ospf_base::RouterId;
use ospf_graph::edges::{edges_at, edges_of};
use ospf_graph::{Edge, Vertex};
use ospf_lsa::{Link, LinkKind, Listing, Lsa};
use std::alloc::Global;
use std::test::Fail;

// Routers, and networks of a drawn area are below these; some of them are not listed.
const ROUTERS: u32 = 7;
const NETWORKS: u32 = 5;

fn link(id: u32, link_data: u32, kind: LinkKind, metric: u16) -> Link {
    Link {
        id,
        link_data,
        kind,
        metric,
    }
}

fn drawn_link(drawn: &mut u64) -> Link {
    let data = draw(drawn, 1000);
    let metric = 1 + draw(drawn, 9) as u16;
    match draw(drawn, 5) {
        0 => link(draw(drawn, ROUTERS), 0xffff_ff00, LinkKind::Stub, metric),
        1 => link(draw(drawn, ROUTERS), data, LinkKind::Virtual, metric),
        2 | 3 => link(draw(drawn, ROUTERS), data, LinkKind::PointToPoint, metric),
        _ => link(draw(drawn, NETWORKS), data, LinkKind::Transit, metric),
    }
}

// A router-LSA whose links are drawn: some are parallel, some are not returned.
fn drawn_router(alloc: Global, router: u32, drawn: &mut u64) -> Result<Lsa, Fail> {
    let mut links = Vec::new(alloc);
    for _ in 0..draw(drawn, 14) {
        links.push(drawn_link(drawn))?;
    }
    Ok(Lsa::router(alloc, RouterId(router), FIRST_NUMBER, &links)?)
}

fn drawn_network(alloc: Global, id: u32, router: u32, drawn: &mut u64) -> Result<Lsa, Fail> {
    let mut routers = Vec::new(alloc);
    for member in 0..ROUTERS {
        if draw(drawn, 3) > 0 {
            routers.push(RouterId(member))?;
        }
    }
    Ok(Lsa::network(
        alloc,
        id,
        RouterId(router),
        FIRST_NUMBER,
        0xffff_ff00,
        &routers,
    )?)
}

// An area, with networks of which up to two network-LSAs are listed.
fn drawn_area(alloc: Global, drawn: &mut u64) -> Result<Listing, Fail> {
    let mut listing = Listing::new(alloc);
    for router in 0..ROUTERS {
        if draw(drawn, 6) > 0 {
            listing.put(drawn_router(alloc, router, drawn)?)?;
        }
    }
    for id in 0..NETWORKS {
        for _ in 0..draw(drawn, 3) {
            let router = draw(drawn, ROUTERS);
            listing.put(drawn_network(alloc, id, router, drawn)?)?;
        }
    }
    Ok(listing)
}

fn touches(edge: &Edge, vertex: Vertex) -> bool {
    edge.from == vertex || edge.to == vertex
}

fn is_among(edge: &Edge, edges: &[Edge]) -> bool {
    edges.iter().any(|other| other == edge)
}

// Whether the edges at a vertex are those of all that touch it; how many these are.
fn edges_agree(
    alloc: Global,
    listing: &Listing,
    all: &[Edge],
    vertex: Vertex,
) -> Result<Option<usize>, Fail> {
    let near = edges_at(alloc, listing, vertex)?;
    let mut count = 0;
    for edge in all {
        if touches(edge, vertex) {
            count += 1;
            if !is_among(edge, &near) {
                return Ok(None);
            }
        }
    }
    let are_those = near
        .iter()
        .all(|edge| touches(edge, vertex) && is_among(edge, all));
    Ok(if are_those { Some(count) } else { None })
}

#[test]
fn edges_at_each_vertex(rt: HostRuntime) -> Result<(), Fail> {
    let alloc = rt.alloc();
    let mut drawn = 5;
    let mut count = 0;
    for area in 0..300 {
        let listing = drawn_area(alloc, &mut drawn)?;
        let all = edges_of(alloc, &listing)?;
        for id in 0..ROUTERS + 2 {
            for vertex in [Vertex::Router(RouterId(id)), Vertex::Network(id)] {
                let found = edges_agree(alloc, &listing, &all, vertex)?;
                assert!(rt; found.is_some(), "area {area}, {vertex:?}");
                count += found.unwrap_or(0);
            }
        }
    }
    // each edge touches two vertices
    assert!(rt; count > 5000);
    Ok(())
}

// Routers 1 and 2 on a network that 2 tells of, at two addresses of 1, with two links from 1 to 2
// and one back, and a link of 1 to 3 that 3 does not return.
fn small_area(alloc: Global) -> Result<Listing, Fail> {
    let first = [
        link(2, 11, LinkKind::PointToPoint, 10),
        link(2, 12, LinkKind::PointToPoint, 20),
        link(9, 13, LinkKind::Transit, 5),
        link(9, 14, LinkKind::Transit, 6),
        link(3, 15, LinkKind::PointToPoint, 1),
    ];
    let second = [
        link(1, 21, LinkKind::PointToPoint, 30),
        link(9, 22, LinkKind::Transit, 7),
    ];
    let mut listing = Listing::new(alloc);
    listing.put(Lsa::router(alloc, RouterId(1), FIRST_NUMBER, &first)?)?;
    listing.put(Lsa::router(alloc, RouterId(2), FIRST_NUMBER, &second)?)?;
    listing.put(Lsa::router(alloc, RouterId(3), FIRST_NUMBER, &[])?)?;
    let both = [RouterId(1), RouterId(2)];
    let mask = 0xffff_ff00;
    listing.put(Lsa::network(
        alloc,
        9,
        RouterId(2),
        FIRST_NUMBER,
        mask,
        &both,
    )?)?;
    Ok(listing)
}

pub(crate) fn edge(from: Vertex, to: Vertex, cost: u16, link_data: u32) -> Edge {
    Edge {
        to,
        from,
        cost,
        link_data,
    }
}

#[test]
fn edges_at_a_router_and_a_network(rt: HostRuntime) -> Result<(), Fail> {
    let alloc = rt.alloc();
    let listing = small_area(alloc)?;
    let (one, two) = (Vertex::Router(RouterId(1)), Vertex::Router(RouterId(2)));
    let net = Vertex::Network(9);
    let want = [
        edge(one, two, 10, 11),
        edge(one, two, 20, 12),
        edge(two, one, 30, 21),
        edge(one, net, 5, 13),
        edge(one, net, 6, 14),
        edge(net, one, 0, 13),
    ];
    let near = edges_at(alloc, &listing, one)?;
    assert!(rt; want.iter().all(|edge| is_among(edge, &near)));
    assert!(rt; near.iter().all(|edge| is_among(edge, &want)));
    let want = [
        edge(one, net, 5, 13),
        edge(one, net, 6, 14),
        edge(two, net, 7, 22),
        edge(net, one, 0, 13),
        edge(net, two, 0, 22),
    ];
    let near = edges_at(alloc, &listing, net)?;
    assert!(rt; want.iter().all(|edge| is_among(edge, &near)));
    assert!(rt; near.iter().all(|edge| is_among(edge, &want)));
    assert!(rt; edges_at(alloc, &listing, Vertex::Router(RouterId(3)))?.is_empty());
    assert!(rt; edges_at(alloc, &listing, Vertex::Router(RouterId(9)))?.is_empty());
    assert!(rt; edges_at(alloc, &listing, Vertex::Network(1))?.is_empty());
    Ok(())
}
