//! Shortest paths that are kept while edges come and go, beside searches of all edges.

use super::edges::edge;
use ospf_base::{Addr, RouterId};
use ospf_graph::{
    Edge, NextHop, ShortestPaths, Start, Vertex, distance_at, shortest_paths, starts_at,
};
use ospf_spf::incremental::{KeptPaths, Paths};
use rand_core::utils::NextWord;
use rand_pcg::Pcg32;
use std::alloc::Global;
use std::test::Fail;

const ROUTERS: u32 = 14;
const NETWORKS: u32 = 4;

const ROOT: Vertex = Vertex::Router(RouterId(0));

fn router(id: u32) -> Vertex {
    Vertex::Router(RouterId(id))
}

// An edge between two routers, from a router to a network, or from a network to a router. Costs are small, so
// that many paths are as long as others, and some edges are parallel.
fn drawn_edge(chance: &mut Pcg32) -> Edge {
    let link_data = chance.next_word() % 3;
    let cost = 1 + (chance.next_word() % 4) as u16;
    let one = router(chance.next_word() % ROUTERS);
    let other = router(chance.next_word() % ROUTERS);
    let network = Vertex::Network(chance.next_word() % NETWORKS);
    match chance.next_word() % 4 {
        0 => edge(one, network, cost, link_data),
        1 => edge(network, one, 0, link_data),
        _ => edge(one, other, cost, link_data),
    }
}

fn drawn_edges(alloc: Global, chance: &mut Pcg32) -> Result<Vec<Edge>, Fail> {
    let mut edges = Vec::new(alloc);
    for _ in 0..1 + chance.next_word() % 5 {
        edges.push(drawn_edge(chance))?;
    }
    Ok(edges)
}

fn vertices(alloc: Global) -> Result<Vec<Vertex>, Fail> {
    let mut all = Vec::new(alloc);
    for id in 0..ROUTERS {
        all.push(router(id))?;
    }
    for id in 0..NETWORKS {
        all.push(Vertex::Network(id))?;
    }
    Ok(all)
}

// Each once, in order.
fn once(mut starts: Vec<Start>) -> Vec<Start> {
    starts.sort_unstable();
    starts.dedup();
    starts
}

fn starts_in(alloc: Global, paths: &ShortestPaths, vertex: Vertex) -> Result<Vec<Start>, Fail> {
    let mut starts = Vec::new(alloc);
    for one in starts_at(&paths.starts, vertex) {
        starts.push(one.start)?;
    }
    Ok(once(starts))
}

fn starts_kept(alloc: Global, kept: &KeptPaths, vertex: Vertex) -> Result<Vec<Start>, Fail> {
    Ok(once(Vec::from_slice(alloc, kept.starts_of(vertex))?))
}

// Whether what is kept says the same of each vertex as a search does.
fn is_same(alloc: Global, kept: &KeptPaths, searched: &ShortestPaths) -> Result<bool, Fail> {
    let told = kept.shortest(alloc)?;
    for vertex in vertices(alloc)? {
        let distance = distance_at(&searched.settled, vertex);
        let starts = starts_in(alloc, searched, vertex)?;
        let is_same_distance = kept.distance_of(vertex) == distance
            && distance_at(&told.settled, vertex) == distance;
        let is_same_starts = starts_kept(alloc, kept, vertex)?.as_slice() == starts.as_slice()
            && starts_in(alloc, &told, vertex)?.as_slice() == starts.as_slice();
        if !(is_same_distance && is_same_starts) {
            return Ok(false);
        }
    }
    Ok(told.settled.as_slice() == searched.settled.as_slice())
}

// What is kept of each vertex: its distance and its starts.
fn noted(alloc: Global, kept: &KeptPaths) -> Result<Vec<(Option<u64>, Vec<Start>)>, Fail> {
    let mut all = Vec::new(alloc);
    for vertex in vertices(alloc)? {
        all.push((
            kept.distance_of(vertex),
            starts_kept(alloc, kept, vertex)?,
        ))?;
    }
    Ok(all)
}

#[test]
fn growth_is_a_search_of_all_edges(rt: HostRuntime) -> Result<(), Fail> {
    let alloc = rt.alloc();
    for seed in 0..12 {
        let mut chance = Pcg32::new(seed, 1);
        let mut edges = Vec::new(alloc);
        let mut changed = Vec::new(alloc);
        let mut kept = KeptPaths::of(alloc, &edges, ROOT)?;
        for _ in 0..30 {
            let more = drawn_edges(alloc, &mut chance)?;
            kept = kept.grow(alloc, &more, &mut changed)?;
            for edge in more {
                edges.push(edge)?;
            }
            let searched = shortest_paths(alloc, &edges, ROOT)?;
            assert!(rt; is_same(alloc, &kept, &searched)?);
        }
    }
    Ok(())
}

#[test]
fn what_is_not_changed_is_as_before(rt: HostRuntime) -> Result<(), Fail> {
    let alloc = rt.alloc();
    let mut stayed = 0;
    for seed in 0..12 {
        let mut chance = Pcg32::new(seed, 2);
        let mut kept = KeptPaths::of(alloc, &[], ROOT)?;
        for _ in 0..30 {
            let before = noted(alloc, &kept)?;
            let mut changed = Vec::new(alloc);
            let more = drawn_edges(alloc, &mut chance)?;
            kept = kept.grow(alloc, &more, &mut changed)?;
            let after = noted(alloc, &kept)?;
            for (place, vertex) in vertices(alloc)?.iter().enumerate() {
                if !changed.contains(vertex) {
                    assert!(rt; before[place].0 == after[place].0);
                    assert!(rt; before[place].1.as_slice() == after[place].1.as_slice());
                    stayed += 1;
                }
            }
        }
    }
    assert!(rt; stayed > 12 * 30 * 9);
    Ok(())
}

#[test]
fn few_edges_are_not_searched_anew(rt: HostRuntime) -> Result<(), Fail> {
    let alloc = rt.alloc();
    let mut changed = Vec::new(alloc);
    let kept = KeptPaths::of(alloc, &[], ROOT)?;
    let kept = kept.grow(alloc, &[], &mut changed)?;
    let kept = kept.shrink(alloc, &[], &mut changed)?;
    assert!(rt; changed.is_empty());
    let only = [edge(ROOT, router(1), 5, 1)];
    let kept = kept.grow(alloc, &only, &mut changed)?;
    assert!(rt; changed.as_slice() == [router(1)].as_slice());
    assert!(rt; kept.distance_of(router(1)) == Some(5));
    Ok(())
}

// A line of routers from the root, each edge at this cost.
fn line(alloc: Global, routers: u32, cost: u16) -> Result<Vec<Edge>, Fail> {
    let mut edges = Vec::new(alloc);
    for id in 1..routers {
        edges.push(edge(router(id - 1), router(id), cost, id))?;
        edges.push(edge(router(id), router(id - 1), cost, id))?;
    }
    Ok(edges)
}

#[test]
fn only_what_comes_nearer_is_gone_through(rt: HostRuntime) -> Result<(), Fail> {
    let alloc = rt.alloc();
    let kept = KeptPaths::of(alloc, &line(alloc, 100, 5)?, ROOT)?;
    let mut changed = Vec::new(alloc);
    let far = edge(router(99), router(100), 5, 7);
    let kept = kept.grow(alloc, &[far], &mut changed)?;
    assert!(rt; changed.as_slice() == [router(100)].as_slice());
    let nearer = edge(router(97), router(99), 1, 7);
    let kept = kept.grow(alloc, &[nearer], &mut changed)?;
    assert!(rt; changed.as_slice() == [router(100), router(99), router(100)].as_slice());
    assert_eq!(rt; kept.distance_of(router(100)), Some(97 * 5 + 1 + 5));
    assert_eq!(rt; kept.distance_of(router(101)), None);
    Ok(())
}

#[test]
fn a_parallel_edge_adds_a_start(rt: HostRuntime) -> Result<(), Fail> {
    let alloc = rt.alloc();
    let first = edge(ROOT, router(1), 3, 8);
    let second = edge(ROOT, router(1), 3, 9);
    let dearer = edge(ROOT, router(1), 4, 10);
    let kept = KeptPaths::of(alloc, &[first], ROOT)?;
    let mut changed = Vec::new(alloc);
    let kept = kept.grow(alloc, &[dearer, first], &mut changed)?;
    assert!(rt; changed.is_empty());
    let kept = kept.grow(alloc, &[second], &mut changed)?;
    assert!(rt; changed.as_slice() == [router(1)].as_slice());
    let hops = [8, 9].map(|local| {
        Start::Hop(NextHop::PointToPoint {
            local: Addr(local),
            router: RouterId(1),
        })
    });
    assert!(rt; starts_kept(alloc, &kept, router(1))?.as_slice() == hops.as_slice());
    Ok(())
}

// Some of the edges, by chance.
fn chosen_edges(alloc: Global, chance: &mut Pcg32, edges: &[Edge]) -> Result<Vec<Edge>, Fail> {
    let mut some = Vec::new(alloc);
    for edge in edges {
        if chance.next_word() % 16 == 0 {
            some.push(*edge)?;
        }
    }
    Ok(some)
}

#[test]
fn shrinking_is_a_search_of_what_is_left(rt: HostRuntime) -> Result<(), Fail> {
    let alloc = rt.alloc();
    for seed in 0..12 {
        let mut chance = Pcg32::new(seed, 3);
        let mut edges = Vec::new(alloc);
        for _ in 0..100 {
            edges.push(drawn_edge(&mut chance))?;
        }
        let mut changed = Vec::new(alloc);
        let mut kept = KeptPaths::of(alloc, &edges, ROOT)?;
        for _ in 0..30 {
            let less = chosen_edges(alloc, &mut chance, &edges)?;
            kept = kept.shrink(alloc, &less, &mut changed)?;
            edges.retain(|edge| !less.contains(edge));
            let searched = shortest_paths(alloc, &edges, ROOT)?;
            assert!(rt; is_same(alloc, &kept, &searched)?);
        }
    }
    Ok(())
}

// Edges by chance, of each of which another one leads back.
fn edges_both_ways(alloc: Global, chance: &mut Pcg32, count: u32) -> Result<Vec<Edge>, Fail> {
    let mut edges = Vec::new(alloc);
    for _ in 0..count {
        let there = drawn_edge(chance);
        let cost = match there.to {
            Vertex::Network(_) => 0,
            Vertex::Router(_) => 1 + (chance.next_word() % 4) as u16,
        };
        edges.push(there)?;
        edges.push(edge(there.to, there.from, cost, chance.next_word() % 3))?;
    }
    Ok(edges)
}

// Whether paths say the same of each vertex as a search does.
fn is_found<P: Paths>(alloc: Global, paths: &P, searched: &ShortestPaths) -> Result<bool, Fail> {
    for vertex in vertices(alloc)? {
        let starts = once(Vec::from_slice(alloc, paths.starts(vertex))?);
        let is_same_distance = paths.distance(vertex) == distance_at(&searched.settled, vertex);
        if !is_same_distance || starts.as_slice() != starts_in(alloc, searched, vertex)?.as_slice() {
            return Ok(false);
        }
    }
    Ok(true)
}

#[test]
fn what_is_left_beside_the_paths_is_a_search(rt: HostRuntime) -> Result<(), Fail> {
    let alloc = rt.alloc();
    let mut stayed = 0;
    for seed in 0..12 {
        let mut chance = Pcg32::new(seed, 5);
        let edges = edges_both_ways(alloc, &mut chance, 40)?;
        let whole = shortest_paths(alloc, &edges, ROOT)?;
        let kept = KeptPaths::of(alloc, &edges, ROOT)?;
        for _ in 0..10 {
            let less = chosen_edges(alloc, &mut chance, &edges)?;
            let mut others = Vec::from_slice(alloc, &edges)?;
            others.retain(|edge| !less.contains(edge));
            let mut changed = Vec::new(alloc);
            let left = kept.without(alloc, &less, &mut changed)?;
            assert!(rt; is_found(alloc, &left, &shortest_paths(alloc, &others, ROOT)?)?);
            assert!(rt; is_found(alloc, &kept, &whole)? && is_same(alloc, &kept, &whole)?);
            for vertex in vertices(alloc)? {
                if !changed.contains(&vertex) {
                    assert!(rt; left.distance(vertex) == kept.distance(vertex));
                    stayed += 1;
                }
            }
        }
    }
    assert!(rt; stayed > 12 * 10 * 9);
    Ok(())
}

#[test]
fn without_edges_all_stays(rt: HostRuntime) -> Result<(), Fail> {
    let alloc = rt.alloc();
    let kept = KeptPaths::of(alloc, &line(alloc, 100, 5)?, ROOT)?;
    let mut changed = Vec::new(alloc);
    let left = kept.without(alloc, &[], &mut changed)?;
    assert!(rt; changed.is_empty());
    assert_eq!(rt; left.distance(router(99)), Some(99 * 5));
    Ok(())
}

#[test]
fn only_what_lies_behind_an_edge_goes(rt: HostRuntime) -> Result<(), Fail> {
    let alloc = rt.alloc();
    let kept = KeptPaths::of(alloc, &line(alloc, 100, 5)?, ROOT)?;
    let mut changed = Vec::new(alloc);
    let last = [edge(router(98), router(99), 5, 99)];
    let left = kept.without(alloc, &last, &mut changed)?;
    assert!(rt; changed.as_slice() == [router(99)].as_slice());
    assert_eq!(rt; left.distance(router(99)), None);
    assert!(rt; left.starts(router(99)).is_empty());
    assert_eq!(rt; left.distance(router(98)), Some(98 * 5));
    assert_eq!(rt; kept.distance_of(router(99)), Some(99 * 5));
    Ok(())
}

#[test]
fn a_change_is_a_search_of_the_edges_then(rt: HostRuntime) -> Result<(), Fail> {
    let alloc = rt.alloc();
    let mut stayed = 0;
    for seed in 0..12 {
        let mut chance = Pcg32::new(seed, 4);
        let mut edges = Vec::new(alloc);
        for _ in 0..70 {
            edges.push(drawn_edge(&mut chance))?;
        }
        let mut kept = KeptPaths::of(alloc, &edges, ROOT)?;
        for _ in 0..30 {
            let before = noted(alloc, &kept)?;
            let mut changed = Vec::new(alloc);
            let less = chosen_edges(alloc, &mut chance, &edges)?;
            let more = drawn_edges(alloc, &mut chance)?;
            kept = kept.change(alloc, &less, &more, &mut changed)?;
            edges.retain(|edge| !less.contains(edge));
            for edge in more {
                edges.push(edge)?;
            }
            let searched = shortest_paths(alloc, &edges, ROOT)?;
            assert!(rt; is_same(alloc, &kept, &searched)?);
            let after = noted(alloc, &kept)?;
            for (place, vertex) in vertices(alloc)?.iter().enumerate() {
                if !changed.contains(vertex) {
                    assert!(rt; before[place].0 == after[place].0);
                    assert!(rt; before[place].1.as_slice() == after[place].1.as_slice());
                    stayed += 1;
                }
            }
        }
    }
    assert!(rt; stayed > 12 * 30 * 9);
    Ok(())
}

#[test]
fn an_edge_that_goes_takes_what_is_behind(rt: HostRuntime) -> Result<(), Fail> {
    let alloc = rt.alloc();
    let kept = KeptPaths::of(alloc, &line(alloc, 100, 5)?, ROOT)?;
    let mut changed = Vec::new(alloc);
    let last = edge(router(97), router(98), 5, 98);
    let kept = kept.shrink(alloc, &[last], &mut changed)?;
    changed.sort_unstable();
    assert!(rt; changed.as_slice() == [router(98), router(99)].as_slice());
    assert_eq!(rt; kept.distance_of(router(97)), Some(97 * 5));
    assert_eq!(rt; kept.distance_of(router(98)), None);
    assert_eq!(rt; kept.shortest(alloc)?.settled.len(), 98);
    Ok(())
}

#[test]
fn a_parallel_edge_that_goes_takes_its_start(rt: HostRuntime) -> Result<(), Fail> {
    let alloc = rt.alloc();
    let first = edge(ROOT, router(1), 3, 8);
    let second = edge(ROOT, router(1), 3, 9);
    let dearer = edge(ROOT, router(1), 4, 10);
    let kept = KeptPaths::of(alloc, &[first, second, dearer], ROOT)?;
    let mut changed = Vec::new(alloc);
    let kept = kept.shrink(alloc, &[dearer], &mut changed)?;
    assert!(rt; changed.is_empty());
    let kept = kept.shrink(alloc, &[first], &mut changed)?;
    assert!(rt; changed.contains(&router(1)));
    let left = [Start::Hop(NextHop::PointToPoint {
        local: Addr(9),
        router: RouterId(1),
    })];
    assert!(rt; starts_kept(alloc, &kept, router(1))?.as_slice() == left.as_slice());
    assert_eq!(rt; kept.distance_of(router(1)), Some(3));
    Ok(())
}
