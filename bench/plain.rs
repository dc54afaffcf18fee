//! The table of `ospfd table` in plain Rust, with no proof: a yardstick of time, and a second reading of the rules.
//!
//! `plain ROOT` reads LSAs as lines of hexadecimal text, sums checked and all else taken for granted, and prints the
//! routes of ROOT. On standard error it prints the microseconds of reading, calculation and printing.
use std::cmp::Reverse;
use std::collections::{BTreeMap, BinaryHeap, HashMap, HashSet};
use std::io::{Read, Write};
use std::net::Ipv4Addr;
use std::time::Instant;

#[derive(Clone, Copy, PartialEq, Eq, PartialOrd, Ord)]
enum Hop {
    Attached,
    PointToPoint { local: u32, router: u32 },
    Lan { local: u32, router: u32, address: u32 },
}

struct Link {
    id: u32,
    link_data: u32,
    kind: u8,
    metric: u64,
}

struct Network {
    mask: u32,
    attached: Vec<u32>,
}

#[derive(Default)]
struct Database {
    routers: BTreeMap<u32, Vec<Link>>,
    networks: BTreeMap<u32, Network>,
}

struct Edge {
    to: usize,
    cost: u64,
    link_data: u32,
}

struct Route {
    cost: u64,
    hops: Vec<Hop>,
    network: Option<u32>,
}

type Routes = BTreeMap<(u32, u32), Route>;

fn two(bytes: &[u8], at: usize) -> u16 {
    u16::from_be_bytes([bytes[at], bytes[at + 1]])
}

fn four(bytes: &[u8], at: usize) -> u32 {
    u32::from_be_bytes([bytes[at], bytes[at + 1], bytes[at + 2], bytes[at + 3]])
}

fn sum_holds(lsa: &[u8]) -> bool {
    let (mut low, mut high) = (0u32, 0u32);
    for chunk in lsa[2..].chunks(4096) {
        for byte in chunk {
            low += u32::from(*byte);
            high += low;
        }
        low %= 255;
        high %= 255;
    }
    low == 0 && high == 0
}

fn bytes_of(line: &str) -> Vec<u8> {
    let digit = |c: u8| (c as char).to_digit(16).expect("a hexadecimal digit") as u8;
    line.as_bytes().chunks(2).map(|pair| digit(pair[0]) << 4 | digit(pair[1])).collect()
}

fn read(text: &str) -> Database {
    let mut database = Database::default();
    for line in text.lines() {
        let lsa = bytes_of(line);
        assert!(sum_holds(&lsa), "a right sum");
        let (id, router, body) = (four(&lsa, 4), four(&lsa, 8), &lsa[20..]);
        if lsa[3] == 1 {
            let mut links = Vec::new();
            let mut at = 4;
            for _ in 0..two(body, 2) {
                links.push(Link {
                    id: four(body, at),
                    link_data: four(body, at + 4),
                    kind: body[at + 8],
                    metric: u64::from(two(body, at + 10)),
                });
                at += 12 + 4 * usize::from(body[at + 9]);
            }
            database.routers.insert(router, links);
        } else {
            let attached = (1..body.len() / 4).map(|i| four(body, 4 * i)).collect();
            database.networks.insert(id, Network { mask: four(body, 0), attached });
        }
    }
    database
}

// The edges from each vertex: routers first, then networks, both in order.
fn edges(database: &Database, places: &HashMap<u32, usize>, networks: &HashMap<u32, usize>) -> Vec<Vec<Edge>> {
    let mut neighbours = HashSet::new();
    let mut own_address = HashMap::new();
    for (router, links) in &database.routers {
        for link in links {
            match link.kind {
                1 => drop(neighbours.insert((*router, link.id))),
                2 => drop(own_address.entry((*router, link.id)).or_insert(link.link_data)),
                _ => {}
            }
        }
    }
    let of_links = database.routers.iter().map(|(router, links)| {
        let mut found = Vec::new();
        for link in links {
            let to = match link.kind {
                1 if neighbours.contains(&(link.id, *router)) => places.get(&link.id),
                2 if database.networks.get(&link.id).is_some_and(|n| n.attached.contains(router)) => networks.get(&link.id),
                _ => None,
            };
            if let Some(to) = to {
                found.push(Edge { to: *to, cost: link.metric, link_data: link.link_data });
            }
        }
        found
    });
    let of_networks = database.networks.iter().map(|(id, network)| {
        let mut found = Vec::new();
        for router in &network.attached {
            if let (Some(to), Some(address)) = (places.get(router), own_address.get(&(*router, *id))) {
                found.push(Edge { to: *to, cost: 0, link_data: *address });
            }
        }
        found
    });
    of_links.chain(of_networks).collect()
}

fn merge(into: &mut Vec<Hop>, from: &[Hop]) {
    for hop in from {
        if let Err(place) = into.binary_search(hop) {
            into.insert(place, *hop);
        }
    }
}

// The least cost of each vertex and its hops, networks before routers of one cost.
fn search(edges: &[Vec<Edge>], names: &[u32], root: usize) -> (Vec<u64>, Vec<Vec<Hop>>) {
    let mut costs = vec![u64::MAX; edges.len()];
    let mut hops: Vec<Vec<Hop>> = vec![Vec::new(); edges.len()];
    let mut done = vec![false; edges.len()];
    let mut heap = BinaryHeap::new();
    costs[root] = 0;
    heap.push(Reverse((0, true, root)));
    while let Some(Reverse((cost, _, from))) = heap.pop() {
        if std::mem::replace(&mut done[from], true) {
            continue;
        }
        let own_network = hops[from].contains(&Hop::Attached);
        for edge in &edges[from] {
            let (to, reached) = (edge.to, cost + edge.cost);
            if done[to] || reached > costs[to] {
                continue;
            }
            let is_router = to < names.len();
            let new: Vec<Hop> = if from == root && is_router {
                vec![Hop::PointToPoint { local: edge.link_data, router: names[to] }]
            } else if from == root {
                vec![Hop::Attached]
            } else if own_network {
                let behind = hops[from].iter().copied().filter(|hop| *hop != Hop::Attached);
                let first = edges[root].iter().filter(|e| e.to == from && e.cost == cost);
                let across = first.map(|e| Hop::Lan { local: e.link_data, router: names[to], address: edge.link_data });
                behind.chain(across).collect()
            } else {
                hops[from].clone()
            };
            if reached < costs[to] {
                costs[to] = reached;
                hops[to].clear();
                heap.push(Reverse((reached, is_router, to)));
            }
            merge(&mut hops[to], &new);
        }
    }
    (costs, hops)
}

fn table(database: &Database, root: u32) -> Routes {
    let names: Vec<u32> = database.routers.keys().copied().collect();
    let places = names.iter().enumerate().map(|(place, name)| (*name, place)).collect::<HashMap<_, _>>();
    let networks = database.networks.keys().enumerate().map(|(place, id)| (*id, names.len() + place)).collect();
    let mut routes = Routes::new();
    let Some(root) = places.get(&root).copied() else {
        return routes;
    };
    let (costs, mut hops) = search(&edges(database, &places, &networks), &names, root);
    hops[root] = vec![Hop::Attached];
    for (id, network) in &database.networks {
        let vertex = networks[id];
        let (cost, prefix) = (costs[vertex], (id & network.mask, network.mask.leading_ones()));
        let better = |route: &Route| cost < route.cost || cost == route.cost && route.network < Some(*id);
        if cost < u64::MAX && routes.get(&prefix).is_none_or(better) {
            routes.insert(prefix, Route { cost, hops: hops[vertex].clone(), network: Some(*id) });
        }
    }
    for (place, links) in database.routers.values().enumerate().filter(|(place, _)| costs[*place] < u64::MAX) {
        for link in links.iter().filter(|link| link.kind == 3) {
            let prefix = (link.id & link.link_data, link.link_data.leading_ones());
            let cost = costs[place] + link.metric;
            match routes.get_mut(&prefix) {
                Some(route) if route.cost < cost => {}
                Some(route) if route.cost == cost => merge(&mut route.hops, &hops[place]),
                _ => drop(routes.insert(prefix, Route { cost, hops: hops[place].clone(), network: None })),
            }
        }
    }
    routes
}

fn hop_text(hop: &Hop) -> String {
    let dotted = |address: &u32| Ipv4Addr::from(*address);
    match hop {
        Hop::Attached => "attached".to_string(),
        Hop::PointToPoint { local, router } => format!("{}>{}", dotted(local), dotted(router)),
        Hop::Lan { local, router, address } => format!("{}>{}@{}", dotted(local), dotted(router), dotted(address)),
    }
}

fn print(routes: &Routes) -> std::io::Result<()> {
    let mut out = std::io::BufWriter::new(std::io::stdout().lock());
    for ((address, length), route) in routes {
        let hops: Vec<String> = route.hops.iter().map(hop_text).collect();
        writeln!(out, "{}/{length} {} {}", Ipv4Addr::from(*address), route.cost, hops.join(","))?;
    }
    out.flush()
}

fn main() {
    let root = std::env::args().nth(1).expect("a root").parse::<Ipv4Addr>().expect("an address");
    let begun = Instant::now();
    let mut text = String::new();
    std::io::stdin().read_to_string(&mut text).expect("text");
    let database = read(&text);
    let was_read = Instant::now();
    let routes = table(&database, root.into());
    let calculated = Instant::now();
    print(&routes).expect("standard output");
    let parts = [was_read - begun, calculated - was_read, calculated.elapsed()];
    eprintln!("{} {} {}", parts[0].as_micros(), parts[1].as_micros(), parts[2].as_micros());
}
