//! Tables that are kept while LSAs come, change and go, beside tables that are made of all LSAs.

use super::made::{key_of, link, lsa_of, stub, to};
use ospf_base::{Kind, LsaKey, RouterId};
use ospf_lsa::{Link, LinkKind, Lsa};
use ospf_lsdb::Lsdb;
use ospf_router::{KeptRoutes, Outputs};
use ospf_spf::RouteTable;
use rand_core::utils::NextWord;
use rand_pcg::Pcg32;
use std::alloc::Global;
use std::process::Abort;
use std::test::Fail;

const ROUTERS: u32 = 7;
const NETWORKS: u32 = 3;
const STEPS: u64 = 400;

// Prefixes at one router alone, so that most changes touch few of all.
const OWN_STUBS: u32 = 6;

const ROOT: RouterId = RouterId(1);

// The mask of each network, and of each stub.
const MASK: u32 = 0xffff_ff00;

fn router_of(number: u32) -> RouterId {
    RouterId(number + 1)
}

// The Link State ID of a network, and its prefix.
fn network_of(number: u32) -> u32 {
    0x0a01_0001 + (number << 8)
}

// What the routers and the networks of an area tell, and how often they told it.
#[derive(Drop)]
struct Area {
    links: Vec<Vec<Link>>,
    members: Vec<Vec<RouterId>>,
    number: i32,
}

fn empty_area(alloc: Global) -> Result<Area, Fail> {
    let mut links = Vec::new(alloc);
    for router in 0..ROUTERS {
        let mut own = Vec::new(alloc);
        for number in 0..OWN_STUBS {
            own.push(stub(0x0a04_0000 | router << 12 | number << 8, MASK, 1))?;
        }
        links.push(own)?;
    }
    let mut members = Vec::new(alloc);
    for _ in 0..NETWORKS {
        members.push(Vec::new(alloc))?;
    }
    Ok(Area {
        links,
        members,
        number: 1,
    })
}

// A link of a type that the drawing says, at a small cost, so that many ways cost the same.
fn drawn_link(own: u32, chance: &mut Pcg32) -> Link {
    let metric = 1 + (chance.next_word() % 3) as u16;
    let other = router_of(chance.next_word() % ROUTERS);
    let network = network_of(chance.next_word() % NETWORKS);
    match chance.next_word() % 5 {
        0 | 1 => to(other, 0x0a02_0000 | own << 8 | other.0, metric),
        2 | 3 => link(LinkKind::Transit, network, 0x0a01_0000 | own, metric),
        _ => stub(0x0a03_0000 | (chance.next_word() % 4) << 8, MASK, metric),
    }
}

// A database, and what a step brings into it.
#[derive(Drop)]
struct Stepped {
    database: Lsdb,
    out: Outputs,
}

fn empty_step(alloc: Global) -> Stepped {
    Stepped {
        database: Lsdb::new(alloc),
        out: Outputs::new(alloc),
    }
}

// Puts an LSA into the database: the root's own is issued, any other taken.
fn bring(lsa: Lsa, stepped: &mut Stepped, alloc: Global) -> Result<(), Fail> {
    let key = lsa.view().key();
    stepped.database.install(lsa, 0, true)?;
    let Some(entry) = stepped.database.get(&key) else {
        return Ok(());
    };
    if key.router == ROOT {
        stepped.out.issued.push(entry.copy(alloc)?)?;
    } else {
        stepped.out.taken.push(entry.instance())?;
    }
    Ok(())
}

fn tell_router(area: &Area, router: u32, stepped: &mut Stepped, alloc: Global) -> Result<(), Fail> {
    let links = &area.links[router as usize];
    let lsa = Lsa::router(alloc, router_of(router), area.number, links)?;
    bring(lsa, stepped, alloc)
}

fn tell_network(
    area: &Area,
    network: u32,
    by: RouterId,
    stepped: &mut Stepped,
    alloc: Global,
) -> Result<(), Fail> {
    let members = &area.members[network as usize];
    let lsa = Lsa::network(alloc, network_of(network), by, area.number, MASK, members)?;
    bring(lsa, stepped, alloc)
}

fn flush(key: &LsaKey, database: &mut Lsdb) {
    database.expire(key);
    database.remove_expired(key);
}

// One change by chance: a link or a member comes or goes, two LSAs come at once, or one is flushed.
fn change(
    area: &mut Area,
    stepped: &mut Stepped,
    chance: &mut Pcg32,
    alloc: Global,
) -> Result<(), Fail> {
    area.number += 1;
    let router = chance.next_word() % ROUTERS;
    let other = chance.next_word() % ROUTERS;
    let network = chance.next_word() % NETWORKS;
    match chance.next_word() % 16 {
        0..6 => {
            let more = drawn_link(router, chance);
            area.links[router as usize].push(more)?;
            tell_router(area, router, stepped, alloc)
        }
        6..8 => {
            area.links[router as usize].push(to(router_of(other), router, 2))?;
            area.links[other as usize].push(to(router_of(router), other, 2))?;
            tell_router(area, router, stepped, alloc)?;
            tell_router(area, other, stepped, alloc)
        }
        8..12 => {
            area.members[network as usize].push(router_of(router))?;
            tell_network(area, network, router_of(other), stepped, alloc)
        }
        12 => {
            area.members[network as usize].pop();
            tell_network(area, network, router_of(other), stepped, alloc)
        }
        13 => {
            area.links[router as usize].pop();
            tell_router(area, router, stepped, alloc)
        }
        14 => {
            let key = LsaKey {
                kind: Kind::Router,
                id: router_of(router).0,
                router: router_of(router),
            };
            flush(&key, &mut stepped.database);
            Ok(())
        }
        _ => {
            let key = LsaKey {
                kind: Kind::Network,
                id: network_of(network),
                router: router_of(other),
            };
            flush(&key, &mut stepped.database);
            Ok(())
        }
    }
}

// Whether the tables have the same routes.
fn is_same(alloc: Global, one: &RouteTable, other: &RouteTable) -> Result<bool, Fail> {
    Ok(one.changes(alloc, other)?.is_empty())
}

// What is kept of the routes: by all that the database lists, and behind each step.
#[derive(Drop)]
struct Kept {
    refreshed: KeptRoutes,
    followed: KeptRoutes,
    last: RouteTable,
}

fn nothing_kept(alloc: Global) -> Kept {
    Kept {
        refreshed: KeptRoutes::new(ROOT, alloc),
        followed: KeptRoutes::new(ROOT, alloc),
        last: RouteTable::empty(alloc),
    }
}

// Follows a step both ways, beside the table of all LSAs.
fn follow(
    kept: &mut Kept,
    stepped: &Stepped,
    alloc: Global,
    rt: &impl Abort,
) -> Result<(), Fail> {
    let database = &stepped.database;
    let refreshed = kept.refreshed.refresh(database, alloc)?;
    let followed = kept.followed.follow(&stepped.out, database, alloc)?;
    let whole = RouteTable::of(alloc, &database.listing(alloc)?, ROOT)?;
    assert!(rt; is_same(alloc, kept.refreshed.table(), &whole)?);
    assert!(rt; is_same(alloc, kept.followed.table(), &whole)?);
    let is_other = !is_same(alloc, &kept.last, &whole)?;
    assert_eq!(rt; refreshed, is_other);
    assert_eq!(rt; followed, is_other);
    kept.last = whole;
    Ok(())
}

// Whether what is kept was listed anew: else the LSAs that stayed have the ages of when they came.
fn is_listed_anew(kept: &KeptRoutes, database: &Lsdb) -> bool {
    let Some(listing) = kept.listing() else {
        return false;
    };
    for lsa in listing.lsas() {
        let view = lsa.view();
        let age = view.header().age.ticks();
        let Some(entry) = database.get(&view.key()) else {
            return false;
        };
        if entry.age().ticks() != age {
            return false;
        }
    }
    true
}

#[test]
fn kept_tables_are_those_of_all_lsas(rt: HostRuntime) -> Result<(), Fail> {
    let alloc = rt.alloc();
    let mut went_on = 0;
    let mut listed_anew = 0;
    for seed in 0..8 {
        let mut chance = Pcg32::new(seed, 5);
        let mut area = empty_area(alloc)?;
        let mut stepped = empty_step(alloc);
        let mut kept = nothing_kept(alloc);
        for _ in 0..STEPS {
            stepped.out = Outputs::new(alloc);
            // So that the ages tell what was listed when.
            let _looks = stepped.database.tick();
            let before = stepped.database.fresh();
            change(&mut area, &mut stepped, &mut chance, alloc)?;
            follow(&mut kept, &stepped, alloc, &rt)?;
            let is_anew = is_listed_anew(&kept.followed, &stepped.database);
            let leaves = stepped.database.fresh() < before;
            assert!(rt; is_anew || !leaves);
            let brings = !stepped.out.taken.is_empty() || !stepped.out.issued.is_empty();
            if is_anew {
                listed_anew += 1;
            } else if brings {
                went_on += 1;
            }
        }
    }
    // Both ways are taken: of 3,200 steps seven in eight bring LSAs, and the others take one out, if
    // it is there.
    assert!(rt; went_on >= 2700);
    assert!(rt; listed_anew >= 150);
    Ok(())
}

// An area in which all routers but the root have told of their links to it.
fn told_area(stepped: &mut Stepped, alloc: Global) -> Result<Area, Fail> {
    let mut area = empty_area(alloc)?;
    for router in 1..ROUTERS {
        area.links[0].push(to(router_of(router), router, 2))?;
        area.links[router as usize].push(to(ROOT, router, 2))?;
        tell_router(&area, router, stepped, alloc)?;
    }
    Ok(area)
}

#[test]
fn a_root_that_comes_reaches_all_at_once(rt: HostRuntime) -> Result<(), Fail> {
    let alloc = rt.alloc();
    let mut stepped = empty_step(alloc);
    let mut kept = nothing_kept(alloc);
    let area = told_area(&mut stepped, alloc)?;
    follow(&mut kept, &stepped, alloc, &rt)?;
    assert!(rt; kept.followed.table().routes().is_empty());
    stepped.out = Outputs::new(alloc);
    tell_router(&area, 0, &mut stepped, alloc)?;
    follow(&mut kept, &stepped, alloc, &rt)?;
    assert_eq!(rt; kept.followed.table().routes().len(), (ROUTERS * OWN_STUBS) as usize);
    Ok(())
}

#[test]
fn an_lsa_that_expires_takes_its_routes(rt: HostRuntime) -> Result<(), Fail> {
    let alloc = rt.alloc();
    let mut stepped = empty_step(alloc);
    let mut kept = nothing_kept(alloc);
    let area = told_area(&mut stepped, alloc)?;
    tell_router(&area, 0, &mut stepped, alloc)?;
    follow(&mut kept, &stepped, alloc, &rt)?;
    stepped.out = Outputs::new(alloc);
    stepped.database.expire(&key_of(router_of(1).0));
    follow(&mut kept, &stepped, alloc, &rt)?;
    assert_eq!(rt; kept.followed.table().routes().len(), ((ROUTERS - 1) * OWN_STUBS) as usize);
    Ok(())
}

#[test]
fn an_lsa_that_is_taken_at_max_age_is_not_listed(rt: HostRuntime) -> Result<(), Fail> {
    let alloc = rt.alloc();
    let mut stepped = empty_step(alloc);
    let mut kept = nothing_kept(alloc);
    let area = told_area(&mut stepped, alloc)?;
    tell_router(&area, 0, &mut stepped, alloc)?;
    follow(&mut kept, &stepped, alloc, &rt)?;
    stepped.out = Outputs::new(alloc);
    bring(lsa_of(alloc, router_of(1).0, 9, 3600)?, &mut stepped, alloc)?;
    follow(&mut kept, &stepped, alloc, &rt)?;
    assert_eq!(rt; kept.followed.table().routes().len(), ((ROUTERS - 1) * OWN_STUBS) as usize);
    Ok(())
}

#[test]
fn a_stub_that_goes_takes_one_route(rt: HostRuntime) -> Result<(), Fail> {
    let alloc = rt.alloc();
    let mut stepped = empty_step(alloc);
    let mut kept = nothing_kept(alloc);
    let mut area = told_area(&mut stepped, alloc)?;
    tell_router(&area, 0, &mut stepped, alloc)?;
    follow(&mut kept, &stepped, alloc, &rt)?;
    area.number += 1;
    area.links[1].remove(0);
    stepped.out = Outputs::new(alloc);
    tell_router(&area, 1, &mut stepped, alloc)?;
    follow(&mut kept, &stepped, alloc, &rt)?;
    assert_eq!(rt; kept.followed.table().routes().len(), (ROUTERS * OWN_STUBS - 1) as usize);
    Ok(())
}

#[test]
fn of_two_network_lsas_that_of_the_larger_router_counts(rt: HostRuntime) -> Result<(), Fail> {
    let alloc = rt.alloc();
    let mut stepped = empty_step(alloc);
    let mut kept = nothing_kept(alloc);
    let mut area = empty_area(alloc)?;
    area.links[0].push(link(LinkKind::Transit, network_of(0), 0x0a01_0001, 1))?;
    area.members[0].push(ROOT)?;
    tell_router(&area, 0, &mut stepped, alloc)?;
    tell_network(&area, 0, RouterId(2), &mut stepped, alloc)?;
    follow(&mut kept, &stepped, alloc, &rt)?;
    assert_eq!(rt; kept.followed.table().routes().len(), OWN_STUBS as usize + 1);
    // The second one does not name the root.
    area.members[0].clear();
    area.members[0].push(RouterId(3))?;
    stepped.out = Outputs::new(alloc);
    tell_network(&area, 0, RouterId(3), &mut stepped, alloc)?;
    follow(&mut kept, &stepped, alloc, &rt)?;
    assert_eq!(rt; kept.followed.table().routes().len(), OWN_STUBS as usize);
    // One of a smaller router changes nothing.
    stepped.out = Outputs::new(alloc);
    tell_network(&area, 0, RouterId(2), &mut stepped, alloc)?;
    follow(&mut kept, &stepped, alloc, &rt)?;
    assert_eq!(rt; kept.followed.table().routes().len(), OWN_STUBS as usize);
    // Without the second one the first counts again.
    area.members[0].push(ROOT)?;
    stepped.out = Outputs::new(alloc);
    tell_network(&area, 0, RouterId(2), &mut stepped, alloc)?;
    let second = LsaKey {
        kind: Kind::Network,
        id: network_of(0),
        router: RouterId(3),
    };
    flush(&second, &mut stepped.database);
    follow(&mut kept, &stepped, alloc, &rt)?;
    assert_eq!(rt; kept.followed.table().routes().len(), OWN_STUBS as usize + 1);
    Ok(())
}
