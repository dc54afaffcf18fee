//! Ages that come to LSRefreshTime and MaxAge, what a database lists, and a database beside a plain one.

use super::made::{FIRST_NUMBER, key_of};
use ospf_base::{Age, MAX_AGE};
use ospf_lsa::Lsa;
use ospf_lsdb::{LS_REFRESH_TIME, Lsdb};
use rand_core::utils::NextWord;
use rand_pcg::Pcg32;
use std::alloc::Global;
use std::test::Fail;

mod plain;

use self::plain::{PlainAnswer, PlainLsdb};

// How many routers have LSAs in the two databases.
const ROUTERS: u32 = 8;

// How many have them in one whose expired keys are walked for.
const MANY_ROUTERS: u32 = 40;

// The router-LSA of a router without links, at an age.
fn lsa_of(alloc: Global, router: u32, age: u16) -> Result<Lsa, Fail> {
    super::made::lsa_of(alloc, router, FIRST_NUMBER, age)
}

// How many keys came to an age at the last tick.
fn count_reached(lsdb: &Lsdb, age: u16) -> usize {
    lsdb.reached(age).count()
}

#[test]
fn a_tick_looks_only_at_what_is_due(rt: HostRuntime) -> Result<(), Fail> {
    let alloc = rt.alloc();
    let mut lsdb = Lsdb::new(alloc);
    for router in 0..1000 {
        lsdb.install(lsa_of(alloc, router, 0)?, 0, false)?;
    }
    for _ in 1..LS_REFRESH_TIME {
        assert_eq!(rt; lsdb.tick(), 0);
    }
    assert!(rt; lsdb.tick() <= 1000);
    assert_eq!(rt; count_reached(&lsdb, LS_REFRESH_TIME), 1000);
    for _ in LS_REFRESH_TIME + 1..MAX_AGE {
        assert_eq!(rt; lsdb.tick(), 0);
    }
    assert_eq!(rt; lsdb.listing(alloc)?.lsas().len(), 1000);
    assert!(rt; lsdb.tick() <= 1000);
    assert_eq!(rt; count_reached(&lsdb, MAX_AGE), 1000);
    assert_eq!(rt; lsdb.listing(alloc)?.lsas().len(), 0);
    assert_eq!(rt; lsdb.tick(), 0);
    assert_eq!(rt; count_reached(&lsdb, MAX_AGE), 0);
    Ok(())
}

#[test]
fn moments_bring_to_an_age(rt: HostRuntime) -> Result<(), Fail> {
    let alloc = rt.alloc();
    let mut lsdb = Lsdb::new(alloc);
    lsdb.install(lsa_of(alloc, 1, 1799)?, 7, true)?;
    lsdb.install(lsa_of(alloc, 2, 1800)?, 7, false)?;
    lsdb.install(lsa_of(alloc, 3, 3600)?, 7, false)?;
    assert_eq!(rt; count_reached(&lsdb, LS_REFRESH_TIME), 0);
    assert_eq!(rt; count_reached(&lsdb, MAX_AGE), 0);
    lsdb.tick();
    let mut reached = lsdb.reached(LS_REFRESH_TIME);
    assert_eq!(rt; reached.next(), Some(key_of(1)));
    assert_eq!(rt; reached.next(), None);
    for _ in 1801..MAX_AGE {
        assert_eq!(rt; count_reached(&lsdb, MAX_AGE), 0);
        lsdb.tick();
        assert_eq!(rt; count_reached(&lsdb, LS_REFRESH_TIME), 0);
    }
    assert_eq!(rt; lsdb.reached(MAX_AGE).next(), Some(key_of(2)));
    Ok(())
}

#[test]
fn a_newer_one_has_moments_of_its_own(rt: HostRuntime) -> Result<(), Fail> {
    let alloc = rt.alloc();
    let mut lsdb = Lsdb::new(alloc);
    lsdb.install(lsa_of(alloc, 0, 0)?, 0, false)?;
    for tick in 1..=1810 {
        lsdb.tick();
        if tick == 10 {
            lsdb.install(lsa_of(alloc, 0, 0)?, 10, true)?;
        }
        if tick == 1800 {
            assert_eq!(rt; count_reached(&lsdb, LS_REFRESH_TIME), 0);
        }
    }
    assert_eq!(rt; lsdb.reached(LS_REFRESH_TIME).next(), Some(key_of(0)));
    lsdb.install(lsa_of(alloc, 0, 1800)?, 1810, true)?;
    assert_eq!(rt; count_reached(&lsdb, LS_REFRESH_TIME), 0);
    Ok(())
}

#[test]
fn one_expires_at_its_moment(rt: HostRuntime) -> Result<(), Fail> {
    let alloc = rt.alloc();
    let mut lsdb = Lsdb::new(alloc);
    lsdb.install(lsa_of(alloc, 1, 3599)?, 0, false)?;
    assert_eq!(rt; lsdb.listing(alloc)?.lsas().len(), 1);
    assert_eq!(rt; (lsdb.fresh(), lsdb.expired()), (1, 0));
    assert!(rt; !lsdb.remove_expired(&key_of(1)));
    assert_eq!(rt; lsdb.tick(), 1);
    assert_eq!(rt; lsdb.listing(alloc)?.lsas().len(), 0);
    assert_eq!(rt; (lsdb.fresh(), lsdb.expired()), (0, 1));
    assert!(rt; lsdb.remove_expired(&key_of(1)));
    assert_eq!(rt; (lsdb.fresh(), lsdb.expired()), (0, 0));
    assert!(rt; lsdb.get(&key_of(1)).is_none());
    assert!(rt; !lsdb.remove_expired(&key_of(1)));
    Ok(())
}

#[test]
fn the_clock_goes_round(rt: HostRuntime) -> Result<(), Fail> {
    let alloc = rt.alloc();
    let mut lsdb = Lsdb::new(alloc);
    for _ in 0..65_000 {
        lsdb.tick();
    }
    lsdb.install(lsa_of(alloc, 4, 0)?, 65_000, false)?;
    lsdb.install(lsa_of(alloc, 5, 3600)?, 65_000, false)?;
    for age in 1..1800 {
        assert_eq!(rt; lsdb.tick(), 0);
        assert_eq!(rt;
            lsdb.get(&key_of(4)).map(|entry| entry.age()),
            Some(Age::new(age))
        );
        assert_eq!(rt; count_reached(&lsdb, LS_REFRESH_TIME), 0);
    }
    assert_eq!(rt; lsdb.tick(), 0);
    assert_eq!(rt; lsdb.reached(LS_REFRESH_TIME).next(), Some(key_of(4)));
    assert_eq!(rt;
        lsdb.get(&key_of(5)).map(|entry| entry.age()),
        Some(Age::new(MAX_AGE))
    );
    Ok(())
}

#[test]
fn a_flush_keeps_all_but_the_age(rt: HostRuntime) -> Result<(), Fail> {
    let alloc = rt.alloc();
    let mut lsdb = Lsdb::new(alloc);
    lsdb.install(lsa_of(alloc, 5, 100)?, 41, true)?;
    lsdb.tick();
    let Some(entry) = lsdb.get(&key_of(5)) else {
        assert!(rt; false, "no entry");
        return Ok(());
    };
    assert_eq!(rt; entry.age(), Age::new(101));
    assert_eq!(rt; entry.header().age, Age::new(101));
    assert_eq!(rt; entry.copy(alloc)?.view().header(), entry.header());
    assert!(rt; lsdb.expire(&key_of(5)));
    assert!(rt; !lsdb.expire(&key_of(5)));
    assert!(rt; !lsdb.expire(&key_of(6)));
    let Some(entry) = lsdb.get(&key_of(5)) else {
        assert!(rt; false, "no entry");
        return Ok(());
    };
    assert_eq!(rt; entry.age(), Age::new(MAX_AGE));
    assert_eq!(rt; entry.lsa().key(), key_of(5));
    assert_eq!(rt; entry.tick(), 41);
    assert!(rt; entry.by_flooding());
    assert_eq!(rt; count_reached(&lsdb, MAX_AGE), 0);
    Ok(())
}

// Whether two databases tell the same of all that a caller can ask.
fn tell_the_same(one: &Lsdb, other: &PlainLsdb, alloc: Global) -> Result<bool, Fail> {
    for router in 0..ROUTERS {
        let key = key_of(router);
        let told = one.get(&key).map(|entry| PlainAnswer {
            header: entry.header(),
            tick: entry.tick(),
            by_flooding: entry.by_flooding(),
        });
        if told != other.get(&key) {
            return Ok(false);
        }
    }
    for age in [LS_REFRESH_TIME, MAX_AGE] {
        let plain = other.reached(age, alloc)?;
        if !one.reached(age).eq(plain.iter().copied()) {
            return Ok(false);
        }
    }
    let expired = other.expired_keys(alloc)?;
    if one.expired_keys() != expired.as_slice() || one.expired() != expired.len() {
        return Ok(false);
    }
    let listing = one.listing(alloc)?;
    let plain = other.fresh(alloc)?;
    if listing.lsas().len() != plain.len() || one.fresh() != plain.len() {
        return Ok(false);
    }
    for (x, y) in listing.lsas().iter().zip(plain.iter()) {
        if x.view().as_bytes() != y.view().as_bytes() {
            return Ok(false);
        }
    }
    Ok(true)
}

#[test]
fn both_answer_alike(rt: HostRuntime) -> Result<(), Fail> {
    let alloc = rt.alloc();
    let mut one = Lsdb::new(alloc);
    let mut other = PlainLsdb::new(alloc);
    let mut words = Pcg32::new(8, 54);
    let ages = [0, 1, 1799, 1800, 1801, 3598, 3599, 3600];
    for step in 0..40_000u64 {
        let word = words.next_word();
        let router = (word >> 8) % ROUTERS;
        let key = key_of(router);
        match word % 256 {
            0..16 => {
                let age = ages[((word >> 12) % 8) as usize];
                let by_flooding = word >> 31 == 1;
                one.install(lsa_of(alloc, router, age)?, step, by_flooding)?;
                other.install(lsa_of(alloc, router, age)?, step, by_flooding)?;
            }
            16..18 => assert_eq!(rt; one.expire(&key), other.expire(&key)),
            18..24 => assert_eq!(rt; one.remove_expired(&key), other.remove_expired(&key)),
            _ => {
                one.tick();
                other.tick();
            }
        }
        assert!(rt; tell_the_same(&one, &other, alloc)?, "at step {step}");
    }
    Ok(())
}

// Whether a database names the keys of its entries at MaxAge as a walk over all of them finds them.
fn names_the_expired(lsdb: &Lsdb) -> bool {
    let mut walked = 0;
    for entry in lsdb.entries() {
        if entry.age() == Age::new(MAX_AGE) {
            if lsdb.expired_keys().get(walked) != Some(&entry.key()) {
                return false;
            }
            walked += 1;
        }
    }
    lsdb.expired_keys().len() == walked
}

#[test]
fn the_expired_are_named_as_a_walk_finds_them(rt: HostRuntime) -> Result<(), Fail> {
    let alloc = rt.alloc();
    let mut lsdb = Lsdb::new(alloc);
    let mut words = Pcg32::new(21, 54);
    let ages = [0, 3590, 3597, 3598, 3599, 3600];
    let mut most = 0;
    for step in 0..20_000u64 {
        let word = words.next_word();
        let router = (word >> 8) % MANY_ROUTERS;
        let key = key_of(router);
        match word % 16 {
            0..6 => {
                let age = ages[((word >> 20) % 6) as usize];
                lsdb.install(lsa_of(alloc, router, age)?, step, false)?;
            }
            6..8 => {
                lsdb.expire(&key);
            }
            8..12 => {
                lsdb.remove_expired(&key);
            }
            _ => {
                lsdb.tick();
            }
        }
        assert!(rt; names_the_expired(&lsdb), "at step {step}");
        most = most.max(lsdb.expired());
    }
    // Keys went in and out between others.
    assert!(rt; most > 10);
    Ok(())
}
