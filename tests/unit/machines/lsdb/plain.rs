//! A database that a reader sees through at once: one vector in the order of the keys, whose ages each tick raises.

use ospf_base::{Age, LsaKey, MAX_AGE};
use ospf_lsa::{Lsa, LsaHeader};
use ospf_lsdb::LS_REFRESH_TIME;
use std::alloc::{AllocError, Global};

// What the database tells of an entry.
#[derive(Clone, Copy, PartialEq)]
pub struct PlainAnswer {
    pub header: LsaHeader,
    pub tick: u64,
    pub by_flooding: bool,
}

// An entry, and whether its age became a told one at the last tick.
#[derive(Drop)]
struct PlainEntry {
    lsa: Lsa,
    tick: u64,
    by_flooding: bool,
    reached: bool,
}

// Whether a tick tells that an entry has come to this age.
fn is_told(age: u16) -> bool {
    age == LS_REFRESH_TIME || age == MAX_AGE
}

impl PlainEntry {
    fn age(&self) -> u16 {
        self.lsa.view().header().age.ticks()
    }

    fn has_reached(&self, age: u16) -> bool {
        self.reached && self.age() == age
    }

    fn grow(&mut self) {
        let age = self.age();
        if age < MAX_AGE {
            self.lsa.set_age(Age::new(age.saturating_add(1)));
            self.reached = is_told(self.age());
        } else {
            self.reached = false;
        }
    }

    fn expire(&mut self) {
        if self.age() < MAX_AGE {
            self.lsa.set_age(Age::new(MAX_AGE));
            self.reached = false;
        }
    }
}

#[derive(Drop)]
pub struct PlainLsdb {
    entries: Vec<PlainEntry>,
}

impl PlainLsdb {
    pub fn new(alloc: Global) -> PlainLsdb {
        PlainLsdb {
            entries: Vec::new(alloc),
        }
    }

    // The place of the entry of a key, or else where one belongs.
    fn search(&self, key: &LsaKey) -> Result<usize, usize> {
        for (at, entry) in self.entries.iter().enumerate() {
            let here = entry.lsa.view().key();
            if key.precedes(&here) {
                return Err(at);
            }
            if !here.precedes(key) {
                return Ok(at);
            }
        }
        Err(self.entries.len())
    }

    pub fn get(&self, key: &LsaKey) -> Option<PlainAnswer> {
        let at = self.search(key).ok()?;
        let entry = &self.entries[at];
        Some(PlainAnswer {
            header: entry.lsa.view().header(),
            tick: entry.tick,
            by_flooding: entry.by_flooding,
        })
    }

    pub fn install(&mut self, lsa: Lsa, tick: u64, by_flooding: bool) -> Result<(), AllocError> {
        let key = lsa.view().key();
        let entry = PlainEntry {
            lsa,
            tick,
            by_flooding,
            reached: false,
        };
        match self.search(&key) {
            Ok(at) => self.entries[at] = entry,
            Err(at) => self.entries.insert(at, entry)?,
        }
        Ok(())
    }

    pub fn tick(&mut self) {
        for entry in self.entries.iter_mut() {
            entry.grow();
        }
    }

    // Whether there was an entry below MaxAge.
    pub fn expire(&mut self, key: &LsaKey) -> bool {
        let Ok(at) = self.search(key) else {
            return false;
        };
        let is_fresh = self.entries[at].age() < MAX_AGE;
        self.entries[at].expire();
        is_fresh
    }

    // Whether there was an entry at MaxAge.
    pub fn remove_expired(&mut self, key: &LsaKey) -> bool {
        let Ok(at) = self.search(key) else {
            return false;
        };
        if self.entries[at].age() < MAX_AGE {
            return false;
        }
        self.entries.remove(at);
        true
    }

    pub fn reached(&self, age: u16, alloc: Global) -> Result<Vec<LsaKey>, AllocError> {
        let mut keys = Vec::new(alloc);
        for entry in &self.entries {
            if entry.has_reached(age) {
                keys.push(entry.lsa.view().key())?;
            }
        }
        Ok(keys)
    }

    // The keys of the LSAs at MaxAge.
    pub fn expired_keys(&self, alloc: Global) -> Result<Vec<LsaKey>, AllocError> {
        let mut keys = Vec::new(alloc);
        for entry in &self.entries {
            if entry.age() == MAX_AGE {
                keys.push(entry.lsa.view().key())?;
            }
        }
        Ok(keys)
    }

    // The LSAs below MaxAge.
    pub fn fresh(&self, alloc: Global) -> Result<Vec<&Lsa>, AllocError> {
        let mut fresh = Vec::new(alloc);
        for entry in &self.entries {
            if entry.age() < MAX_AGE {
                fresh.push(&entry.lsa)?;
            }
        }
        Ok(fresh)
    }
}
