//! LSAs that expire or are flushed, and leave.

use super::super::made::{lsa_of, require};
use super::{
    FIRST, FROM_FIRST, FROM_SECOND, FROM_THIRD, all_waiting, area, header_of, holding, installs,
    loading_area,
};
use ospf_area::{Area, Numbering, Outputs};
use ospf_base::{Age, Instance, Kind, LsaKey, MAX_AGE, RouterId};
use ospf_flood::LsaRule;
use ospf_neighbour::iface::IfaceState;
use ospf_area::update::{age, flush, on_header, remove, rule_met, some_awaits};
use std::alloc::Global;
use std::test::Fail;

// The number after which a router begins again.
const LAST: i32 = 0x7fff_ffff;

const KEY: LsaKey = LsaKey {
    kind: Kind::Router,
    id: 7,
    router: RouterId(7),
};

fn is_held(area: &Area) -> bool {
    area.database.get(&KEY).is_some()
}

// How many datagrams a tick sends.
fn ages(area: &mut Area, alloc: Global) -> Result<usize, Fail> {
    let mut out = Outputs::new(alloc);
    age(area, &mut out, alloc)?;
    Ok(out.sent.len())
}

// How many datagrams a flush of router 7's LSA sends.
fn flushes(area: &mut Area, alloc: Global) -> Result<usize, Fail> {
    let mut out = Outputs::new(alloc);
    flush(area, KEY, &mut out, alloc)?;
    Ok(out.sent.len())
}

// Whether router 7's LSA is still there after the end of a step.
fn stays(area: &mut Area, alloc: Global) -> Result<bool, Fail> {
    let mut out = Outputs::new(alloc);
    remove(area, &mut out, alloc)?;
    require(out.ended.is_empty())?;
    Ok(is_held(area))
}

// All three neighbours acknowledge the LSA at MaxAge.
fn all_acknowledge(area: &mut Area, alloc: Global) -> Result<(), Fail> {
    let mut header = header_of(alloc, FIRST)?;
    header.age = Age::new(MAX_AGE);
    for from in [FROM_FIRST, FROM_SECOND, FROM_THIRD] {
        on_header(area, from, &header);
    }
    Ok(())
}

// How many instances wait, and then whether router 7's LSA is still there after the end of a step.
fn waits_and_stays(area: &mut Area, alloc: Global) -> Result<((usize, usize, usize), bool), Fail> {
    let waits = all_waiting(area);
    Ok((waits, stays(area, alloc)?))
}

// How many datagrams each of two ticks sends.
fn ages_twice(area: &mut Area, alloc: Global) -> Result<(usize, usize), Fail> {
    let first = ages(area, alloc)?;
    Ok((first, ages(area, alloc)?))
}

#[test]
fn expires_and_leaves(rt: HostRuntime) -> Result<(), Fail> {
    let alloc = rt.alloc();
    let mut area = holding(FIRST, MAX_AGE - 2, alloc)?;
    let sent = ages_twice(&mut area, alloc)?;
    let expired = waits_and_stays(&mut area, alloc)?;
    all_acknowledge(&mut area, alloc)?;
    let acknowledged = waits_and_stays(&mut area, alloc)?;
    assert_eq!(rt;
        (sent, expired, acknowledged),
        ((0, 2), ((1, 1, 1), true), ((0, 0, 0), false))
    );
    Ok(())
}

#[test]
fn flushed_to_all(rt: HostRuntime) -> Result<(), Fail> {
    let alloc = rt.alloc();
    let mut area = holding(FIRST, 10, alloc)?;
    let sent = flushes(&mut area, alloc)?;
    let flushed = waits_and_stays(&mut area, alloc)?;
    assert_eq!(rt; (sent, flushed), (2, ((1, 1, 1), true)));
    Ok(())
}

// What is done with one at MaxAge without a copy.
fn rule_of_expired(area: &Area, alloc: Global) -> Result<Option<LsaRule>, Fail> {
    let expired = lsa_of(alloc, 6, FIRST, MAX_AGE)?;
    Ok(rule_met(area, FROM_FIRST, &expired.view()))
}

// While a neighbour loads none leaves, and one at MaxAge without a copy is installed.
#[test]
fn none_leaves_while_a_neighbour_loads(rt: HostRuntime) -> Result<(), Fail> {
    let alloc = rt.alloc();
    let mut area = loading_area(8, FIRST, alloc)?;
    let rule = rule_of_expired(&area, alloc)?;
    installs(&mut area, FIRST, MAX_AGE, alloc)?;
    let left = stays(&mut area, alloc)?;
    assert_eq!(rt; (rule, left), (Some(LsaRule::Installs), true));
    Ok(())
}

// Installs the router's own LSA of the last number, at MaxAge. Answers its instance.
fn installs_last(area: &mut Area, alloc: Global) -> Result<Instance, Fail> {
    let lsa = lsa_of(alloc, 9, LAST, MAX_AGE)?;
    let instance = lsa.view().instance();
    area.database.install(lsa, 5, false)?;
    Ok(instance)
}

// The end of a step. Answers the keys whose runs end.
fn ended(area: &mut Area, alloc: Global) -> Result<Vec<LsaKey>, Fail> {
    let mut out = Outputs::new(alloc);
    remove(area, &mut out, alloc)?;
    Ok(out.ended)
}

// With the last number of the router's own key its run ends, and numbers begin below the first.
#[test]
fn a_run_ends(rt: HostRuntime) -> Result<(), Fail> {
    let alloc = rt.alloc();
    let mut area = area(alloc, IfaceState::Dr, &[])?;
    let instance = installs_last(&mut area, alloc)?;
    let awaited = some_awaits(&instance, &area.links);
    let ended = ended(&mut area, alloc)?;
    let begun = Numbering {
        key: instance.key,
        kept: i32::MIN,
        issued_at: None,
    };
    assert_eq!(rt;
        (awaited, ended.as_slice(), area.numbering.as_slice()),
        (false, [instance.key].as_slice(), [begun].as_slice())
    );
    Ok(())
}
