//! The table of acknowledgements, over a link.

use super::super::made::lsa_of;
use super::{
    FIRST, FROM_FIRST, FROM_SECOND, FROM_THIRD, acknowledged, area, delayed, installs, links,
    stores, takes,
};
use ospf_area::{Area, PacketSource, Outputs, answer_at};
use ospf_base::MAX_AGE;
use ospf_flood::{Acknowledgement, AcknowledgementCase};
use ospf_neighbour::iface::IfaceState;
use std::alloc::Global;
use std::test::Fail;

use AcknowledgementCase::{Expired, FloodedBack, Implied, NotFloodedBack, NotImplied};

// What the router has of the LSA, so that an Update with it is this case.
fn prepares(area: &mut Area, case: AcknowledgementCase, alloc: Global) -> Result<(), Fail> {
    match case {
        Implied => stores(area, FIRST, 10, alloc),
        NotImplied => installs(area, FIRST, 10, alloc),
        FloodedBack | NotFloodedBack | Expired => Ok(()),
    }
}

fn age_in(case: AcknowledgementCase) -> u16 {
    match case {
        Expired => MAX_AGE,
        _ => 10,
    }
}

// Takes an Update of this case. Answers how many acknowledgements go out directly.
fn acknowledges(
    area: &mut Area,
    case: AcknowledgementCase,
    from: PacketSource,
    alloc: Global,
) -> Result<usize, Fail> {
    let lsa = lsa_of(alloc, 7, FIRST, age_in(case))?;
    let mut out = Outputs::new(alloc);
    takes(area, from, lsa, &mut out, alloc)?;
    acknowledged(&out)
}

// How many acknowledgements go out directly, and how many wait, by an Update of this case.
fn answered(
    case: AcknowledgementCase,
    state: IfaceState,
    from: PacketSource,
    alloc: Global,
) -> Result<(usize, usize), Fail> {
    let mut area = area(alloc, state, &[])?;
    prepares(&mut area, case, alloc)?;
    let direct = acknowledges(&mut area, case, from, alloc)?;
    Ok((direct, delayed(&area)))
}

// What the Backup answers its Designated Router, and the other neighbour.
fn backup_answered(
    case: AcknowledgementCase,
    alloc: Global,
) -> Result<((usize, usize), (usize, usize)), Fail> {
    let from_dr = answered(case, IfaceState::Backup, FROM_FIRST, alloc)?;
    let from_other = answered(case, IfaceState::Backup, FROM_SECOND, alloc)?;
    Ok((from_dr, from_other))
}

#[test]
fn cells_of_the_backup(rt: HostRuntime) -> Result<(), Fail> {
    for (case, from_dr, from_other) in [
        (NotFloodedBack, (0, 1), (0, 0)),
        (Implied, (0, 1), (0, 0)),
        (NotImplied, (1, 0), (1, 0)),
        (Expired, (1, 0), (1, 0)),
    ] {
        let answers = backup_answered(case, rt.alloc())?;
        assert_eq!(rt; answers, (from_dr, from_other), "{case:?}");
    }
    Ok(())
}

#[test]
fn cells_of_other_states(rt: HostRuntime) -> Result<(), Fail> {
    for (case, state, from, want) in [
        (FloodedBack, IfaceState::Dr, FROM_SECOND, (0, 0)),
        (NotFloodedBack, IfaceState::DrOther, FROM_FIRST, (0, 1)),
        (NotFloodedBack, IfaceState::DrOther, FROM_SECOND, (0, 1)),
        (NotFloodedBack, IfaceState::Dr, FROM_THIRD, (0, 1)),
        (Implied, IfaceState::DrOther, FROM_FIRST, (0, 0)),
        (Implied, IfaceState::Dr, FROM_SECOND, (0, 0)),
        (NotImplied, IfaceState::DrOther, FROM_FIRST, (1, 0)),
        (Expired, IfaceState::Dr, FROM_SECOND, (1, 0)),
    ] {
        let answer = answered(case, state, from, rt.alloc())?;
        assert_eq!(rt; answer, want, "{case:?} {state:?}");
    }
    Ok(())
}

// The tenth cell, which no Update comes to: a Backup floods nothing back.
#[test]
fn the_backup_floods_nothing_back(rt: HostRuntime) -> Result<(), Fail> {
    let links = links(rt.alloc(), IfaceState::Backup, &[])?;
    for from in [FROM_FIRST, FROM_SECOND] {
        assert_eq!(rt; answer_at(&links, FloodedBack, from), Acknowledgement::None);
    }
    Ok(())
}
