//! The table of acknowledgements, the rules of section 13, and what LSAs do to neighbours and links.

use super::made::{header_of, key_of, lsa_of};
use super::wired::in_exchange as neighbour;
use ospf_base::{ALL_D_ROUTERS, ALL_SPF_ROUTERS, Addr, Instance, InterfaceKind, MAX_AGE, RouterId};
use ospf_flood::{
    Acknowledgement, AcknowledgementCase, LsaRule, Sender, acknowledge, case_of_newer, case_of_same,
    flood_to, flooding_address, is_due, is_flooded_out, is_sent_back, lsa_rule, sender_at,
};
use ospf_neighbour::iface::{Iface, IfaceSettings, IfaceState};
use ospf_lsa::{Lsa, LsaHeader};
use ospf_lsdb::Lsdb;
use ospf_neighbour::{Listed, Neighbour, NeighbourState};
use std::alloc::Global;
use std::test::Fail;

// 0x80000001, the number that a router uses first, and the two that follow.
const FIRST: i32 = -0x7fff_ffff;

const SECOND: i32 = -0x7fff_fffe;

const THIRD: i32 = -0x7fff_fffd;

// The number after which a router begins again.
const LAST: i32 = 0x7fff_ffff;

fn instance_of(router: u32, header: LsaHeader) -> Instance {
    Instance {
        key: key_of(router),
        number: header.number,
        sum: header.sum,
    }
}

// A database with router 7's LSA of this number and age, installed in tick 5.
fn database_of(alloc: Global, number: i32, age: u16, by_flooding: bool) -> Result<Lsdb, Fail> {
    let mut database = Lsdb::new(alloc);
    database.install(lsa_of(alloc, 7, number, age)?, 5, by_flooding)?;
    Ok(database)
}

// A neighbour in Exchange that has described router 7's LSA of this number.
fn describing(alloc: Global, number: i32) -> Result<Neighbour, Fail> {
    let header = header_of(alloc, 7, number)?;
    let mut neighbour = neighbour(alloc, 2);
    if neighbour.is_exchanging() {
        neighbour.add_requests(&[header])?;
    }
    Ok(neighbour)
}

// The interface to a link whose Designated Router is 10.0.0.1 and whose Backup is 10.0.0.2.
fn iface(kind: InterfaceKind, state: IfaceState) -> Iface {
    Iface {
        settings: IfaceSettings {
            router: RouterId(3),
            kind,
            address: Addr(0x0a00_0003),
            mask: 0xffff_ff00,
            priority: 1,
            hello: 10,
            dead: 40,
        },
        state,
        dr: Addr(0x0a00_0001),
        backup: Addr(0x0a00_0002),
        wait: 0,
        hello_in: 0,
    }
}

#[test]
fn ten_cells_of_the_table(rt: HostRuntime) -> Result<(), Fail> {
    use AcknowledgementCase::{Expired, FloodedBack, Implied, NotFloodedBack, NotImplied};
    // The case; the column Backup, from the Designated Router and from others; the other states.
    for (case, from_dr, from_others, elsewhere) in [
        (
            FloodedBack,
            Acknowledgement::None,
            Acknowledgement::None,
            Acknowledgement::None,
        ),
        (
            NotFloodedBack,
            Acknowledgement::Delayed,
            Acknowledgement::None,
            Acknowledgement::Delayed,
        ),
        (
            Implied,
            Acknowledgement::Delayed,
            Acknowledgement::None,
            Acknowledgement::None,
        ),
        (
            NotImplied,
            Acknowledgement::Direct,
            Acknowledgement::Direct,
            Acknowledgement::Direct,
        ),
        (
            Expired,
            Acknowledgement::Direct,
            Acknowledgement::Direct,
            Acknowledgement::Direct,
        ),
    ] {
        assert_eq!(rt;
            acknowledge(case, IfaceState::Backup, Sender::Dr),
            from_dr,
            "{case:?}"
        );
        for sender in [Sender::Backup, Sender::Other] {
            assert_eq!(rt;
                acknowledge(case, IfaceState::Backup, sender),
                from_others,
                "{case:?}"
            );
        }
        for state in [
            IfaceState::Waiting,
            IfaceState::PointToPoint,
            IfaceState::DrOther,
            IfaceState::Dr,
        ] {
            for sender in [Sender::Dr, Sender::Backup, Sender::Other] {
                assert_eq!(rt; acknowledge(case, state, sender), elsewhere, "{case:?}");
            }
        }
    }
    Ok(())
}

#[test]
fn cases_of_the_table(rt: HostRuntime) -> Result<(), Fail> {
    assert_eq!(rt; case_of_newer(true), AcknowledgementCase::FloodedBack);
    assert_eq!(rt; case_of_newer(false), AcknowledgementCase::NotFloodedBack);
    assert_eq!(rt; case_of_same(true), AcknowledgementCase::Implied);
    assert_eq!(rt; case_of_same(false), AcknowledgementCase::NotImplied);
    Ok(())
}

// What an LSA meets at a database.
fn rule_of(database: &Lsdb, lsa: &Lsa, loading: bool, requested: bool, tick: u64) -> LsaRule {
    let copy = database.get(&lsa.view().key());
    lsa_rule(&lsa.view().header(), copy, loading, requested, tick)
}

#[test]
fn rules_where_there_is_no_copy(rt: HostRuntime) -> Result<(), Fail> {
    let alloc = rt.alloc();
    let database = database_of(alloc, SECOND, 0, true)?;
    let expired = lsa_of(alloc, 8, FIRST, MAX_AGE)?;
    assert_eq!(rt;
        rule_of(&database, &expired, false, false, 5),
        LsaRule::AcknowledgesExpired
    );
    assert_eq!(rt;
        rule_of(&database, &expired, true, false, 5),
        LsaRule::Installs
    );
    let young = lsa_of(alloc, 8, FIRST, MAX_AGE - 1)?;
    assert_eq!(rt;
        rule_of(&database, &young, false, false, 5),
        LsaRule::Installs
    );
    Ok(())
}

#[test]
fn rules_where_there_is_a_copy(rt: HostRuntime) -> Result<(), Fail> {
    let alloc = rt.alloc();
    let flooded = database_of(alloc, SECOND, 0, true)?;
    let own = database_of(alloc, SECOND, 0, false)?;
    let later = lsa_of(alloc, 7, THIRD, 0)?;
    assert_eq!(rt; rule_of(&flooded, &later, false, true, 5), LsaRule::TooSoon);
    assert_eq!(rt;
        rule_of(&flooded, &later, false, true, 6),
        LsaRule::Installs
    );
    assert_eq!(rt; rule_of(&own, &later, false, true, 5), LsaRule::Installs);
    let same = lsa_of(alloc, 7, SECOND, 1)?;
    assert_eq!(rt;
        rule_of(&flooded, &same, false, false, 5),
        LsaRule::Duplicate
    );
    assert_eq!(rt;
        rule_of(&flooded, &same, false, true, 5),
        LsaRule::BadRequest
    );
    let earlier = lsa_of(alloc, 7, FIRST, MAX_AGE)?;
    assert_eq!(rt;
        rule_of(&flooded, &earlier, false, false, 5),
        LsaRule::Stale
    );
    assert_eq!(rt;
        rule_of(&flooded, &earlier, false, true, 5),
        LsaRule::BadRequest
    );
    Ok(())
}

#[test]
fn the_copy_goes_back_once_a_tick(rt: HostRuntime) -> Result<(), Fail> {
    let alloc = rt.alloc();
    let older = lsa_of(alloc, 7, FIRST, 0)?;
    // Number and age of the copy, and whether it goes back.
    for (number, age, goes_back) in [
        (SECOND, 0, true),
        (SECOND, MAX_AGE, true),
        (LAST, 0, true),
        (LAST, MAX_AGE, false),
    ] {
        let database = database_of(alloc, number, age, true)?;
        assert_eq!(rt; rule_of(&database, &older, false, false, 6), LsaRule::Stale);
        let copy = database.get(&key_of(7)).ok_or("no copy")?;
        assert_eq!(rt; is_sent_back(&copy, false), goes_back);
        assert!(rt; !is_sent_back(&copy, true));
    }
    Ok(())
}

#[test]
fn flooded_to_a_neighbour_that_asks_for_nothing(rt: HostRuntime) -> Result<(), Fail> {
    let alloc = rt.alloc();
    let header = header_of(alloc, 7, SECOND)?;
    let mut below = Neighbour::new(alloc, RouterId(2), Addr(2));
    assert!(rt; !flood_to(&mut below, key_of(7), &header, false, 9)?);
    assert!(rt; below.retransmission().is_empty());
    let mut sender = neighbour(alloc, 2);
    assert!(rt; !flood_to(&mut sender, key_of(7), &header, true, 9)?);
    assert!(rt; sender.retransmission().is_empty());
    let mut other = neighbour(alloc, 2);
    assert!(rt; flood_to(&mut other, key_of(7), &header, false, 9)?);
    let waiting = [Listed {
        instance: instance_of(7, header),
        sent_at: 9,
    }];
    assert_eq!(rt; other.retransmission(), waiting.as_slice());
    Ok(())
}

#[test]
fn flooded_to_a_neighbour_that_describes_the_lsa(rt: HostRuntime) -> Result<(), Fail> {
    let alloc = rt.alloc();
    // The number of the LSA, whether it came from the neighbour, and what is left to ask for and to acknowledge.
    for (number, from_it, asked, listed) in [
        (FIRST, false, 1, 0),
        (FIRST, true, 1, 0),
        (SECOND, false, 0, 0),
        (SECOND, true, 0, 0),
        (THIRD, false, 0, 1),
        (THIRD, true, 0, 0),
    ] {
        let mut neighbour = describing(alloc, SECOND)?;
        let header = header_of(alloc, 7, number)?;
        let went_on = flood_to(&mut neighbour, key_of(7), &header, from_it, 9)?;
        assert_eq!(rt; neighbour.state(), NeighbourState::Exchange);
        assert_eq!(rt; neighbour.requests().len(), asked);
        assert_eq!(rt; neighbour.retransmission().len(), listed);
        assert_eq!(rt; went_on, listed == 1);
    }
    Ok(())
}

#[test]
fn one_instance_of_a_key_waits(rt: HostRuntime) -> Result<(), Fail> {
    let alloc = rt.alloc();
    let mut neighbour = neighbour(alloc, 2);
    let (older, newer) = (header_of(alloc, 7, FIRST)?, header_of(alloc, 7, SECOND)?);
    assert!(rt; flood_to(&mut neighbour, key_of(7), &older, false, 9)?);
    assert!(rt; flood_to(&mut neighbour, key_of(8), &older, false, 9)?);
    assert!(rt; flood_to(&mut neighbour, key_of(7), &newer, false, 10)?);
    assert_eq!(rt; neighbour.retransmission().len(), 2);
    assert!(rt; !neighbour.is_listed(&instance_of(7, older)));
    assert!(rt; neighbour.is_listed(&instance_of(7, newer)));
    neighbour.unlist_key(&key_of(7));
    assert_eq!(rt; neighbour.retransmission().len(), 1);
    assert!(rt; neighbour.is_listed(&instance_of(8, older)));
    Ok(())
}

#[test]
fn due_after_the_interval(rt: HostRuntime) -> Result<(), Fail> {
    let alloc = rt.alloc();
    let instance = instance_of(7, header_of(alloc, 7, FIRST)?);
    let listed = Listed {
        instance,
        sent_at: 10,
    };
    assert!(rt; !is_due(&listed, 5, 14));
    assert!(rt; is_due(&listed, 5, 15));
    let listed = Listed {
        instance,
        sent_at: u64::MAX - 1,
    };
    assert!(rt; !is_due(&listed, 5, 2));
    assert!(rt; is_due(&listed, 5, 3));
    Ok(())
}

#[test]
fn where_a_link_sends_it(rt: HostRuntime) -> Result<(), Fail> {
    // Who it came from on this link, the interface's state, and whether it is sent where a neighbour waits for it.
    for (sender, state, is_sent) in [
        (None, IfaceState::Backup, true),
        (None, IfaceState::DrOther, true),
        (Some(Sender::Dr), IfaceState::DrOther, false),
        (Some(Sender::Backup), IfaceState::Dr, false),
        (Some(Sender::Other), IfaceState::Backup, false),
        (Some(Sender::Other), IfaceState::Dr, true),
        (Some(Sender::Other), IfaceState::DrOther, true),
        (Some(Sender::Other), IfaceState::PointToPoint, true),
    ] {
        assert_eq!(rt;
            is_flooded_out(true, sender, state),
            is_sent,
            "{sender:?} {state:?}"
        );
        assert!(rt; !is_flooded_out(false, sender, state));
    }
    Ok(())
}

#[test]
fn addresses_of_a_link(rt: HostRuntime) -> Result<(), Fail> {
    assert_eq!(rt; ALL_SPF_ROUTERS, "224.0.0.5".parse::<Addr>()?);
    assert_eq!(rt; ALL_D_ROUTERS, "224.0.0.6".parse::<Addr>()?);
    let lan = iface(InterfaceKind::Broadcast, IfaceState::DrOther);
    assert_eq!(rt; sender_at(&lan, Addr(0x0a00_0001)), Sender::Dr);
    assert_eq!(rt; sender_at(&lan, Addr(0x0a00_0002)), Sender::Backup);
    assert_eq!(rt; sender_at(&lan, Addr(0x0a00_0004)), Sender::Other);
    for (kind, state, address) in [
        (
            InterfaceKind::PointToPoint,
            IfaceState::PointToPoint,
            ALL_SPF_ROUTERS,
        ),
        (InterfaceKind::Broadcast, IfaceState::Dr, ALL_SPF_ROUTERS),
        (
            InterfaceKind::Broadcast,
            IfaceState::Backup,
            ALL_SPF_ROUTERS,
        ),
        (InterfaceKind::Broadcast, IfaceState::DrOther, ALL_D_ROUTERS),
        (InterfaceKind::Broadcast, IfaceState::Waiting, ALL_D_ROUTERS),
    ] {
        assert_eq!(rt; flooding_address(&iface(kind, state)), address);
    }
    Ok(())
}
