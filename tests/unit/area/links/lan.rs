//! The elections of a LAN.

use super::super::made::{FIRST, SECOND, THIRD};
use super::{
    Router, Says, describes, goes_up, hears, iface_state, is_in, router_of, sends, sends_to, stands,
    ticks,
};
use ospf_area::{AreaLink, PacketSource};
use ospf_base::{Addr, AreaId, InterfaceKind, RouterId};
use ospf_neighbour::iface::{IfaceSettings, IfaceState};
use ospf_adjacency::link_steps::elect;
use ospf_neighbour::NeighbourState;
use ospf_packet::{Body, BodyValue, Hello, Packet, PacketValue, write_packet};
use std::alloc::Global;
use std::test::Fail;

// An interface at 10.1.0.0/24.
fn broadcast(router: RouterId, address: u32, priority: u8) -> IfaceSettings {
    IfaceSettings {
        router,
        kind: InterfaceKind::Broadcast,
        address: Addr(address),
        mask: 0xffff_ff00,
        priority,
        hello: 10,
        dead: 40,
    }
}

const FIRST_THERE: Addr = Addr(0x0a01_0001);

const SECOND_THERE: Addr = Addr(0x0a01_0002);

const THIRD_THERE: Addr = Addr(0x0a01_0003);

// Who sends from a place on the LAN.
fn origin_at(place: usize) -> PacketSource {
    let (router, address) = match place {
        0 => (FIRST, FIRST_THERE),
        1 => (SECOND, SECOND_THERE),
        _ => (THIRD, THIRD_THERE),
    };
    PacketSource {
        link: 0,
        router,
        address,
    }
}

// Whether an election can come about on a link.
fn is_ready(link: &AreaLink) -> bool {
    let own = link.iface.settings.router;
    let others = link.neighbours.all().iter().all(|n| n.router().0 != own.0);
    others
        && matches!(
            link.iface.state,
            IfaceState::Waiting | IfaceState::DrOther | IfaceState::Backup | IfaceState::Dr
        )
}

// Whether a router has one link, and an election can come about there.
fn are_ready(links: &[AreaLink]) -> bool {
    match links {
        [link] => is_ready(link),
        _ => false,
    }
}

// The election that is due at the end of a step.
fn elects(router: &mut Router, alloc: Global) -> Result<(), Fail> {
    if !are_ready(&router.area.links) {
        return Err("no election comes about".into());
    }
    elect(&mut router.area, &mut router.out, alloc)?;
    Ok(())
}

// The bytes of the last Hello that a router has sent.
fn last_hello(router: &Router, alloc: Global) -> Result<Vec<u8>, Fail> {
    let mut last = Vec::new(alloc);
    for sent in router.out.sent() {
        if let Body::Hello(_, _) = Packet::read(&sent.bytes)?.body {
            last = Vec::from_slice(alloc, &sent.bytes)?;
        }
    }
    Ok(last)
}

// A router takes the Hellos of the others, each in a step of its own.
fn hears_others(
    router: &mut Router,
    own: usize,
    hellos: &[Vec<u8>],
    alloc: Global,
) -> Result<(), Fail> {
    for (place, hello) in hellos.iter().enumerate() {
        if place != own {
            hears(router, origin_at(place), hello, alloc)?;
            elects(router, alloc)?;
        }
    }
    Ok(())
}

// A tick, with the election that ends it.
fn tick_all(routers: &mut [Router], alloc: Global) -> Result<(), Fail> {
    for router in routers.iter_mut() {
        ticks(router, alloc)?;
        elects(router, alloc)?;
    }
    Ok(())
}

// The last Hellos come to all.
fn greet(routers: &mut [Router], alloc: Global) -> Result<(), Fail> {
    let mut hellos = Vec::new(alloc);
    for router in routers.iter() {
        hellos.push(last_hello(router, alloc)?)?;
    }
    for (own, router) in routers.iter_mut().enumerate() {
        hears_others(router, own, &hellos, alloc)?;
    }
    Ok(())
}

// And a HelloInterval goes by.
fn greet_and_wait(routers: &mut [Router], alloc: Global) -> Result<(), Fail> {
    greet(routers, alloc)?;
    for _ in 0..10 {
        tick_all(routers, alloc)?;
    }
    Ok(())
}

fn greet_and_wait_for(routers: &mut [Router], count: usize, alloc: Global) -> Result<(), Fail> {
    for _ in 0..count {
        greet_and_wait(routers, alloc)?;
    }
    Ok(())
}

// A router on the LAN whose link has come up.
fn on_lan(alloc: Global, settings: IfaceSettings, next_dd: u32) -> Result<Router, Fail> {
    let mut router = router_of(alloc, settings, 1500, next_dd)?;
    goes_up(&mut router, 0, alloc)?;
    Ok(router)
}

// 1.1.1.1 and 2.2.2.2 of priority 1, and 3.3.3.3 of priority 0.
fn lan(alloc: Global) -> Result<Vec<Router>, Fail> {
    let mut routers = Vec::new(alloc);
    for (router, address, priority, next_dd) in [
        (FIRST, FIRST_THERE, 1, 100),
        (SECOND, SECOND_THERE, 1, 200),
        (THIRD, THIRD_THERE, 0, 300),
    ] {
        routers.push(on_lan(alloc, broadcast(router, address.0, priority), next_dd)?)?;
    }
    Ok(routers)
}

fn are_elected(routers: &[Router], wanted: &[(IfaceState, Addr, Addr)]) -> bool {
    for (router, state) in routers.iter().zip(wanted) {
        if iface_state(router) != Some(*state) {
            return false;
        }
    }
    true
}

// The Designated Router begins adjacencies in rising Router ID.
fn begins(router: &Router) -> Result<bool, Fail> {
    let wanted = [Says::Describes(7, 200, 0), Says::Describes(7, 201, 0)];
    Ok(sends_to(router, 5, &[FIRST_THERE, THIRD_THERE]) && sends(router, 5, &wanted)?)
}

// What the routers have elected when the wait timers have fired.
const BEGUN: [(IfaceState, Addr, Addr); 3] = [
    (IfaceState::DrOther, SECOND_THERE, SECOND_THERE),
    (IfaceState::Dr, SECOND_THERE, FIRST_THERE),
    (IfaceState::DrOther, SECOND_THERE, SECOND_THERE),
];

// And two Hellos later.
const AGREED: [(IfaceState, Addr, Addr); 3] = [
    (IfaceState::Backup, SECOND_THERE, FIRST_THERE),
    (IfaceState::Dr, SECOND_THERE, FIRST_THERE),
    (IfaceState::DrOther, SECOND_THERE, FIRST_THERE),
];

// Whether that is so, and whether the Designated Router begins as it should.
fn elected_by(routers: &mut [Router], alloc: Global) -> Result<(bool, bool, bool), Fail> {
    greet_and_wait_for(routers, 4, alloc)?;
    let elected = are_elected(routers, &BEGUN);
    let begins = match routers.get(1) {
        Some(designated) => begins(designated)?,
        None => false,
    };
    greet_and_wait_for(routers, 2, alloc)?;
    Ok((elected, begins, are_elected(routers, &AGREED)))
}

fn electing(alloc: Global) -> Result<(bool, bool, bool), Fail> {
    let mut routers = lan(alloc)?;
    elected_by(&mut routers, alloc)
}

// When the wait timers fire nobody declares anything; the Hellos that follow bring the routers to agree.
#[test]
fn three_routers_elect(rt: HostRuntime) -> Result<(), Fail> {
    let (elected, begins, agreed) = electing(rt.alloc())?;
    assert!(rt; elected);
    assert!(rt; begins);
    assert!(rt; agreed);
    Ok(())
}

// A Hello on the LAN, which names 2.2.2.2 or nobody.
fn hello(
    alloc: Global,
    place: usize,
    priority: u8,
    elected: (Addr, Addr),
    named: bool,
) -> Result<Vec<u8>, Fail> {
    let fields = Hello {
        mask: 0xffff_ff00,
        hello_interval: 10,
        options: 2,
        priority,
        dead_interval: 40,
        designated: elected.0,
        backup: elected.1,
    };
    let mut names = Vec::new(alloc);
    if named {
        names.push(SECOND)?;
    }
    let packet = PacketValue {
        router: origin_at(place).router,
        area: AreaId(0),
        body: BodyValue::Hello(fields, names),
    };
    let mut bytes = Vec::new(alloc);
    write_packet(&packet, &mut bytes)?;
    Ok(bytes)
}

// A router takes such a Hello, in a step.
fn hears_of(
    router: &mut Router,
    place: usize,
    priority: u8,
    elected: (Addr, Addr),
    named: bool,
    alloc: Global,
) -> Result<(), Fail> {
    let bytes = hello(alloc, place, priority, elected, named)?;
    hears(router, origin_at(place), &bytes, alloc)?;
    elects(router, alloc)
}

// A Hello, and what it makes of the interface and of the neighbour that sent it.
#[derive(Clone, Copy)]
struct Turn {
    place: usize,
    priority: u8,
    declared: (Addr, Addr),
    named: bool,
    elected: (IfaceState, Addr, Addr),
    state: NeighbourState,
}

const BOTH: (Addr, Addr) = (FIRST_THERE, SECOND_THERE);

const BEFORE: (IfaceState, Addr, Addr) = (IfaceState::Backup, FIRST_THERE, SECOND_THERE);

const AFTER: (IfaceState, Addr, Addr) = (IfaceState::Dr, SECOND_THERE, THIRD_THERE);

const FIRST_TURN: Turn = Turn {
    place: 0,
    priority: 1,
    declared: (FIRST_THERE, Addr::NOWHERE),
    named: true,
    elected: BEFORE,
    state: NeighbourState::ExStart,
};

const TURNS: [Turn; 4] = [
    FIRST_TURN,
    Turn {
        declared: BOTH,
        ..FIRST_TURN
    },
    Turn {
        place: 2,
        priority: 5,
        declared: (Addr::NOWHERE, Addr::NOWHERE),
        ..FIRST_TURN
    },
    Turn {
        declared: BOTH,
        named: false,
        elected: AFTER,
        state: NeighbourState::Init,
        ..FIRST_TURN
    },
];

// Whether a Hello that comes makes that of them.
fn takes_turn(router: &mut Router, turn: &Turn, alloc: Global) -> Result<bool, Fail> {
    let Turn {
        place,
        priority,
        declared,
        named,
        ..
    } = *turn;
    hears_of(router, place, priority, declared, named, alloc)?;
    Ok(iface_state(router) == Some(turn.elected) && is_in(router, origin_at(place), turn.state))
}

// How many do, up to the first that does not.
fn take_turns(router: &mut Router, alloc: Global) -> Result<usize, Fail> {
    let mut count: usize = 0;
    for turn in &TURNS {
        if !takes_turn(router, turn, alloc)? {
            return Ok(count);
        }
        count = count.wrapping_add(1);
    }
    Ok(count)
}

fn taking_over(alloc: Global) -> Result<usize, Fail> {
    let mut router = on_lan(alloc, broadcast(SECOND, SECOND_THERE.0, 1), 200)?;
    take_turns(&mut router, alloc)
}

// 2.2.2.2 waits, and hears a Designated Router without a Backup: it becomes the Backup, and stays it beside a router of
// priority 5. Once the former no longer names it, it is the Designated Router, and the latter the Backup.
#[test]
fn a_backup_takes_over(rt: HostRuntime) -> Result<(), Fail> {
    let count = taking_over(rt.alloc())?;
    assert_eq!(rt; count, TURNS.len());
    Ok(())
}

// Whether the interface, the neighbour 1.1.1.1, and how many datagrams have been sent are as they should be: after a Hello
// and a Database Description of it, and after an election.
fn is_described(router: &mut Router, alloc: Global) -> Result<bool, Fail> {
    let alone = (FIRST_THERE, Addr::NOWHERE);
    hears_of(router, 0, 1, alone, false, alloc)?;
    describes(router, origin_at(0), 7, alloc)?;
    let nobody = (IfaceState::DrOther, Addr::NOWHERE, Addr::NOWHERE);
    let state = Some(NeighbourState::TwoWay);
    Ok(stands(router, nobody, origin_at(0), state, 1))
}

fn is_elected(router: &mut Router, alloc: Global) -> Result<bool, Fail> {
    elects(router, alloc)?;
    let designated = (IfaceState::DrOther, FIRST_THERE, Addr::NOWHERE);
    let state = Some(NeighbourState::ExStart);
    Ok(stands(router, designated, origin_at(0), state, 2))
}

fn elected_twice(router: &mut Router, alloc: Global) -> Result<(bool, bool, bool), Fail> {
    let described = is_described(router, alloc)?;
    let first = is_elected(router, alloc)?;
    let second = is_elected(router, alloc)?;
    Ok((described, first, second))
}

fn electing_by_description(alloc: Global) -> Result<(bool, bool, bool), Fail> {
    let mut router = on_lan(alloc, broadcast(THIRD, THIRD_THERE.0, 0), 300)?;
    elected_twice(&mut router, alloc)
}

// A Database Description of a neighbour in Init is 2-WayReceived, by which an election is due, and no drop.
#[test]
fn a_description_elects(rt: HostRuntime) -> Result<(), Fail> {
    let (described, first, second) = electing_by_description(rt.alloc())?;
    assert!(rt; described);
    assert!(rt; first);
    assert!(rt; second);
    Ok(())
}
