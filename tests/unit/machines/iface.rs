//! The table of the state machine, each pair of state and event, and Hellos.

use ospf_base::{Addr, InterfaceKind, RouterId};
use ospf_neighbour::iface::{Candidate, Iface, IfaceChange, IfaceEvent, IfaceSettings, IfaceState};
use ospf_packet::{BodyValue, Hello};
use std::test::Fail;

const OWN: Addr = Addr(0x0a01_0001);

const STATES: [IfaceState; 6] = [
    IfaceState::Down,
    IfaceState::Waiting,
    IfaceState::PointToPoint,
    IfaceState::DrOther,
    IfaceState::Backup,
    IfaceState::Dr,
];

fn iface(kind: InterfaceKind, priority: u8, state: IfaceState) -> Iface {
    Iface {
        settings: IfaceSettings {
            router: RouterId(0x0101_0101),
            kind,
            address: OWN,
            mask: 0xffff_ff00,
            priority,
            hello: 10,
            dead: 40,
        },
        state,
        dr: Addr(0),
        backup: Addr(0),
        wait: 0,
        hello_in: 0,
    }
}

// The events, each by a letter; those that elect bring the router itself alone.
fn take(iface: &mut Iface, event: u8) -> IfaceChange {
    let own = Candidate {
        id: iface.settings.router,
        address: iface.settings.address,
        priority: iface.settings.priority,
        dr: iface.dr,
        backup: iface.backup,
    };
    let candidates = [own];
    match event {
        b'U' => iface.event(IfaceEvent::InterfaceUp),
        b'B' => iface.event(IfaceEvent::BackupSeen(&candidates)),
        b'W' => iface.event(IfaceEvent::WaitTimer(&candidates)),
        b'N' => iface.event(IfaceEvent::NeighborChange(&candidates)),
        _ => iface.event(IfaceEvent::InterfaceDown),
    }
}

// The new state in Down, Waiting, Point-to-point, DROther, Backup and DR: `D`, `W`, `P`, `O`, `B`, `R`, or `.` where
// nothing changes. An election of the router alone makes it Designated Router where its priority is above 0.
const ROWS: [(u8, &str); 5] = [
    (b'U', "W....."),
    (b'B', ".R...."),
    (b'W', ".R...."),
    (b'N', "...RRR"),
    (b'D', "DDDDDD"),
];

fn letter(state: IfaceState) -> u8 {
    match state {
        IfaceState::Down => b'D',
        IfaceState::Waiting => b'W',
        IfaceState::PointToPoint => b'P',
        IfaceState::DrOther => b'O',
        IfaceState::Backup => b'B',
        IfaceState::Dr => b'R',
    }
}

#[test]
fn each_state_and_event(rt: HostRuntime) -> Result<(), Fail> {
    for (event, row) in &ROWS {
        for (state, wanted) in STATES.iter().zip(row.as_bytes()) {
            let before = iface(InterfaceKind::Broadcast, 1, *state);
            let mut after = before;
            let change = take(&mut after, *event);
            let elects = *wanted == b'R';
            let to = if *wanted == b'.' {
                letter(*state)
            } else {
                *wanted
            };
            assert_eq!(rt; letter(after.state), to, "{state:?} {event}");
            assert_eq!(rt;
                after.dr,
                if elects { OWN } else { Addr(0) },
                "{state:?} {event}"
            );
            assert_eq!(rt; after.backup, Addr(0), "{state:?} {event}");
            assert_eq!(rt; change.adj_ok, elects, "{state:?} {event}");
            assert_eq!(rt; change.kills, *event == b'D', "{state:?} {event}");
            assert_eq!(rt; change.hello, *event == b'U' && *state == IfaceState::Down);
            if *wanted == b'.' {
                assert_eq!(rt; after, before, "{state:?} {event}");
            }
        }
    }
    Ok(())
}

#[test]
fn starts_by_its_kind_and_priority(rt: HostRuntime) -> Result<(), Fail> {
    for (kind, priority, state, wait) in [
        (InterfaceKind::PointToPoint, 1, IfaceState::PointToPoint, 0),
        (InterfaceKind::PointToPoint, 0, IfaceState::PointToPoint, 0),
        (InterfaceKind::Broadcast, 0, IfaceState::DrOther, 0),
        (InterfaceKind::Broadcast, 1, IfaceState::Waiting, 40),
    ] {
        let mut started = iface(kind, priority, IfaceState::Down);
        let change = take(&mut started, b'U');
        assert_eq!(rt; started.state, state);
        assert_eq!(rt; change.state, state);
        assert_eq!(rt; started.wait, wait);
        assert_eq!(rt; started.hello_in, 10);
    }
    Ok(())
}

#[test]
fn never_designated_with_priority_zero(rt: HostRuntime) -> Result<(), Fail> {
    let mut other = iface(InterfaceKind::Broadcast, 0, IfaceState::DrOther);
    let change = take(&mut other, b'N');
    assert_eq!(rt; other.state, IfaceState::DrOther);
    assert!(rt; !change.adj_ok);
    Ok(())
}

#[test]
fn the_wait_timer_fires_once(rt: HostRuntime) -> Result<(), Fail> {
    let mut waiting = iface(InterfaceKind::Broadcast, 1, IfaceState::Waiting);
    waiting.wait = 2;
    assert!(rt; !waiting.wait_tick());
    assert!(rt; waiting.wait_tick());
    assert!(rt; !waiting.wait_tick());
    Ok(())
}

#[test]
fn a_hello_is_due_each_interval(rt: HostRuntime) -> Result<(), Fail> {
    for (kind, priority) in [
        (InterfaceKind::PointToPoint, 1),
        (InterfaceKind::Broadcast, 0),
        (InterfaceKind::Broadcast, 1),
    ] {
        let mut sender = iface(kind, priority, IfaceState::Down);
        assert!(rt; take(&mut sender, b'U').hello);
        for tick in 1..=20 {
            let is_due = tick == 10 || tick == 20;
            assert_eq!(rt; sender.hello_tick(), is_due, "{kind:?} {tick}");
        }
    }
    Ok(())
}

#[test]
fn no_hello_is_due_in_down(rt: HostRuntime) -> Result<(), Fail> {
    let mut stopped = iface(InterfaceKind::PointToPoint, 1, IfaceState::Down);
    take(&mut stopped, b'U');
    assert!(rt; !stopped.hello_tick());
    take(&mut stopped, b'D');
    let before = stopped;
    for tick in 1..=20 {
        assert!(rt; !stopped.hello_tick(), "{tick}");
    }
    assert_eq!(rt; stopped, before);
    Ok(())
}

#[test]
fn an_election_lets_the_hello_timer_run(rt: HostRuntime) -> Result<(), Fail> {
    let mut sender = iface(InterfaceKind::Broadcast, 1, IfaceState::Down);
    take(&mut sender, b'U');
    for _ in 1..=9 {
        assert!(rt; !sender.hello_tick());
    }
    take(&mut sender, b'W');
    assert_eq!(rt; sender.state, IfaceState::Dr);
    assert!(rt; sender.hello_tick());
    Ok(())
}

#[test]
fn which_hellos_agree(rt: HostRuntime) -> Result<(), Fail> {
    let link = iface(InterfaceKind::PointToPoint, 1, IfaceState::PointToPoint);
    let lan = iface(InterfaceKind::Broadcast, 1, IfaceState::DrOther);
    let hello = Hello {
        mask: 0xffff_ff00,
        hello_interval: 10,
        options: 0x02,
        priority: 9,
        dead_interval: 40,
        designated: Addr(7),
        backup: Addr(8),
    };
    assert!(rt; lan.agrees(&hello) && link.agrees(&hello));
    let more_options = Hello {
        options: 0x42,
        ..hello
    };
    assert!(rt; lan.agrees(&more_options));
    let other_mask = Hello {
        mask: 0xffff_0000,
        ..hello
    };
    assert!(rt; !lan.agrees(&other_mask) && link.agrees(&other_mask));
    for other in [
        Hello {
            hello_interval: 11,
            ..hello
        },
        Hello {
            dead_interval: 41,
            ..hello
        },
        Hello {
            options: 0x01,
            ..hello
        },
    ] {
        assert!(rt; !lan.agrees(&other) && !link.agrees(&other));
    }
    Ok(())
}

#[test]
fn the_hello_that_is_sent(rt: HostRuntime) -> Result<(), Fail> {
    let heard = [RouterId(2), RouterId(3)];
    for (kind, designated, backup) in [
        (InterfaceKind::PointToPoint, Addr(0), Addr(0)),
        (InterfaceKind::Broadcast, Addr(5), Addr(6)),
    ] {
        let mut sender = iface(kind, 1, IfaceState::DrOther);
        sender.dr = Addr(5);
        sender.backup = Addr(6);
        let BodyValue::Hello(hello, neighbours) = sender.hello(rt.alloc(), &heard)? else {
            return Err(Fail::from("another packet"));
        };
        let wanted = Hello {
            mask: 0xffff_ff00,
            hello_interval: 10,
            options: 0x02,
            priority: 1,
            dead_interval: 40,
            designated,
            backup,
        };
        assert_eq!(rt; hello, wanted);
        assert_eq!(rt; neighbours.as_slice(), heard.as_slice());
    }
    Ok(())
}

#[test]
fn takes_part_with_what_it_elected(rt: HostRuntime) {
    let mut own = iface(InterfaceKind::Broadcast, 7, IfaceState::DrOther);
    own.dr = Addr(0x0a01_0002);
    own.backup = Addr(0x0a01_0003);
    let candidate = Candidate {
        id: RouterId(0x0101_0101),
        address: OWN,
        priority: 7,
        dr: Addr(0x0a01_0002),
        backup: Addr(0x0a01_0003),
    };
    assert_eq!(rt; own.own_candidate(), candidate);
}
