//! The table of the state machine, each pair of state and event, a neighbour's lists, and the neighbours of an interface.

use super::made::key_of;
use super::states::STATES;
use super::wired::in_exchange;
use ospf_base::{Addr, Age, Instance, Kind, LsaKey, RouterId};
use ospf_lsa::LsaHeader;
use ospf_neighbour::{
    Effect, Listed, MAX_NEIGHBOURS, NbrEvent, Neighbour, NeighbourFault, NeighbourState, Neighbours,
    transition,
};
use std::alloc::Global;
use std::fmt::Write;
use std::test::Fail;

const EVENTS: [NbrEvent; 13] = [
    NbrEvent::HelloReceived,
    NbrEvent::TwoWayReceived(true),
    NbrEvent::TwoWayReceived(false),
    NbrEvent::AdjOk(true),
    NbrEvent::AdjOk(false),
    NbrEvent::NegotiationDone,
    NbrEvent::ExchangeDone,
    NbrEvent::LoadingDone,
    NbrEvent::SeqNumberMismatch,
    NbrEvent::BadLsReq,
    NbrEvent::OneWayReceived,
    NbrEvent::KillNbr,
    NbrEvent::InactivityTimer,
];

// What each event does in Down, Init, 2-Way, ExStart, Exchange, Loading and Full, by the new state: `D`, `I`, `2`,
// `S` (ExStart), `X` (Exchange), `L`, `F`, or `.` where it is the same. The first row of a pair is where requests are
// left, the second where there are none.
const ROWS: [(&str, &str); 13] = [
    ("I......", "I......"),
    (".S.....", ".S....."),
    (".2.....", ".2....."),
    ("..S....", "..S...."),
    ("...2222", "...2222"),
    ("...X...", "...X..."),
    ("....L..", "....F.."),
    (".......", ".....F."),
    ("....SSS", "....SSS"),
    ("....SSS", "....SSS"),
    ("..IIIII", "..IIIII"),
    (".DDDDDD", ".DDDDDD"),
    (".DDDDDD", ".DDDDDD"),
];

fn letter(state: NeighbourState) -> u8 {
    match state {
        NeighbourState::Down => b'D',
        NeighbourState::Init => b'I',
        NeighbourState::TwoWay => b'2',
        NeighbourState::ExStart => b'S',
        NeighbourState::Exchange => b'X',
        NeighbourState::Loading => b'L',
        NeighbourState::Full => b'F',
    }
}

#[test]
fn each_state_and_event(rt: HostRuntime) -> Result<(), Fail> {
    for (event, rows) in EVENTS.iter().zip(&ROWS) {
        for (requested_all, row) in [(false, rows.0), (true, rows.1)] {
            for (state, wanted) in STATES.iter().zip(row.as_bytes()) {
                let change = transition(*state, *event, requested_all);
                let to = if *wanted == b'.' {
                    letter(*state)
                } else {
                    *wanted
                };
                assert_eq!(rt;
                    letter(change.state),
                    to,
                    "{state} {event:?} {requested_all}"
                );
            }
        }
    }
    Ok(())
}

// What begins where an event changes the state, or is a Hello: with AdjOK? as it is not wanted.
#[test]
fn what_begins(rt: HostRuntime) -> Result<(), Fail> {
    for (state, event, effect) in [
        (
            NeighbourState::Down,
            NbrEvent::HelloReceived,
            Effect::TimerRestarts,
        ),
        (
            NeighbourState::Full,
            NbrEvent::HelloReceived,
            Effect::TimerRestarts,
        ),
        (
            NeighbourState::Init,
            NbrEvent::TwoWayReceived(true),
            Effect::AdjacencyBegins,
        ),
        (
            NeighbourState::Init,
            NbrEvent::TwoWayReceived(false),
            Effect::Nothing,
        ),
        (
            NeighbourState::TwoWay,
            NbrEvent::AdjOk(true),
            Effect::AdjacencyBegins,
        ),
        (
            NeighbourState::Full,
            NbrEvent::AdjOk(false),
            Effect::ListsEmptied,
        ),
        (NeighbourState::Full, NbrEvent::AdjOk(true), Effect::Nothing),
        (
            NeighbourState::ExStart,
            NbrEvent::NegotiationDone,
            Effect::ExchangeBegins,
        ),
        (
            NeighbourState::Exchange,
            NbrEvent::ExchangeDone,
            Effect::Nothing,
        ),
        (
            NeighbourState::Loading,
            NbrEvent::LoadingDone,
            Effect::Nothing,
        ),
        (
            NeighbourState::Full,
            NbrEvent::SeqNumberMismatch,
            Effect::AdjacencyBegins,
        ),
        (
            NeighbourState::Loading,
            NbrEvent::BadLsReq,
            Effect::AdjacencyBegins,
        ),
        (
            NeighbourState::TwoWay,
            NbrEvent::OneWayReceived,
            Effect::ListsEmptied,
        ),
        (
            NeighbourState::Init,
            NbrEvent::OneWayReceived,
            Effect::Nothing,
        ),
        (NeighbourState::Full, NbrEvent::KillNbr, Effect::Removed),
        (
            NeighbourState::Init,
            NbrEvent::InactivityTimer,
            Effect::Removed,
        ),
    ] {
        assert_eq!(rt;
            transition(state, event, false).effect,
            effect,
            "{state} {event:?}"
        );
    }
    Ok(())
}

#[test]
fn states_print_their_names(rt: HostRuntime) -> Result<(), Fail> {
    let mut text = String::new(rt.alloc());
    for state in STATES {
        write!(text, "{state} ")?;
    }
    assert_eq!(rt;
        text.as_str(),
        "Down Init 2-Way ExStart Exchange Loading Full "
    );
    Ok(())
}

fn neighbour(alloc: Global, id: u32) -> Neighbour {
    Neighbour::new(alloc, RouterId(id), Addr(id))
}

#[test]
fn lists_end_with_the_exchange(rt: HostRuntime) -> Result<(), Fail> {
    let alloc = rt.alloc();
    let mut full = neighbour(alloc, 7);
    for event in [
        NbrEvent::HelloReceived,
        NbrEvent::TwoWayReceived(true),
        NbrEvent::NegotiationDone,
        NbrEvent::ExchangeDone,
    ] {
        let _ = full.event(event, 40);
    }
    assert_eq!(rt; full.state(), NeighbourState::Full);
    let key = LsaKey {
        kind: Kind::Router,
        id: 7,
        router: RouterId(7),
    };
    let instance = Instance {
        key,
        number: 1,
        sum: 2,
    };
    if full.state().is_exchanging() {
        full.relist(instance, 3)?;
    }
    assert_eq!(rt; full.retransmission().len(), 1);
    let change = full.event(NbrEvent::OneWayReceived, 40);
    assert_eq!(rt; change.effect, Effect::ListsEmptied);
    assert_eq!(rt; full.state(), NeighbourState::Init);
    assert!(rt; full.retransmission().is_empty());
    Ok(())
}

#[test]
fn inactivity_ends_a_neighbour(rt: HostRuntime) -> Result<(), Fail> {
    let mut heard = neighbour(rt.alloc(), 7);
    let _ = heard.event(NbrEvent::HelloReceived, 3);
    assert_eq!(rt; heard.inactivity(), 3);
    assert!(rt; !heard.inactivity_tick());
    let _ = heard.event(NbrEvent::HelloReceived, 2);
    assert!(rt; !heard.inactivity_tick());
    assert!(rt; heard.inactivity_tick());
    assert!(rt; !heard.inactivity_tick());
    Ok(())
}

// Puts a neighbour in, if there is none of its Router ID.
fn add(neighbours: &mut Neighbours, alloc: Global, id: u32) -> Result<(), NeighbourFault> {
    match neighbours.get(RouterId(id)) {
        Some(_) => Ok(()),
        None => neighbours.add(neighbour(alloc, id)),
    }
}

#[test]
fn at_most_255_neighbours_in_order(rt: HostRuntime) -> Result<(), Fail> {
    let alloc = rt.alloc();
    let mut neighbours = Neighbours::new(alloc);
    for number in 0..255 {
        add(&mut neighbours, alloc, (number * 7) % 255 + 1)?;
    }
    assert_eq!(rt; neighbours.all().len(), MAX_NEIGHBOURS);
    assert_eq!(rt; add(&mut neighbours, alloc, 256), Err(NeighbourFault::Full));
    assert_eq!(rt; neighbours.all().len(), 255);
    for (place, neighbour) in neighbours.all().iter().enumerate() {
        assert_eq!(rt; neighbour.router().0 as usize, place + 1);
    }
    Ok(())
}

#[test]
fn refusals_are_printed(rt: HostRuntime) -> Result<(), Fail> {
    let mut text = String::new(rt.alloc());
    write!(text, "{}; {}", NeighbourFault::Full, NeighbourFault::Memory)?;
    assert_eq!(rt; text.as_str(), "N1 Full; N2 Memory");
    Ok(())
}

fn instance_of(router: u32, number: i32) -> Instance {
    Instance {
        key: key_of(router),
        number,
        sum: 2,
    }
}

fn header_of(router: u32) -> LsaHeader {
    LsaHeader {
        age: Age::new(1),
        options: 2,
        kind: 1,
        id: router,
        router: RouterId(router),
        number: 5,
        sum: 2,
        length: 24,
    }
}

#[test]
fn what_has_come_is_not_asked_for(rt: HostRuntime) -> Result<(), Fail> {
    let mut exchange = in_exchange(rt.alloc(), 7);
    if exchange.is_exchanging() {
        exchange.add_requests(&[header_of(1), header_of(2), header_of(3)])?;
    }
    if exchange.requests().len() > 1 {
        exchange.ask(2, 9);
    }
    assert_eq!(rt; exchange.request_of(&key_of(1)), Some(header_of(1)));
    // The first was named in the last Request, the third was not.
    exchange.remove_request(&key_of(1));
    assert_eq!(rt; exchange.asked(), (1, 9));
    exchange.remove_request(&key_of(3));
    assert_eq!(rt; exchange.asked(), (1, 9));
    assert_eq!(rt; exchange.requests(), [header_of(2)].as_slice());
    assert_eq!(rt; exchange.request_of(&key_of(1)), None);
    Ok(())
}

// A header of a router's LSA, of another instance.
fn header_numbered(router: u32, number: i32) -> LsaHeader {
    LsaHeader {
        number,
        ..header_of(router)
    }
}

fn request(neighbour: &mut Neighbour, headers: &[LsaHeader]) -> Result<(), Fail> {
    if neighbour.is_exchanging() {
        neighbour.add_requests(headers)?;
    }
    Ok(())
}

fn network_header_of(router: u32) -> LsaHeader {
    LsaHeader {
        kind: 2,
        ..header_of(router)
    }
}

// The first is named in a Request.
fn ask_one(neighbour: &mut Neighbour) {
    if !neighbour.requests().is_empty() {
        neighbour.ask(1, 9);
    }
}

#[test]
fn a_header_told_again_takes_the_old_ones_place(rt: HostRuntime) -> Result<(), Fail> {
    let mut exchange = in_exchange(rt.alloc(), 7);
    request(
        &mut exchange,
        &[header_of(1), header_of(2), network_header_of(1)],
    )?;
    ask_one(&mut exchange);
    let told = [
        header_numbered(2, 6),
        header_of(3),
        header_numbered(1, 7),
        header_numbered(3, 8),
    ];
    request(&mut exchange, &told)?;
    let requests = [
        header_numbered(1, 7),
        header_numbered(2, 6),
        network_header_of(1),
        header_numbered(3, 8),
    ];
    assert_eq!(rt; exchange.requests(), requests.as_slice());
    assert_eq!(rt; exchange.asked(), (1, 9));
    Ok(())
}

// None of these calls, with memory at hand, gives up at some tick or Router ID.
#[test]
fn each_tick_is_like_another(rt: HostRuntime) -> Result<(), Fail> {
    let mut exchange = in_exchange(rt.alloc(), 7);
    for tick in 0..300 {
        if exchange.is_exchanging() {
            exchange.relist(instance_of(3, 5), tick)?;
        }
        let listed = [Listed {
            instance: instance_of(3, 5),
            sent_at: tick,
        }];
        assert_eq!(rt; exchange.retransmission(), listed.as_slice());
    }
    Ok(())
}

#[test]
fn one_instance_of_a_key_is_listed(rt: HostRuntime) -> Result<(), Fail> {
    let mut exchange = in_exchange(rt.alloc(), 7);
    for (instance, tick) in [
        (instance_of(1, 5), 3),
        (instance_of(2, 5), 4),
        (instance_of(1, 6), 5),
    ] {
        if exchange.is_exchanging() {
            exchange.relist(instance, tick)?;
        }
    }
    assert_eq!(rt; exchange.retransmission().len(), 2);
    assert!(rt; !exchange.is_listed(&instance_of(1, 5)));
    assert!(rt; exchange.is_listed(&instance_of(1, 6)));
    exchange.unlist(&instance_of(1, 5));
    assert_eq!(rt; exchange.retransmission().len(), 2);
    exchange.resend(&instance_of(2, 5), 7);
    assert!(rt; exchange.is_key_listed(&key_of(1)));
    exchange.unlist_key(&key_of(1));
    assert!(rt; !exchange.is_key_listed(&key_of(1)));
    let left = [Listed {
        instance: instance_of(2, 5),
        sent_at: 7,
    }];
    assert_eq!(rt; exchange.retransmission(), left.as_slice());
    exchange.unlist(&instance_of(2, 5));
    assert!(rt; exchange.retransmission().is_empty());
    Ok(())
}

#[test]
fn states_above(rt: HostRuntime) -> Result<(), Fail> {
    let above = STATES.iter().filter(|state| state.is_two_way()).count();
    let loading = STATES.iter().filter(|state| state.is_loading()).count();
    assert_eq!(rt; (above, loading), (5, 2));
    Ok(())
}

// Neighbours 1, 2 and 3, of which the second is in Exchange and waits for the instance.
fn three(alloc: Global, instance: Instance) -> Result<Neighbours, Fail> {
    let mut neighbours = Neighbours::new(alloc);
    add(&mut neighbours, alloc, 3)?;
    add(&mut neighbours, alloc, 1)?;
    let mut second = in_exchange(alloc, 2);
    if second.is_exchanging() {
        second.relist(instance, 4)?;
    }
    if neighbours.get(second.router()).is_none() {
        neighbours.add(second)?;
    }
    Ok(neighbours)
}

#[test]
fn neighbours_are_found_and_removed(rt: HostRuntime) -> Result<(), Fail> {
    let mut neighbours = three(rt.alloc(), instance_of(9, 5))?;
    assert_eq!(rt; neighbours.position(RouterId(3)), Some(2));
    assert_eq!(rt; neighbours.position(RouterId(4)), None);
    let found = neighbours.at_address(Addr(2)).map(|n| n.router());
    assert_eq!(rt; found, Some(RouterId(2)));
    assert!(rt; neighbours.at_address(Addr(4)).is_none());
    assert!(rt; neighbours.is_loading());
    neighbours.remove(RouterId(2));
    neighbours.remove(RouterId(4));
    assert_eq!(rt; neighbours.all().len(), 2);
    assert!(rt; !neighbours.is_loading());
    neighbours.clear();
    assert!(rt; neighbours.all().is_empty());
    Ok(())
}

#[test]
fn a_key_leaves_all_lists(rt: HostRuntime) -> Result<(), Fail> {
    let mut neighbours = three(rt.alloc(), instance_of(9, 5))?;
    assert!(rt; neighbours.is_key_listed(&key_of(9)));
    neighbours.unlist_key(&key_of(8));
    assert!(rt; neighbours.is_key_listed(&key_of(9)));
    neighbours.unlist_key(&key_of(9));
    assert!(rt; !neighbours.is_key_listed(&key_of(9)));
    Ok(())
}
