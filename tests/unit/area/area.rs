//! Flooding over two links, lists, numbers, marks and Requests.

use super::made::require;
use super::wired::{area_of, neighbour, waiting};
use ospf_area::{
    Area, AdjacencyChange, AreaLink, LinkSettings, LinkContext, PacketSource, Outputs, Outbox, acknowledge_by, answer_at,
    change_at, count_number, delay_at, flood, is_awaited, is_numbered, is_own, is_requested,
    is_self_originated, is_taken, mark, source_of, context_of, release, send_request, sent_lsa,
    some_link_loading, to_address, advance_requests, was_sent,
};
use ospf_base::{Addr, Instance, InterfaceKind, Kind, LsaKey, RouterId};
use ospf_flood::{Acknowledgement, AcknowledgementCase};
use ospf_neighbour::iface::{Iface, IfaceSettings, IfaceState};
use ospf_lsa::{Lsa, LsaHeader, LsaView};
use ospf_neighbour::{NeighbourState, Neighbours};
use ospf_packet::{Body, Packet};
use std::alloc::Global;
use std::test::Fail;

// 0x80000001, the number that a router uses first.
const FIRST: i32 = -0x7fff_ffff;

const OWN: RouterId = RouterId(9);

// Router 7's router-LSA of this number, ten ticks old.
fn lsa_of(alloc: Global, number: i32) -> Result<Lsa, Fail> {
    super::made::lsa_of(alloc, 7, number, 10)
}

const KEY: LsaKey = LsaKey {
    kind: Kind::Router,
    id: 7,
    router: RouterId(7),
};

// A link of this address, with the neighbours of these Router IDs.
fn link(
    alloc: Global,
    address: Addr,
    kind: InterfaceKind,
    state: IfaceState,
    others: &[u32],
    described: &[LsaHeader],
) -> Result<AreaLink, Fail> {
    let mut neighbours = Neighbours::new(alloc);
    for router in others {
        let other = neighbour(alloc, *router, described)?;
        if neighbours.get(other.router()).is_none() {
            neighbours.add(other)?;
        }
    }
    Ok(AreaLink {
        iface: Iface {
            settings: IfaceSettings {
                router: OWN,
                kind,
                address,
                mask: 0xffff_ff00,
                priority: 1,
                hello: 10,
                dead: 40,
            },
            state,
            dr: Addr(1),
            backup: Addr(101),
            wait: 0,
            hello_in: 0,
        },
        settings: LinkSettings {
            cost: 10,
            retransmit: 5,
            transmit_delay: 3,
            mtu: 1500,
            suppressed: false,
        },
        neighbours,
        delayed: Vec::new(alloc),
        elects: false,
    })
}

// A router that is the Backup of a broadcast link, with neighbours 1, its Designated Router, and 2; and on a
// point-to-point link to neighbour 3, which is in Loading if it has described this.
fn area(alloc: Global, described: &[LsaHeader]) -> Result<Area, Fail> {
    let mut links = Vec::new(alloc);
    links.push(link(
        alloc,
        Addr(101),
        InterfaceKind::Broadcast,
        IfaceState::Backup,
        &[1, 2],
        &[],
    )?)?;
    links.push(link(
        alloc,
        Addr(102),
        InterfaceKind::PointToPoint,
        IfaceState::PointToPoint,
        &[3],
        described,
    )?)?;
    Ok(area_of(alloc, OWN, links, 7, 300))
}

const FROM_DR: PacketSource = PacketSource {
    link: 0,
    router: RouterId(1),
    address: Addr(1),
};

const FROM_OTHER: PacketSource = PacketSource {
    link: 0,
    router: RouterId(2),
    address: Addr(2),
};

const FROM_THIRD: PacketSource = PacketSource {
    link: 1,
    router: RouterId(3),
    address: Addr(3),
};

// The link, the destination and the age of the one LSA of the last datagram.
fn last_sent(out: &Outputs) -> Result<(usize, Addr, u16), Fail> {
    let sent = out.sent().last().ok_or("nothing sent")?;
    let packet = Packet::read(&sent.bytes)?;
    require(packet.router == OWN)?;
    let Body::Update(lsas) = packet.body else {
        return Err("no Update".into());
    };
    let mut age = 9999;
    for bytes in lsas {
        age = LsaView::read(bytes)?.header().age.ticks();
    }
    Ok((sent.link, sent.destination, age))
}

// The functions from here to the tests say nothing of what they did, so that the proof of a test carries little.

// How many datagrams there are, and the one LSA of the last.
fn all_sent(out: &Outputs) -> Result<(usize, (usize, Addr, u16)), Fail> {
    Ok((out.sent.len(), last_sent(out)?))
}

// How many instances wait for neighbours 1, 2 and 3.
fn all_waiting(area: &Area) -> (usize, usize, usize) {
    (
        waiting(area, FROM_DR),
        waiting(area, FROM_OTHER),
        waiting(area, FROM_THIRD),
    )
}

// Floods router 7's LSA from here. Answers whether it was sent anywhere, and back.
fn flood_from(
    area: &mut Area,
    from: PacketSource,
    out: &mut Outputs,
    alloc: Global,
) -> Result<(bool, bool), Fail> {
    let own = context_of(area);
    let lsa = lsa_of(alloc, FIRST)?;
    let flooded = flood(&mut area.links, &lsa.view(), Some(from), own, out, alloc)?;
    Ok((flooded.anywhere, flooded.back))
}

fn release_it(area: &mut Area) {
    release(&mut area.links, &KEY);
}

// From the Designated Router: not back out of its link, but out of the other.
#[test]
fn floods_past_the_designated_router(rt: HostRuntime) -> Result<(), Fail> {
    let alloc = rt.alloc();
    let group = "224.0.0.5".parse::<Addr>()?;
    let mut area = area(alloc, &[])?;
    let mut out = Outputs::new(alloc);
    let went = flood_from(&mut area, FROM_DR, &mut out, alloc)?;
    let sent = all_sent(&out)?;
    let listed = all_waiting(&area);
    release_it(&mut area);
    assert_eq!(rt; (went, sent), ((true, false), (1, (1, group, 13))));
    assert_eq!(rt; (listed, all_waiting(&area)), ((0, 1, 1), (0, 0, 0)));
    Ok(())
}

// Whether the instance waits for neighbours 1, 2 and 3.
fn all_awaited(area: &Area, instance: &Instance) -> (bool, bool, bool) {
    (
        is_awaited(&area.links, FROM_DR, instance),
        is_awaited(&area.links, FROM_OTHER, instance),
        is_awaited(&area.links, FROM_THIRD, instance),
    )
}

fn instance_of(alloc: Global) -> Result<Instance, Fail> {
    Ok(lsa_of(alloc, FIRST)?.view().instance())
}

// From another link: the Backup floods it to all routers of its link.
#[test]
fn the_backup_floods_what_came_elsewhere(rt: HostRuntime) -> Result<(), Fail> {
    let alloc = rt.alloc();
    let group = "224.0.0.5".parse::<Addr>()?;
    let instance = instance_of(alloc)?;
    let mut area = area(alloc, &[])?;
    let mut out = Outputs::new(alloc);
    flood_from(&mut area, FROM_THIRD, &mut out, alloc)?;
    let sent = all_sent(&out)?;
    let awaited = all_awaited(&area, &instance);
    assert_eq!(rt; (sent, awaited), ((1, (0, group, 13)), (true, true, false)));
    acknowledged_and_sent_again(&mut area, instance)
}

// In tick 8.
fn change(area: &mut Area, from: PacketSource, change: AdjacencyChange) {
    change_at(&mut area.links, from, change, 8);
}

// When the first instance that waits for the neighbour was sent to it.
fn first_sent_at(area: &Area, from: PacketSource) -> Result<u64, Fail> {
    let other = source_of(&area.links, from).ok_or("no neighbour")?;
    let listed = other.retransmission().first().ok_or("nothing listed")?;
    Ok(listed.sent_at)
}

// Whether the exchange with the neighbour begins, and its DD sequence number.
fn beginning(area: &Area, from: PacketSource) -> Result<(bool, u32), Fail> {
    let other = source_of(&area.links, from).ok_or("no neighbour")?;
    Ok((
        other.state() == NeighbourState::ExStart,
        other.exchanging().number,
    ))
}

// One neighbour acknowledges, and the other is sent it again.
fn acknowledged_and_sent_again(area: &mut Area, instance: Instance) -> Result<(), Fail> {
    change(area, FROM_DR, AdjacencyChange::Acknowledges(instance));
    require(waiting(area, FROM_DR) == 0 && waiting(area, FROM_OTHER) == 1)?;
    change(area, FROM_OTHER, AdjacencyChange::IsSent(instance));
    require(first_sent_at(area, FROM_OTHER)? == 8)?;
    change(area, FROM_OTHER, AdjacencyChange::Restarts(300));
    require(beginning(area, FROM_OTHER)? == (true, 300))
}

// An area whose neighbour 3 has described router 7's LSA.
fn loading_area(alloc: Global) -> Result<Area, Fail> {
    let lsa = lsa_of(alloc, FIRST)?;
    area(alloc, &[lsa.view().header()])
}

// Whether some neighbour is loading, whether neighbour 3 is still asked for the LSA, and whether it is taken from.
fn loading(area: &Area) -> (bool, bool, bool) {
    (
        some_link_loading(&area.links),
        is_requested(&area.links, FROM_THIRD, &KEY),
        is_taken(&area.links, FROM_THIRD),
    )
}

// The next Requests. Answers how many datagrams there are then.
fn ask(area: &mut Area, out: &mut Outputs, alloc: Global) -> Result<usize, Fail> {
    let own = context_of(area);
    advance_requests(&mut area.links, own, out, alloc)?;
    Ok(out.sent.len())
}

// Asks, and asks again. Answers how many datagrams there are after each, and whether the first asks for one LSA.
fn ask_twice(
    area: &mut Area,
    out: &mut Outputs,
    alloc: Global,
) -> Result<(usize, bool, usize), Fail> {
    let asked = ask(area, out, alloc)?;
    let once = asks_once(out)?;
    Ok((asked, once, ask(area, out, alloc)?))
}

// Loading ends with the LSA that was asked for.
#[test]
fn loading_ends(rt: HostRuntime) -> Result<(), Fail> {
    let alloc = rt.alloc();
    let mut area = loading_area(alloc)?;
    let mut out = Outputs::new(alloc);
    let before = loading(&area);
    // Asked for already the second time.
    let asked = ask_twice(&mut area, &mut out, alloc)?;
    flood_from(&mut area, FROM_THIRD, &mut out, alloc)?;
    let come = loading(&area);
    ask(&mut area, &mut out, alloc)?;
    let seen = (before, come, loading(&area));
    let expected = (
        (true, true, true),
        (true, false, true),
        (false, false, true),
    );
    assert_eq!(rt; (asked, seen), ((1, true, 1), expected));
    Ok(())
}

// The last datagram is a Request of one entry, out of the second link.
fn asks_once(out: &Outputs) -> Result<bool, Fail> {
    let sent = out.sent().last().ok_or("nothing sent")?;
    let packet = Packet::read(&sent.bytes)?;
    match packet.body {
        Body::Request(mut entries) => {
            Ok(entries.next().is_some() && entries.next().is_none() && sent.link == 1)
        }
        _ => Ok(false),
    }
}

// How an LSA that is newer is acknowledged, if it came from here.
fn answer(area: &Area, from: PacketSource) -> Acknowledgement {
    answer_at(&area.links, AcknowledgementCase::NotFloodedBack, from)
}

fn acknowledge_it(area: &mut Area, answer: Acknowledgement, alloc: Global) -> Result<(), Fail> {
    let header = lsa_of(alloc, FIRST)?.view().header();
    acknowledge_by(area, answer, FROM_DR, &header)?;
    Ok(())
}

fn delay_it(area: &mut Area, alloc: Global) -> Result<(), Fail> {
    let header = lsa_of(alloc, FIRST)?.view().header();
    delay_at(&mut area.links, 1, &header)?;
    Ok(())
}

// Whether one acknowledgement waits on each link.
fn each_delays_one(area: &Area) -> bool {
    let mut each = true;
    for link in &area.links {
        if link.delayed.len() != 1 {
            each = false;
        }
    }
    each
}

#[test]
fn acknowledgements_wait(rt: HostRuntime) -> Result<(), Fail> {
    let alloc = rt.alloc();
    let mut area = area(alloc, &[])?;
    // The Backup leaves it to others, unless the Designated Router sent it.
    let from_dr = answer(&area, FROM_DR);
    let from_other = answer(&area, FROM_OTHER);
    assert_eq!(rt;
        (from_dr, from_other),
        (Acknowledgement::Delayed, Acknowledgement::None)
    );
    acknowledge_it(&mut area, from_dr, alloc)?;
    acknowledge_it(&mut area, from_other, alloc)?;
    acknowledge_it(&mut area, Acknowledgement::Direct, alloc)?;
    delay_it(&mut area, alloc)?;
    assert_eq!(rt; (area.direct.len(), each_delays_one(&area)), (1, true));
    Ok(())
}

// The key of the router's own router-LSA.
const OWN_KEY: LsaKey = LsaKey {
    kind: Kind::Router,
    id: 9,
    router: OWN,
};

// Counts the number of an LSA of the router's own, under this key. Answers whether the LSA's key is `OWN_KEY`.
fn count_own(area: &mut Area, key: LsaKey, number: i32, alloc: Global) -> Result<bool, Fail> {
    let lsa = Lsa::router(alloc, OWN, number, &[])?;
    count_number(area, key, &lsa.view().header())?;
    Ok(lsa.view().key().is_same(&OWN_KEY))
}

// How many keys are numbered, whether the router's own is, and another, and the greatest number.
fn numbers(area: &Area) -> (usize, bool, bool, i32) {
    (
        area.numbering.len(),
        is_numbered(&area.numbering, &OWN_KEY),
        is_numbered(&area.numbering, &KEY),
        area.max_seq,
    )
}

// Whether the router numbers its own key, and another.
fn owns() -> (bool, bool) {
    (is_own(OWN, &OWN_KEY), is_own(OWN, &KEY))
}

// Whether a network is the router's own whose Designated Router has an address of this router's, and another LSA.
fn originates(area: &Area) -> (bool, bool) {
    let network = LsaKey {
        kind: Kind::Network,
        id: 102,
        router: RouterId(5),
    };
    (
        is_self_originated(OWN, &area.links, &network),
        is_self_originated(OWN, &area.links, &KEY),
    )
}

fn mark_it(area: &mut Area, key: LsaKey, went: bool) -> Result<(), Fail> {
    mark(&mut area.sent, key, went)?;
    Ok(())
}

// Whether the router's own LSA was sent, and the other.
fn marks(area: &Area) -> (bool, bool) {
    (was_sent(&area.sent, &OWN_KEY), was_sent(&area.sent, &KEY))
}

// Counts two numbers of the router's own key, and one of another. Answers whether the key of both LSAs is `OWN_KEY`.
fn count_three(area: &mut Area, alloc: Global) -> Result<(bool, bool), Fail> {
    let first = count_own(area, OWN_KEY, FIRST + 4, alloc)?;
    let second = count_own(area, OWN_KEY, FIRST, alloc)?;
    count_own(area, KEY, FIRST, alloc)?;
    Ok((first, second))
}

fn mark_three(area: &mut Area) -> Result<(), Fail> {
    mark_it(area, KEY, true)?;
    mark_it(area, OWN_KEY, true)?;
    mark_it(area, KEY, false)
}

// What `count_three` and then `numbers` answer.
fn numbered(alloc: Global) -> Result<((bool, bool), (usize, bool, bool, i32)), Fail> {
    let mut area = area(alloc, &[])?;
    let own = count_three(&mut area, alloc)?;
    Ok((own, numbers(&area)))
}

// What `originates` answers, and `marks` after three marks.
fn marked(alloc: Global) -> Result<((bool, bool), (bool, bool)), Fail> {
    let mut area = area(alloc, &[])?;
    mark_three(&mut area)?;
    Ok((originates(&area), marks(&area)))
}

#[test]
fn numbers_and_marks(rt: HostRuntime) -> Result<(), Fail> {
    let alloc = rt.alloc();
    assert_eq!(rt;
        numbered(alloc)?,
        ((true, true), (1, true, false, FIRST + 4))
    );
    assert_eq!(rt;
        (owns(), marked(alloc)?),
        ((true, false), ((true, false), (true, false)))
    );
    Ok(())
}

// The age of router 7's LSA as it is sent out of the link.
fn sent_age(link: &AreaLink, alloc: Global) -> Result<u16, Fail> {
    let aged = sent_lsa(link.settings, &lsa_of(alloc, FIRST)?.view(), alloc)?;
    Ok(aged.view().header().age.ticks())
}

// Sends neighbour 2 a Request.
fn request_sent(area: &Area, link: &AreaLink, alloc: Global) -> Result<Outputs, Fail> {
    let mut out = Outputs::new(alloc);
    let other = source_of(&area.links, FROM_OTHER).ok_or("no neighbour")?;
    let mut outbox = Outbox::new(0, alloc);
    send_request(other, &LinkContext::of(context_of(area), link), &mut outbox)?;
    outbox.send_all(&mut out, context_of(area), 0, &link.iface)?;
    Ok(out)
}

// Everything on the way out that no other test calls.
#[test]
fn ways_out(rt: HostRuntime) -> Result<(), Fail> {
    let alloc = rt.alloc();
    let area = area(alloc, &[])?;
    let link = area.links.first().ok_or("no link")?;
    let age = sent_age(link, alloc)?;
    let out = request_sent(&area, link, alloc)?;
    let sent = out.sent.first().ok_or("nothing is sent")?;
    let to = to_address(&link.iface, Addr(2));
    assert_eq!(rt; (sent.destination, sent.source), (to, Addr(101)));
    assert_eq!(rt; (to, age, out.sent.len()), (Addr(2), 13, 1));
    Ok(())
}
