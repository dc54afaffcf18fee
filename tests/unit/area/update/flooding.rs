//! What an Update does on two links with three neighbours: it is flooded, or answered where it is older.

use super::super::made::{lsa_of, require};
use super::{
    FIRST, FROM_SECOND, FROM_THIRD, SECOND, all_waiting, area, counts, delayed, headers_in, holding,
    takes,
};
use ospf_area::{Area, PacketSource, Outputs, context_of};
use ospf_base::{ALL_SPF_ROUTERS, Addr};
use ospf_neighbour::iface::IfaceState;
use ospf_lsa::LsaView;
use ospf_packet::{Body, Packet};
use ospf_area::update::send_delayed;
use std::alloc::Global;
use std::test::Fail;

fn age_and_number(lsa: &[u8]) -> Result<(u16, i32), Fail> {
    let header = LsaView::read(lsa)?.header();
    Ok((header.age.ticks(), header.number))
}

// The age and the number of the last LSA of an Update.
fn lsa_in(bytes: &[u8]) -> Result<(u16, i32), Fail> {
    let packet = Packet::read(bytes)?;
    let Body::Update(lsas) = packet.body else {
        return Err("no Update".into());
    };
    let mut found = (9999, 0);
    for lsa in lsas {
        found = age_and_number(lsa)?;
    }
    Ok(found)
}

// The link and the destination of the last datagram, which is an Update, and the age and number of its LSA.
fn last_update(out: &Outputs) -> Result<(usize, Addr, u16, i32), Fail> {
    let sent = out.sent().last().ok_or("nothing sent")?;
    let (age, number) = lsa_in(&sent.bytes)?;
    Ok((sent.link, sent.destination, age, number))
}

// Takes an Update with router 7's first LSA. Answers `counts` and `last_update`.
fn takes_first(
    area: &mut Area,
    from: PacketSource,
    out: &mut Outputs,
    alloc: Global,
) -> Result<((usize, usize), (usize, Addr, u16, i32)), Fail> {
    let lsa = lsa_of(alloc, 7, FIRST, 10)?;
    takes(area, from, lsa, out, alloc)?;
    Ok((counts(out), last_update(out)?))
}

// From the point-to-point link to all routers of the other, three ticks older; acknowledged at the next tick.
#[test]
fn floods_to_the_other_link(rt: HostRuntime) -> Result<(), Fail> {
    let alloc = rt.alloc();
    let mut area = area(alloc, IfaceState::Dr, &[])?;
    let mut out = Outputs::new(alloc);
    let flooded = takes_first(&mut area, FROM_THIRD, &mut out, alloc)?;
    let seen = (flooded, all_waiting(&area));
    let acknowledged = sends_delayed(&mut area, alloc)?;
    let update = (0, ALL_SPF_ROUTERS, 13, FIRST);
    assert_eq!(rt;
        (seen, acknowledged, delayed(&area)),
        ((((1, 1), update), (1, 1, 0)), (1, ALL_SPF_ROUTERS, 1), 0)
    );
    Ok(())
}

// What goes out at a tick.
fn delayed_out(area: &mut Area, alloc: Global) -> Result<Outputs, Fail> {
    let mut out = Outputs::new(alloc);
    let own = context_of(area);
    send_delayed(&mut area.links, own, &mut out, alloc)?;
    Ok(out)
}

// The link, the destination and the number of headers of the one Acknowledgment that goes out at a tick.
fn sends_delayed(area: &mut Area, alloc: Global) -> Result<(usize, Addr, usize), Fail> {
    let out = delayed_out(area, alloc)?;
    require(out.sent.len() == 1)?;
    let sent = out.sent().last().ok_or("nothing sent")?;
    Ok((sent.link, sent.destination, headers_in(&sent.bytes)?))
}

#[test]
fn older_ones_are_answered_once_a_tick(rt: HostRuntime) -> Result<(), Fail> {
    let alloc = rt.alloc();
    let mut area = holding(SECOND, 10, alloc)?;
    let mut out = Outputs::new(alloc);
    let once = takes_first(&mut area, FROM_SECOND, &mut out, alloc)?;
    let again = takes_first(&mut area, FROM_SECOND, &mut out, alloc)?;
    // One answer after either.
    let answer = ((1, 0), (0, Addr(2), 13, SECOND));
    assert_eq!(rt;
        (once, again, delayed(&area), all_waiting(&area)),
        (answer, answer, 0, (0, 0, 0))
    );
    Ok(())
}
