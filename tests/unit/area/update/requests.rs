//! Updates that come while a neighbour is asked: one that is no answer, and one of LSAs that the router has.

use super::super::made::lsa_of;
use super::{FIRST, FROM_THIRD, MTU, SECOND, counts, installs, loading_area, takes_bytes, update_of};
use ospf_area::{Area, PacketSource, Outputs, source_of};
use ospf_neighbour::NeighbourState;
use ospf_packet::{Body, Packet};
use std::alloc::Global;
use std::test::Fail;

// ---- BadLSReq

// An Update with an LSA older than what neighbour 3 has described, and another behind it.
fn bad_update(alloc: Global) -> Result<Vec<u8>, Fail> {
    let mut lsas = Vec::new(alloc);
    lsas.push(lsa_of(alloc, 7, FIRST, 10)?)?;
    lsas.push(lsa_of(alloc, 8, FIRST, 10)?)?;
    update_of(alloc, lsas)
}

// The flags, the number and the MTU of the last datagram, a Database Description.
fn last_description(out: &Outputs) -> Result<(u8, u32, u16), Fail> {
    let sent = out.sent().last().ok_or("nothing sent")?;
    let packet = Packet::read(&sent.bytes)?;
    match packet.body {
        Body::Description(fields, _) => Ok((fields.flags, fields.number, fields.mtu)),
        _ => Err("another packet".into()),
    }
}

fn state_of(area: &Area, from: PacketSource) -> Option<NeighbourState> {
    match source_of(&area.links, from) {
        Some(neighbour) => Some(neighbour.state()),
        None => None,
    }
}

// Takes the bad Update. Answers `counts` and `last_description`.
fn takes_bad(area: &mut Area, alloc: Global) -> Result<((usize, usize), (u8, u32, u16)), Fail> {
    let bytes = bad_update(alloc)?;
    let mut out = Outputs::new(alloc);
    takes_bytes(area, FROM_THIRD, &bytes, &mut out, alloc)?;
    Ok((counts(&out), last_description(&out)?))
}

// The exchange begins again, and the rest of the Update is left.
#[test]
fn a_bad_request_begins_anew(rt: HostRuntime) -> Result<(), Fail> {
    let alloc = rt.alloc();
    let mut area = loading_area(7, SECOND, alloc)?;
    installs(&mut area, FIRST, 10, alloc)?;
    let sent = takes_bad(&mut area, alloc)?;
    let state = state_of(&area, FROM_THIRD);
    assert_eq!(rt;
        (sent, area.next_dd, state),
        (((1, 0), (7, 300, MTU)), 301, Some(NeighbourState::ExStart))
    );
    Ok(())
}

// ---- an Update of LSAs that the router has

// An Update with router 7's LSA three times, and router 8's behind it.
fn repeating_update(alloc: Global) -> Result<Vec<u8>, Fail> {
    let mut lsas = Vec::new(alloc);
    for router in [7, 7, 7, 8] {
        lsas.push(lsa_of(alloc, router, FIRST, 10)?)?;
    }
    update_of(alloc, lsas)
}

fn is_request(bytes: &[u8]) -> Result<bool, Fail> {
    let packet = Packet::read(bytes)?;
    Ok(matches!(packet.body, Body::Request(_)))
}

// How many Requests went out.
fn requested(out: &Outputs) -> Result<usize, Fail> {
    let mut count: usize = 0;
    for sent in out.sent() {
        if is_request(&sent.bytes)? {
            count = count.wrapping_add(1);
        }
    }
    Ok(count)
}

// Takes the repeating Update. Answers how many Requests went out.
fn takes_repeating(area: &mut Area, alloc: Global) -> Result<usize, Fail> {
    let bytes = repeating_update(alloc)?;
    let mut out = Outputs::new(alloc);
    takes_bytes(area, FROM_THIRD, &bytes, &mut out, alloc)?;
    requested(&out)
}

// Neighbour 3 is asked once for what it has described, and is Full once that has come behind the others.
#[test]
fn asks_once_while_lsas_repeat(rt: HostRuntime) -> Result<(), Fail> {
    let alloc = rt.alloc();
    let mut area = loading_area(8, FIRST, alloc)?;
    installs(&mut area, FIRST, 10, alloc)?;
    let requests = takes_repeating(&mut area, alloc)?;
    let state = state_of(&area, FROM_THIRD);
    assert_eq!(rt; (requests, state), (1, Some(NeighbourState::Full)));
    Ok(())
}
