//! Acknowledgments that come, and those that go out.

use super::super::made::lsa_of;
use super::{FIRST, FROM_FIRST, SECOND, all_waiting, area, header_of, headers_in, stores};
use ospf_area::{AreaLink, Outputs, RouterContext, Outbox, context_of};
use ospf_base::{Addr, RouterId};
use ospf_neighbour::iface::IfaceState;
use ospf_lsa::LsaHeader;
use ospf_packet::{Body, Packet};
use ospf_area::update::{on_header, send_acks};
use std::alloc::Global;
use std::test::Fail;

// Which LSAs wait once neighbour 1 has sent an Acknowledgment with a header of this number and sum.
fn waits_after(number: i32, change: u16, alloc: Global) -> Result<(usize, usize, usize), Fail> {
    let mut area = area(alloc, IfaceState::Dr, &[])?;
    stores(&mut area, SECOND, 10, alloc)?;
    let mut header = header_of(alloc, number)?;
    header.sum ^= change;
    on_header(&mut area, FROM_FIRST, &header);
    Ok(all_waiting(&area))
}

#[test]
fn acknowledgements_name_an_instance(rt: HostRuntime) -> Result<(), Fail> {
    for (number, change, want) in [
        (SECOND, 0, (0, 1, 0)),
        (SECOND, 1, (1, 1, 0)),
        (FIRST, 0, (1, 1, 0)),
    ] {
        let waits = waits_after(number, change, rt.alloc())?;
        assert_eq!(rt; waits, want, "{number} {change}");
    }
    Ok(())
}

// Of the first LSAs of routers 27 to 1.
fn many_headers(alloc: Global) -> Result<Vec<LsaHeader>, Fail> {
    let mut headers = Vec::new(alloc);
    for router in 0..27 {
        let router: u32 = router;
        headers.push(lsa_of(alloc, 27 - router, FIRST, 10)?.view().header())?;
    }
    Ok(headers)
}

// How many headers each of the first two datagrams has.
fn headers_sent(out: &Outputs) -> Result<[usize; 2], Fail> {
    let mut counts = [0, 0];
    for (at, sent) in out.sent().iter().take(2).enumerate() {
        counts[at] = headers_in(&sent.bytes)?;
    }
    Ok(counts)
}

// 26 headers fit an MTU of 576, and they go in order of key.
#[test]
fn acknowledgements_are_packed(rt: HostRuntime) -> Result<(), Fail> {
    let alloc = rt.alloc();
    let headers = many_headers(alloc)?;
    let out = packed(&headers, alloc)?;
    assert_eq!(rt;
        (out.sent.len(), headers_sent(&out)?, last_router(&out)?),
        (2, [26, 1], RouterId(27))
    );
    Ok(())
}

fn packed(headers: &[LsaHeader], alloc: Global) -> Result<Outputs, Fail> {
    let area = area(alloc, IfaceState::Dr, &[])?;
    let link = area.links.first().ok_or("no link")?;
    packed_on(link, context_of(&area), headers, alloc)
}

fn packed_on(link: &AreaLink, own: RouterContext, headers: &[LsaHeader], alloc: Global) -> Result<Outputs, Fail> {
    let mut out = Outputs::new(alloc);
    let mut outbox = Outbox::new(0, alloc);
    send_acks(headers, link.settings, Addr(2), &mut outbox)?;
    outbox.send_all(&mut out, own, 0, &link.iface)?;
    Ok(out)
}

// The Advertising Router of the first header of an Acknowledgment.
fn first_router(bytes: &[u8]) -> Result<RouterId, Fail> {
    let packet = Packet::read(bytes)?;
    let Body::Acknowledgment(mut headers) = packet.body else {
        return Err("no Acknowledgment".into());
    };
    Ok(headers.next().ok_or("no header")?.router)
}

// The same of the last datagram.
fn last_router(out: &Outputs) -> Result<RouterId, Fail> {
    let last = out.sent().last().ok_or("nothing sent")?;
    first_router(&last.bytes)
}
