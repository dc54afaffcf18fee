//! Events drawn by chance.

use super::super::worlds::three_on_a_network;
use ospf_world::{Datagram, Issued, World};
use std::alloc::Global;
use std::test::Fail;

// A new world, after these events.
fn after(number: u64, count: u64, alloc: Global) -> Result<World, Fail> {
    let mut world = three_on_a_network(alloc)?;
    world.random(number, count, alloc)?;
    Ok(world)
}

fn is_sent_alike(one: &Datagram, other: &Datagram) -> bool {
    let (a, b) = (&one.sent, &other.sent);
    let way = (one.router, a.link, a.source, a.destination)
        == (other.router, b.link, b.source, b.destination);
    way && a.bytes.as_slice() == b.bytes.as_slice()
}

fn is_issued_alike(one: &Issued, other: &Issued) -> bool {
    one.run == other.run && one.lsa.view().as_bytes() == other.lsa.view().as_bytes()
}

// Whether the three logs have the same entries.
pub(super) fn are_alike(one: &World, other: &World) -> bool {
    let (a, b) = (one.datagrams(), other.datagrams());
    let sent = a.len() == b.len() && a.iter().zip(b).all(|(a, b)| is_sent_alike(a, b));
    let (a, b) = (one.issued(), other.issued());
    let issued = a.len() == b.len() && a.iter().zip(b).all(|(a, b)| is_issued_alike(a, b));
    sent && issued && one.held() == other.held()
}

#[test]
fn one_number_leaves_one_log(rt: HostRuntime) -> Result<(), Fail> {
    let alloc = rt.alloc();
    let first = after(7, 5000, alloc)?;
    let again = after(7, 5000, alloc)?;
    assert!(rt; are_alike(&first, &again));
    assert!(rt; !first.datagrams().is_empty() && !first.issued().is_empty());
    assert!(rt; !first.held().is_empty());
    // Another number leaves others.
    assert!(rt; !are_alike(&first, &after(8, 5000, alloc)?));
    Ok(())
}
