//! Packets that are posted on a link.

use super::super::made::FIRST;
use super::super::written::HELLO;
use super::{FROM_SECOND, Router, are_same, is_sent, point_to_point, router_of, sends_to};
use ospf_area::{Outbox, context_of};
use ospf_base::{ALL_SPF_ROUTERS, Addr};
use ospf_neighbour::iface::Iface;
use ospf_packet::{BodyValue, Hello};
use std::alloc::{AllocError, Global};
use std::test::Fail;

// The first Hello of 1.1.1.1.
fn first_hello(alloc: Global) -> BodyValue {
    let fields = Hello {
        mask: 0xffff_fffc,
        hello_interval: 10,
        options: 2,
        priority: 1,
        dead_interval: 40,
        designated: Addr::NOWHERE,
        backup: Addr::NOWHERE,
    };
    BodyValue::Hello(fields, Vec::new(alloc))
}

// To all, and to 10.0.0.2.
fn posts(router: &mut Router, alloc: Global) -> Result<(), Fail> {
    let iface = router.area.links.first().ok_or("no link")?.iface;
    posts_from(router, &iface, alloc)?;
    Ok(())
}

fn posts_from(router: &mut Router, iface: &Iface, alloc: Global) -> Result<(), AllocError> {
    let mut outbox = Outbox::new(0, alloc);
    puts(&mut outbox, alloc)?;
    outbox.send_all(&mut router.out, context_of(&router.area), 0, iface)
}

fn puts(outbox: &mut Outbox, alloc: Global) -> Result<(), AllocError> {
    outbox.put(ALL_SPF_ROUTERS, first_hello(alloc))?;
    outbox.put(FROM_SECOND.address, first_hello(alloc))
}

// Whether they go where they should, whether they are as they should, and the link and the source of the first.
type Posted = (bool, bool, Option<(usize, Addr)>);

fn posted_by(router: &mut Router, alloc: Global) -> Result<Posted, Fail> {
    posts(router, alloc)?;
    let goes = sends_to(router, 0, &[ALL_SPF_ROUTERS, FROM_SECOND.address]);
    let same = is_sent(router, 0, HELLO, alloc)? && are_same(router, 0, 1);
    Ok((goes, same, first_source(router)))
}

fn first_source(router: &Router) -> Option<(usize, Addr)> {
    match router.out.sent().first() {
        Some(sent) => Some((sent.link, sent.source)),
        None => None,
    }
}

fn posting(alloc: Global) -> Result<Posted, Fail> {
    let settings = point_to_point(FIRST, 0x0a00_0001);
    let mut router = router_of(alloc, settings, 1500, 100)?;
    posted_by(&mut router, alloc)
}

// In their order, from the interface's address.
#[test]
fn packets_are_posted(rt: HostRuntime) -> Result<(), Fail> {
    let (goes, same, source) = posting(rt.alloc())?;
    assert!(rt; goes);
    assert!(rt; same);
    assert_eq!(rt; source, Some((0, Addr(0x0a00_0001))));
    Ok(())
}
