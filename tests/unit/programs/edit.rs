//! LSAs of small areas after changes: what goes down, new costs and drained routers.

use super::failing::Failing;
use super::made::{FIRST, FIRST_NUMBER, SECOND, THIRD, link, router_bytes, stub, to};
use ospf_base::{Addr, Age, Prefix, RouterId};
use ospf_change::edit::{Change, EditJob, apply, edit_text};
use ospf_lsa::{Link, LinkKind, Listing, Lsa, LsaView};
use ospf_whatif::{AreaFailure, WithoutFault, without};
use std::alloc::Global;
use std::test::Fail;

// The mask of a link's subnet, and that of a host.
const SUBNET: u32 = 0xffff_fffc;
const HOST: u32 = 0xffff_ffff;
// The network of the last two routers.
const LAN: u32 = 0x0a01_0002;

// Three routers: 10.0.0.0/30 between the first two, with a second link from 10.0.0.5 and without a subnet; and the network
// 10.1.0.0/24 of the last two. The first advertises 10.0.0.0/8 and its own host route too.
fn first(one: u16, two: u16, subnet: u16) -> [Link; 5] {
    [
        to(SECOND, 0x0a00_0001, one),
        stub(0x0a00_0000, SUBNET, subnet),
        to(SECOND, 0x0a00_0005, two),
        stub(0x0a00_0000, 0xff00_0000, 100),
        stub(0x0a00_0001, HOST, 7),
    ]
}

fn second(one: u16, two: u16, subnet: u16, lan: u16) -> [Link; 4] {
    [
        to(FIRST, 0x0a00_0002, one),
        stub(0x0a00_0000, SUBNET, subnet),
        to(FIRST, 0x0a00_0006, two),
        link(LinkKind::Transit, LAN, LAN, lan),
    ]
}

fn third(lan: u16, other: u16) -> [Link; 3] {
    [
        link(LinkKind::Transit, LAN, 0x0a01_0003, lan),
        stub(0xac10_0003, HOST, 1),
        link(LinkKind::Virtual, FIRST.0, 0x0a01_0003, other),
    ]
}

fn router(alloc: Global, id: RouterId, links: &[Link]) -> Result<Lsa, Fail> {
    Ok(Lsa::router(alloc, id, FIRST_NUMBER + 4, links)?)
}

fn listing(alloc: Global, a: &[Link], b: &[Link], c: &[Link]) -> Result<Listing, Fail> {
    let mut listing = Listing::new(alloc);
    listing.add(router(alloc, FIRST, a)?)?;
    listing.add(router(alloc, SECOND, b)?)?;
    listing.add(router(alloc, THIRD, c)?)?;
    let network = [SECOND, THIRD];
    listing.add(Lsa::network(alloc, LAN, SECOND, FIRST_NUMBER, 0xffff_ff00, &network)?)?;
    Ok(listing)
}

fn area(alloc: Global) -> Result<Listing, Fail> {
    listing(alloc, &first(10, 20, 10), &second(10, 20, 10, 5), &third(5, 4))
}

// The LSAs as lines of hexadecimal digits.
fn lines(alloc: Global, listing: &Listing) -> Result<String, Fail> {
    let mut text = String::new(alloc);
    for lsa in listing.lsas() {
        text.push_str(&hex::encode(alloc, lsa.view().as_bytes())?)?;
        text.push_str("\n")?;
    }
    Ok(text)
}

// The lines of the area after changes.
fn changed(alloc: Global, changes: &[Change]) -> Result<String, Fail> {
    let Ok(listing) = apply(alloc, area(alloc)?, changes) else {
        return Err(Fail::from("no listing"));
    };
    lines(alloc, &listing)
}

// The cost of an interface on a point-to-point link is that of its longest subnet too, and not that of a host.
#[test]
fn an_interface_gets_a_cost(rt: HostRuntime) -> Result<(), Fail> {
    let alloc = rt.alloc();
    let change = Change::Cost {
        router: FIRST,
        address: Addr(0x0a00_0001),
        cost: 77,
    };
    let wanted = listing(alloc, &first(77, 20, 77), &second(10, 20, 10, 5), &third(5, 4))?;
    assert_eq!(rt; changed(alloc, &[change])?, lines(alloc, &wanted)?);
    Ok(())
}

// That of an interface on a transit network is one of its link alone.
#[test]
fn an_interface_to_a_network_gets_a_cost(rt: HostRuntime) -> Result<(), Fail> {
    let alloc = rt.alloc();
    let change = Change::Cost {
        router: THIRD,
        address: Addr(0x0a01_0003),
        cost: 1,
    };
    let wanted = listing(alloc, &first(10, 20, 10), &second(10, 20, 10, 5), &third(1, 4))?;
    assert_eq!(rt; changed(alloc, &[change])?, lines(alloc, &wanted)?);
    Ok(())
}

// All links to a router get a cost, and those back keep theirs. 10.0.0.5 lies in 10.0.0.0/8 alone.
#[test]
fn all_links_to_a_router_get_a_cost(rt: HostRuntime) -> Result<(), Fail> {
    let alloc = rt.alloc();
    let change = Change::CostTo {
        router: SECOND,
        other: FIRST,
        cost: 65535,
    };
    let both = second(65535, 65535, 65535, 5);
    let wanted = listing(alloc, &first(10, 20, 10), &both, &third(5, 4))?;
    assert_eq!(rt; changed(alloc, &[change])?, lines(alloc, &wanted)?);
    Ok(())
}

// A drained router lists its subnets at their costs (RFC 6987, section 2).
#[test]
fn a_router_is_drained(rt: HostRuntime) -> Result<(), Fail> {
    let alloc = rt.alloc();
    let drained = second(65535, 65535, 10, 65535);
    let wanted = listing(alloc, &first(10, 20, 10), &drained, &third(5, 4))?;
    assert_eq!(rt; changed(alloc, &[Change::Drain(SECOND)])?, lines(alloc, &wanted)?);
    let wanted = listing(alloc, &first(10, 20, 10), &second(10, 20, 10, 5), &third(65535, 65535))?;
    assert_eq!(rt; changed(alloc, &[Change::Drain(THIRD)])?, lines(alloc, &wanted)?);
    Ok(())
}

#[test]
fn what_goes_down_is_left_out(rt: HostRuntime) -> Result<(), Fail> {
    let alloc = rt.alloc();
    let subnet = Prefix::under(Addr(0x0a00_0000), SUBNET).ok_or("a mask")?;
    let failure = AreaFailure::Link {
        a: FIRST,
        b: SECOND,
        subnet,
    };
    let left = without(alloc, &area(alloc)?, &failure)?;
    assert_eq!(rt; changed(alloc, &[Change::Down(failure)])?, lines(alloc, &left)?);
    Ok(())
}

// The last cost counts, and no change is none.
#[test]
fn changes_come_one_after_the_other(rt: HostRuntime) -> Result<(), Fail> {
    let alloc = rt.alloc();
    let cost = |cost: u16| Change::Cost {
        router: SECOND,
        address: Addr(LAN),
        cost,
    };
    let wanted = listing(alloc, &first(10, 20, 10), &second(65535, 65535, 10, 9), &third(5, 4))?;
    let changes = [cost(3), Change::Drain(SECOND), cost(9)];
    assert_eq!(rt; changed(alloc, &changes)?, lines(alloc, &wanted)?);
    assert_eq!(rt; changed(alloc, &[])?, lines(alloc, &area(alloc)?)?);
    Ok(())
}

// ---- the command

fn words(alloc: Global, all: &[&str]) -> Result<Vec<String>, Fail> {
    let mut words = Vec::new(alloc);
    for word in all {
        words.push(String::from_str(alloc, word)?)?;
    }
    Ok(words)
}

// What is printed on standard output and on standard error, and the exit status.
#[derive(Drop)]
struct Printed {
    out: Vec<u8>,
    err: Vec<u8>,
    status: u8,
}

fn printed(
    alloc: Global,
    input: &str,
    down: &[&str],
    costs: &[&str],
    drains: &[&str],
) -> Result<Printed, Fail> {
    let job = EditJob {
        down: words(alloc, down)?,
        costs: words(alloc, costs)?,
        drains: words(alloc, drains)?,
    };
    let (mut out, mut err) = (Vec::new(alloc), Vec::new(alloc));
    let status = edit_text(alloc, &job, input.as_bytes(), &mut out, &mut err);
    Ok(Printed { out, err, status })
}

// What is printed of the area after changes.
fn edited(
    alloc: Global,
    down: &[&str],
    costs: &[&str],
    drains: &[&str],
) -> Result<Printed, Fail> {
    let input = lines(alloc, &area(alloc)?)?;
    printed(alloc, &input, down, costs, drains)
}

#[test]
fn words_name_costs_and_drains(rt: HostRuntime) -> Result<(), Fail> {
    let alloc = rt.alloc();
    let costs = ["1.1.1.1@10.0.0.1=77", "2.2.2.2-1.1.1.1=30", "2.2.2.2@10.1.0.2=1"];
    let all = edited(alloc, &[], &costs, &["3.3.3.3"])?;
    let both = second(30, 30, 30, 1);
    let wanted = listing(alloc, &first(77, 20, 77), &both, &third(65535, 65535))?;
    assert_eq!(rt; all.status, 0);
    assert_eq!(rt; all.out.as_slice(), lines(alloc, &wanted)?.as_bytes());
    assert!(rt; all.err.is_empty());
    Ok(())
}

// The routers of a link in either order, or its subnet alone.
#[test]
fn words_name_what_goes_down(rt: HostRuntime) -> Result<(), Fail> {
    let alloc = rt.alloc();
    let subnet = Prefix::under(Addr(0x0a00_0000), SUBNET).ok_or("a mask")?;
    let failure = AreaFailure::Link {
        a: FIRST,
        b: SECOND,
        subnet,
    };
    let left = lines(alloc, &without(alloc, &area(alloc)?, &failure)?)?;
    for word in ["1.1.1.1-2.2.2.2@10.0.0.0/30", "2.2.2.2-1.1.1.1@10.0.0.0/30", "10.0.0.0/30"] {
        let down = edited(alloc, &[word], &[], &[])?;
        assert_eq!(rt; down.status, 0, "{word}");
        assert_eq!(rt; down.out.as_slice(), left.as_bytes(), "{word}");
    }
    Ok(())
}

// All words name what is there before the first change.
#[test]
fn words_name_what_is_read(rt: HostRuntime) -> Result<(), Fail> {
    let alloc = rt.alloc();
    let both = edited(alloc, &["2.2.2.2"], &["2.2.2.2@10.1.0.2=7"], &["2.2.2.2"])?;
    let gone = edited(alloc, &["2.2.2.2"], &[], &[])?;
    assert_eq!(rt; both.status, 0);
    assert_eq!(rt; both.out.as_slice(), gone.out.as_slice());
    Ok(())
}

#[test]
fn words_that_name_nothing_are_refused(rt: HostRuntime) -> Result<(), Fail> {
    let alloc = rt.alloc();
    for word in [
        "9.9.9.9@10.0.0.1=5",
        "1.1.1.1@10.0.0.2=5",
        "1.1.1.1@10.0.0.1=0",
        "1.1.1.1@10.0.0.1=65536",
        "1.1.1.1@10.0.0.1=05",
        "1.1.1.1@10.0.0.1=+5",
        "1.1.1.1@10.0.0.1=",
        "1.1.1.1@10.0.0.1",
        "1.1.1.1@10.0.0.1=5 ",
        "1.1.1.1-3.3.3.3=5",
        "3.3.3.3-1.1.1.1=5",
        "10.0.0.1=5",
        "",
    ] {
        let refused = edited(alloc, &["1.1.1.1"], &["1.1.1.1-2.2.2.2=5", word], &["9.9.9.9"])?;
        assert_eq!(rt; refused.status, 2, "{word}");
        assert!(rt; refused.out.is_empty(), "{word}");
        let line = format!(in alloc; "{word}: not in this area\n")?;
        assert_eq!(rt; refused.err.as_slice(), line.as_bytes(), "{word}");
    }
    assert_eq!(rt; edited(alloc, &["1.1.1.1:2.2.2.2@10.0.0.0/30"], &[], &[])?.status, 2);
    assert_eq!(rt; edited(alloc, &[], &[], &["1.1.1.1-2.2.2.2"])?.status, 2);
    assert_eq!(rt; edited(alloc, &[], &["1.1.1.1-2.2.2.2=65535"], &["9.9.9.9"])?.status, 2);
    Ok(())
}

#[test]
fn lines_are_refused_as_elsewhere(rt: HostRuntime) -> Result<(), Fail> {
    let alloc = rt.alloc();
    let refused = printed(alloc, "\n00zz\n", &[], &[], &[])?;
    assert_eq!(rt; refused.status, 3);
    assert!(rt; refused.out.is_empty());
    assert_eq!(rt; refused.err.as_slice(), b"line 2: not hex\n".as_slice());
    Ok(())
}

// An LSA at MaxAge is left out, and that is said; with nothing to change the others are printed as they are.
#[test]
fn lsas_at_max_age_are_left_out(rt: HostRuntime) -> Result<(), Fail> {
    let alloc = rt.alloc();
    let mut old = router(alloc, RouterId(0x0404_0404), &[])?;
    old.set_age(Age::new(3600));
    let area = lines(alloc, &area(alloc)?)?;
    let mut input = hex::encode(alloc, old.view().as_bytes())?;
    input.push_str("\n")?;
    input.push_str(&area)?;
    let same = printed(alloc, &input, &[], &[], &[])?;
    assert_eq!(rt; same.status, 0);
    assert_eq!(rt; same.out.as_slice(), area.as_bytes());
    assert_eq!(rt; same.err.as_slice(), b"LSAs left out at MaxAge: 1\n".as_slice());
    Ok(())
}

// A router-LSA of more links than one of the largest size has: 24 + 12 * 1362 bytes.
#[test]
fn too_many_links_are_refused(rt: HostRuntime) -> Result<(), Fail> {
    let alloc = rt.alloc();
    let mut links = Vec::new(alloc);
    for at in 0..1362 {
        links.push(to(SECOND, 0x0b00_0000 + at, 1))?;
    }
    let bytes = router_bytes(alloc, FIRST, &links)?;
    let view = LsaView::read(&bytes)?;
    let mut listing = Listing::new(alloc);
    listing.add(Lsa::copy(alloc, &view)?)?;
    let input = lines(alloc, &listing)?;
    let refused = printed(alloc, &input, &[], &[], &["1.1.1.1"])?;
    assert_eq!(rt; refused.status, 3);
    assert!(rt; refused.out.is_empty());
    assert_eq!(rt; refused.err.as_slice(), b"1.1.1.1: more than 1361 links\n".as_slice());
    assert_eq!(rt; printed(alloc, &input, &[], &[], &[])?.out.as_slice(), input.as_bytes());
    let fault = apply(alloc, listing, &[Change::Drain(FIRST)]).err();
    assert_eq!(rt; fault, Some(WithoutFault::Links));
    Ok(())
}

#[test]
fn streams_that_fail_are_named(rt: HostRuntime) -> Result<(), Fail> {
    let alloc = rt.alloc();
    let input = lines(alloc, &area(alloc)?)?;
    let job = EditJob {
        down: Vec::new(alloc),
        costs: Vec::new(alloc),
        drains: Vec::new(alloc),
    };
    let mut err = Vec::new(alloc);
    let mut out = Failing { left: 0 };
    assert_eq!(rt; edit_text(alloc, &job, input.as_bytes(), &mut out, &mut err), 5);
    assert_eq!(rt; err.as_slice(), b"standard output: not written\n".as_slice());
    Ok(())
}

// A name without its subnet, which one link alone has.
#[test]
fn the_subnet_of_a_link_is_hinted(rt: HostRuntime) -> Result<(), Fail> {
    let alloc = rt.alloc();
    for word in ["1.1.1.1-2.2.2.2", "2.2.2.2-1.1.1.1"] {
        let refused = edited(alloc, &[word], &[], &[])?;
        assert_eq!(rt; refused.status, 2, "{word}");
        let hint = "  did you mean 1.1.1.1-2.2.2.2@10.0.0.0/30?";
        let lines = format!(in alloc; "{word}: not in this area\n{hint}\n")?;
        assert_eq!(rt; refused.err.as_slice(), lines.as_bytes(), "{word}");
    }
    Ok(())
}

// A LAN of the second router alone goes down by its name; its prefix alone is hinted.
#[test]
fn an_interface_to_a_stub_network_goes_down(rt: HostRuntime) -> Result<(), Fail> {
    let alloc = rt.alloc();
    let lan = stub(0xc0a8_0700, 0xffff_ff00, 5);
    let [a, b, c, d] = second(10, 20, 10, 5);
    let one = listing(alloc, &first(10, 20, 10), &[a, b, c, d, lan], &third(5, 4))?;
    let input = lines(alloc, &one)?;
    let down = printed(alloc, &input, &["2.2.2.2@192.168.7.0/24"], &[], &[])?;
    let left = listing(alloc, &first(10, 20, 10), &second(10, 20, 10, 5), &third(5, 4))?;
    assert_eq!(rt; down.status, 0);
    assert_eq!(rt; down.out.as_slice(), lines(alloc, &left)?.as_bytes());
    let short = printed(alloc, &input, &["192.168.7.0/24"], &[], &[])?;
    assert_eq!(rt; short.status, 2);
    let hint = "192.168.7.0/24: not in this area\n  did you mean 2.2.2.2@192.168.7.0/24?\n";
    assert_eq!(rt; short.err.as_slice(), hint.as_bytes());
    Ok(())
}
