//! What changed between two small areas, as it is printed. The tables were worked out by hand.

use super::failing::Failing;
use super::made::{FIRST, FIRST_NUMBER, SECOND, THIRD, link, stub, to};
use ospf_base::{Age, MAX_AGE, RouterId};
use ospf_change::diff::{DiffJob, DiffNames, diff_text};
use ospf_lsa::{Link, LinkKind, Lsa};
use std::alloc::{AllocGlobal, Global};
use std::process::Abort;
use std::test::Fail;

// The mask of a link's subnet.
const SUBNET: u32 = 0xffff_fffc;

const NAMES: DiffNames = DiffNames {
    before: "old.hex",
    after: "new.hex",
};

fn router(alloc: Global, id: RouterId, links: &[Link]) -> Result<Lsa, Fail> {
    Ok(Lsa::router(alloc, id, FIRST_NUMBER, links)?)
}

// LSAs as lines.
fn lines(alloc: Global, lsas: &[Lsa]) -> Result<String, Fail> {
    let mut text = String::new(alloc);
    for lsa in lsas {
        text.push_str(&hex::encode(alloc, lsa.view().as_bytes())?)?;
        text.push_str("\n")?;
    }
    Ok(text)
}

// Three routers, each with a link to each other: 10.0.0.0/30 between the first two and 10.0.0.4/30 between the last two at
// cost 10, 10.0.0.8/30 between the first and the last at cost 30; and a stub of the last.
fn ring(alloc: Global) -> Result<String, Fail> {
    let first = [
        to(SECOND, 0x0a00_0001, 10),
        stub(0x0a00_0000, SUBNET, 10),
        to(THIRD, 0x0a00_0009, 30),
        stub(0x0a00_0008, SUBNET, 30),
    ];
    let second = [
        to(FIRST, 0x0a00_0002, 10),
        stub(0x0a00_0000, SUBNET, 10),
        to(THIRD, 0x0a00_0005, 10),
        stub(0x0a00_0004, SUBNET, 10),
    ];
    let third = [
        to(SECOND, 0x0a00_0006, 10),
        stub(0x0a00_0004, SUBNET, 10),
        to(FIRST, 0x0a00_000a, 30),
        stub(0x0a00_0008, SUBNET, 30),
        stub(0xac10_0003, 0xffff_ffff, 1),
    ];
    let lsas = [
        router(alloc, FIRST, &first)?,
        router(alloc, SECOND, &second)?,
        router(alloc, THIRD, &third)?,
    ];
    lines(alloc, &lsas)
}

// The ring without 10.0.0.4/30, in which the link from the first router to the second costs 15.
fn opened(alloc: Global) -> Result<String, Fail> {
    let first = [
        to(SECOND, 0x0a00_0001, 15),
        stub(0x0a00_0000, SUBNET, 10),
        to(THIRD, 0x0a00_0009, 30),
        stub(0x0a00_0008, SUBNET, 30),
    ];
    let second = [to(FIRST, 0x0a00_0002, 10), stub(0x0a00_0000, SUBNET, 10)];
    let third = [
        to(FIRST, 0x0a00_000a, 30),
        stub(0x0a00_0008, SUBNET, 30),
        stub(0xac10_0003, 0xffff_ffff, 1),
    ];
    let lsas = [
        router(alloc, FIRST, &first)?,
        router(alloc, SECOND, &second)?,
        router(alloc, THIRD, &third)?,
    ];
    lines(alloc, &lsas)
}

// Routers on the network 10.1.0.0/24 of the second, each at a cost of its own.
fn lan(alloc: Global, members: &[(RouterId, u32, u16)]) -> Result<String, Fail> {
    let network = 0x0a01_0002;
    let mut lsas = Vec::new(alloc);
    let mut attached = Vec::new(alloc);
    for (id, address, cost) in members {
        attached.push(*id)?;
        lsas.push(router(alloc, *id, &[link(LinkKind::Transit, network, *address, *cost)])?)?;
    }
    lsas.push(Lsa::network(alloc, network, SECOND, FIRST_NUMBER, 0xffff_ff00, &attached)?)?;
    lines(alloc, &lsas)
}

// What is to be printed of two databases.
#[derive(Drop)]
struct Case<'a> {
    root: Option<RouterId>,
    before: &'a str,
    after: &'a str,
    out: &'a str,
    err: &'a str,
    status: u8,
}

fn expect(rt: &(impl Abort + AllocGlobal), case: &Case<'_>) -> Result<(), Fail> {
    let alloc = rt.alloc();
    let (mut out, mut err) = (Vec::new(alloc), Vec::new(alloc));
    let job = DiffJob { root: case.root };
    let (before, after) = (case.before.as_bytes(), case.after.as_bytes());
    let status = diff_text(alloc, &job, NAMES, before, after, &mut out, &mut err);
    assert_eq!(rt; str::from_utf8(&out)?, case.out);
    assert_eq!(rt; str::from_utf8(&err)?, case.err);
    assert_eq!(rt; status, case.status);
    Ok(())
}

static NOTHING: &str = "routes: 0 lost, 0 gained, 0 longer, 0 shorter, 0 rerouted, at 0 routers\n";

#[test]
fn one_area_differs_in_nothing(rt: HostRuntime) -> Result<(), Fail> {
    let alloc = rt.alloc();
    let ring = ring(alloc)?;
    for (area, root) in [(ring.as_str(), None), (ring.as_str(), Some(FIRST)), ("", None)] {
        expect(
            &rt,
            &Case {
                root,
                before: area,
                after: area,
                out: NOTHING,
                err: "",
                status: 0,
            },
        )?;
    }
    Ok(())
}

#[test]
fn a_link_goes_and_a_cost_rises(rt: HostRuntime) -> Result<(), Fail> {
    let alloc = rt.alloc();
    expect(
        &rt,
        &Case {
            root: None,
            before: &ring(alloc)?,
            after: &opened(alloc)?,
            out: "- 2.2.2.2-3.3.3.3@10.0.0.4/30\n\
                cost 1.1.1.1 10.0.0.1 to 2.2.2.2: 10 -> 15\n\
                1.1.1.1 lost 10.0.0.4/30 cost 20 via 10.0.0.1>2.2.2.2\n\
                1.1.1.1 longer 172.16.0.3/32 cost 21 via 10.0.0.1>2.2.2.2 -> cost 31 via 10.0.0.9>3.3.3.3\n\
                2.2.2.2 lost 10.0.0.4/30 cost 10 via attached\n\
                2.2.2.2 rerouted 10.0.0.8/30 cost 40 via 10.0.0.2>1.1.1.1,10.0.0.5>3.3.3.3 -> via 10.0.0.2>1.1.1.1\n\
                2.2.2.2 longer 172.16.0.3/32 cost 11 via 10.0.0.5>3.3.3.3 -> cost 41 via 10.0.0.2>1.1.1.1\n\
                3.3.3.3 longer 10.0.0.0/30 cost 20 via 10.0.0.6>2.2.2.2 -> cost 40 via 10.0.0.10>1.1.1.1\n\
                3.3.3.3 lost 10.0.0.4/30 cost 10 via attached\n\
                routes: 3 lost, 0 gained, 3 longer, 0 shorter, 1 rerouted, at 3 routers\n",
            err: "",
            status: 1,
        },
    )
}

#[test]
fn a_link_comes_and_a_cost_falls(rt: HostRuntime) -> Result<(), Fail> {
    let alloc = rt.alloc();
    expect(
        &rt,
        &Case {
            root: Some(SECOND),
            before: &opened(alloc)?,
            after: &ring(alloc)?,
            out: "+ 2.2.2.2-3.3.3.3@10.0.0.4/30\n\
                cost 1.1.1.1 10.0.0.1 to 2.2.2.2: 15 -> 10\n\
                2.2.2.2 gained 10.0.0.4/30 cost 10 via attached\n\
                2.2.2.2 rerouted 10.0.0.8/30 cost 40 via 10.0.0.2>1.1.1.1 -> via 10.0.0.2>1.1.1.1,10.0.0.5>3.3.3.3\n\
                2.2.2.2 shorter 172.16.0.3/32 cost 41 via 10.0.0.2>1.1.1.1 -> cost 11 via 10.0.0.5>3.3.3.3\n\
                routes: 0 lost, 1 gained, 0 longer, 1 shorter, 1 rerouted, at 1 routers\n",
            err: "",
            status: 0,
        },
    )
}

#[test]
fn a_router_joins_a_network(rt: HostRuntime) -> Result<(), Fail> {
    let alloc = rt.alloc();
    let two = [(FIRST, 0x0a01_0001, 10), (SECOND, 0x0a01_0002, 10)];
    let three = [(FIRST, 0x0a01_0001, 7), (SECOND, 0x0a01_0002, 10), (THIRD, 0x0a01_0003, 10)];
    expect(
        &rt,
        &Case {
            root: None,
            before: &lan(alloc, &two)?,
            after: &lan(alloc, &three)?,
            out: "+ 3.3.3.3@10.1.0.2\n\
                + 3.3.3.3\n\
                cost 1.1.1.1 10.1.0.1 to @10.1.0.2: 10 -> 7\n\
                1.1.1.1 shorter 10.1.0.0/24 cost 10 via attached -> cost 7 via attached\n\
                3.3.3.3 gained 10.1.0.0/24 cost 10 via attached\n\
                routes: 0 lost, 1 gained, 0 longer, 1 shorter, 0 rerouted, at 2 routers\n",
            err: "",
            status: 0,
        },
    )
}

#[test]
fn the_cheapest_of_several_links_counts(rt: HostRuntime) -> Result<(), Fail> {
    let alloc = rt.alloc();
    let mut areas = Vec::new(alloc);
    for costs in [[10, 30], [30, 10], [20, 30]] {
        let [one, more] = costs;
        let links = [to(SECOND, 0x0a00_0001, one), to(SECOND, 0x0a00_0001, more)];
        let second = router(alloc, SECOND, &[to(FIRST, 0x0a00_0002, 10)])?;
        areas.push(lines(alloc, &[router(alloc, FIRST, &links)?, second])?)?;
    }
    for (place, out) in ["", "", "cost 1.1.1.1 10.0.0.1 to 2.2.2.2: 10 -> 20\n"].iter().enumerate() {
        let mut text = String::new(alloc);
        text.push_str(out)?;
        text.push_str(NOTHING)?;
        expect(
            &rt,
            &Case {
                root: None,
                before: &areas[0],
                after: &areas[place],
                out: &text,
                err: "",
                status: 0,
            },
        )?;
    }
    Ok(())
}

#[test]
fn databases_are_warned_of_by_their_names(rt: HostRuntime) -> Result<(), Fail> {
    let alloc = rt.alloc();
    let two = [(FIRST, 0x0a01_0001, 10), (SECOND, 0x0a01_0002, 10)];
    let mut old = lan(alloc, &two)?;
    let mut gone = router(alloc, RouterId(0x0909_0909), &[])?;
    gone.set_age(Age::new(MAX_AGE));
    old.push_str(&lines(alloc, &[gone])?)?;
    expect(
        &rt,
        &Case {
            root: Some(THIRD),
            before: &old,
            after: "",
            out: "- 1.1.1.1@10.1.0.2\n\
                - 2.2.2.2@10.1.0.2\n\
                - @10.1.0.2\n\
                - 1.1.1.1\n\
                - 2.2.2.2\n\
                routes: 0 lost, 0 gained, 0 longer, 0 shorter, 0 rerouted, at 0 routers\n",
            err: "old.hex: LSAs left out at MaxAge: 1\n\
                old.hex: 3.3.3.3: no router-LSA of this router\n\
                new.hex: 3.3.3.3: no router-LSA of this router\n",
            status: 0,
        },
    )
}

#[test]
fn a_line_is_refused_by_the_name_of_its_database(rt: HostRuntime) -> Result<(), Fail> {
    let alloc = rt.alloc();
    let ring = ring(alloc)?;
    let mut wrong = ring.clone()?;
    wrong.push_str("\nzz\n")?;
    let cases = [
        (wrong.as_str(), ring.as_str(), "old.hex: line 5: not hex\n"),
        (ring.as_str(), wrong.as_str(), "new.hex: line 5: not hex\n"),
        (wrong.as_str(), wrong.as_str(), "old.hex: line 5: not hex\n"),
    ];
    for (before, after, err) in cases {
        expect(
            &rt,
            &Case {
                root: None,
                before,
                after,
                out: "",
                err,
                status: 3,
            },
        )?;
    }
    Ok(())
}

#[test]
fn a_stream_fails(rt: HostRuntime) -> Result<(), Fail> {
    let alloc = rt.alloc();
    let ring = ring(alloc)?;
    let mut err = Vec::new(alloc);
    let job = DiffJob { root: None };
    let mut out = Failing { left: 0 };
    let status = diff_text(alloc, &job, NAMES, ring.as_bytes(), ring.as_bytes(), &mut out, &mut err);
    assert_eq!(rt; str::from_utf8(&err)?, "standard output: not written\n");
    assert_eq!(rt; status, 5);
    Ok(())
}
