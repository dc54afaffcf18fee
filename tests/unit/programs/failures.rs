//! What failures of small areas change, as it is printed.

use super::failing::Failing;
use super::made::{FIRST, FIRST_NUMBER, SECOND, THIRD, link, router_bytes, stub, to};
use super::program::Nobody;
use ospf_base::{Addr, RouterId};
use ospf_failures::{Carrier, FailuresForm, FailuresJob, FailuresStatus, Progress, RouterFailures, failures_text};
use ospf_files::Status;
use ospf_harm::failures_report;
use ospf_lsa::{Link, LinkKind, Listing, Lsa};
use ospf_table::find_failure;
use ospf_whatif::{AreaFailure, single_failures};
use std::alloc::{AllocGlobal, Global};
use std::process::{Abort, ExitCode};
use std::test::Fail;
use std::thread::Threads;

// The mask of a link's subnet.
const SUBNET: u32 = 0xffff_fffc;

fn router(alloc: Global, id: RouterId, links: &[Link]) -> Result<Lsa, Fail> {
    Ok(Lsa::router(alloc, id, FIRST_NUMBER, links)?)
}

// Three routers, each with a link to each other: 10.0.0.0/30 between the first two and 10.0.0.4/30 between the last two at
// cost 10, 10.0.0.8/30 between the first and the last at cost 30; and a stub of the last.
fn ring(alloc: Global) -> Result<Vec<Lsa>, Fail> {
    let mut lsas = Vec::new(alloc);
    lsas.push(router(
        alloc,
        FIRST,
        &[
            to(SECOND, 0x0a00_0001, 10),
            stub(0x0a00_0000, SUBNET, 10),
            to(THIRD, 0x0a00_0009, 30),
            stub(0x0a00_0008, SUBNET, 30),
        ],
    )?)?;
    lsas.push(router(
        alloc,
        SECOND,
        &[
            to(FIRST, 0x0a00_0002, 10),
            stub(0x0a00_0000, SUBNET, 10),
            to(THIRD, 0x0a00_0005, 10),
            stub(0x0a00_0004, SUBNET, 10),
        ],
    )?)?;
    lsas.push(router(
        alloc,
        THIRD,
        &[
            to(SECOND, 0x0a00_0006, 10),
            stub(0x0a00_0004, SUBNET, 10),
            to(FIRST, 0x0a00_000a, 30),
            stub(0x0a00_0008, SUBNET, 30),
            stub(0xac10_0003, 0xffff_ffff, 1),
        ],
    )?)?;
    Ok(lsas)
}

// Two routers with a link of which no subnet is told and the network 10.1.0.0/24 between them, at one cost, and a stub of the
// second.
fn pair(alloc: Global) -> Result<Vec<Lsa>, Fail> {
    let network = 0x0a01_0002;
    let mut lsas = Vec::new(alloc);
    lsas.push(router(
        alloc,
        FIRST,
        &[
            to(SECOND, 0x0a00_0001, 10),
            link(LinkKind::Transit, network, 0x0a01_0001, 10),
        ],
    )?)?;
    lsas.push(router(
        alloc,
        SECOND,
        &[
            to(FIRST, 0x0a00_0002, 10),
            link(LinkKind::Transit, network, network, 10),
            stub(0xc0a8_0200, 0xffff_ff00, 5),
        ],
    )?)?;
    lsas.push(Lsa::network(
        alloc,
        network,
        SECOND,
        FIRST_NUMBER,
        0xffff_ff00,
        &[FIRST, SECOND],
    )?)?;
    Ok(lsas)
}

// Two routers with the link 10.0.0.0/30 alone between them, and a stub of the second.
fn chain(alloc: Global) -> Result<Vec<Lsa>, Fail> {
    let mut lsas = Vec::new(alloc);
    lsas.push(router(
        alloc,
        FIRST,
        &[to(SECOND, 0x0a00_0001, 10), stub(0x0a00_0000, SUBNET, 10)],
    )?)?;
    lsas.push(router(
        alloc,
        SECOND,
        &[
            to(FIRST, 0x0a00_0002, 10),
            stub(0x0a00_0000, SUBNET, 10),
            stub(0xc0a8_0200, 0xffff_ff00, 5),
        ],
    )?)?;
    Ok(lsas)
}

// Two routers with a link in 10.0.0.0/30, a cheaper one without addresses, which is the fifth interface of the first and the
// seventh of the second, and a stub of the second.
fn unnumbered_beside(alloc: Global) -> Result<Vec<Lsa>, Fail> {
    let first = [to(SECOND, 0x0a00_0001, 10), stub(0x0a00_0000, SUBNET, 10), to(SECOND, 5, 4)];
    let second = [
        to(FIRST, 0x0a00_0002, 10),
        stub(0x0a00_0000, SUBNET, 10),
        to(FIRST, 7, 4),
        stub(0xc0a8_0200, 0xffff_ff00, 5),
    ];
    let mut lsas = Vec::new(alloc);
    lsas.push(router(alloc, FIRST, &first)?)?;
    lsas.push(router(alloc, SECOND, &second)?)?;
    Ok(lsas)
}

// Two routers with links in 10.0.0.0/24 at cost 10 and in 10.0.0.128/30 at cost 20, and a stub of the second.
fn nested(alloc: Global) -> Result<Vec<Lsa>, Fail> {
    let first = [
        to(SECOND, 0x0a00_0001, 10),
        stub(0x0a00_0000, 0xffff_ff00, 10),
        to(SECOND, 0x0a00_0081, 20),
        stub(0x0a00_0080, SUBNET, 20),
    ];
    let second = [
        to(FIRST, 0x0a00_0002, 10),
        stub(0x0a00_0000, 0xffff_ff00, 10),
        to(FIRST, 0x0a00_0082, 20),
        stub(0x0a00_0080, SUBNET, 20),
        stub(0xc0a8_0200, 0xffff_ff00, 1),
    ];
    let mut lsas = Vec::new(alloc);
    lsas.push(router(alloc, FIRST, &first)?)?;
    lsas.push(router(alloc, SECOND, &second)?)?;
    Ok(lsas)
}

// Two routers on 10.1.0.0/24, of which the second is a stub router, as FRR's `max-metric router-lsa administrative` makes it.
fn stub_router_on_a_lan(alloc: Global) -> Result<Vec<Lsa>, Fail> {
    let network = 0x0a01_0002;
    let first = [link(LinkKind::Transit, network, 0x0a01_0001, 10)];
    let second = [link(LinkKind::Transit, network, network, 0xffff)];
    let attached = [FIRST, SECOND];
    let mut lsas = Vec::new(alloc);
    lsas.push(router(alloc, FIRST, &first)?)?;
    lsas.push(router(alloc, SECOND, &second)?)?;
    lsas.push(Lsa::network(alloc, network, SECOND, FIRST_NUMBER, 0xffff_ff00, &attached)?)?;
    Ok(lsas)
}

// LSAs as lines.
fn lines(alloc: Global, lsas: &[Lsa]) -> Result<String, Fail> {
    let mut text = String::new(alloc);
    for lsa in lsas {
        text.push_str(&hex::encode(alloc, lsa.view().as_bytes())?)?;
        text.push_str("\n")?;
    }
    Ok(text)
}

fn listing(alloc: Global, lsas: Vec<Lsa>) -> Result<Listing, Fail> {
    let mut listing = Listing::new(alloc);
    for lsa in lsas {
        listing.add(lsa)?;
    }
    Ok(listing)
}

// What is wanted of a job over an input.
#[derive(Drop)]
struct Case<'a> {
    root: RouterId,
    each: bool,
    strict: bool,
    input: &'a str,
    status: FailuresStatus,
    out: &'a str,
    err: &'a str,
}

impl<'a> Case<'a> {
    // Of a job that says itself which roots it is for.
    fn over(input: &'a str, status: FailuresStatus, out: &'a str, err: &'a str) -> Case<'a> {
        Case {
            root: FIRST,
            each: false,
            strict: false,
            input,
            status,
            out,
            err,
        }
    }
}

fn expect(rt: &(impl Abort + AllocGlobal + Threads + Sync), alloc: Global, case: &Case<'_>) -> Result<(), Fail> {
    let job = FailuresJob::Root(RouterFailures {
        root: case.root,
        each: case.each,
        strict: case.strict,
        form: FailuresForm::Text,
        carrier: Carrier::Process,
    });
    expect_of(rt, alloc, &job, case)
}

// What is wanted of another job than that of the case.
fn expect_of(
    rt: &(impl Abort + AllocGlobal + Threads + Sync),
    alloc: Global,
    job: &FailuresJob,
    case: &Case<'_>,
) -> Result<(), Fail> {
    let (mut out, mut err) = (Vec::new(alloc), Vec::new(alloc));
    let status = failures_text(rt, job, case.input.as_bytes(), &mut out, &mut err, &mut Nobody);
    assert_eq!(rt; str::from_utf8(&out)?, case.out);
    assert_eq!(rt; str::from_utf8(&err)?, case.err);
    assert_eq!(rt; status, case.status);
    if let FailuresJob::Root(asked) = job {
        expect_in_turn(rt, alloc, asked, case)?;
    }
    Ok(())
}

// What is wanted of the same without threads.
fn expect_in_turn(
    rt: &(impl Abort + AllocGlobal),
    alloc: Global,
    asked: &RouterFailures,
    case: &Case<'_>,
) -> Result<(), Fail> {
    match failures_report(alloc, asked, case.input.as_bytes()) {
        Ok(report) => {
            assert_eq!(rt; report.text.as_str(), case.out);
            assert_eq!(rt; report.warnings.as_str(), case.err);
            assert_eq!(rt; report.status, case.status.code());
        }
        Err(failure) => assert_eq!(rt; failure.status().code(), case.status.code()),
    }
    Ok(())
}

const DONE: FailuresStatus = FailuresStatus::Ended(Status::Done);

// What is wanted of the first router's failures with each route, over an input that is read to its end.
fn expect_each(rt: &(impl Abort + AllocGlobal + Threads + Sync), alloc: Global, input: &str, out: &str) -> Result<(), Fail> {
    let case = Case {
        root: FIRST,
        each: true,
        strict: false,
        input,
        status: DONE,
        out,
        err: "",
    };
    expect(rt, alloc, &case)
}

#[test]
fn prefixes_go_and_cost_more(rt: HostRuntime) -> Result<(), Fail> {
    let alloc = rt.alloc();
    let input = lines(alloc, &ring(alloc)?)?;
    let totals = "1.1.1.1-2.2.2.2@10.0.0.0/30 cut 0 gone 1 cost 2 hops 0\n\
        2.2.2.2-3.3.3.3@10.0.0.4/30 cut 0 gone 1 cost 1 hops 0\n\
        1.1.1.1-3.3.3.3@10.0.0.8/30 cut 0 gone 1 cost 0 hops 0\n\
        3.3.3.3 cut 0 gone 1 cost 0 hops 0\n\
        2.2.2.2 cut 0 gone 0 cost 2 hops 0\n";
    let each = "1.1.1.1-2.2.2.2@10.0.0.0/30 gone 10.0.0.0/30\n\
        1.1.1.1-2.2.2.2@10.0.0.0/30 cost 10.0.0.4/30 20>40 10.0.0.9>3.3.3.3\n\
        1.1.1.1-2.2.2.2@10.0.0.0/30 cost 172.16.0.3/32 21>31 10.0.0.9>3.3.3.3\n\
        1.1.1.1-2.2.2.2@10.0.0.0/30 cut 0 gone 1 cost 2 hops 0\n\
        2.2.2.2-3.3.3.3@10.0.0.4/30 gone 10.0.0.4/30\n\
        2.2.2.2-3.3.3.3@10.0.0.4/30 cost 172.16.0.3/32 21>31 10.0.0.9>3.3.3.3\n\
        2.2.2.2-3.3.3.3@10.0.0.4/30 cut 0 gone 1 cost 1 hops 0\n\
        1.1.1.1-3.3.3.3@10.0.0.8/30 gone 10.0.0.8/30\n\
        1.1.1.1-3.3.3.3@10.0.0.8/30 cut 0 gone 1 cost 0 hops 0\n\
        3.3.3.3 gone 172.16.0.3/32\n\
        3.3.3.3 cut 0 gone 1 cost 0 hops 0\n\
        2.2.2.2 cost 10.0.0.4/30 20>40 10.0.0.9>3.3.3.3\n\
        2.2.2.2 cost 172.16.0.3/32 21>31 10.0.0.9>3.3.3.3\n\
        2.2.2.2 cut 0 gone 0 cost 2 hops 0\n";
    for (wants_each, out) in [(false, totals), (true, each)] {
        expect(
            &rt,
            alloc,
            &Case {
                root: FIRST,
                each: wants_each,
                strict: true,
                input: &input,
                status: DONE,
                out,
                err: "",
            },
        )?;
    }
    Ok(())
}

#[test]
fn hops_change(rt: HostRuntime) -> Result<(), Fail> {
    let alloc = rt.alloc();
    let input = lines(alloc, &pair(alloc)?)?;
    let out = "@10.1.0.2 gone 10.1.0.0/24\n\
        @10.1.0.2 hops 192.168.2.0/24 15 10.0.0.1>2.2.2.2\n\
        @10.1.0.2 cut 0 gone 1 cost 0 hops 1\n\
        2.2.2.2 gone 192.168.2.0/24\n\
        2.2.2.2 cut 0 gone 1 cost 0 hops 0\n\
        1.1.1.1@10.1.0.2 cost 10.1.0.0/24 10>20 10.0.0.1>2.2.2.2\n\
        1.1.1.1@10.1.0.2 hops 192.168.2.0/24 15 10.0.0.1>2.2.2.2\n\
        1.1.1.1@10.1.0.2 cut 0 gone 0 cost 1 hops 1\n\
        1.1.1.1-2.2.2.2 hops 192.168.2.0/24 15 10.1.0.1>2.2.2.2@10.1.0.2\n\
        1.1.1.1-2.2.2.2 cut 0 gone 0 cost 0 hops 1\n\
        2.2.2.2@10.1.0.2 hops 192.168.2.0/24 15 10.0.0.1>2.2.2.2\n\
        2.2.2.2@10.1.0.2 cut 0 gone 0 cost 0 hops 1\n";
    expect_each(&rt, alloc, &input, out)
}

#[test]
fn unnumbered_links_beside_one_in_a_subnet(rt: HostRuntime) -> Result<(), Fail> {
    let alloc = rt.alloc();
    let input = lines(alloc, &unnumbered_beside(alloc)?)?;
    let out = "1.1.1.1-2.2.2.2@10.0.0.0/30 gone 10.0.0.0/30\n\
        1.1.1.1-2.2.2.2@10.0.0.0/30 cut 0 gone 1 cost 0 hops 0\n\
        2.2.2.2 gone 192.168.2.0/24\n\
        2.2.2.2 cut 0 gone 1 cost 0 hops 0\n\
        1.1.1.1-2.2.2.2@0.0.0.0/8 cost 192.168.2.0/24 9>15 10.0.0.1>2.2.2.2\n\
        1.1.1.1-2.2.2.2@0.0.0.0/8 cut 0 gone 0 cost 1 hops 0\n";
    expect_each(&rt, alloc, &input, out)
}

// The link in the /24 fails without the one in the /30 inside it, and the other way round.
#[test]
fn subnets_inside_others_fail_apart(rt: HostRuntime) -> Result<(), Fail> {
    let alloc = rt.alloc();
    let input = lines(alloc, &nested(alloc)?)?;
    let out = "1.1.1.1-2.2.2.2@10.0.0.0/24 gone 10.0.0.0/24\n\
        1.1.1.1-2.2.2.2@10.0.0.0/24 cost 192.168.2.0/24 11>21 10.0.0.129>2.2.2.2\n\
        1.1.1.1-2.2.2.2@10.0.0.0/24 cut 0 gone 1 cost 1 hops 0\n\
        1.1.1.1-2.2.2.2@10.0.0.128/30 gone 10.0.0.128/30\n\
        1.1.1.1-2.2.2.2@10.0.0.128/30 cut 0 gone 1 cost 0 hops 0\n\
        2.2.2.2 gone 192.168.2.0/24\n\
        2.2.2.2 cut 0 gone 1 cost 0 hops 0\n";
    expect_each(&rt, alloc, &input, out)
}

// The same in tables without one or both of them, in any order.
#[test]
fn tables_without_subnets_inside_others(rt: HostRuntime) -> Result<(), Fail> {
    let alloc = rt.alloc();
    let wide = "10.0.0.128/30 20 attached\n192.168.2.0/24 21 10.0.0.129>2.2.2.2\n";
    let narrow = "10.0.0.0/24 10 attached\n192.168.2.0/24 11 10.0.0.1>2.2.2.2\n";
    expect_nested(&rt, alloc, &["10.0.0.0/24"], wide)?;
    expect_nested(&rt, alloc, &["10.0.0.128/30"], narrow)?;
    expect_nested(&rt, alloc, &["10.0.0.0/24", "10.0.0.128/30"], "")?;
    expect_nested(&rt, alloc, &["10.0.0.128/30", "10.0.0.0/24"], "")
}

// What is wanted of the table of the first router without links whose subnets lie one in the other.
fn expect_nested(
    rt: &(impl Abort + AllocGlobal + Threads + Sync),
    alloc: Global,
    names: &[&str],
    out: &str,
) -> Result<(), Fail> {
    let input = lines(alloc, &nested(alloc)?)?;
    let mut owned = Vec::new(alloc);
    for name in names {
        owned.push(String::from_str(alloc, name)?)?;
    }
    let job = FailuresJob::Without {
        root: FIRST,
        names: owned,
        addresses: Vec::new(alloc),
    };
    expect_of(rt, alloc, &job, &Case::over(&input, DONE, out, ""))
}

// A link whose subnet is the default route fails without the one without addresses beside it.
#[test]
fn unnumbered_links_are_in_no_shorter_subnet(rt: HostRuntime) -> Result<(), Fail> {
    let alloc = rt.alloc();
    let default = stub(0, 0, 1);
    let lan = stub(0xc0a8_0200, 0xffff_ff00, 5);
    let mut lsas = Vec::new(alloc);
    lsas.push(router(alloc, FIRST, &[to(SECOND, 0x0a00_0001, 10), to(SECOND, 5, 4), default])?)?;
    lsas.push(router(alloc, SECOND, &[to(FIRST, 0x0a00_0002, 10), to(FIRST, 7, 4), default, lan])?)?;
    let input = lines(alloc, &lsas)?;
    let out = "1.1.1.1-2.2.2.2@0.0.0.0/0 gone 0.0.0.0/0\n\
        1.1.1.1-2.2.2.2@0.0.0.0/0 cut 0 gone 1 cost 0 hops 0\n\
        2.2.2.2 gone 192.168.2.0/24\n\
        2.2.2.2 cut 0 gone 1 cost 0 hops 0\n\
        1.1.1.1-2.2.2.2@0.0.0.0/8 cost 192.168.2.0/24 9>15 10.0.0.1>2.2.2.2\n\
        1.1.1.1-2.2.2.2@0.0.0.0/8 cut 0 gone 0 cost 1 hops 0\n";
    expect_each(&rt, alloc, &input, out)
}

// The default route that both tell is no subnet of links without addresses.
#[test]
fn unnumbered_links_alone(rt: HostRuntime) -> Result<(), Fail> {
    let alloc = rt.alloc();
    let default = stub(0, 0, 1);
    let mut lsas = Vec::new(alloc);
    lsas.push(router(alloc, FIRST, &[to(SECOND, 5, 1), to(SECOND, 6, 10), default])?)?;
    lsas.push(router(alloc, SECOND, &[to(FIRST, 7, 1), to(FIRST, 8, 10), default])?)?;
    let input = lines(alloc, &lsas)?;
    let out = "1.1.1.1-2.2.2.2 cut 0 gone 0 cost 0 hops 0\n\
        2.2.2.2 cut 0 gone 0 cost 0 hops 0\n";
    expect_each(&rt, alloc, &input, out)
}

#[test]
fn what_is_cut_off_is_told_where_it_is_asked_for(rt: HostRuntime) -> Result<(), Fail> {
    let alloc = rt.alloc();
    let input = lines(alloc, &chain(alloc)?)?;
    let out = "1.1.1.1-2.2.2.2@10.0.0.0/30 gone 10.0.0.0/30\n\
        1.1.1.1-2.2.2.2@10.0.0.0/30 cut 192.168.2.0/24\n\
        1.1.1.1-2.2.2.2@10.0.0.0/30 cut 1 gone 1 cost 0 hops 0\n\
        2.2.2.2 gone 192.168.2.0/24\n\
        2.2.2.2 cut 0 gone 1 cost 0 hops 0\n";
    for (strict, status) in [(false, DONE), (true, FailuresStatus::Unmet)] {
        expect(
            &rt,
            alloc,
            &Case {
                root: FIRST,
                each: true,
                strict,
                input: &input,
                status,
                out,
                err: "",
            },
        )?;
    }
    Ok(())
}

// A root that is not listed, or an input where nothing is, does not pass where it is asked to be strict.
#[test]
fn root_that_is_not_listed_is_told(rt: HostRuntime) -> Result<(), Fail> {
    let alloc = rt.alloc();
    let input = lines(alloc, &chain(alloc)?)?;
    let out = "1.1.1.1-2.2.2.2@10.0.0.0/30 cut 0 gone 0 cost 0 hops 0\n\
        1.1.1.1 cut 0 gone 0 cost 0 hops 0\n\
        2.2.2.2 cut 0 gone 0 cost 0 hops 0\n";
    for (strict, status) in [(false, DONE), (true, FailuresStatus::Unmet)] {
        for (input, out) in [(input.as_str(), out), ("", "")] {
            expect(
                &rt,
                alloc,
                &Case {
                    root: THIRD,
                    each: true,
                    strict,
                    input,
                    status,
                    out,
                    err: "3.3.3.3: no router-LSA of this router\n",
                },
            )?;
        }
    }
    Ok(())
}

// Over all routers no root is missing, but there may be none.
#[test]
fn no_router_is_told_by_the_status(rt: HostRuntime) -> Result<(), Fail> {
    let alloc = rt.alloc();
    let members = [FIRST, SECOND];
    let network = Lsa::network(alloc, 0x0a01_0002, SECOND, FIRST_NUMBER, 0xffff_ff00, &members)?;
    let alone = lines(alloc, &[network])?;
    for (strict, status) in [(false, DONE), (true, FailuresStatus::Unmet)] {
        for (form, out) in [(FailuresForm::Text, ""), (FailuresForm::Json, "[]\n")] {
            for input in ["", alone.as_str()] {
                let job = FailuresJob::All {
                    each: false,
                    strict,
                    form,
                    carrier: Carrier::Process,
                };
                expect_of(&rt, alloc, &job, &Case::over(input, status, out, ""))?;
            }
        }
    }
    Ok(())
}

#[test]
fn line_that_is_no_lsa_is_refused(rt: HostRuntime) -> Result<(), Fail> {
    let alloc = rt.alloc();
    let mut input = lines(alloc, &chain(alloc)?)?;
    input.push_str("zz\n")?;
    expect(
        &rt,
        alloc,
        &Case {
            root: FIRST,
            each: true,
            strict: true,
            input: &input,
            status: FailuresStatus::Ended(Status::Refused),
            out: "",
            err: "line 3: not hex\n",
        },
    )
}

// The bytes of the router-LSA of a router with so many stubs, each of another host.
fn router_of_stubs(alloc: Global, id: RouterId, stubs: u32) -> Result<Vec<u8>, Fail> {
    let mut links = Vec::new(alloc);
    for number in 0..stubs {
        links.push(stub(0xac10_0000 + number, 0xffff_ffff, 1))?;
    }
    router_bytes(alloc, id, &links)
}

#[test]
fn router_of_too_many_links_is_refused(rt: HostRuntime) -> Result<(), Fail> {
    let alloc = rt.alloc();
    let unlisted = "1.1.1.1: no router-LSA of this router\n";
    for (stubs, status, err) in [
        (1361, DONE, unlisted),
        (
            1362,
            FailuresStatus::Ended(Status::Refused),
            "2.2.2.2: more than 1361 links\n",
        ),
    ] {
        let input = hex::encode(alloc, &router_of_stubs(alloc, SECOND, stubs)?)?;
        // Only without parts that are named are LSAs made anew.
        let report = "2.2.2.2 cut 0 gone 0 cost 0 hops 0\n";
        let failures = Case::over(&input, DONE, report, unlisted);
        expect(&rt, alloc, &failures)?;
        let none = without(alloc, Vec::new(alloc));
        expect_of(&rt, alloc, &none, &Case::over(&input, DONE, "", unlisted))?;
        let second = without(alloc, vec![in alloc; String::from_str(alloc, "2.2.2.2")?]?);
        expect_of(&rt, alloc, &second, &Case::over(&input, status, "", err))?;
    }
    Ok(())
}

// The table of the first router without parts.
fn without(alloc: Global, names: Vec<String>) -> FailuresJob {
    FailuresJob::Without {
        root: FIRST,
        names,
        addresses: Vec::new(alloc),
    }
}

// What is wanted over all routers.
fn expect_all(
    rt: &(impl Abort + AllocGlobal + Threads + Sync),
    alloc: Global,
    lsas: &[Lsa],
    job: FailuresJob,
    status: FailuresStatus,
    out: &str,
) -> Result<(), Fail> {
    let input = lines(alloc, lsas)?;
    expect_of(rt, alloc, &job, &Case::over(&input, status, out, ""))
}

#[test]
fn failures_over_all_routers(rt: HostRuntime) -> Result<(), Fail> {
    let alloc = rt.alloc();
    let lsas = ring(alloc)?;
    let sums = "2.2.2.2-3.3.3.3@10.0.0.4/30 cut 0 gone 3 cost 3 hops 1 routers 3\n\
        1.1.1.1-2.2.2.2@10.0.0.0/30 cut 0 gone 3 cost 2 hops 1 routers 3\n\
        1.1.1.1-3.3.3.3@10.0.0.8/30 cut 0 gone 3 cost 0 hops 0 routers 3\n\
        3.3.3.3 cut 0 gone 2 cost 0 hops 1 routers 2\n\
        2.2.2.2 cut 0 gone 0 cost 3 hops 0 routers 2\n\
        1.1.1.1 cut 0 gone 0 cost 0 hops 1 routers 1\n";
    let job = FailuresJob::All {
        each: false,
        strict: true,
        form: FailuresForm::Text,
        carrier: Carrier::Process,
    };
    expect_all(&rt, alloc, &lsas, job, DONE, sums)?;
    let each = "1.1.1.1 2.2.2.2-3.3.3.3@10.0.0.4/30 gone 10.0.0.4/30\n\
        1.1.1.1 2.2.2.2-3.3.3.3@10.0.0.4/30 cost 172.16.0.3/32 21>31 10.0.0.9>3.3.3.3\n\
        2.2.2.2 2.2.2.2-3.3.3.3@10.0.0.4/30 gone 10.0.0.4/30\n\
        2.2.2.2 2.2.2.2-3.3.3.3@10.0.0.4/30 hops 10.0.0.8/30 40 10.0.0.2>1.1.1.1\n\
        2.2.2.2 2.2.2.2-3.3.3.3@10.0.0.4/30 cost 172.16.0.3/32 11>41 10.0.0.2>1.1.1.1\n\
        3.3.3.3 2.2.2.2-3.3.3.3@10.0.0.4/30 cost 10.0.0.0/30 20>40 10.0.0.10>1.1.1.1\n\
        3.3.3.3 2.2.2.2-3.3.3.3@10.0.0.4/30 gone 10.0.0.4/30\n\
        2.2.2.2-3.3.3.3@10.0.0.4/30 cut 0 gone 3 cost 3 hops 1 routers 3\n\
        1.1.1.1 1.1.1.1-2.2.2.2@10.0.0.0/30 gone 10.0.0.0/30\n\
        1.1.1.1 1.1.1.1-2.2.2.2@10.0.0.0/30 cost 10.0.0.4/30 20>40 10.0.0.9>3.3.3.3\n\
        1.1.1.1 1.1.1.1-2.2.2.2@10.0.0.0/30 cost 172.16.0.3/32 21>31 10.0.0.9>3.3.3.3\n\
        2.2.2.2 1.1.1.1-2.2.2.2@10.0.0.0/30 gone 10.0.0.0/30\n\
        2.2.2.2 1.1.1.1-2.2.2.2@10.0.0.0/30 hops 10.0.0.8/30 40 10.0.0.5>3.3.3.3\n\
        3.3.3.3 1.1.1.1-2.2.2.2@10.0.0.0/30 gone 10.0.0.0/30\n\
        1.1.1.1-2.2.2.2@10.0.0.0/30 cut 0 gone 3 cost 2 hops 1 routers 3\n\
        1.1.1.1 1.1.1.1-3.3.3.3@10.0.0.8/30 gone 10.0.0.8/30\n\
        2.2.2.2 1.1.1.1-3.3.3.3@10.0.0.8/30 gone 10.0.0.8/30\n\
        3.3.3.3 1.1.1.1-3.3.3.3@10.0.0.8/30 gone 10.0.0.8/30\n\
        1.1.1.1-3.3.3.3@10.0.0.8/30 cut 0 gone 3 cost 0 hops 0 routers 3\n\
        1.1.1.1 3.3.3.3 gone 172.16.0.3/32\n\
        2.2.2.2 3.3.3.3 hops 10.0.0.8/30 40 10.0.0.2>1.1.1.1\n\
        2.2.2.2 3.3.3.3 gone 172.16.0.3/32\n\
        3.3.3.3 cut 0 gone 2 cost 0 hops 1 routers 2\n\
        1.1.1.1 2.2.2.2 cost 10.0.0.4/30 20>40 10.0.0.9>3.3.3.3\n\
        1.1.1.1 2.2.2.2 cost 172.16.0.3/32 21>31 10.0.0.9>3.3.3.3\n\
        3.3.3.3 2.2.2.2 cost 10.0.0.0/30 20>40 10.0.0.10>1.1.1.1\n\
        2.2.2.2 cut 0 gone 0 cost 3 hops 0 routers 2\n\
        2.2.2.2 1.1.1.1 hops 10.0.0.8/30 40 10.0.0.5>3.3.3.3\n\
        1.1.1.1 cut 0 gone 0 cost 0 hops 1 routers 1\n";
    let job = FailuresJob::All {
        each: true,
        strict: false,
        form: FailuresForm::Text,
        carrier: Carrier::Process,
    };
    expect_all(&rt, alloc, &lsas, job, DONE, each)
}

// What is wanted of a job for the first router as JSON.
fn expect_json(
    rt: &(impl Abort + AllocGlobal + Threads + Sync),
    alloc: Global,
    lsas: &[Lsa],
    each: bool,
    out: &str,
) -> Result<(), Fail> {
    let job = FailuresJob::Root(RouterFailures {
        root: FIRST,
        each,
        strict: true,
        form: FailuresForm::Json,
        carrier: Carrier::Process,
    });
    expect_all(rt, alloc, lsas, job, DONE, out)
}

#[test]
fn failures_are_told_as_json(rt: HostRuntime) -> Result<(), Fail> {
    let alloc = rt.alloc();
    let lsas = pair(alloc)?;
    let totals = "[{\"cost\":0,\"cut\":0,\"failure\":\"@10.1.0.2\",\"gone\":1,\"hops\":1,\"kind\":\"network\"},\
        {\"cost\":0,\"cut\":0,\"failure\":\"2.2.2.2\",\"gone\":1,\"hops\":0,\"kind\":\"router\"},\
        {\"cost\":1,\"cut\":0,\"failure\":\"1.1.1.1@10.1.0.2\",\"gone\":0,\"hops\":1,\"kind\":\"attachment\"},\
        {\"cost\":0,\"cut\":0,\"failure\":\"1.1.1.1-2.2.2.2\",\"gone\":0,\"hops\":1,\"kind\":\"links\"},\
        {\"cost\":0,\"cut\":0,\"failure\":\"2.2.2.2@10.1.0.2\",\"gone\":0,\"hops\":1,\"kind\":\"attachment\"}]\n";
    expect_json(&rt, alloc, &lsas, false, totals)?;
    let each = "[{\"cost\":0,\"cut\":0,\"failure\":\"@10.1.0.2\",\"gone\":1,\"hops\":1,\"kind\":\"network\",\"routes\":[\
        {\"before\":{\"cost\":10,\"hops\":[\"attached\"]},\
        \"loss\":\"gone\",\"prefix\":\"10.1.0.0/24\",\"router\":\"1.1.1.1\"},\
        {\"after\":{\"cost\":15,\"hops\":[\"10.0.0.1>2.2.2.2\"]},\
        \"before\":{\"cost\":15,\"hops\":[\"10.0.0.1>2.2.2.2\",\"10.1.0.1>2.2.2.2@10.1.0.2\"]},\
        \"loss\":\"hops\",\"prefix\":\"192.168.2.0/24\",\"router\":\"1.1.1.1\"}]},\
        {\"cost\":0,\"cut\":0,\"failure\":\"2.2.2.2\",\"gone\":1,\"hops\":0,\"kind\":\"router\",\"routes\":[\
        {\"before\":{\"cost\":15,\"hops\":[\"10.0.0.1>2.2.2.2\",\"10.1.0.1>2.2.2.2@10.1.0.2\"]},\
        \"loss\":\"gone\",\"prefix\":\"192.168.2.0/24\",\"router\":\"1.1.1.1\"}]},\
        {\"cost\":1,\"cut\":0,\"failure\":\"1.1.1.1@10.1.0.2\",\"gone\":0,\"hops\":1,\"kind\":\"attachment\",\"routes\":[\
        {\"after\":{\"cost\":20,\"hops\":[\"10.0.0.1>2.2.2.2\"]},\
        \"before\":{\"cost\":10,\"hops\":[\"attached\"]},\
        \"loss\":\"cost\",\"prefix\":\"10.1.0.0/24\",\"router\":\"1.1.1.1\"},\
        {\"after\":{\"cost\":15,\"hops\":[\"10.0.0.1>2.2.2.2\"]},\
        \"before\":{\"cost\":15,\"hops\":[\"10.0.0.1>2.2.2.2\",\"10.1.0.1>2.2.2.2@10.1.0.2\"]},\
        \"loss\":\"hops\",\"prefix\":\"192.168.2.0/24\",\"router\":\"1.1.1.1\"}]},\
        {\"cost\":0,\"cut\":0,\"failure\":\"1.1.1.1-2.2.2.2\",\"gone\":0,\"hops\":1,\"kind\":\"links\",\"routes\":[\
        {\"after\":{\"cost\":15,\"hops\":[\"10.1.0.1>2.2.2.2@10.1.0.2\"]},\
        \"before\":{\"cost\":15,\"hops\":[\"10.0.0.1>2.2.2.2\",\"10.1.0.1>2.2.2.2@10.1.0.2\"]},\
        \"loss\":\"hops\",\"prefix\":\"192.168.2.0/24\",\"router\":\"1.1.1.1\"}]},\
        {\"cost\":0,\"cut\":0,\"failure\":\"2.2.2.2@10.1.0.2\",\"gone\":0,\"hops\":1,\"kind\":\"attachment\",\"routes\":[\
        {\"after\":{\"cost\":15,\"hops\":[\"10.0.0.1>2.2.2.2\"]},\
        \"before\":{\"cost\":15,\"hops\":[\"10.0.0.1>2.2.2.2\",\"10.1.0.1>2.2.2.2@10.1.0.2\"]},\
        \"loss\":\"hops\",\"prefix\":\"192.168.2.0/24\",\"router\":\"1.1.1.1\"}]}]\n";
    expect_json(&rt, alloc, &lsas, true, each)
}

// Left alone, a stub router advertises its network at the cost of its interface, which is in no LSA.
#[test]
fn cost_of_a_stub_router_left_alone_is_unknown(rt: HostRuntime) -> Result<(), Fail> {
    let alloc = rt.alloc();
    let input = lines(alloc, &stub_router_on_a_lan(alloc)?)?;
    let err = "2.2.2.2@10.1.0.2: its cost after a failure of 1.1.1.1 is not in the LSAs\n";
    let text = "2.2.2.2@10.1.0.2 cut 1 gone 0 cost 0 hops 0\n\
        @10.1.0.2 cut 0 gone 1 cost 0 hops 0\n\
        1.1.1.1@10.1.0.2 cut 0 gone 0 cost 0 hops 0\n\
        1.1.1.1 cut 0 gone 0 cost 0 hops 0\n";
    let json = "[{\"cost\":0,\"cut\":1,\"failure\":\"2.2.2.2@10.1.0.2\",\"gone\":0,\"hops\":0,\"kind\":\"attachment\"},\
        {\"cost\":0,\"cut\":0,\"failure\":\"@10.1.0.2\",\"gone\":1,\"hops\":0,\"kind\":\"network\"},\
        {\"cost\":0,\"cut\":0,\"failure\":\"1.1.1.1@10.1.0.2\",\"gone\":0,\"hops\":0,\"kind\":\"attachment\",\
        \"unknown_costs\":[\"2.2.2.2@10.1.0.2\"]},\
        {\"cost\":0,\"cut\":0,\"failure\":\"1.1.1.1\",\"gone\":0,\"hops\":0,\"kind\":\"router\",\
        \"unknown_costs\":[\"2.2.2.2@10.1.0.2\"]}]\n";
    for (form, out) in [(FailuresForm::Text, text), (FailuresForm::Json, json)] {
        let job = FailuresJob::Root(RouterFailures {
            root: SECOND,
            each: false,
            strict: false,
            form,
            carrier: Carrier::Process,
        });
        expect_of(&rt, alloc, &job, &Case::over(&input, DONE, out, err))?;
    }
    Ok(())
}

#[test]
fn failures_over_all_routers_are_told_as_json(rt: HostRuntime) -> Result<(), Fail> {
    let alloc = rt.alloc();
    let lsas = chain(alloc)?;
    let sums = "[{\"cost\":0,\"cut\":1,\"failure\":\"1.1.1.1-2.2.2.2@10.0.0.0/30\",\
        \"gone\":2,\"hops\":0,\"kind\":\"link\",\"routers\":2},\
        {\"cost\":0,\"cut\":0,\"failure\":\"2.2.2.2\",\"gone\":1,\"hops\":0,\"kind\":\"router\",\"routers\":1},\
        {\"cost\":0,\"cut\":0,\"failure\":\"1.1.1.1\",\"gone\":0,\"hops\":0,\"kind\":\"router\",\"routers\":0}]\n";
    let each = "[{\"cost\":0,\"cut\":1,\"failure\":\"1.1.1.1-2.2.2.2@10.0.0.0/30\",\
        \"gone\":2,\"hops\":0,\"kind\":\"link\",\"routers\":2,\"routes\":[\
        {\"before\":{\"cost\":10,\"hops\":[\"attached\"]},\
        \"loss\":\"gone\",\"prefix\":\"10.0.0.0/30\",\"router\":\"1.1.1.1\"},\
        {\"before\":{\"cost\":15,\"hops\":[\"10.0.0.1>2.2.2.2\"]},\
        \"loss\":\"cut\",\"prefix\":\"192.168.2.0/24\",\"router\":\"1.1.1.1\"},\
        {\"before\":{\"cost\":10,\"hops\":[\"attached\"]},\
        \"loss\":\"gone\",\"prefix\":\"10.0.0.0/30\",\"router\":\"2.2.2.2\"}]},\
        {\"cost\":0,\"cut\":0,\"failure\":\"2.2.2.2\",\"gone\":1,\"hops\":0,\"kind\":\"router\",\"routers\":1,\"routes\":[\
        {\"before\":{\"cost\":15,\"hops\":[\"10.0.0.1>2.2.2.2\"]},\
        \"loss\":\"gone\",\"prefix\":\"192.168.2.0/24\",\"router\":\"1.1.1.1\"}]},\
        {\"cost\":0,\"cut\":0,\"failure\":\"1.1.1.1\",\"gone\":0,\"hops\":0,\"kind\":\"router\",\"routers\":0,\"routes\":[]}]\n";
    for (wants_each, out) in [(false, sums), (true, each)] {
        let job = FailuresJob::All {
            each: wants_each,
            strict: true,
            form: FailuresForm::Json,
            carrier: Carrier::Process,
        };
        expect_all(&rt, alloc, &lsas, job, FailuresStatus::Unmet, out)?;
    }
    Ok(())
}

// The first line of version 2 of the JSON, of an input without warnings.
fn head_of_version_two(alloc: Global, lsas: u64) -> Result<String, Fail> {
    let line = format!(in alloc;
        "{{\"input\":{{\"left_out\":0,\"lsas\":{lsas}}},\"outside\":false,\"version\":2,\"warnings\":[]}}\n"
    )?;
    Ok(line)
}

// The LAN is lost with the network that fails; the stub behind the second router is lost with that router. Nothing else is.
#[test]
fn failures_are_told_as_json_of_version_two(rt: HostRuntime) -> Result<(), Fail> {
    let alloc = rt.alloc();
    let lsas = pair(alloc)?;
    let mut out = head_of_version_two(alloc, 3)?;
    out.push_str(
        "{\"cost\":1,\"cut\":0,\"failure\":\"1.1.1.1@10.1.0.2\",\"gone\":0,\"hops\":1,\"kind\":\"attachment\",\"lost\":0,\
        \"network\":\"10.1.0.2\",\"own\":0,\"rerouted\":2,\"routers\":[\"1.1.1.1\"],\"subnet\":null,\"unknown_costs\":[],\"worst_rise\":10}\n\
        {\"cost\":0,\"cut\":0,\"failure\":\"@10.1.0.2\",\"gone\":1,\"hops\":1,\"kind\":\"network\",\"lost\":0,\
        \"network\":\"10.1.0.2\",\"own\":1,\"rerouted\":1,\"routers\":[],\"subnet\":null,\"unknown_costs\":[],\"worst_rise\":0}\n\
        {\"cost\":0,\"cut\":0,\"failure\":\"1.1.1.1-2.2.2.2\",\"gone\":0,\"hops\":1,\"kind\":\"links\",\"lost\":0,\
        \"network\":null,\"own\":0,\"rerouted\":1,\"routers\":[\"1.1.1.1\",\"2.2.2.2\"],\"subnet\":null,\"unknown_costs\":[],\"worst_rise\":0}\n\
        {\"cost\":0,\"cut\":0,\"failure\":\"2.2.2.2@10.1.0.2\",\"gone\":0,\"hops\":1,\"kind\":\"attachment\",\"lost\":0,\
        \"network\":\"10.1.0.2\",\"own\":0,\"rerouted\":1,\"routers\":[\"2.2.2.2\"],\"subnet\":null,\"unknown_costs\":[],\"worst_rise\":0}\n\
        {\"cost\":0,\"cut\":0,\"failure\":\"2.2.2.2\",\"gone\":1,\"hops\":0,\"kind\":\"router\",\"lost\":0,\
        \"network\":null,\"own\":1,\"rerouted\":0,\"routers\":[\"2.2.2.2\"],\"subnet\":null,\"unknown_costs\":[],\"worst_rise\":0}\n",
    )?;
    let job = FailuresJob::Root(RouterFailures {
        root: FIRST,
        each: false,
        strict: true,
        form: FailuresForm::JsonLines,
        carrier: Carrier::Process,
    });
    expect_all(&rt, alloc, &lsas, job, DONE, &out)
}

// The subnet of the link is lost with it, at both ends; the stub behind the second router is lost to the first.
#[test]
fn failures_over_all_routers_are_told_as_json_of_version_two(rt: HostRuntime) -> Result<(), Fail> {
    let alloc = rt.alloc();
    let lsas = chain(alloc)?;
    let mut out = head_of_version_two(alloc, 2)?;
    out.push_str(
        "{\"cost\":0,\"cut\":1,\"failure\":\"1.1.1.1-2.2.2.2@10.0.0.0/30\",\"gone\":2,\"hops\":0,\"kind\":\"link\",\"lost\":1,\
        \"network\":null,\"own\":2,\"rerouted\":0,\"routers\":[\"1.1.1.1\",\"2.2.2.2\"],\"routers_affected\":2,\"routes\":[\
        {\"before\":{\"cost\":10,\"hops\":[\"attached\"]},\"loss\":\"gone\",\"prefix\":\"10.0.0.0/30\",\"router\":\"1.1.1.1\"},\
        {\"before\":{\"cost\":15,\"hops\":[\"10.0.0.1>2.2.2.2\"]},\"loss\":\"cut\",\"prefix\":\"192.168.2.0/24\",\"router\":\"1.1.1.1\"},\
        {\"before\":{\"cost\":10,\"hops\":[\"attached\"]},\"loss\":\"gone\",\"prefix\":\"10.0.0.0/30\",\"router\":\"2.2.2.2\"}],\
        \"subnet\":\"10.0.0.0/30\",\"unknown_costs\":[],\"worst_rise\":0}\n\
        {\"cost\":0,\"cut\":0,\"failure\":\"2.2.2.2\",\"gone\":1,\"hops\":0,\"kind\":\"router\",\"lost\":0,\
        \"network\":null,\"own\":1,\"rerouted\":0,\"routers\":[\"2.2.2.2\"],\"routers_affected\":1,\"routes\":[\
        {\"before\":{\"cost\":15,\"hops\":[\"10.0.0.1>2.2.2.2\"]},\"loss\":\"gone\",\"prefix\":\"192.168.2.0/24\",\"router\":\"1.1.1.1\"}],\
        \"subnet\":null,\"unknown_costs\":[],\"worst_rise\":0}\n\
        {\"cost\":0,\"cut\":0,\"failure\":\"1.1.1.1\",\"gone\":0,\"hops\":0,\"kind\":\"router\",\"lost\":0,\
        \"network\":null,\"own\":0,\"rerouted\":0,\"routers\":[\"1.1.1.1\"],\"routers_affected\":0,\"routes\":[],\
        \"subnet\":null,\"unknown_costs\":[],\"worst_rise\":0}\n",
    )?;
    let job = FailuresJob::All {
        each: true,
        strict: true,
        form: FailuresForm::JsonLines,
        carrier: Carrier::Process,
    };
    expect_all(&rt, alloc, &lsas, job, FailuresStatus::Unmet, &out)
}

// What standard error gets is in the first line, too, and the failures that bring an unknown cost about name the interface.
#[test]
fn warnings_are_in_the_first_line(rt: HostRuntime) -> Result<(), Fail> {
    let alloc = rt.alloc();
    let input = lines(alloc, &stub_router_on_a_lan(alloc)?)?;
    let err = "2.2.2.2@10.1.0.2: its cost after a failure of 1.1.1.1 is not in the LSAs\n";
    let out = "{\"input\":{\"left_out\":0,\"lsas\":3},\"outside\":false,\"version\":2,\
        \"warnings\":[\"2.2.2.2@10.1.0.2: its cost after a failure of 1.1.1.1 is not in the LSAs\"]}\n\
        {\"cost\":0,\"cut\":1,\"failure\":\"2.2.2.2@10.1.0.2\",\"gone\":0,\"hops\":0,\"kind\":\"attachment\",\"lost\":1,\
        \"network\":\"10.1.0.2\",\"own\":0,\"rerouted\":0,\"routers\":[\"2.2.2.2\"],\"subnet\":null,\"unknown_costs\":[],\"worst_rise\":0}\n\
        {\"cost\":0,\"cut\":0,\"failure\":\"@10.1.0.2\",\"gone\":1,\"hops\":0,\"kind\":\"network\",\"lost\":0,\
        \"network\":\"10.1.0.2\",\"own\":1,\"rerouted\":0,\"routers\":[],\"subnet\":null,\"unknown_costs\":[],\"worst_rise\":0}\n\
        {\"cost\":0,\"cut\":0,\"failure\":\"1.1.1.1@10.1.0.2\",\"gone\":0,\"hops\":0,\"kind\":\"attachment\",\"lost\":0,\
        \"network\":\"10.1.0.2\",\"own\":0,\"rerouted\":0,\"routers\":[\"1.1.1.1\"],\"subnet\":null,\
        \"unknown_costs\":[\"2.2.2.2@10.1.0.2\"],\"worst_rise\":0}\n\
        {\"cost\":0,\"cut\":0,\"failure\":\"1.1.1.1\",\"gone\":0,\"hops\":0,\"kind\":\"router\",\"lost\":0,\
        \"network\":null,\"own\":0,\"rerouted\":0,\"routers\":[\"1.1.1.1\"],\"subnet\":null,\
        \"unknown_costs\":[\"2.2.2.2@10.1.0.2\"],\"worst_rise\":0}\n";
    let job = FailuresJob::Root(RouterFailures {
        root: SECOND,
        each: false,
        strict: false,
        form: FailuresForm::JsonLines,
        carrier: Carrier::Process,
    });
    expect_of(&rt, alloc, &job, &Case::over(&input, DONE, out, err))
}

// The worst harm comes first: what loses most, and then what moves most. The subnet of a link that fails is lost with it.
#[test]
fn failures_are_told_by_harm(rt: HostRuntime) -> Result<(), Fail> {
    let alloc = rt.alloc();
    let at_root = "1.1.1.1-2.2.2.2@10.0.0.0/30 lost 1 rerouted 0 rise 0 own 1\n\
        2.2.2.2 lost 0 rerouted 0 rise 0 own 1\n";
    let each = "1.1.1.1-2.2.2.2@10.0.0.0/30 gone 10.0.0.0/30\n\
        1.1.1.1-2.2.2.2@10.0.0.0/30 cut 192.168.2.0/24\n\
        1.1.1.1-2.2.2.2@10.0.0.0/30 lost 1 rerouted 0 rise 0 own 1\n\
        2.2.2.2 gone 192.168.2.0/24\n\
        2.2.2.2 lost 0 rerouted 0 rise 0 own 1\n";
    let all = "1.1.1.1-2.2.2.2@10.0.0.0/30 lost 1 rerouted 0 rise 0 own 2 routers 2\n\
        2.2.2.2 lost 0 rerouted 0 rise 0 own 1 routers 1\n\
        1.1.1.1 lost 0 rerouted 0 rise 0 own 0 routers 0\n";
    for (wants_each, out) in [(false, at_root), (true, each)] {
        let job = FailuresJob::Root(RouterFailures {
            root: FIRST,
            each: wants_each,
            strict: false,
            form: FailuresForm::Harm,
            carrier: Carrier::Process,
        });
        expect_all(&rt, alloc, &chain(alloc)?, job, DONE, out)?;
    }
    let job = FailuresJob::All {
        each: false,
        strict: false,
        form: FailuresForm::Harm,
        carrier: Carrier::Process,
    };
    expect_all(&rt, alloc, &chain(alloc)?, job, DONE, all)
}

// Behind a switch the other end of a link keeps its subnet: it is lost with the end that fails, and is no other loss.
#[test]
fn subnet_of_an_end_is_lost_with_it(rt: HostRuntime) -> Result<(), Fail> {
    let alloc = rt.alloc();
    let out = "1.1.1.1:2.2.2.2@10.0.0.0/30 lost 1 rerouted 0 rise 0 own 1 routers 1\n\
        2.2.2.2:1.1.1.1@10.0.0.0/30 lost 1 rerouted 0 rise 0 own 1 routers 2\n\
        2.2.2.2 lost 0 rerouted 0 rise 0 own 1 routers 1\n\
        1.1.1.1 lost 0 rerouted 0 rise 0 own 0 routers 0\n";
    let job = FailuresJob::All {
        each: false,
        strict: false,
        form: FailuresForm::Harm,
        carrier: Carrier::Switch,
    };
    expect_all(&rt, alloc, &chain(alloc)?, job, DONE, out)
}

// What is wanted of the table of the first router without parts of the ring.
fn expect_without(
    rt: &(impl Abort + AllocGlobal + Threads + Sync),
    alloc: Global,
    names: &[&str],
    status: FailuresStatus,
    out: &str,
    err: &str,
) -> Result<(), Fail> {
    let input = lines(alloc, &ring(alloc)?)?;
    let mut owned = Vec::new(alloc);
    for name in names {
        owned.push(String::from_str(alloc, name)?)?;
    }
    let job = FailuresJob::Without {
        root: FIRST,
        names: owned,
        addresses: vec![in alloc; Addr(0xac10_0003), Addr(0x0a09_0909)]?,
    };
    expect_of(rt, alloc, &job, &Case::over(&input, status, out, err))
}

#[test]
fn tables_without_parts(rt: HostRuntime) -> Result<(), Fail> {
    let alloc = rt.alloc();
    let without_link = "10.0.0.4/30 40 10.0.0.9>3.3.3.3\n\
        10.0.0.8/30 30 attached\n\
        172.16.0.3/32 31 10.0.0.9>3.3.3.3\n\
        lookup 172.16.0.3 172.16.0.3/32 31 10.0.0.9>3.3.3.3\n\
        lookup 10.9.9.9 none\n";
    expect_without(&rt, alloc, &["10.0.0.0/30"], DONE, without_link, "")?;
    let name = "1.1.1.1-2.2.2.2@10.0.0.0/30";
    expect_without(&rt, alloc, &[name], DONE, without_link, "")?;
    let alone = "10.0.0.8/30 30 attached\n\
        lookup 172.16.0.3 none\n\
        lookup 10.9.9.9 none\n";
    // A name is one of the area as it was read, in whatever order.
    expect_without(&rt, alloc, &[name, "3.3.3.3"], DONE, alone, "")?;
    expect_without(&rt, alloc, &["3.3.3.3", name, name], DONE, alone, "")
}

// The LAN 192.168.2.0/24 of the second router goes, and nothing else.
#[test]
fn table_without_an_interface_to_a_stub_network(rt: HostRuntime) -> Result<(), Fail> {
    let alloc = rt.alloc();
    let input = lines(alloc, &chain(alloc)?)?;
    let lan = "192.168.2.0/24 15 10.0.0.1>2.2.2.2\n";
    let subnet = "10.0.0.0/30 10 attached\n";
    let whole = format!(in alloc; "{subnet}{lan}")?;
    let none = without(alloc, Vec::new(alloc));
    expect_of(&rt, alloc, &none, &Case::over(&input, DONE, &whole, ""))?;
    let name = String::from_str(alloc, "2.2.2.2@192.168.2.0/24")?;
    let left = without(alloc, vec![in alloc; name]?);
    expect_of(&rt, alloc, &left, &Case::over(&input, DONE, subnet, ""))?;
    // The subnet of a link is no stub network.
    let words = FailuresStatus::Ended(Status::Words);
    let name = String::from_str(alloc, "2.2.2.2@10.0.0.0/30")?;
    let refused = without(alloc, vec![in alloc; name]?);
    let err = "2.2.2.2@10.0.0.0/30: not in this area\n";
    expect_of(&rt, alloc, &refused, &Case::over(&input, words, "", err))
}

#[test]
fn names_of_nothing_are_refused(rt: HostRuntime) -> Result<(), Fail> {
    let alloc = rt.alloc();
    let words = FailuresStatus::Ended(Status::Words);
    let names = ["3.3.3.3", "10.0.0.8/29", "9.9.9.9"];
    expect_without(&rt, alloc, &names, words, "", "10.0.0.8/29: not in this area\n")?;
    expect_without(&rt, alloc, &["@10.0.0.0"], words, "", "@10.0.0.0: not in this area\n")
}

#[test]
fn failed_stream_is_told(rt: HostRuntime) -> Result<(), Fail> {
    let alloc = rt.alloc();
    let input = lines(alloc, &chain(alloc)?)?;
    let job = FailuresJob::Root(RouterFailures {
        root: FIRST,
        each: false,
        strict: true,
        form: FailuresForm::Text,
        carrier: Carrier::Process,
    });
    let mut err = Vec::new(alloc);
    let mut out = Failing { left: 0 };
    let status = failures_text(&rt, &job, input.as_bytes(), &mut out, &mut err, &mut Nobody);
    assert_eq!(rt; status, FailuresStatus::Ended(Status::Stream));
    assert_eq!(rt; str::from_utf8(&err)?, "standard output: not written\n");
    Ok(())
}

#[test]
fn statuses_are_exit_statuses(rt: HostRuntime) -> Result<(), Fail> {
    assert_eq!(rt; FailuresStatus::Unmet.code(), 1);
    assert_eq!(rt; DONE.code(), 0);
    assert_eq!(rt; FailuresStatus::Ended(Status::Refused).code(), 3);
    let _ = ExitCode::from(FailuresStatus::Unmet);
    Ok(())
}

#[test]
fn failures_are_found_by_name(rt: HostRuntime) -> Result<(), Fail> {
    let alloc = rt.alloc();
    let failures = single_failures(alloc, &listing(alloc, pair(alloc)?)?)?;
    let found: [(&str, Option<AreaFailure>); 6] = [
        (
            "1.1.1.1-2.2.2.2",
            Some(AreaFailure::Links {
                a: FIRST,
                b: SECOND,
            }),
        ),
        (
            "1.1.1.1@10.1.0.2",
            Some(AreaFailure::Attachment {
                router: FIRST,
                network: 0x0a01_0002,
            }),
        ),
        ("@10.1.0.2", Some(AreaFailure::Network(0x0a01_0002))),
        ("2.2.2.2", Some(AreaFailure::Router(SECOND))),
        ("10.0.0.0/30", None),
        ("2.2.2.2-1.1.1.1", None),
    ];
    for (word, failure) in found {
        assert!(rt; find_failure(alloc, &failures, word)? == failure, "{word}");
    }
    Ok(())
}

#[test]
fn links_are_found_by_subnet(rt: HostRuntime) -> Result<(), Fail> {
    let alloc = rt.alloc();
    let failures = single_failures(alloc, &listing(alloc, ring(alloc)?)?)?;
    let by_name = find_failure(alloc, &failures, "1.1.1.1-3.3.3.3@10.0.0.8/30")?;
    assert!(rt; by_name.is_some());
    assert!(rt; find_failure(alloc, &failures, "10.0.0.8/30")? == by_name);
    assert!(rt; find_failure(alloc, &failures, "10.0.0.8/29")?.is_none());
    Ok(())
}

// How far the failures have come, as it is told.
#[derive(Drop)]
struct Told {
    parts: Vec<(usize, usize)>,
}

impl Progress for Told {
    fn comes(&mut self, done: usize, count: usize) {
        let _ = self.parts.push((done, count));
    }
}

// A link between two routers: after each of these as root.
#[test]
fn each_part_is_told(rt: HostRuntime) -> Result<(), Fail> {
    let alloc = rt.alloc();
    let input = lines(alloc, &chain(alloc)?)?;
    let job = FailuresJob::All {
        each: false,
        strict: false,
        form: FailuresForm::Text,
        carrier: Carrier::Process,
    };
    let (mut out, mut err) = (Vec::new(alloc), Vec::new(alloc));
    let mut told = Told {
        parts: Vec::new(alloc),
    };
    let status = failures_text(&rt, &job, input.as_bytes(), &mut out, &mut err, &mut told);
    assert_eq!(rt; status, DONE);
    assert_eq!(rt; told.parts.as_slice(), [(1, 2), (2, 2)].as_slice());
    Ok(())
}
