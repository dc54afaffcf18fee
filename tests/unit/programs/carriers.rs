//! What failures of small areas change by what carries the links, as it is printed.

use super::made::{FIRST, FIRST_NUMBER, SECOND, THIRD, link, router_bytes, stub, to};
use ospf_base::RouterId;
use ospf_failures::{Carrier, FailuresForm, FailuresJob, FailuresStatus, Progress, RouterFailures, failures_text};
use ospf_files::Status;
use ospf_lsa::{Link, LinkKind, Lsa};
use std::alloc::{AllocGlobal, Global};
use std::process::Abort;
use std::test::Fail;
use std::thread::Threads;

// The mask of a link's subnet.
const SUBNET: u32 = 0xffff_fffc;

// The LAN 10.1.0.0/24, whose Designated Router is the second router.
const LAN: u32 = 0x0a01_0002;

// A network behind the second router, and one behind the third.
const BEHIND_SECOND: Link = Link {
    id: 0xc0a8_0200,
    link_data: 0xffff_ff00,
    kind: LinkKind::Stub,
    metric: 5,
};

const BEHIND_THIRD: Link = Link {
    id: 0xac10_0003,
    link_data: 0xffff_ffff,
    kind: LinkKind::Stub,
    metric: 1,
};

const DONE: FailuresStatus = FailuresStatus::Ended(Status::Done);

const CARRIERS: [Carrier; 3] = [Carrier::Direct, Carrier::Switch, Carrier::Process];

#[derive(Drop)]
struct Unwatched;

impl Progress for Unwatched {
    fn comes(&mut self, _done: usize, _count: usize) {}
}

// The lines of router-LSAs of these links, of the first router, the second and so on, and then of a network-LSA for the LAN of
// so many of them, if there are any.
fn area(alloc: Global, routers: &[&[Link]], on_lan: usize) -> Result<String, Fail> {
    let ids = [FIRST, SECOND, THIRD];
    let mut text = String::new(alloc);
    for (place, links) in routers.iter().enumerate() {
        add_line(alloc, &Lsa::router(alloc, ids[place], FIRST_NUMBER, links)?, &mut text)?;
    }
    if on_lan > 0 {
        let lan = Lsa::network(alloc, LAN, SECOND, FIRST_NUMBER, 0xffff_ff00, &ids[..on_lan])?;
        add_line(alloc, &lan, &mut text)?;
    }
    Ok(text)
}

fn add_line(alloc: Global, lsa: &Lsa, text: &mut String) -> Result<(), Fail> {
    text.push_str(&hex::encode(alloc, lsa.view().as_bytes())?)?;
    text.push_str("\n")?;
    Ok(())
}

// Two routers with the link 10.0.0.0/30 alone between them, and a network behind the second.
fn chain(alloc: Global) -> Result<String, Fail> {
    let first = [to(SECOND, 0x0a00_0001, 10), stub(0x0a00_0000, SUBNET, 10)];
    let second = [to(FIRST, 0x0a00_0002, 10), stub(0x0a00_0000, SUBNET, 10), BEHIND_SECOND];
    area(alloc, &[&first, &second], 0)
}

// Three routers, each with a link to each other: 10.0.0.0/30 between the first two and 10.0.0.4/30 between the last two at
// cost 10, 10.0.0.8/30 between the first and the last at cost 30; and a network behind the last.
fn ring(alloc: Global) -> Result<String, Fail> {
    let first = [
        to(SECOND, 0x0a00_0001, 10),
        stub(0x0a00_0000, SUBNET, 10),
        to(THIRD, 0x0a00_0009, 30),
        stub(0x0a00_0008, SUBNET, 30),
    ];
    let second = [
        to(FIRST, 0x0a00_0002, 10),
        stub(0x0a00_0000, SUBNET, 10),
        to(THIRD, 0x0a00_0005, 10),
        stub(0x0a00_0004, SUBNET, 10),
    ];
    let third = [
        to(SECOND, 0x0a00_0006, 10),
        stub(0x0a00_0004, SUBNET, 10),
        to(FIRST, 0x0a00_000a, 30),
        stub(0x0a00_0008, SUBNET, 30),
        BEHIND_THIRD,
    ];
    area(alloc, &[&first, &second, &third], 0)
}

// An interface to the LAN.
fn on_lan(address: u32, metric: u16) -> Link {
    link(LinkKind::Transit, LAN, address, metric)
}

// Two routers on the LAN, and a network behind the second.
fn lan_of_two(alloc: Global) -> Result<String, Fail> {
    area(alloc, &[&[on_lan(0x0a01_0001, 10)], &[on_lan(LAN, 10), BEHIND_SECOND]], 2)
}

// What is wanted of a job over an input.
#[derive(Drop)]
struct Wanted<'a> {
    status: FailuresStatus,
    out: &'a str,
    err: &'a str,
}

impl<'a> Wanted<'a> {
    fn done(out: &'a str) -> Wanted<'a> {
        Wanted {
            status: DONE,
            out,
            err: "",
        }
    }
}

fn expect(
    rt: &(impl Abort + AllocGlobal + Threads + Sync),
    alloc: Global,
    job: &FailuresJob,
    input: &str,
    wanted: &Wanted<'_>,
) -> Result<(), Fail> {
    let (mut out, mut err) = (Vec::new(alloc), Vec::new(alloc));
    let status = failures_text(rt, job, input.as_bytes(), &mut out, &mut err, &mut Unwatched);
    assert_eq!(rt; str::from_utf8(&out)?, wanted.out);
    assert_eq!(rt; str::from_utf8(&err)?, wanted.err);
    assert_eq!(rt; status, wanted.status);
    Ok(())
}

// How many prefixes each failure changes at a root.
fn at(root: RouterId, carrier: Carrier) -> FailuresJob {
    FailuresJob::Root(RouterFailures {
        root,
        each: false,
        strict: false,
        form: FailuresForm::Text,
        carrier,
    })
}

// Which prefixes each failure changes at the first router.
fn each(carrier: Carrier) -> FailuresJob {
    FailuresJob::Root(RouterFailures {
        root: FIRST,
        each: true,
        strict: false,
        form: FailuresForm::Text,
        carrier,
    })
}

// How many prefixes each failure changes at all routers.
fn over_all(carrier: Carrier, form: FailuresForm) -> FailuresJob {
    FailuresJob::All {
        each: false,
        strict: false,
        form,
        carrier,
    }
}

// The neighbour of a router without power loses the subnet of the link too.
#[test]
fn router_takes_direct_links_with_it(rt: HostRuntime) -> Result<(), Fail> {
    let alloc = rt.alloc();
    let out = "1.1.1.1-2.2.2.2@10.0.0.0/30 gone 10.0.0.0/30\n\
        1.1.1.1-2.2.2.2@10.0.0.0/30 cut 192.168.2.0/24\n\
        1.1.1.1-2.2.2.2@10.0.0.0/30 cut 1 gone 1 cost 0 hops 0\n\
        2.2.2.2 gone 10.0.0.0/30\n\
        2.2.2.2 gone 192.168.2.0/24\n\
        2.2.2.2 cut 0 gone 2 cost 0 hops 0\n";
    expect(&rt, alloc, &each(Carrier::Direct), &chain(alloc)?, &Wanted::done(out))
}

// The end that goes down loses the subnet, and the other one keeps it.
#[test]
fn ends_of_links_fail_apart_behind_switches(rt: HostRuntime) -> Result<(), Fail> {
    let alloc = rt.alloc();
    let out = "1.1.1.1:2.2.2.2@10.0.0.0/30 cut 10.0.0.0/30\n\
        1.1.1.1:2.2.2.2@10.0.0.0/30 cut 192.168.2.0/24\n\
        1.1.1.1:2.2.2.2@10.0.0.0/30 cut 2 gone 0 cost 0 hops 0\n\
        2.2.2.2:1.1.1.1@10.0.0.0/30 cut 192.168.2.0/24\n\
        2.2.2.2:1.1.1.1@10.0.0.0/30 cut 1 gone 0 cost 0 hops 0\n\
        2.2.2.2 gone 192.168.2.0/24\n\
        2.2.2.2 cut 0 gone 1 cost 0 hops 0\n";
    expect(&rt, alloc, &each(Carrier::Switch), &chain(alloc)?, &Wanted::done(out))
}

// Of each router all links go at once, on the way to which others were reached.
#[test]
fn ring_of_direct_cables(rt: HostRuntime) -> Result<(), Fail> {
    let alloc = rt.alloc();
    let out = "3.3.3.3 cut 0 gone 3 cost 0 hops 0\n\
        2.2.2.2 cut 0 gone 2 cost 1 hops 0\n\
        1.1.1.1-2.2.2.2@10.0.0.0/30 cut 0 gone 1 cost 2 hops 0\n\
        2.2.2.2-3.3.3.3@10.0.0.4/30 cut 0 gone 1 cost 1 hops 0\n\
        1.1.1.1-3.3.3.3@10.0.0.8/30 cut 0 gone 1 cost 0 hops 0\n";
    expect(&rt, alloc, &at(FIRST, Carrier::Direct), &ring(alloc)?, &Wanted::done(out))
}

// 10.0.0.0/30 costs 50 over the third and the second router where the first one's port failed, and stays where the second
// one's did.
#[test]
fn ring_of_switches(rt: HostRuntime) -> Result<(), Fail> {
    let alloc = rt.alloc();
    let out = "3.3.3.3 cut 0 gone 1 cost 0 hops 0\n\
        1.1.1.1:2.2.2.2@10.0.0.0/30 cut 0 gone 0 cost 3 hops 0\n\
        2.2.2.2:1.1.1.1@10.0.0.0/30 cut 0 gone 0 cost 2 hops 0\n\
        2.2.2.2:3.3.3.3@10.0.0.4/30 cut 0 gone 0 cost 2 hops 0\n\
        2.2.2.2 cut 0 gone 0 cost 2 hops 0\n\
        1.1.1.1:3.3.3.3@10.0.0.8/30 cut 0 gone 0 cost 1 hops 0\n\
        3.3.3.3:2.2.2.2@10.0.0.4/30 cut 0 gone 0 cost 1 hops 0\n\
        3.3.3.3:1.1.1.1@10.0.0.8/30 cut 0 gone 0 cost 0 hops 0\n";
    expect(&rt, alloc, &at(FIRST, Carrier::Switch), &ring(alloc)?, &Wanted::done(out))
}

// A direct cable between two routers of a LAN is dark at both ends.
#[test]
fn lan_of_two_is_one_cable(rt: HostRuntime) -> Result<(), Fail> {
    let alloc = rt.alloc();
    let out = "1.1.1.1@10.1.0.2 gone 10.1.0.0/24\n\
        1.1.1.1@10.1.0.2 cut 192.168.2.0/24\n\
        1.1.1.1@10.1.0.2 cut 1 gone 1 cost 0 hops 0\n\
        2.2.2.2@10.1.0.2 gone 10.1.0.0/24\n\
        2.2.2.2@10.1.0.2 cut 192.168.2.0/24\n\
        2.2.2.2@10.1.0.2 cut 1 gone 1 cost 0 hops 0\n\
        @10.1.0.2 gone 10.1.0.0/24\n\
        @10.1.0.2 cut 192.168.2.0/24\n\
        @10.1.0.2 cut 1 gone 1 cost 0 hops 0\n\
        2.2.2.2 gone 10.1.0.0/24\n\
        2.2.2.2 gone 192.168.2.0/24\n\
        2.2.2.2 cut 0 gone 2 cost 0 hops 0\n";
    expect(&rt, alloc, &each(Carrier::Direct), &lan_of_two(alloc)?, &Wanted::done(out))?;
    let kept = "1.1.1.1@10.1.0.2 cut 2 gone 0 cost 0 hops 0\n\
        @10.1.0.2 cut 1 gone 1 cost 0 hops 0\n\
        2.2.2.2@10.1.0.2 cut 1 gone 0 cost 0 hops 0\n\
        2.2.2.2 cut 0 gone 1 cost 0 hops 0\n";
    for carrier in [Carrier::Switch, Carrier::Process] {
        expect(&rt, alloc, &at(FIRST, carrier), &lan_of_two(alloc)?, &Wanted::done(kept))?;
    }
    Ok(())
}

// Three routers share no cable: a switch keeps the LAN up, whatever carries the links.
#[test]
fn lan_of_three_has_a_switch(rt: HostRuntime) -> Result<(), Fail> {
    let alloc = rt.alloc();
    let routers: [&[Link]; 3] =
        [&[on_lan(0x0a01_0001, 10)], &[on_lan(LAN, 10)], &[on_lan(0x0a01_0003, 10), BEHIND_THIRD]];
    let input = area(alloc, &routers, 3)?;
    let out = "1.1.1.1@10.1.0.2 cut 2 gone 0 cost 0 hops 0\n\
        @10.1.0.2 cut 1 gone 1 cost 0 hops 0\n\
        3.3.3.3@10.1.0.2 cut 1 gone 0 cost 0 hops 0\n\
        3.3.3.3 cut 0 gone 1 cost 0 hops 0\n\
        2.2.2.2@10.1.0.2 cut 0 gone 0 cost 0 hops 0\n\
        2.2.2.2 cut 0 gone 0 cost 0 hops 0\n";
    for carrier in CARRIERS {
        expect(&rt, alloc, &at(FIRST, carrier), &input, &Wanted::done(out))?;
    }
    Ok(())
}

#[test]
fn direct_cables_over_all_routers(rt: HostRuntime) -> Result<(), Fail> {
    let alloc = rt.alloc();
    let text = "1.1.1.1-2.2.2.2@10.0.0.0/30 cut 1 gone 2 cost 0 hops 0 routers 2\n\
        2.2.2.2 cut 0 gone 2 cost 0 hops 0 routers 1\n\
        1.1.1.1 cut 0 gone 1 cost 0 hops 0 routers 1\n";
    let json = "[{\"cost\":0,\"cut\":1,\"failure\":\"1.1.1.1-2.2.2.2@10.0.0.0/30\",\
        \"gone\":2,\"hops\":0,\"kind\":\"link\",\"routers\":2},\
        {\"cost\":0,\"cut\":0,\"failure\":\"2.2.2.2\",\"gone\":2,\"hops\":0,\"kind\":\"router\",\"routers\":1},\
        {\"cost\":0,\"cut\":0,\"failure\":\"1.1.1.1\",\"gone\":1,\"hops\":0,\"kind\":\"router\",\"routers\":1}]\n";
    for (form, out) in [(FailuresForm::Text, text), (FailuresForm::Json, json)] {
        let job = over_all(Carrier::Direct, form);
        expect(&rt, alloc, &job, &chain(alloc)?, &Wanted::done(out))?;
    }
    Ok(())
}

#[test]
fn switches_over_all_routers(rt: HostRuntime) -> Result<(), Fail> {
    let alloc = rt.alloc();
    let text = "1.1.1.1:2.2.2.2@10.0.0.0/30 cut 2 gone 0 cost 0 hops 0 routers 1\n\
        2.2.2.2:1.1.1.1@10.0.0.0/30 cut 2 gone 0 cost 0 hops 0 routers 2\n\
        2.2.2.2 cut 0 gone 1 cost 0 hops 0 routers 1\n\
        1.1.1.1 cut 0 gone 0 cost 0 hops 0 routers 0\n";
    let json = "[{\"cost\":0,\"cut\":2,\"failure\":\"1.1.1.1:2.2.2.2@10.0.0.0/30\",\
        \"gone\":0,\"hops\":0,\"kind\":\"end\",\"routers\":1},\
        {\"cost\":0,\"cut\":2,\"failure\":\"2.2.2.2:1.1.1.1@10.0.0.0/30\",\
        \"gone\":0,\"hops\":0,\"kind\":\"end\",\"routers\":2},\
        {\"cost\":0,\"cut\":0,\"failure\":\"2.2.2.2\",\"gone\":1,\"hops\":0,\"kind\":\"router\",\"routers\":1},\
        {\"cost\":0,\"cut\":0,\"failure\":\"1.1.1.1\",\"gone\":0,\"hops\":0,\"kind\":\"router\",\"routers\":0}]\n";
    for (form, out) in [(FailuresForm::Text, text), (FailuresForm::Json, json)] {
        let job = over_all(Carrier::Switch, form);
        expect(&rt, alloc, &job, &chain(alloc)?, &Wanted::done(out))?;
    }
    Ok(())
}

// The second router loses only its own end's subnet, which the first one keeps behind a switch alone.
#[test]
fn status_tells_of_what_the_carrier_cuts_off(rt: HostRuntime) -> Result<(), Fail> {
    let alloc = rt.alloc();
    let input = chain(alloc)?;
    let direct = "1.1.1.1 cut 0 gone 1 cost 0 hops 0\n";
    let switch = "2.2.2.2:1.1.1.1@10.0.0.0/30 cut 1 gone 0 cost 0 hops 0\n\
        1.1.1.1:2.2.2.2@10.0.0.0/30 cut 0 gone 0 cost 0 hops 0\n\
        1.1.1.1 cut 0 gone 0 cost 0 hops 0\n";
    let process = "1.1.1.1 cut 0 gone 0 cost 0 hops 0\n";
    for (carrier, status, front, out) in [
        (Carrier::Direct, DONE, "1.1.1.1-2.2.2.2@10.0.0.0/30 cut 0 gone 1 cost 0 hops 0\n", direct),
        (Carrier::Switch, FailuresStatus::Unmet, "", switch),
        (Carrier::Process, DONE, "1.1.1.1-2.2.2.2@10.0.0.0/30 cut 0 gone 1 cost 0 hops 0\n", process),
    ] {
        let job = FailuresJob::Root(RouterFailures {
            root: SECOND,
            each: false,
            strict: true,
            form: FailuresForm::Text,
            carrier,
        });
        let out = format!(in alloc; "{front}{out}")?;
        let wanted = Wanted {
            status,
            out: &out,
            err: "",
        };
        expect(&rt, alloc, &job, &input, &wanted)?;
    }
    Ok(())
}

// A LAN of two goes whole on a direct cable: no stub router is left alone on it, at a cost that no LSA contains.
#[test]
fn no_cost_is_hidden_on_direct_cables(rt: HostRuntime) -> Result<(), Fail> {
    let alloc = rt.alloc();
    let input = area(alloc, &[&[on_lan(0x0a01_0001, 10)], &[on_lan(LAN, 0xffff)]], 2)?;
    let direct = "[{\"cost\":0,\"cut\":0,\"failure\":\"1.1.1.1@10.1.0.2\",\"gone\":1,\"hops\":0,\"kind\":\"attachment\"},\
        {\"cost\":0,\"cut\":0,\"failure\":\"2.2.2.2@10.1.0.2\",\"gone\":1,\"hops\":0,\"kind\":\"attachment\"},\
        {\"cost\":0,\"cut\":0,\"failure\":\"@10.1.0.2\",\"gone\":1,\"hops\":0,\"kind\":\"network\"},\
        {\"cost\":0,\"cut\":0,\"failure\":\"1.1.1.1\",\"gone\":1,\"hops\":0,\"kind\":\"router\"}]\n";
    let kept = "[{\"cost\":0,\"cut\":1,\"failure\":\"2.2.2.2@10.1.0.2\",\"gone\":0,\"hops\":0,\"kind\":\"attachment\"},\
        {\"cost\":0,\"cut\":0,\"failure\":\"@10.1.0.2\",\"gone\":1,\"hops\":0,\"kind\":\"network\"},\
        {\"cost\":0,\"cut\":0,\"failure\":\"1.1.1.1@10.1.0.2\",\"gone\":0,\"hops\":0,\"kind\":\"attachment\",\
        \"unknown_costs\":[\"2.2.2.2@10.1.0.2\"]},\
        {\"cost\":0,\"cut\":0,\"failure\":\"1.1.1.1\",\"gone\":0,\"hops\":0,\"kind\":\"router\",\
        \"unknown_costs\":[\"2.2.2.2@10.1.0.2\"]}]\n";
    let said = "2.2.2.2@10.1.0.2: its cost after a failure of 1.1.1.1 is not in the LSAs\n";
    for (carrier, out, err) in
        [(Carrier::Direct, direct, ""), (Carrier::Switch, kept, said), (Carrier::Process, kept, said)]
    {
        let job = FailuresJob::Root(RouterFailures {
            root: SECOND,
            each: false,
            strict: false,
            form: FailuresForm::Json,
            carrier,
        });
        let wanted = Wanted {
            status: DONE,
            out,
            err,
        };
        expect(&rt, alloc, &job, &input, &wanted)?;
    }
    Ok(())
}

// Where failures come together router-LSAs are rebuilt, which have no room for more than 1,361 links.
#[test]
fn too_many_links_are_refused_on_direct_cables(rt: HostRuntime) -> Result<(), Fail> {
    let alloc = rt.alloc();
    let mut links = Vec::new(alloc);
    for number in 0..1362_u32 {
        links.push(stub(0xac10_0000 + number, 0xffff_ffff, 1))?;
    }
    let input = hex::encode(alloc, &router_bytes(alloc, SECOND, &links)?)?;
    let refused = Wanted {
        status: FailuresStatus::Ended(Status::Refused),
        out: "",
        err: "2.2.2.2: more than 1361 links\n",
    };
    expect(&rt, alloc, &at(SECOND, Carrier::Direct), &input, &refused)?;
    expect(&rt, alloc, &over_all(Carrier::Direct, FailuresForm::Text), &input, &refused)?;
    for carrier in [Carrier::Switch, Carrier::Process] {
        expect(&rt, alloc, &at(SECOND, carrier), &input, &Wanted::done(""))?;
    }
    Ok(())
}
