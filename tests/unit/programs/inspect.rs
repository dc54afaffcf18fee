//! What is printed of the LSAs of small areas: each in words, all tables, and ways.

use super::failing::Failing;
use super::made::{FIRST, FIRST_NUMBER, SECOND, THIRD, link, stub, to};
use ospf_base::{Addr, Age, RouterId};
use ospf_files::Status;
use ospf_inspect::{Form, InspectJob, inspect_text};
use ospf_lsa::{Link, LinkKind, Lsa};
use std::alloc::Global;
use std::process::Abort;
use std::test::Fail;

// The mask of a link's subnet, and that of a network.
const SUBNET: u32 = 0xffff_fffc;
const NETWORK: u32 = 0xffff_ff00;

// An LSA of a router at this age.
fn router(alloc: Global, id: RouterId, age: u16, links: &[Link]) -> Result<Lsa, Fail> {
    let mut lsa = Lsa::router(alloc, id, FIRST_NUMBER, links)?;
    lsa.set_age(Age::new(age));
    Ok(lsa)
}

// Three routers: 10.0.0.0/30 between the first two at cost 10, with a second link at cost 10 beside it, from 10.0.0.5; the
// network 10.1.0.0/24 of the last two, whose Designated Router is the second, at cost 5; and a stub of the last, which has a
// link to 4.4.4.4 too, of which there is no LSA, and a virtual one.
fn area(alloc: Global) -> Result<Vec<Lsa>, Fail> {
    let network = 0x0a01_0002;
    let mut lsas = Vec::new(alloc);
    lsas.push(router(
        alloc,
        FIRST,
        7,
        &[
            to(SECOND, 0x0a00_0001, 10),
            stub(0x0a00_0000, SUBNET, 10),
            to(SECOND, 0x0a00_0005, 10),
        ],
    )?)?;
    lsas.push(router(
        alloc,
        SECOND,
        0,
        &[
            to(FIRST, 0x0a00_0002, 10),
            link(LinkKind::Transit, network, network, 5),
        ],
    )?)?;
    lsas.push(router(
        alloc,
        THIRD,
        3599,
        &[
            link(LinkKind::Transit, network, 0x0a01_0003, 5),
            to(RouterId(0x0404_0404), 0x0a00_0009, 3),
            stub(0xac10_0003, 0xffff_ffff, 1),
            link(LinkKind::Virtual, 0x0101_0101, 0x0a00_0009, 4),
        ],
    )?)?;
    lsas.push(Lsa::network(
        alloc,
        network,
        SECOND,
        FIRST_NUMBER,
        NETWORK,
        &[FIRST, SECOND, THIRD],
    )?)?;
    Ok(lsas)
}

// LSAs as lines.
fn lines(alloc: Global, lsas: &[Lsa]) -> Result<String, Fail> {
    let mut text = String::new(alloc);
    for lsa in lsas {
        text.push_str(&hex::encode(alloc, lsa.view().as_bytes())?)?;
        text.push_str("\n")?;
    }
    Ok(text)
}

// The checksum of an LSA, as it is printed.
fn sum(alloc: Global, lsa: &Lsa) -> Result<String, Fail> {
    let sum = lsa.view().instance().sum;
    Ok(format!(in alloc; "{sum:04x}")?)
}

// Those of the three routers and of the network.
fn sums(alloc: Global, lsas: &[Lsa]) -> Result<(String, String, String, String), Fail> {
    Ok((
        sum(alloc, &lsas[0])?,
        sum(alloc, &lsas[1])?,
        sum(alloc, &lsas[2])?,
        sum(alloc, &lsas[3])?,
    ))
}

// What is printed of a job over an input, and told.
fn expect(
    rt: &impl Abort,
    alloc: Global,
    job: &InspectJob,
    input: &str,
    wanted: (Status, &str, &str),
) -> Result<(), Fail> {
    let (mut out, mut err) = (Vec::new(alloc), Vec::new(alloc));
    let status = inspect_text(alloc, job, input.as_bytes(), &mut out, &mut err);
    assert_eq!(rt; str::from_utf8(&out)?, wanted.1);
    assert_eq!(rt; str::from_utf8(&err)?, wanted.2);
    assert_eq!(rt; status, wanted.0.code());
    Ok(())
}

fn path(alloc: Global, from: RouterId, address: u32, choices: &[u32]) -> Result<InspectJob, Fail> {
    Ok(InspectJob::Path {
        from,
        address: Addr(address),
        choices: choices.to_vec(alloc)?,
    })
}

#[test]
fn lsas_stand_in_words(rt: HostRuntime) -> Result<(), Fail> {
    let alloc = rt.alloc();
    let lsas = area(alloc)?;
    let (first, second, third, network) = sums(alloc, &lsas)?;
    let wanted = format!(in alloc;
        "router 1.1.1.1 age 7 number 80000001 sum {first}\n\
        \x20 router 2.2.2.2 from 10.0.0.1 cost 10\n\
        \x20 stub 10.0.0.0/30 cost 10\n\
        \x20 router 2.2.2.2 from 10.0.0.5 cost 10\n\
        router 2.2.2.2 age 0 number 80000001 sum {second}\n\
        \x20 router 1.1.1.1 from 10.0.0.2 cost 10\n\
        \x20 network 10.1.0.2 from 10.1.0.2 cost 5\n\
        router 3.3.3.3 age 3599 number 80000001 sum {third}\n\
        \x20 network 10.1.0.2 from 10.1.0.3 cost 5\n\
        \x20 router 4.4.4.4 from 10.0.0.9 cost 3 one-way\n\
        \x20 stub 172.16.0.3/32 cost 1\n\
        \x20 virtual 1.1.1.1 passed over\n\
        network 10.1.0.0/24 of 10.1.0.2 by 2.2.2.2 age 0 number 80000001 sum {network}\n\
        \x20 router 1.1.1.1 one-way\n\
        \x20 router 2.2.2.2\n\
        \x20 router 3.3.3.3\n"
    )?;
    let input = lines(alloc, &lsas)?;
    expect(&rt, alloc, &InspectJob::Lsas(Form::Text), &input, (Status::Done, &wanted, ""))
}

// The same LSAs, drawn by hand: of two links to a router that has one back, in no subnet, it is not known which is which, so each
// end has a line; a virtual link is not drawn.
static DRAWING: &str = "graph area {
  graph [layout=neato, overlap=false, splines=true, sep=\"+30\", outputorder=edgesfirst];
  node [shape=plaintext, style=filled, fillcolor=white];
  \"1.1.1.1\" [shape=box, label=\"1.1.1.1\\n10.0.0.0/30 cost 10\"];
  \"1.1.1.1\" -- \"2.2.2.2\" [taillabel=10];
  \"1.1.1.1\" -- \"2.2.2.2\" [taillabel=10];
  \"2.2.2.2\" [shape=box, label=\"2.2.2.2\"];
  \"2.2.2.2\" -- \"1.1.1.1\" [taillabel=10];
  \"2.2.2.2\" -- \"network 10.1.0.2\" [taillabel=5];
  \"3.3.3.3\" [shape=box, label=\"3.3.3.3\\n172.16.0.3/32 cost 1\"];
  \"3.3.3.3\" -- \"network 10.1.0.2\" [taillabel=5];
  \"3.3.3.3\" -- \"4.4.4.4\" [taillabel=3, dir=forward, style=dashed];
  \"network 10.1.0.2\" [shape=box, style=\"filled,rounded\", label=\"10.1.0.0/24\"];
  \"network 10.1.0.2\" -- \"1.1.1.1\" [dir=forward, style=dashed];
}
";

#[test]
fn lsas_are_drawn(rt: HostRuntime) -> Result<(), Fail> {
    let alloc = rt.alloc();
    let input = lines(alloc, &area(alloc)?)?;
    expect(&rt, alloc, &InspectJob::Drawing, &input, (Status::Done, DRAWING, ""))
}

#[test]
fn network_lsa_that_another_stands_for_is_unused(rt: HostRuntime) -> Result<(), Fail> {
    let alloc = rt.alloc();
    let network = 0x0a01_0002;
    let mut lsas = Vec::new(alloc);
    for router in [SECOND, THIRD] {
        lsas.push(Lsa::network(alloc, network, router, FIRST_NUMBER, NETWORK, &[FIRST])?)?;
    }
    let (second, third) = (sum(alloc, &lsas[0])?, sum(alloc, &lsas[1])?);
    let wanted = format!(in alloc;
        "network 10.1.0.0/24 of 10.1.0.2 by 2.2.2.2 age 0 number 80000001 sum {second} unused\n\
        \x20 router 1.1.1.1 one-way\n\
        network 10.1.0.0/24 of 10.1.0.2 by 3.3.3.3 age 0 number 80000001 sum {third}\n\
        \x20 router 1.1.1.1 one-way\n"
    )?;
    let input = lines(alloc, &lsas)?;
    expect(&rt, alloc, &InspectJob::Lsas(Form::Text), &input, (Status::Done, &wanted, ""))
}

#[test]
fn tables_of_all_routers_stand_below_their_names(rt: HostRuntime) -> Result<(), Fail> {
    let alloc = rt.alloc();
    let input = lines(alloc, &area(alloc)?)?;
    let wanted = "router 1.1.1.1\n\
        10.0.0.0/30 10 attached\n\
        10.1.0.0/24 15 10.0.0.1>2.2.2.2,10.0.0.5>2.2.2.2\n\
        172.16.0.3/32 16 10.0.0.1>2.2.2.2,10.0.0.5>2.2.2.2\n\
        router 2.2.2.2\n\
        10.0.0.0/30 20 10.0.0.2>1.1.1.1\n\
        10.1.0.0/24 5 attached\n\
        172.16.0.3/32 6 10.1.0.2>3.3.3.3@10.1.0.3\n\
        router 3.3.3.3\n\
        10.0.0.0/30 25 10.1.0.3>2.2.2.2@10.1.0.2\n\
        10.1.0.0/24 5 attached\n\
        172.16.0.3/32 1 attached\n";
    expect(&rt, alloc, &InspectJob::Tables(Form::Text), &input, (Status::Done, wanted, ""))
}

// Router-LSAs of 1.1.1.1 and 2.2.2.2 without links, with the flags B, E, V and W (and one that is not shown), and E alone. Their
// checksums by hand (RFC 905, annex B).
static FLAGGED: &str = "0001020101010101010101018000000190ab00181f000000\n00010201020202020202020280000001ec64001802000000\n";

#[test]
fn flags_are_shown(rt: HostRuntime) -> Result<(), Fail> {
    let alloc = rt.alloc();
    let words = "router 1.1.1.1 age 1 number 80000001 sum 90ab flags BEVW\n\
        router 2.2.2.2 age 1 number 80000001 sum ec64 flags E\n";
    expect(&rt, alloc, &InspectJob::Lsas(Form::Text), FLAGGED, (Status::Done, words, ""))?;
    let values = "[{\"age\":1,\"flags\":\"BEVW\",\"links\":[],\"lsa\":\"router\",\"number\":\"80000001\",\
        \"router\":\"1.1.1.1\",\"sum\":\"90ab\"},\
        {\"age\":1,\"flags\":\"E\",\"links\":[],\"lsa\":\"router\",\"number\":\"80000001\",\
        \"router\":\"2.2.2.2\",\"sum\":\"ec64\"}]\n";
    expect(&rt, alloc, &InspectJob::Lsas(Form::Json), FLAGGED, (Status::Done, values, ""))
}

// The members of each object stand in the order of their names.
#[test]
fn lsas_stand_in_json(rt: HostRuntime) -> Result<(), Fail> {
    let alloc = rt.alloc();
    let lsas = area(alloc)?;
    let (first, second, third, network) = sums(alloc, &lsas)?;
    let mut wanted = format!(in alloc;
        "[{{\"age\":7,\"flags\":\"\",\"links\":[\
        {{\"cost\":10,\"from\":\"10.0.0.1\",\"link\":\"router\",\"one_way\":false,\"to\":\"2.2.2.2\"}},\
        {{\"cost\":10,\"link\":\"stub\",\"prefix\":\"10.0.0.0/30\"}},\
        {{\"cost\":10,\"from\":\"10.0.0.5\",\"link\":\"router\",\"one_way\":false,\"to\":\"2.2.2.2\"}}],\
        \"lsa\":\"router\",\"number\":\"80000001\",\"router\":\"1.1.1.1\",\"sum\":\"{first}\"}},\
        {{\"age\":0,\"flags\":\"\",\"links\":[\
        {{\"cost\":10,\"from\":\"10.0.0.2\",\"link\":\"router\",\"one_way\":false,\"to\":\"1.1.1.1\"}},\
        {{\"cost\":5,\"from\":\"10.1.0.2\",\"link\":\"network\",\"one_way\":false,\"to\":\"10.1.0.2\"}}],\
        \"lsa\":\"router\",\"number\":\"80000001\",\"router\":\"2.2.2.2\",\"sum\":\"{second}\"}},"
    )?;
    wanted.push_str(&format!(in alloc;
        "{{\"age\":3599,\"flags\":\"\",\"links\":[\
        {{\"cost\":5,\"from\":\"10.1.0.3\",\"link\":\"network\",\"one_way\":false,\"to\":\"10.1.0.2\"}},\
        {{\"cost\":3,\"from\":\"10.0.0.9\",\"link\":\"router\",\"one_way\":true,\"to\":\"4.4.4.4\"}},\
        {{\"cost\":1,\"link\":\"stub\",\"prefix\":\"172.16.0.3/32\"}},\
        {{\"link\":\"virtual\",\"to\":\"1.1.1.1\"}}],\
        \"lsa\":\"router\",\"number\":\"80000001\",\"router\":\"3.3.3.3\",\"sum\":\"{third}\"}},\
        {{\"age\":0,\"attached\":[{{\"one_way\":true,\"router\":\"1.1.1.1\"}},\
        {{\"one_way\":false,\"router\":\"2.2.2.2\"}},{{\"one_way\":false,\"router\":\"3.3.3.3\"}}],\
        \"id\":\"10.1.0.2\",\"lsa\":\"network\",\"number\":\"80000001\",\"prefix\":\"10.1.0.0/24\",\
        \"router\":\"2.2.2.2\",\"sum\":\"{network}\",\"unused\":false}}]\n"
    )?)?;
    let input = lines(alloc, &lsas)?;
    expect(&rt, alloc, &InspectJob::Lsas(Form::Json), &input, (Status::Done, &wanted, ""))
}

// The table of the second router.
static SECOND_TABLE: &str = "[{\"cost\":20,\"hops\":[\"10.0.0.2>1.1.1.1\"],\"prefix\":\"10.0.0.0/30\"},\
    {\"cost\":5,\"hops\":[\"attached\"],\"prefix\":\"10.1.0.0/24\"},\
    {\"cost\":6,\"hops\":[\"10.1.0.2>3.3.3.3@10.1.0.3\"],\"prefix\":\"172.16.0.3/32\"}]";

#[test]
fn table_stands_in_json(rt: HostRuntime) -> Result<(), Fail> {
    let alloc = rt.alloc();
    let input = lines(alloc, &area(alloc)?)?;
    let wanted = format!(in alloc; "{SECOND_TABLE}\n")?;
    expect(&rt, alloc, &InspectJob::Table(SECOND), &input, (Status::Done, &wanted, ""))?;
    let stranger = InspectJob::Table(RouterId(0x0909_0909));
    let told = "9.9.9.9: no router-LSA of this router\n";
    expect(&rt, alloc, &stranger, &input, (Status::Done, "[]\n", told))
}

#[test]
fn tables_of_all_routers_stand_in_json(rt: HostRuntime) -> Result<(), Fail> {
    let alloc = rt.alloc();
    let input = lines(alloc, &area(alloc)?)?;
    let wanted = format!(in alloc;
        "[{{\"root\":\"1.1.1.1\",\"routes\":[{{\"cost\":10,\"hops\":[\"attached\"],\"prefix\":\"10.0.0.0/30\"}},\
        {{\"cost\":15,\"hops\":[\"10.0.0.1>2.2.2.2\",\"10.0.0.5>2.2.2.2\"],\"prefix\":\"10.1.0.0/24\"}},\
        {{\"cost\":16,\"hops\":[\"10.0.0.1>2.2.2.2\",\"10.0.0.5>2.2.2.2\"],\"prefix\":\"172.16.0.3/32\"}}]}},\
        {{\"root\":\"2.2.2.2\",\"routes\":{SECOND_TABLE}}},\
        {{\"root\":\"3.3.3.3\",\"routes\":[{{\"cost\":25,\"hops\":[\"10.1.0.3>2.2.2.2@10.1.0.2\"],\"prefix\":\"10.0.0.0/30\"}},\
        {{\"cost\":5,\"hops\":[\"attached\"],\"prefix\":\"10.1.0.0/24\"}},\
        {{\"cost\":1,\"hops\":[\"attached\"],\"prefix\":\"172.16.0.3/32\"}}]}}]\n"
    )?;
    expect(&rt, alloc, &InspectJob::Tables(Form::Json), &input, (Status::Done, &wanted, ""))
}

// The line about the four LSAs of the area.
static HEAD: &str = "{\"input\":{\"left_out\":0,\"lsas\":4},\"outside\":false,\"version\":2,\"warnings\":[]}\n";

// The routes of the second router in version 2, by hand.
static SECOND_PARTS: &str = "[{\"cost\":20,\"hops\":[{\"address\":null,\"interface\":\"10.0.0.2\",\"router\":\"1.1.1.1\"}],\"prefix\":\"10.0.0.0/30\"},\
    {\"cost\":5,\"hops\":[{\"address\":null,\"interface\":null,\"router\":null}],\"prefix\":\"10.1.0.0/24\"},\
    {\"cost\":6,\"hops\":[{\"address\":\"10.1.0.3\",\"interface\":\"10.1.0.2\",\"router\":\"3.3.3.3\"}],\"prefix\":\"172.16.0.3/32\"}]";

// The virtual link of the third router is warned of, in the line too.
#[test]
fn table_stands_in_lines_of_json(rt: HostRuntime) -> Result<(), Fail> {
    let alloc = rt.alloc();
    let input = lines(alloc, &area(alloc)?)?;
    let alone = InspectJob::TableLines {
        root: SECOND,
        addresses: Vec::new(alloc),
    };
    let wanted = format!(in alloc;
        "{HEAD}{{\"lookups\":[],\"root\":\"2.2.2.2\",\"routes\":{SECOND_PARTS}}}\n"
    )?;
    expect(&rt, alloc, &alone, &input, (Status::Done, &wanted, ""))?;
    let asked = InspectJob::TableLines {
        root: SECOND,
        addresses: vec![in alloc; Addr(0xac10_0003), Addr(0x0909_0909)]?,
    };
    let told = "3.3.3.3: virtual link: routes over it are not computed\n";
    let wanted = format!(in alloc;
        "{{\"input\":{{\"left_out\":0,\"lsas\":4}},\"outside\":false,\"version\":2,\
        \"warnings\":[\"3.3.3.3: virtual link: routes over it are not computed\"]}}\n\
        {{\"lookups\":[{{\"address\":\"172.16.0.3\",\"route\":{{\"cost\":6,\
        \"hops\":[{{\"address\":\"10.1.0.3\",\"interface\":\"10.1.0.2\",\"router\":\"3.3.3.3\"}}],\
        \"prefix\":\"172.16.0.3/32\"}}}},{{\"address\":\"9.9.9.9\",\"route\":null}}],\
        \"root\":\"2.2.2.2\",\"routes\":{SECOND_PARTS}}}\n"
    )?;
    expect(&rt, alloc, &asked, &input, (Status::Done, &wanted, told))
}

#[test]
fn tables_of_all_routers_stand_in_lines_of_json(rt: HostRuntime) -> Result<(), Fail> {
    let alloc = rt.alloc();
    let input = lines(alloc, &area(alloc)?)?;
    let both = "[{\"address\":null,\"interface\":\"10.0.0.1\",\"router\":\"2.2.2.2\"},\
        {\"address\":null,\"interface\":\"10.0.0.5\",\"router\":\"2.2.2.2\"}]";
    let here = "[{\"address\":null,\"interface\":null,\"router\":null}]";
    let wanted = format!(in alloc;
        "{HEAD}\
        {{\"lookups\":[],\"root\":\"1.1.1.1\",\"routes\":[{{\"cost\":10,\"hops\":{here},\"prefix\":\"10.0.0.0/30\"}},\
        {{\"cost\":15,\"hops\":{both},\"prefix\":\"10.1.0.0/24\"}},\
        {{\"cost\":16,\"hops\":{both},\"prefix\":\"172.16.0.3/32\"}}]}}\n\
        {{\"lookups\":[],\"root\":\"2.2.2.2\",\"routes\":{SECOND_PARTS}}}\n\
        {{\"lookups\":[],\"root\":\"3.3.3.3\",\"routes\":[{{\"cost\":25,\
        \"hops\":[{{\"address\":\"10.1.0.2\",\"interface\":\"10.1.0.3\",\"router\":\"2.2.2.2\"}}],\"prefix\":\"10.0.0.0/30\"}},\
        {{\"cost\":5,\"hops\":{here},\"prefix\":\"10.1.0.0/24\"}},\
        {{\"cost\":1,\"hops\":{here},\"prefix\":\"172.16.0.3/32\"}}]}}\n"
    )?;
    expect(&rt, alloc, &InspectJob::TablesLines, &input, (Status::Done, &wanted, ""))
}

#[test]
fn empty_input_is_an_empty_array(rt: HostRuntime) -> Result<(), Fail> {
    let alloc = rt.alloc();
    for job in [
        &InspectJob::Lsas(Form::Json),
        &InspectJob::Tables(Form::Json),
        &InspectJob::Table(FIRST),
    ] {
        expect(&rt, alloc, job, "", (Status::Done, "[]\n", ""))?;
    }
    Ok(())
}

#[test]
fn way_goes_from_router_to_router(rt: HostRuntime) -> Result<(), Fail> {
    let alloc = rt.alloc();
    let input = lines(alloc, &area(alloc)?)?;
    let first = "1.1.1.1 10.0.0.1>2.2.2.2 cost 10 hop 0 of 2\n\
        2.2.2.2 10.1.0.2>3.3.3.3@10.1.0.3 cost 5 hop 0 of 1\n\
        3.3.3.3 attached cost 1 hop 0 of 1\n\
        172.16.0.3/32 cost 16 arrived\n";
    let second = "1.1.1.1 10.0.0.5>2.2.2.2 cost 10 hop 1 of 2\n\
        2.2.2.2 10.1.0.2>3.3.3.3@10.1.0.3 cost 5 hop 0 of 1\n\
        3.3.3.3 attached cost 1 hop 0 of 1\n\
        172.16.0.3/32 cost 16 arrived\n";
    for (choices, wanted) in [
        (&[][..], first),
        (&[2, 7, 0, 9][..], first),
        (&[1][..], second),
        (&[3, 1][..], second),
    ] {
        let job = path(alloc, FIRST, 0xac10_0003, choices)?;
        expect(&rt, alloc, &job, &input, (Status::Done, wanted, ""))?;
    }
    Ok(())
}

#[test]
fn way_ends_where_there_is_no_route(rt: HostRuntime) -> Result<(), Fail> {
    let alloc = rt.alloc();
    let input = lines(alloc, &area(alloc)?)?;
    let job = path(alloc, FIRST, 0x0a09_0001, &[])?;
    let told = "3.3.3.3: virtual link: routes over it are not computed\n";
    expect(&rt, alloc, &job, &input, (Status::Done, "1.1.1.1 no route\n", told))?;
    let stranger = path(alloc, RouterId(0x0909_0909), 0xac10_0003, &[])?;
    let told = "9.9.9.9: no router-LSA of this router\n\
        3.3.3.3: virtual link: routes over it are not computed\n";
    expect(&rt, alloc, &stranger, &input, (Status::Done, "9.9.9.9 no route\n", told))?;
    expect(&rt, alloc, &job, "", (Status::Done, "1.1.1.1 no route\n", ""))
}

#[test]
fn way_that_may_lead_out_of_the_area_is_told_of(rt: HostRuntime) -> Result<(), Fail> {
    let alloc = rt.alloc();
    let way = path(alloc, FIRST, 0x0a09_0001, &[])?;
    let told = "1.1.1.1: AS boundary router, 1.1.1.1: border router: routes outside the area are not computed\n";
    expect(&rt, alloc, &way, FLAGGED, (Status::Done, "1.1.1.1 no route\n", told))
}

// 10.0.0.0/24 between the first two routers, which the first takes for a point-to-point link and the second, its Designated
// Router, for a broadcast network; behind it a stub of the second. With a link back from the second nothing is told.
#[test]
fn link_that_is_broadcast_at_one_end_is_told_of(rt: HostRuntime) -> Result<(), Fail> {
    let alloc = rt.alloc();
    let (here, there, behind) = (0x0a00_0001, 0x0a00_0002, stub(0xac10_0000, NETWORK, 1));
    let transit = link(LinkKind::Transit, there, there, 10);
    let told = "1.1.1.1: point-to-point link to a broadcast interface: no route leads over it\n";
    for (links, told) in [
        (&[transit, behind][..], told),
        (&[transit, behind, to(FIRST, 0x0a00_0006, 99)][..], ""),
    ] {
        let mut lsas = Vec::new(alloc);
        lsas.push(router(alloc, FIRST, 1, &[to(SECOND, here, 10)])?)?;
        lsas.push(router(alloc, SECOND, 1, links)?)?;
        lsas.push(Lsa::network(alloc, there, SECOND, FIRST_NUMBER, NETWORK, &[FIRST, SECOND])?)?;
        let input = lines(alloc, &lsas)?;
        let way = path(alloc, FIRST, 0x0a09_0001, &[])?;
        expect(&rt, alloc, &way, &input, (Status::Done, "1.1.1.1 no route\n", told))?;
    }
    Ok(())
}

// Two LSAs at MaxAge, one of them with the bit DoNotAge.
static EXPIRED: &str = "0e100201010101010101010180000001e22c003000000002020202020a0000010100000a0a000000fffffffc0300000a\n\n\
    8e100201020202020202020280000001ec64001802000000\n";

#[test]
fn lsas_at_max_age_are_counted(rt: HostRuntime) -> Result<(), Fail> {
    let alloc = rt.alloc();
    let told = "LSAs left out at MaxAge: 2\n";
    for (job, wanted) in [
        (InspectJob::Lsas(Form::Text), ""),
        (InspectJob::Lsas(Form::Json), "[]\n"),
        (InspectJob::Tables(Form::Text), ""),
        (path(alloc, FIRST, 0x0a09_0001, &[])?, "1.1.1.1 no route\n"),
    ] {
        expect(&rt, alloc, &job, EXPIRED, (Status::Done, wanted, told))?;
    }
    Ok(())
}

#[test]
fn refused_line_is_told_and_nothing_printed(rt: HostRuntime) -> Result<(), Fail> {
    let alloc = rt.alloc();
    let mut input = lines(alloc, &area(alloc)?)?;
    input.push_str("zz\n")?;
    let way = path(alloc, FIRST, 0xac10_0003, &[])?;
    for job in [&InspectJob::Lsas(Form::Text), &InspectJob::Drawing, &InspectJob::Tables(Form::Text), &way] {
        expect(&rt, alloc, job, &input, (Status::Refused, "", "line 5: not hex\n"))?;
    }
    Ok(())
}

#[test]
fn empty_input_prints_nothing(rt: HostRuntime) -> Result<(), Fail> {
    let alloc = rt.alloc();
    for job in [&InspectJob::Lsas(Form::Text), &InspectJob::Tables(Form::Text)] {
        expect(&rt, alloc, job, "", (Status::Done, "", ""))?;
    }
    Ok(())
}

#[test]
fn output_that_fails_is_told(rt: HostRuntime) -> Result<(), Fail> {
    let alloc = rt.alloc();
    let input = lines(alloc, &area(alloc)?)?;
    // The text, and then its flush.
    for left in 0..2 {
        let (mut out, mut err) = (Failing { left }, Vec::new(alloc));
        let job = InspectJob::Lsas(Form::Text);
        let status = inspect_text(alloc, &job, input.as_bytes(), &mut out, &mut err);
        assert_eq!(rt; status, Status::Stream.code());
        assert_eq!(rt; str::from_utf8(&err)?, "standard output: not written\n");
    }
    Ok(())
}
