//! Drawings that were written by hand from the LSAs.

use super::made::link;
use ospf_base::RouterId;
use ospf_lsa::{Link, LinkKind, Listing, Lsa};
use ospf_inspect::drawing::{Graph, names_tell_apart, prefixes_are_drawn};
use std::alloc::Global;
use std::process::Abort;
use std::test::Fail;

const FIRST: RouterId = RouterId(0x0101_0101);
const SECOND: RouterId = RouterId(0x0202_0202);
const THIRD: RouterId = RouterId(0x0303_0303);
// The address of a Designated Router.
const NETWORK: u32 = 0x0a01_0002;
const MASK: u32 = 0xffff_ff00;

static HEAD: &str = "graph area {
  graph [layout=neato, overlap=false, splines=true, sep=\"+30\", outputorder=edgesfirst];
  node [shape=plaintext, style=filled, fillcolor=white];
";

// What is drawn of a listing, behind the head and before the last brace.
fn expect(
    rt: &impl Abort,
    alloc: Global,
    listing: &Listing,
    (stopped, walked): (&[RouterId], &[RouterId]),
    lines: &str,
) -> Result<(), Fail> {
    let graph = Graph {
        listing,
        stopped,
        walked,
    };
    let text = format!(in alloc; "{graph}")?;
    let wanted = format!(in alloc; "{HEAD}{lines}}}\n")?;
    assert_eq!(rt; text.as_str(), wanted.as_str());
    Ok(())
}

// A link of type 1.
fn to(router: RouterId, link_data: u32, metric: u16) -> Link {
    link(LinkKind::PointToPoint, router.0, link_data, metric)
}

// A link to the network.
fn on_network(link_data: u32, metric: u16) -> Link {
    link(LinkKind::Transit, NETWORK, link_data, metric)
}

// A router with an address that is the network's too, a stub network without a mask, and a link of type 4.
static TWO: &str = "  \"1.1.1.1\" [shape=box, label=\"1.1.1.1\\n10.0.0.0/30 cost 11\"];
  \"1.1.1.1\" -- \"10.1.0.2\" [taillabel=10, headlabel=20];
  \"1.1.1.1\" -- \"network 10.1.0.2\" [taillabel=65535];
  \"10.1.0.2\" [shape=box, label=\"10.1.0.2\\n0.0.0.0/0 cost 0\\n10.2.0.0/16 cost 7\"];
  \"network 10.1.0.2\" [shape=box, style=\"filled,rounded\", label=\"10.1.0.0/24\"];
  \"network 10.1.0.2\" -- \"10.1.0.2\" [dir=forward, style=dashed];
";

#[test]
fn two_routers_and_a_network(rt: HostRuntime) -> Result<(), Fail> {
    let alloc = rt.alloc();
    let second = RouterId(NETWORK);
    let of_first = [
        to(second, 0x0a00_0001, 10),
        link(LinkKind::Stub, 0x0a00_0000, 0xffff_fffc, 11),
        on_network(0x0a01_0001, 65535),
    ];
    let of_second = [
        to(FIRST, 0x0a00_0002, 20),
        link(LinkKind::Virtual, FIRST.0, 0x0a00_0002, 30),
        link(LinkKind::Stub, 0, 0, 0),
        link(LinkKind::Stub, 0x0a02_0304, 0xffff_0000, 7),
    ];
    let mut listing = Listing::new(alloc);
    listing.add(Lsa::network(alloc, NETWORK, second, 1, MASK, &[FIRST, second])?)?;
    listing.add(Lsa::router(alloc, second, 1, &of_second)?)?;
    listing.add(Lsa::router(alloc, FIRST, 1, &of_first)?)?;
    expect(&rt, alloc, &listing, (&[], &[]), TWO)
}

#[test]
fn an_empty_listing(rt: HostRuntime) -> Result<(), Fail> {
    let alloc = rt.alloc();
    let listing = Listing::new(alloc);
    expect(&rt, alloc, &listing, (&[], &[]), "")
}

// An arrow from each router of a walk to the next, and none from the last.
static WALKED: &str = "  \"1.1.1.1\" -- \"2.2.2.2\" [dir=forward, color=red, penwidth=2];
  \"2.2.2.2\" -- \"3.3.3.3\" [dir=forward, color=red, penwidth=2];
";

#[test]
fn a_walk(rt: HostRuntime) -> Result<(), Fail> {
    let alloc = rt.alloc();
    let listing = Listing::new(alloc);
    expect(&rt, alloc, &listing, (&[], &[FIRST]), "")?;
    expect(&rt, alloc, &listing, (&[], &[FIRST, SECOND, THIRD]), WALKED)
}

// Three links one way and two back, in no subnets: which of them are one is not known.
static PARALLEL: &str = "  \"1.1.1.1\" [shape=box, label=\"1.1.1.1\"];
  \"1.1.1.1\" -- \"2.2.2.2\" [taillabel=1];
  \"1.1.1.1\" -- \"3.3.3.3\" [taillabel=9, dir=forward, style=dashed];
  \"1.1.1.1\" -- \"2.2.2.2\" [taillabel=2];
  \"1.1.1.1\" -- \"2.2.2.2\" [taillabel=3];
  \"2.2.2.2\" [shape=box, label=\"2.2.2.2\"];
  \"2.2.2.2\" -- \"1.1.1.1\" [taillabel=4];
  \"2.2.2.2\" -- \"1.1.1.1\" [taillabel=5];
";

#[test]
fn links_side_by_side(rt: HostRuntime) -> Result<(), Fail> {
    let alloc = rt.alloc();
    let of_first = [
        to(SECOND, 0x0a00_0001, 1),
        to(THIRD, 0x0a00_0011, 9),
        to(SECOND, 0x0a00_0005, 2),
        to(SECOND, 0x0a00_0009, 3),
    ];
    let of_second = [to(FIRST, 0x0a00_0002, 4), to(FIRST, 0x0a00_0006, 5)];
    let mut listing = Listing::new(alloc);
    listing.add(Lsa::router(alloc, FIRST, 1, &of_first)?)?;
    listing.add(Lsa::router(alloc, SECOND, 1, &of_second)?)?;
    expect(&rt, alloc, &listing, (&[], &[]), PARALLEL)
}

// Three links one way, in 10.0.0.0/30, 10.0.0.4/30 and 10.0.0.0/24, and those of the last two back, the other way round.
static IN_SUBNETS: &str = "  \"1.1.1.1\" [shape=box, label=\"1.1.1.1\\n10.0.0.0/30 cost 1\\n10.0.0.4/30 cost 2\\n10.0.0.0/24 cost 3\"];
  \"1.1.1.1\" -- \"2.2.2.2\" [taillabel=1];
  \"1.1.1.1\" -- \"2.2.2.2\" [taillabel=2, headlabel=5];
  \"1.1.1.1\" -- \"2.2.2.2\" [taillabel=3, headlabel=4];
  \"2.2.2.2\" [shape=box, label=\"2.2.2.2\\n10.0.0.0/24 cost 4\\n10.0.0.4/30 cost 5\"];
";

#[test]
fn links_in_subnets(rt: HostRuntime) -> Result<(), Fail> {
    let alloc = rt.alloc();
    let of_first = [
        to(SECOND, 0x0a00_0001, 1),
        to(SECOND, 0x0a00_0005, 2),
        to(SECOND, 0x0a00_0010, 3),
        link(LinkKind::Stub, 0x0a00_0000, 0xffff_fffc, 1),
        link(LinkKind::Stub, 0x0a00_0004, 0xffff_fffc, 2),
        link(LinkKind::Stub, 0x0a00_0000, 0xffff_ff00, 3),
    ];
    let of_second = [
        to(FIRST, 0x0a00_0020, 4),
        to(FIRST, 0x0a00_0006, 5),
        link(LinkKind::Stub, 0x0a00_0000, 0xffff_ff00, 4),
        link(LinkKind::Stub, 0x0a00_0004, 0xffff_fffc, 5),
    ];
    let mut listing = Listing::new(alloc);
    listing.add(Lsa::router(alloc, FIRST, 1, &of_first)?)?;
    listing.add(Lsa::router(alloc, SECOND, 1, &of_second)?)?;
    expect(&rt, alloc, &listing, (&[], &[]), IN_SUBNETS)
}

// The larger Router ID alone tells of the link.
static BACK_ALONE: &str = "  \"1.1.1.1\" [shape=box, label=\"1.1.1.1\"];
  \"2.2.2.2\" [shape=box, label=\"2.2.2.2\"];
  \"2.2.2.2\" -- \"1.1.1.1\" [taillabel=4, dir=forward, style=dashed];
";

#[test]
fn a_link_of_one_end(rt: HostRuntime) -> Result<(), Fail> {
    let alloc = rt.alloc();
    let mut listing = Listing::new(alloc);
    listing.add(Lsa::router(alloc, FIRST, 1, &[])?)?;
    listing.add(Lsa::router(alloc, SECOND, 1, &[to(FIRST, 0x0a00_0002, 4)])?)?;
    expect(&rt, alloc, &listing, (&[], &[]), BACK_ALONE)
}

// Of two LSAs of a network the one of the larger Advertising Router stands for it, which names the first router alone.
static TWICE: &str = "  \"1.1.1.1\" [shape=box, label=\"1.1.1.1\"];
  \"1.1.1.1\" -- \"network 10.1.0.2\" [taillabel=5];
  \"2.2.2.2\" [shape=box, label=\"2.2.2.2\"];
  \"2.2.2.2\" -- \"network 10.1.0.2\" [taillabel=6, dir=forward, style=dashed];
  \"network 10.1.0.2\" [shape=box, style=\"filled,rounded\", label=\"10.1.0.0/24\"];
  \"network 10.1.0.2\" -- \"3.3.3.3\" [dir=forward, style=dashed];
  \"network 10.1.0.2\" [shape=box, style=\"filled,rounded\", label=\"10.1.0.0/24\"];
";

#[test]
fn a_network_of_two_lsas(rt: HostRuntime) -> Result<(), Fail> {
    let alloc = rt.alloc();
    let mut listing = Listing::new(alloc);
    listing.add(Lsa::router(alloc, FIRST, 1, &[on_network(0x0a01_0001, 5)])?)?;
    listing.add(Lsa::router(alloc, SECOND, 1, &[on_network(NETWORK, 6)])?)?;
    listing.add(Lsa::network(alloc, NETWORK, SECOND, 1, MASK, &[SECOND, THIRD])?)?;
    listing.add(Lsa::network(alloc, NETWORK, THIRD, 1, MASK, &[FIRST])?)?;
    expect(&rt, alloc, &listing, (&[], &[]), TWICE)
}

// A network that is not listed.
static UNLISTED: &str = "  \"1.1.1.1\" [shape=box, label=\"1.1.1.1\"];
  \"1.1.1.1\" -- \"network 10.1.0.2\" [taillabel=5, dir=forward, style=dashed];
  \"2.2.2.2\" [shape=box, fillcolor=lightgrey];
  \"1.1.1.1\" [shape=box, fillcolor=lightgrey];
";

#[test]
fn routers_that_do_not_run(rt: HostRuntime) -> Result<(), Fail> {
    let alloc = rt.alloc();
    let mut listing = Listing::new(alloc);
    listing.add(Lsa::router(alloc, FIRST, 1, &[on_network(0x0a01_0001, 5)])?)?;
    expect(&rt, alloc, &listing, (&[SECOND, FIRST], &[]), UNLISTED)
}
