//! Configurations that are checked, by name.

use super::failing::Failing;
use ospf_check::{check_area_json, check_area_text, check_lines, check_text};
use ospf_files::{NamedFile, Status, Telling};
use std::alloc::{AllocError, Global};
use std::test::Fail;

// A file, and what is told of it.
struct Case {
    name: &'static str,
    text: &'static str,
    told: &'static str,
}

// One file each.
static CASES: [Case; 16] = [
    Case {
        name: "broadcast address",
        text: "router_id = \"1.1.1.1\"\narea = \"0.0.0.0\"\n\n[[interface]]\nkind = \"point-to-point\"\naddress = \"10.0.0.3/30\"\ncost = 10\n",
        told: "C4 Range",
    },
    Case {
        name: "dead not over hello",
        text: "router_id = \"1.1.1.1\"\narea = \"0.0.0.0\"\n\n[[interface]]\nkind = \"point-to-point\"\naddress = \"10.0.0.1/30\"\ncost = 10\ndead = 10\n",
        told: "C7 DeadNotOverHello",
    },
    Case {
        name: "empty",
        text: "",
        told: "C2 Missing",
    },
    Case {
        name: "empty interface list",
        text: "router_id = \"1.1.1.1\"\narea = \"0.0.0.0\"\ninterface = []\n",
        told: "C4 Range",
    },
    Case {
        name: "every key",
        text: "router_id = \"9.8.7.6\"\narea = \"0.0.0.0\"\n\n[[interface]]\nkind = \"broadcast\"\naddress = \"192.168.7.3/24\"\ncost = 65535\npriority = 0\nhello = 1\ndead = 2\nretransmit = 65535\ntransmit_delay = 3600\nmtu = 9000\nport = 1024\npeers = [65535, 1024]\n",
        told: "ok",
    },
    Case {
        name: "host address",
        text: "router_id = \"1.1.1.1\"\narea = \"0.0.0.0\"\n\n[[interface]]\nkind = \"point-to-point\"\naddress = \"10.0.0.2/30\"\ncost = 10\n",
        told: "ok",
    },
    Case {
        name: "interface no list",
        text: "router_id = \"1.1.1.1\"\narea = \"0.0.0.0\"\ninterface = 1\n",
        told: "C3 Type",
    },
    Case {
        name: "network address",
        text: "router_id = \"1.1.1.1\"\narea = \"0.0.0.0\"\n\n[[interface]]\nkind = \"point-to-point\"\naddress = \"10.0.0.0/30\"\ncost = 10\n",
        told: "C4 Range",
    },
    Case {
        name: "no interface",
        text: "router_id = \"1.1.1.1\"\narea = \"0.0.0.0\"\n",
        told: "C2 Missing",
    },
    Case {
        name: "no router id",
        text: "# = \"1.1.1.1\"\narea = \"0.0.0.0\"\n\n[[interface]]\nkind = \"point-to-point\"\naddress = \"10.0.0.1/30\"\ncost = 10\n",
        told: "C2 Missing",
    },
    Case {
        name: "not toml",
        text: "x",
        told: "C1 NotToml",
    },
    Case {
        name: "priority out of range",
        text: "router_id = \"1.1.1.1\"\narea = \"0.0.0.0\"\n\n[[interface]]\nkind = \"point-to-point\"\naddress = \"10.0.0.1/30\"\ncost = 10\npriority = 256\n",
        told: "C4 Range",
    },
    Case {
        name: "same prefix",
        text: "router_id = \"1.1.1.1\"\narea = \"0.0.0.0\"\n\n[[interface]]\nkind = \"point-to-point\"\naddress = \"10.0.0.1/30\"\ncost = 10\n[[interface]]\nkind = \"point-to-point\"\naddress = \"10.0.0.2/30\"\ncost = 10\n",
        told: "C6 SamePrefix",
    },
    Case {
        name: "unknown key",
        text: "router_id = \"1.1.1.1\"\narea = \"0.0.0.0\"\n\n[[interface]]\nkind = \"point-to-point\"\naddress = \"10.0.0.1/30\"\ncost = 10\ncolour = 1\n",
        told: "C8 Unknown",
    },
    Case {
        name: "wrong type before same prefix",
        text: "router_id = \"1.1.1.1\"\narea = \"0.0.0.0\"\n\n[[interface]]\nkind = \"point-to-point\"\naddress = \"10.0.0.1/30\"\ncost = 10\n[[interface]]\nkind = \"point-to-point\"\naddress = \"10.0.0.2/30\"\ncost = \"10\"\n",
        told: "C3 Type",
    },
    Case {
        name: "zero cost before unknown key",
        text: "router_id = \"1.1.1.1\"\narea = \"0.0.0.0\"\n\n[[interface]]\nkind = \"point-to-point\"\naddress = \"10.0.0.1/30\"\ncost = 0\ncolour = 1\n",
        told: "C5 ZeroCost",
    },
];

// A configuration that is accepted, and one whose cost is zero.
const GOOD: &str =
    "router_id = \"1.1.1.1\"\narea = \"0.0.0.0\"\n\n[[interface]]\nkind = \"point-to-point\"\naddress = \"10.0.0.1/30\"\ncost = 10\n";

const BAD: &str =
    "router_id = \"1.1.1.1\"\narea = \"0.0.0.0\"\n\n[[interface]]\nkind = \"point-to-point\"\naddress = \"10.0.0.1/30\"\ncost = 0\n";

// What was told, and the status.
#[derive(Drop)]
struct Outcome {
    out: Vec<u8>,
    err: Vec<u8>,
    status: Status,
}

fn named(alloc: Global, name: &str, bytes: Option<&[u8]>) -> Result<NamedFile, AllocError> {
    let bytes = match bytes {
        Some(bytes) => {
            let mut copy = Vec::new(alloc);
            copy.extend_from_slice(bytes)?;
            Some(copy)
        }
        None => None,
    };
    Ok(NamedFile {
        name: String::from_str(alloc, name)?,
        bytes,
    })
}

fn outcome_of(alloc: Global, files: &[(&str, Option<&[u8]>)]) -> Result<Outcome, AllocError> {
    told_of(alloc, files, Telling::Verdict)
}

fn told_of(
    alloc: Global,
    files: &[(&str, Option<&[u8]>)],
    how: Telling,
) -> Result<Outcome, AllocError> {
    let mut named_files = Vec::new(alloc);
    for (name, bytes) in files {
        named_files.push(named(alloc, name, *bytes)?)?;
    }
    let mut out = Vec::new(alloc);
    let mut err = Vec::new(alloc);
    let status = check_text(alloc, &named_files, how, &mut out, &mut err);
    Ok(Outcome { out, err, status })
}

#[test]
fn tells_of_one_file(rt: HostRuntime) -> Result<(), Fail> {
    for case in &CASES {
        let name = case.name;
        let outcome = outcome_of(rt.alloc(), &[("a.toml", Some(case.text.as_bytes()))])?;
        let accepted = case.told == "ok";
        let status = if accepted {
            Status::Done
        } else {
            Status::Refused
        };
        let line = format!(in rt.alloc(); "a.toml: {}\n", case.told)?;
        let (written, empty) = if accepted {
            (&outcome.out, &outcome.err)
        } else {
            (&outcome.err, &outcome.out)
        };
        assert_eq!(rt; outcome.status, status, "{name}");
        assert_eq!(rt; written.as_slice(), line.as_bytes(), "{name}");
        assert!(rt; empty.is_empty(), "{name}");
    }
    Ok(())
}

#[test]
fn accepts_two_files(rt: HostRuntime) -> Result<(), Fail> {
    let good = Some(GOOD.as_bytes());
    let outcome = outcome_of(rt.alloc(), &[("a.toml", good), ("b.toml", good)])?;
    assert_eq!(rt; outcome.status, Status::Done);
    assert_eq!(rt;
        outcome.out.as_slice(),
        b"a.toml: ok\nb.toml: ok\n".as_slice()
    );
    assert!(rt; outcome.err.is_empty());
    Ok(())
}

#[test]
fn goes_on_after_a_refused_file(rt: HostRuntime) -> Result<(), Fail> {
    let good = Some(GOOD.as_bytes());
    let bad = Some(BAD.as_bytes());
    let files = [("a.toml", good), ("b.toml", bad), ("c.toml", good)];
    let outcome = outcome_of(rt.alloc(), &files)?;
    assert_eq!(rt; outcome.status, Status::Refused);
    assert_eq!(rt;
        outcome.out.as_slice(),
        b"a.toml: ok\nc.toml: ok\n".as_slice()
    );
    assert_eq!(rt; outcome.err.as_slice(), b"b.toml: C5 ZeroCost\n".as_slice());
    Ok(())
}

#[test]
fn ends_at_a_file_that_is_not_read(rt: HostRuntime) -> Result<(), Fail> {
    let files = [
        ("a.toml", Some(b"\xff".as_slice())),
        ("missing.toml", None),
        ("b.toml", Some(GOOD.as_bytes())),
    ];
    let outcome = outcome_of(rt.alloc(), &files)?;
    assert_eq!(rt; outcome.status, Status::Stream);
    assert!(rt; outcome.out.is_empty());
    assert_eq!(rt;
        outcome.err.as_slice(),
        b"a.toml: C1 NotToml\nmissing.toml: not read\n".as_slice()
    );
    Ok(())
}

// A configuration of so many interfaces.
fn interfaces(alloc: Global, count: u8) -> Result<String, AllocError> {
    let mut text = String::from_str(alloc, "router_id = \"1.1.1.1\"\narea = \"0.0.0.0\"\n")?;
    for number in 0..count {
        let table = format!(in alloc;
            "[[interface]]\nkind = \"point-to-point\"\naddress = \"10.{number}.0.1/30\"\ncost = 10\n"
        )?;
        text.push_str(&table)?;
    }
    Ok(text)
}

#[test]
fn most_and_too_many_interfaces(rt: HostRuntime) -> Result<(), Fail> {
    let most = interfaces(rt.alloc(), 32)?;
    let outcome = outcome_of(rt.alloc(), &[("a.toml", Some(most.as_bytes()))])?;
    assert_eq!(rt; outcome.out.as_slice(), b"a.toml: ok\n".as_slice());
    let too_many = interfaces(rt.alloc(), 33)?;
    let outcome = outcome_of(rt.alloc(), &[("a.toml", Some(too_many.as_bytes()))])?;
    assert_eq!(rt; outcome.err.as_slice(), b"a.toml: C4 Range\n".as_slice());
    assert_eq!(rt; outcome.status, Status::Refused);
    Ok(())
}

#[test]
fn explains_refused_files(rt: HostRuntime) -> Result<(), Fail> {
    let files = [
        ("a.toml", Some(GOOD.as_bytes())),
        ("b.toml", Some(BAD.as_bytes())),
        ("c.toml", Some(b"\xff".as_slice())),
        ("d.toml", Some(b"router_id = 1.1".as_slice())),
    ];
    let told = told_of(rt.alloc(), &files, Telling::Explained)?;
    assert_eq!(rt; told.status, Status::Refused);
    assert_eq!(rt; told.out.as_slice(), b"a.toml: ok\n".as_slice());
    assert_eq!(rt;
        told.err.as_slice(),
        b"b.toml: C5 ZeroCost\n  interface 0: cost: 1 to 65535 wanted, 0 found\nc.toml: C1 NotToml\n  the file is not UTF-8\nd.toml: C2 Missing\n  area: a dotted string such as \"0.0.0.1\", wanted, none found\n  interface: 1 to 32 tables [[interface]], not all passive, wanted, none found\n".as_slice()
    );
    Ok(())
}

// A configuration with each fault but that it is no TOML, most of them at several places.
const EACH: &str =
    "area = \"0.0.0.0\"\nstub_router = 1\ncolour = \"red\"\n\n[[interface]]\nkind = \"point-to-point\"\naddress = \"10.0.0.1/30\"\ncost = 0\n\n[[interface]]\nkind = \"broadcast\"\naddress = \"10.0.0.2/30\"\npriority = \"high\"\ndead = 10\nmtu = 100\nport = 5\ncolour = 1\n";

// A configuration with a value out of its range, a cost of zero and a key that is not known.
const THREE: &str =
    "router_id = \"1.1.1.1\"\narea = \"0.0.0.0\"\n\n[[interface]]\nkind = \"point-to-point\"\naddress = \"10.0.0.1/30\"\ncost = 0\nmtu = 100\ncolour = \"red\"\n";

#[test]
fn explains_all_faults(rt: HostRuntime) -> Result<(), Fail> {
    let files = [
        ("a.toml", Some(THREE.as_bytes())),
        ("b.toml", Some(GOOD.as_bytes())),
        ("c.toml", Some(EACH.as_bytes())),
    ];
    let told = told_of(rt.alloc(), &files, Telling::AllExplained)?;
    assert_eq!(rt; told.status, Status::Refused);
    assert_eq!(rt; told.out.as_slice(), b"b.toml: ok\n".as_slice());
    let wanted = "a.toml: C4 Range\n\
        \x20 C4 Range: interface 0: mtu: 576 to 9000 wanted, 100 found\n\
        \x20 C5 ZeroCost: interface 0: cost: 1 to 65535 wanted, 0 found\n\
        \x20 C8 Unknown: interface 0: colour: a known key wanted, \"red\" found\n\
        c.toml: C2 Missing\n\
        \x20 C2 Missing: router_id: a dotted string such as \"10.0.0.1\", not \"0.0.0.0\", wanted, none found\n\
        \x20 C2 Missing: interface 1: cost: 1 to 65535 wanted, none found\n\
        \x20 C3 Type: stub_router: true or false wanted, 1 found\n\
        \x20 C3 Type: interface 1: priority: 0 to 255 wanted, \"high\" found\n\
        \x20 C4 Range: interface 1: mtu: 576 to 9000 wanted, 100 found\n\
        \x20 C4 Range: interface 1: port: 0, or 1024 to 65535, wanted, 5 found\n\
        \x20 C5 ZeroCost: interface 0: cost: 1 to 65535 wanted, 0 found\n\
        \x20 C6 SamePrefix: interface 1: address: a prefix and an address that no earlier interface has wanted, \"10.0.0.2/30\" found\n\
        \x20 C7 DeadNotOverHello: interface 1: dead: more than `hello` (defaults: dead 40, hello 10) wanted, 10 found\n\
        \x20 C8 Unknown: colour: a known key wanted, \"red\" found\n\
        \x20 C8 Unknown: interface 1: colour: a known key wanted, 1 found\n";
    assert!(rt; told.err.as_slice() == wanted.as_bytes());
    Ok(())
}

#[test]
fn explains_one_fault_or_no_toml_alone(rt: HostRuntime) -> Result<(), Fail> {
    let files = [
        ("a.toml", Some(BAD.as_bytes())),
        ("b.toml", Some(b"router_id = 1\nmtu 7\n".as_slice())),
        ("c.toml", Some(b"\xff".as_slice())),
    ];
    let told = told_of(rt.alloc(), &files, Telling::AllExplained)?;
    assert_eq!(rt; told.status, Status::Refused);
    assert!(rt; told.out.is_empty());
    assert_eq!(rt;
        told.err.as_slice(),
        b"a.toml: C5 ZeroCost\n  C5 ZeroCost: interface 0: cost: 1 to 65535 wanted, 0 found\nb.toml: C1 NotToml\n  C1 NotToml: line 2: not valid TOML\nc.toml: C1 NotToml\n  C1 NotToml: the file is not UTF-8\n".as_slice()
    );
    Ok(())
}

#[test]
fn tells_of_failed_writes(rt: HostRuntime) -> Result<(), Fail> {
    let alloc = rt.alloc();
    for (text, status) in [(GOOD, Status::Done), (BAD, Status::Refused)] {
        let files = [named(alloc, "a.toml", Some(text.as_bytes()))?];
        for left in 0..2 {
            let mut out = Failing { left };
            let mut err = Failing { left };
            let failed = check_text(alloc, &files, Telling::Verdict, &mut out, &mut err);
            assert_eq!(rt; failed, Status::Stream, "{left}");
        }
        let mut out = Failing { left: 20 };
        let mut err = Failing { left: 20 };
        let written = check_text(alloc, &files, Telling::Verdict, &mut out, &mut err);
        assert_eq!(rt; written, status);
    }
    Ok(())
}

// What is printed as JSON of the configurations of one area.
fn json_of(alloc: Global, files: &[(&str, Option<&[u8]>)]) -> Result<Outcome, AllocError> {
    let mut named_files = Vec::new(alloc);
    for (name, bytes) in files {
        named_files.push(named(alloc, name, *bytes)?)?;
    }
    let mut out = Vec::new(alloc);
    let mut err = Vec::new(alloc);
    let status = check_area_json(alloc, &named_files, &mut out, &mut err);
    Ok(Outcome { out, err, status })
}

// The other end of the link of `GOOD`, which sends Hellos twice as often.
const HASTY: &str =
    "router_id = \"2.2.2.2\"\narea = \"0.0.0.0\"\n\n[[interface]]\nkind = \"point-to-point\"\naddress = \"10.0.0.2/30\"\ncost = 10\nhello = 5\n";

#[test]
fn prints_what_is_wrong_in_an_area_as_json(rt: HostRuntime) -> Result<(), Fail> {
    let good = Some(GOOD.as_bytes());
    let outcome = json_of(rt.alloc(), &[("a.toml", good), ("b.toml", Some(HASTY.as_bytes()))])?;
    assert_eq!(rt; outcome.status, Status::Refused);
    assert_eq!(rt;
        str::from_utf8(&outcome.out)?,
        "[{\"code\":\"A5 Hello\",\"here\":{\"file\":\"b.toml\",\"interface\":0,\"key\":\"hello\",\"value\":5},\
        \"meaning\":\"each drops the other's Hellos: they never become neighbors (section 10.5)\",\"note\":false,\
        \"other\":{\"file\":\"a.toml\",\"interface\":0,\"key\":\"hello\",\"value\":10}},\
        {\"code\":\"A18 Partitioned\",\"here\":{\"file\":\"b.toml\",\"interface\":null,\"key\":\"router_id\",\"value\":\"2.2.2.2\"},\
        \"meaning\":\"the area is partitioned: over these networks no route leads there\",\"note\":false,\
        \"other\":{\"file\":\"a.toml\",\"interface\":null,\"key\":\"router_id\",\"value\":\"1.1.1.1\"}}]\n"
    );
    assert!(rt; outcome.err.is_empty());
    let alone = json_of(rt.alloc(), &[("a \"b\".toml", good)])?;
    assert_eq!(rt; alone.status, Status::Done);
    assert_eq!(rt;
        str::from_utf8(&alone.out)?,
        "[{\"code\":\"A13 NoNeighbor\",\"here\":{\"file\":\"a \\\"b\\\".toml\",\"interface\":0,\"key\":\"address\",\"value\":\"10.0.0.1/30\"},\
        \"meaning\":\"no other interface is on this network: it is a stub\",\"note\":true,\"other\":null}]\n"
    );
    Ok(())
}

// The two ends of a link, with ports of which neither names the other.
const MUTE: [&str; 2] = [
    "router_id = \"1.1.1.1\"\narea = \"0.0.0.0\"\n\n[[interface]]\nkind = \"point-to-point\"\naddress = \"10.0.0.1/30\"\ncost = 10\nport = 5001\n",
    "router_id = \"2.2.2.2\"\narea = \"0.0.0.0\"\n\n[[interface]]\nkind = \"point-to-point\"\naddress = \"10.0.0.2/30\"\ncost = 10\nport = 5002\n",
];

#[test]
fn prints_ports_as_json(rt: HostRuntime) -> Result<(), Fail> {
    let files = [("a.toml", Some(MUTE[0].as_bytes())), ("b.toml", Some(MUTE[1].as_bytes()))];
    let outcome = json_of(rt.alloc(), &files)?;
    assert_eq!(rt; outcome.status, Status::Refused);
    assert_eq!(rt;
        str::from_utf8(&outcome.out)?,
        "[{\"code\":\"A19 Unheard\",\"here\":{\"file\":\"b.toml\",\"interface\":0,\"key\":\"port\",\"value\":5002},\
        \"meaning\":\"in `run`, they never become neighbors (section 10.5)\",\"note\":false,\
        \"other\":{\"file\":\"a.toml\",\"interface\":0,\"key\":\"port\",\"value\":5001}}]\n"
    );
    Ok(())
}

// Three routers of a broadcast network, of which the first alone can be Designated Router.
const LED: [&str; 3] = [
    "router_id = \"1.1.1.1\"\narea = \"0.0.0.0\"\n\n[[interface]]\nkind = \"broadcast\"\naddress = \"10.1.0.1/24\"\ncost = 10\npriority = 9\n",
    "router_id = \"2.2.2.2\"\narea = \"0.0.0.0\"\n\n[[interface]]\nkind = \"broadcast\"\naddress = \"10.1.0.2/24\"\ncost = 10\npriority = 0\n",
    "router_id = \"3.3.3.3\"\narea = \"0.0.0.0\"\n\n[[interface]]\nkind = \"broadcast\"\naddress = \"10.1.0.3/24\"\ncost = 10\npriority = 0\n",
];

#[test]
fn prints_a_lone_designated_router_as_json(rt: HostRuntime) -> Result<(), Fail> {
    let files = [
        ("a.toml", Some(LED[0].as_bytes())),
        ("b.toml", Some(LED[1].as_bytes())),
        ("c.toml", Some(LED[2].as_bytes())),
    ];
    let outcome = json_of(rt.alloc(), &files)?;
    assert_eq!(rt; outcome.status, Status::Done);
    assert_eq!(rt;
        str::from_utf8(&outcome.out)?,
        "[{\"code\":\"A20 LoneDr\",\"here\":{\"file\":\"a.toml\",\"interface\":0,\"key\":\"priority\",\"value\":9},\
        \"meaning\":\"if this router fails, the others elect no Designated Router: no adjacency forms, and no route uses the network (sections 9.4 and 10.4)\",\"note\":true,\"other\":null}]\n"
    );
    assert!(rt; outcome.err.is_empty());
    Ok(())
}

#[test]
fn prints_no_json_where_a_file_is_refused(rt: HostRuntime) -> Result<(), Fail> {
    let files = [("a.toml", Some(GOOD.as_bytes())), ("b.toml", Some(BAD.as_bytes()))];
    let outcome = json_of(rt.alloc(), &files)?;
    assert_eq!(rt; outcome.status, Status::Refused);
    assert!(rt; outcome.out.is_empty());
    assert_eq!(rt; outcome.err.as_slice(), b"b.toml: C5 ZeroCost\n".as_slice());
    Ok(())
}

// What is printed in lines of JSON.
fn lines_of(
    alloc: Global,
    files: &[(&str, Option<&[u8]>)],
    how: Telling,
    area: bool,
) -> Result<Outcome, AllocError> {
    let mut named_files = Vec::new(alloc);
    for (name, bytes) in files {
        named_files.push(named(alloc, name, *bytes)?)?;
    }
    let mut out = Vec::new(alloc);
    let mut err = Vec::new(alloc);
    let status = check_lines(alloc, &named_files, how, area, &mut out, &mut err);
    Ok(Outcome { out, err, status })
}

// The line before those of one file, and of two.
const HEAD: &str = "{\"input\":{\"files\":1},\"version\":2,\"warnings\":[]}\n";

const HEAD_OF_TWO: &str = "{\"input\":{\"files\":2},\"version\":2,\"warnings\":[]}\n";

// A fault, what has it, and what is printed of it in lines of JSON.
struct Faulty {
    name: &'static str,
    text: &'static [u8],
    faults: &'static str,
    told: &'static str,
}

// A file for each fault of a file, and for each kind of place.
static FAULTY: [Faulty; 12] = [
    Faulty {
        name: "C1 NotToml, in a line",
        text: b"router_id = \"1.1.1.1\"\narea 7\n",
        faults: "{\"code\":\"C1 NotToml\",\"host\":null,\"interface\":null,\"key\":null,\"line\":2,\"text\":\"line 2: not valid TOML\"}",
        told: "C1 NotToml",
    },
    Faulty {
        name: "C1 NotToml, no text",
        text: b"\xff",
        faults: "{\"code\":\"C1 NotToml\",\"host\":null,\"interface\":null,\"key\":null,\"line\":null,\"text\":\"the file is not UTF-8\"}",
        told: "C1 NotToml",
    },
    Faulty {
        name: "C2 Missing",
        text: b"area = \"0.0.0.0\"\n\n[[interface]]\nkind = \"point-to-point\"\naddress = \"10.0.0.1/30\"\ncost = 10\n",
        faults: "{\"code\":\"C2 Missing\",\"host\":null,\"interface\":null,\"key\":\"router_id\",\"line\":null,\"text\":\"router_id: a dotted string such as \\\"10.0.0.1\\\", not \\\"0.0.0.0\\\", wanted, none found\"}",
        told: "C2 Missing",
    },
    Faulty {
        name: "C2 Missing, at an interface",
        text: b"router_id = \"1.1.1.1\"\narea = \"0.0.0.0\"\n\n[[interface]]\nkind = \"point-to-point\"\naddress = \"10.0.0.1/30\"\n",
        faults: "{\"code\":\"C2 Missing\",\"host\":null,\"interface\":0,\"key\":\"cost\",\"line\":null,\"text\":\"interface 0: cost: 1 to 65535 wanted, none found\"}",
        told: "C2 Missing",
    },
    Faulty {
        name: "C3 Type",
        text: b"router_id = \"1.1.1.1\"\narea = \"0.0.0.0\"\nstub_router = 1\n\n[[interface]]\nkind = \"point-to-point\"\naddress = \"10.0.0.1/30\"\ncost = 10\n",
        faults: "{\"code\":\"C3 Type\",\"host\":null,\"interface\":null,\"key\":\"stub_router\",\"line\":null,\"text\":\"stub_router: true or false wanted, 1 found\"}",
        told: "C3 Type",
    },
    Faulty {
        name: "C4 Range",
        text: b"router_id = \"1.1.1.1\"\narea = \"0.0.0.0\"\n\n[[interface]]\nkind = \"point-to-point\"\naddress = \"10.0.0.1/30\"\ncost = 10\nmtu = 100\n",
        faults: "{\"code\":\"C4 Range\",\"host\":null,\"interface\":0,\"key\":\"mtu\",\"line\":null,\"text\":\"interface 0: mtu: 576 to 9000 wanted, 100 found\"}",
        told: "C4 Range",
    },
    Faulty {
        name: "C5 ZeroCost",
        text: b"router_id = \"1.1.1.1\"\narea = \"0.0.0.0\"\n\n[[interface]]\nkind = \"point-to-point\"\naddress = \"10.0.0.1/30\"\ncost = 0\n",
        faults: "{\"code\":\"C5 ZeroCost\",\"host\":null,\"interface\":0,\"key\":\"cost\",\"line\":null,\"text\":\"interface 0: cost: 1 to 65535 wanted, 0 found\"}",
        told: "C5 ZeroCost",
    },
    Faulty {
        name: "C6 SamePrefix",
        text: b"router_id = \"1.1.1.1\"\narea = \"0.0.0.0\"\n\n[[interface]]\nkind = \"point-to-point\"\naddress = \"10.0.0.1/30\"\ncost = 10\n\n[[interface]]\nkind = \"point-to-point\"\naddress = \"10.0.0.2/30\"\ncost = 10\n",
        faults: "{\"code\":\"C6 SamePrefix\",\"host\":null,\"interface\":1,\"key\":\"address\",\"line\":null,\"text\":\"interface 1: address: a prefix and an address that no earlier interface has wanted, \\\"10.0.0.2/30\\\" found\"}",
        told: "C6 SamePrefix",
    },
    Faulty {
        name: "C6 SamePrefix, at a host",
        text: b"router_id = \"1.1.1.1\"\narea = \"0.0.0.0\"\n\n[[interface]]\nkind = \"point-to-point\"\naddress = \"10.0.0.1/30\"\ncost = 10\n\n[[host]]\naddress = \"192.0.2.1\"\ncost = 0\n\n[[host]]\naddress = \"192.0.2.1\"\ncost = 1\n",
        faults: "{\"code\":\"C6 SamePrefix\",\"host\":1,\"interface\":null,\"key\":\"address\",\"line\":null,\"text\":\"host 1: address: an address that no interface and no earlier host has wanted, \\\"192.0.2.1\\\" found\"}",
        told: "C6 SamePrefix",
    },
    Faulty {
        name: "C7 DeadNotOverHello",
        text: b"router_id = \"1.1.1.1\"\narea = \"0.0.0.0\"\n\n[[interface]]\nkind = \"point-to-point\"\naddress = \"10.0.0.1/30\"\ncost = 10\ndead = 10\n",
        faults: "{\"code\":\"C7 DeadNotOverHello\",\"host\":null,\"interface\":0,\"key\":\"dead\",\"line\":null,\"text\":\"interface 0: dead: more than `hello` (defaults: dead 40, hello 10) wanted, 10 found\"}",
        told: "C7 DeadNotOverHello",
    },
    Faulty {
        name: "C8 Unknown",
        text: b"router_id = \"1.1.1.1\"\narea = \"0.0.0.0\"\n\n[[interface]]\nkind = \"point-to-point\"\naddress = \"10.0.0.1/30\"\ncost = 10\n\"a b\" = 1\n",
        faults: "{\"code\":\"C8 Unknown\",\"host\":null,\"interface\":0,\"key\":\"\\\"a b\\\"\",\"line\":null,\"text\":\"interface 0: \\\"a b\\\": a known key wanted, 1 found\"}",
        told: "C8 Unknown",
    },
    Faulty {
        name: "three faults",
        text: b"router_id = \"1.1.1.1\"\narea = \"0.0.0.0\"\n\n[[interface]]\nkind = \"point-to-point\"\naddress = \"10.0.0.1/30\"\ncost = 0\nmtu = 100\ncolour = \"red\"\n",
        faults: "{\"code\":\"C4 Range\",\"host\":null,\"interface\":0,\"key\":\"mtu\",\"line\":null,\"text\":\"interface 0: mtu: 576 to 9000 wanted, 100 found\"},\
            {\"code\":\"C5 ZeroCost\",\"host\":null,\"interface\":0,\"key\":\"cost\",\"line\":null,\"text\":\"interface 0: cost: 1 to 65535 wanted, 0 found\"},\
            {\"code\":\"C8 Unknown\",\"host\":null,\"interface\":0,\"key\":\"colour\",\"line\":null,\"text\":\"interface 0: colour: a known key wanted, \\\"red\\\" found\"}",
        told: "C4 Range",
    },
];

#[test]
fn prints_each_fault_of_a_file_in_lines(rt: HostRuntime) -> Result<(), Fail> {
    for faulty in &FAULTY {
        let name = faulty.name;
        for area in [false, true] {
            let file = ("a.toml", Some(faulty.text));
            let outcome = lines_of(rt.alloc(), &[file], Telling::Verdict, area)?;
            let wanted = format!(in rt.alloc();
                "{HEAD}{{\"faults\":[{}],\"file\":\"a.toml\",\"warnings\":[]}}\n", faulty.faults
            )?;
            let told = format!(in rt.alloc(); "a.toml: {}\n", faulty.told)?;
            assert_eq!(rt; outcome.status, Status::Refused, "{name}");
            assert_eq!(rt; str::from_utf8(&outcome.out)?, wanted.as_str(), "{name}");
            assert_eq!(rt; str::from_utf8(&outcome.err)?, told.as_str(), "{name}");
        }
    }
    Ok(())
}

#[test]
fn prints_an_accepted_file_in_lines(rt: HostRuntime) -> Result<(), Fail> {
    let good = Some(GOOD.as_bytes());
    let outcome = lines_of(rt.alloc(), &[("a \"b\".toml", good)], Telling::Verdict, false)?;
    assert_eq!(rt; outcome.status, Status::Done);
    let wanted = format!(in rt.alloc();
        "{HEAD}{{\"faults\":[],\"file\":\"a \\\"b\\\".toml\",\"warnings\":[]}}\n"
    )?;
    assert_eq!(rt; str::from_utf8(&outcome.out)?, wanted.as_str());
    assert!(rt; outcome.err.is_empty());
    Ok(())
}

// A configuration with both warnings, at two interfaces, and one that is right.
const RISKY: &str =
    "router_id = \"1.1.1.1\"\narea = \"0.0.0.0\"\nother_lsas = \"pass over\"\n\n[[interface]]\nkind = \"point-to-point\"\naddress = \"10.0.0.1/30\"\ncost = 10\ntransmit_delay = 901\n\n[[interface]]\nkind = \"point-to-point\"\naddress = \"10.0.1.1/30\"\ncost = 10\ntransmit_delay = 900\n\n[[interface]]\nkind = \"broadcast\"\naddress = \"10.0.2.1/24\"\ncost = 10\npriority = 7\n";

#[test]
fn prints_warnings_in_lines(rt: HostRuntime) -> Result<(), Fail> {
    let outcome = lines_of(
        rt.alloc(),
        &[("a.toml", Some(RISKY.as_bytes()))],
        Telling::Verdict,
        false,
    )?;
    assert_eq!(rt; outcome.status, Status::Done);
    let wanted = format!(in rt.alloc();
        "{HEAD}{{\"faults\":[],\"file\":\"a.toml\",\"warnings\":[\
        {{\"interface\":0,\"key\":\"transmit_delay\",\"text\":\"interface 0: transmit_delay 901: above 900, the acknowledgment of an LSA may count for another instance, and the LSA is retransmitted without end; at both ends of a point-to-point link, or at one interface of a broadcast network with others, neighbors may never reach Full (RFC 2328, sections 13.1 and 13.3)\",\"value\":901}},\
        {{\"interface\":2,\"key\":\"priority\",\"text\":\"interface 2: priority 7: as Designated Router it would not flood the LSAs that it passes over (other_lsas), so the other routers would get them late or not at all; set priority = 0 to keep it out of the election (RFC 2328, section 13.3)\",\"value\":7}}]}}\n"
    )?;
    assert_eq!(rt; str::from_utf8(&outcome.out)?, wanted.as_str());
    assert!(rt; outcome.err.is_empty());
    Ok(())
}

#[test]
fn prints_an_area_in_lines(rt: HostRuntime) -> Result<(), Fail> {
    let files = [("a.toml", Some(GOOD.as_bytes())), ("b.toml", Some(HASTY.as_bytes()))];
    let of_files = "{\"faults\":[],\"file\":\"a.toml\",\"warnings\":[]}\n\
        {\"faults\":[],\"file\":\"b.toml\",\"warnings\":[]}\n";
    let alone = lines_of(rt.alloc(), &files, Telling::Verdict, false)?;
    let wanted = format!(in rt.alloc(); "{HEAD_OF_TWO}{of_files}")?;
    assert_eq!(rt; alone.status, Status::Done);
    assert_eq!(rt; str::from_utf8(&alone.out)?, wanted.as_str());
    let outcome = lines_of(rt.alloc(), &files, Telling::AllExplained, true)?;
    assert_eq!(rt; outcome.status, Status::Refused);
    let wanted = format!(in rt.alloc();
        "{HEAD_OF_TWO}{of_files}\
        {{\"code\":\"A5 Hello\",\"here\":{{\"file\":\"b.toml\",\"interface\":0,\"key\":\"hello\",\"value\":5}},\
        \"meaning\":\"each drops the other's Hellos: they never become neighbors (section 10.5)\",\"note\":false,\
        \"other\":{{\"file\":\"a.toml\",\"interface\":0,\"key\":\"hello\",\"value\":10}}}}\n\
        {{\"code\":\"A18 Partitioned\",\"here\":{{\"file\":\"b.toml\",\"interface\":null,\"key\":\"router_id\",\"value\":\"2.2.2.2\"}},\
        \"meaning\":\"the area is partitioned: over these networks no route leads there\",\"note\":false,\
        \"other\":{{\"file\":\"a.toml\",\"interface\":null,\"key\":\"router_id\",\"value\":\"1.1.1.1\"}}}}\n"
    )?;
    assert_eq!(rt; str::from_utf8(&outcome.out)?, wanted.as_str());
    assert!(rt; outcome.err.is_empty());
    let one = lines_of(rt.alloc(), &files[..1], Telling::Verdict, true)?;
    assert_eq!(rt; one.status, Status::Done);
    assert!(rt; str::from_utf8(&one.out)?.ends_with(
        "{\"code\":\"A13 NoNeighbor\",\"here\":{\"file\":\"a.toml\",\"interface\":0,\"key\":\"address\",\"value\":\"10.0.0.1/30\"},\
        \"meaning\":\"no other interface is on this network: it is a stub\",\"note\":true,\"other\":null}\n"
    ));
    Ok(())
}

#[test]
fn prints_no_area_in_lines_where_a_file_is_refused(rt: HostRuntime) -> Result<(), Fail> {
    let files = [("a.toml", Some(HASTY.as_bytes())), ("b.toml", Some(BAD.as_bytes()))];
    for (how, more) in [
        (Telling::Verdict, ""),
        (Telling::Explained, "  interface 0: cost: 1 to 65535 wanted, 0 found\n"),
    ] {
        let outcome = lines_of(rt.alloc(), &files, how, true)?;
        let wanted = format!(in rt.alloc();
            "{HEAD_OF_TWO}{{\"faults\":[],\"file\":\"a.toml\",\"warnings\":[]}}\n\
            {{\"faults\":[{}],\"file\":\"b.toml\",\"warnings\":[]}}\n", FAULTY[6].faults
        )?;
        let told = format!(in rt.alloc(); "b.toml: C5 ZeroCost\n{more}")?;
        assert_eq!(rt; outcome.status, Status::Refused);
        assert_eq!(rt; str::from_utf8(&outcome.out)?, wanted.as_str());
        assert_eq!(rt; str::from_utf8(&outcome.err)?, told.as_str());
    }
    Ok(())
}

#[test]
fn prints_no_lines_where_a_file_is_not_read(rt: HostRuntime) -> Result<(), Fail> {
    let files = [
        ("a.toml", Some(b"\xff".as_slice())),
        ("missing.toml", None),
        ("b.toml", Some(GOOD.as_bytes())),
    ];
    for area in [false, true] {
        let outcome = lines_of(rt.alloc(), &files, Telling::Verdict, area)?;
        assert_eq!(rt; outcome.status, Status::Stream);
        assert!(rt; outcome.out.is_empty());
        assert_eq!(rt;
            outcome.err.as_slice(),
            b"a.toml: C1 NotToml\nmissing.toml: not read\n".as_slice()
        );
    }
    Ok(())
}

// The statuses and what standard error gets are those of the same check without JSON.
#[test]
fn ends_in_lines_as_without(rt: HostRuntime) -> Result<(), Fail> {
    let alloc = rt.alloc();
    let hows = [Telling::Verdict, Telling::Explained, Telling::AllExplained];
    for case in &CASES {
        let files = [named(alloc, "a.toml", Some(case.text.as_bytes()))?];
        for how in hows {
            let (mut plain, mut told) = (Vec::new(alloc), Vec::new(alloc));
            let (mut lines, mut said) = (Vec::new(alloc), Vec::new(alloc));
            let status = check_text(alloc, &files, how, &mut plain, &mut told);
            let other = check_lines(alloc, &files, how, false, &mut lines, &mut said);
            assert_eq!(rt; other, status, "{}", case.name);
            assert!(rt; said.as_slice() == told.as_slice(), "{}", case.name);
        }
    }
    for other in [HASTY, MUTE[1], BAD, GOOD] {
        let files = [
            named(alloc, "a.toml", Some(GOOD.as_bytes()))?,
            named(alloc, "b.toml", Some(other.as_bytes()))?,
        ];
        let (mut out, mut err) = (Vec::new(alloc), Vec::new(alloc));
        let (mut lines, mut said) = (Vec::new(alloc), Vec::new(alloc));
        let status = check_area_text(alloc, &files, Telling::Verdict, &mut out, &mut err);
        let in_lines =
            check_lines(alloc, &files, Telling::Verdict, true, &mut lines, &mut said);
        assert_eq!(rt; in_lines, status);
    }
    Ok(())
}

#[test]
fn tells_of_failed_writes_of_lines(rt: HostRuntime) -> Result<(), Fail> {
    let alloc = rt.alloc();
    for (text, status) in [(GOOD, Status::Done), (BAD, Status::Refused)] {
        let files = [named(alloc, "a.toml", Some(text.as_bytes()))?];
        for left in 0..2 {
            let mut out = Failing { left };
            let mut err = Failing { left: 20 };
            let failed = check_lines(alloc, &files, Telling::Verdict, false, &mut out, &mut err);
            assert_eq!(rt; failed, Status::Stream, "{left}");
        }
        let mut out = Failing { left: 20 };
        let mut err = Failing { left: 20 };
        let written = check_lines(alloc, &files, Telling::Verdict, false, &mut out, &mut err);
        assert_eq!(rt; written, status);
    }
    let files = [named(alloc, "a.toml", Some(BAD.as_bytes()))?];
    let (mut out, mut err) = (Vec::new(alloc), Failing { left: 0 });
    let failed = check_lines(alloc, &files, Telling::Verdict, false, &mut out, &mut err);
    assert_eq!(rt; failed, Status::Stream);
    assert!(rt; out.is_empty());
    Ok(())
}
