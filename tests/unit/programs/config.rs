//! Configurations that are accepted, and the least fault of others.

use ospf_base::{Addr, AreaId, InterfaceKind, RouterId};
use ospf_config::{Config, ConfigFault};
use ospf_files::{explain, explain_all};
use std::alloc::Global;
use std::process::Abort;
use std::test::Fail;

// The keys at the top.
const TOP: &str = "router_id = \"1.1.1.1\"\narea = \"0.0.0.0\"\n\n";

// An interface of a point-to-point link.
const INTERFACE: &str =
    "[[interface]]\nkind = \"point-to-point\"\naddress = \"10.0.0.1/30\"\ncost = 10\n";

// The same, but for its address and cost.
const OTHER: &str = "[[interface]]\nkind = \"point-to-point\"\naddress = ";

// A text of three parts.
fn joined(alloc: Global, first: &str, second: &str, third: &str) -> Result<String, ConfigFault> {
    let mut text = String::from_str(alloc, first)?;
    text.push_str(second)?;
    text.push_str(third)?;
    Ok(text)
}

// The fault of a text of three parts; want of memory ends the test.
fn fault_of(
    alloc: Global,
    first: &str,
    second: &str,
    third: &str,
) -> Result<Option<ConfigFault>, ConfigFault> {
    let text = joined(alloc, first, second, third)?;
    match Config::from_text(alloc, text.as_str()) {
        Ok(_) => Ok(None),
        Err(ConfigFault::Memory) => Err(ConfigFault::Memory),
        Err(fault) => Ok(Some(fault)),
    }
}

// So many interfaces, each with a prefix of its own.
fn interfaces(alloc: Global, count: u8) -> Result<String, ConfigFault> {
    let mut text = String::new(alloc);
    for i in 0..count {
        text.push_str(OTHER)?;
        let address = format!(in alloc; "\"10.{i}.0.1/30\"\ncost = 10\n")?;
        text.push_str(address.as_str())?;
    }
    Ok(text)
}

// A text at the top says what is the default.
#[test]
fn no_stub_router_is_the_default(rt: HostRuntime) -> Result<(), Fail> {
    let alloc = rt.alloc();
    let without = joined(alloc, TOP, INTERFACE, "")?;
    let with = joined(alloc, "stub_router = false\n", TOP, INTERFACE)?;
    let other = joined(alloc, "stub_router = true\n", TOP, INTERFACE)?;
    let mut shown = Vec::new(alloc);
    for text in [&without, &with, &other] {
        let config = Config::from_text(alloc, text.as_str())?;
        shown.push(format!(in alloc; "{config:?}")?)?;
    }
    assert_eq!(rt; shown[0].as_str(), shown[1].as_str());
    assert!(rt; shown[0].as_str() != shown[2].as_str());
    Ok(())
}

#[test]
fn accepted(rt: HostRuntime) -> Result<(), Fail> {
    let text = joined(rt.alloc(), TOP, INTERFACE, "")?;
    let config = Config::from_text(rt.alloc(), text.as_str())?;
    assert_eq!(rt; config.router_id, RouterId(0x0101_0101));
    assert_eq!(rt; config.area, AreaId(0));
    assert!(rt; !config.stub_router);
    assert!(rt; !config.passes_over);
    assert_eq!(rt; config.interfaces.len(), 1);
    let interface = &config.interfaces[0];
    assert_eq!(rt; interface.kind, InterfaceKind::PointToPoint);
    assert_eq!(rt; interface.address.address, Addr(0x0a00_0001));
    assert_eq!(rt; interface.address.length, 30);
    assert_eq!(rt; interface.address.prefix().address, Addr(0x0a00_0000));
    assert_eq!(rt; interface.cost, 10);
    assert_eq!(rt; interface.priority, 1);
    assert_eq!(rt; interface.hello, 10);
    assert_eq!(rt; interface.dead, 40);
    assert_eq!(rt; interface.retransmit, 5);
    assert_eq!(rt; interface.transmit_delay, 1);
    assert_eq!(rt; interface.mtu, 1500);
    assert!(rt; interface.port.is_none());
    assert!(rt; interface.peers.is_empty());
    Ok(())
}

#[test]
fn every_key(rt: HostRuntime) -> Result<(), Fail> {
    let text = joined(
        rt.alloc(),
        "router_id = \"9.8.7.6\"\narea = \"0.0.0.1\"\nstub_router = true\nother_lsas = \"pass over\"\n\n[[interface]]\nkind = \"broadcast\"\naddress = \"192.168.7.3/24\"\ncost = 65535\npriority = 0\nhello = 1\ndead = 2\n",
        "retransmit = 65535\ntransmit_delay = 3600\nmtu = 9000\nport = 1024\npeers = [65535, 1024]\n",
        "",
    )?;
    let config = Config::from_text(rt.alloc(), text.as_str())?;
    assert_eq!(rt; config.router_id, RouterId(0x0908_0706));
    assert_eq!(rt; config.area, AreaId(1));
    assert!(rt; config.stub_router);
    assert!(rt; config.passes_over);
    assert_eq!(rt; config.interfaces.len(), 1);
    let interface = &config.interfaces[0];
    assert_eq!(rt; interface.kind, InterfaceKind::Broadcast);
    assert_eq!(rt; interface.address.address, Addr(0xc0a8_0703));
    assert_eq!(rt; interface.cost, 65535);
    assert_eq!(rt; interface.priority, 0);
    assert_eq!(rt; interface.hello, 1);
    assert_eq!(rt; interface.dead, 2);
    assert_eq!(rt; interface.retransmit, 65535);
    assert_eq!(rt; interface.transmit_delay, 3600);
    assert_eq!(rt; interface.mtu, 9000);
    match interface.port {
        Some(port) => assert_eq!(rt; port.number, 1024),
        None => assert!(rt; false, "a port"),
    }
    assert_eq!(rt; interface.peers.len(), 2);
    assert_eq!(rt; interface.peers[0].number, 65535);
    assert_eq!(rt; interface.peers[1].number, 1024);
    Ok(())
}

#[test]
fn two_interfaces_in_order(rt: HostRuntime) -> Result<(), Fail> {
    let two = joined(rt.alloc(), INTERFACE, OTHER, "\"10.0.0.5/30\"\ncost = 7\n")?;
    let text = joined(rt.alloc(), TOP, two.as_str(), "")?;
    let config = Config::from_text(rt.alloc(), text.as_str())?;
    assert_eq!(rt; config.interfaces.len(), 2);
    assert_eq!(rt; config.interfaces[0].cost, 10);
    assert_eq!(rt; config.interfaces[1].cost, 7);
    Ok(())
}

#[test]
fn refused_at_the_top(rt: HostRuntime) -> Result<(), Fail> {
    let cases: [(&str, Option<ConfigFault>, &str); 12] = [
        ("", Some(ConfigFault::Missing), "empty"),
        ("x", Some(ConfigFault::NotToml), "not-toml"),
        (
            "area = \"0.0.0.0\"\n\n[[interface]]\nkind = \"point-to-point\"\naddress = \"10.0.0.1/30\"\ncost = 10\n",
            Some(ConfigFault::Missing),
            "no-router-id",
        ),
        (TOP, Some(ConfigFault::Missing), "no-interface"),
        (
            "router_id = \"1.1.1.1\"\narea = \"0.0.0.0\"\ninterface = []\n",
            Some(ConfigFault::Range),
            "empty-interface-list",
        ),
        (
            "router_id = \"1.1.1.1\"\narea = \"0.0.0.0\"\ninterface = 5\n",
            Some(ConfigFault::Type),
            "interface-no-list",
        ),
        (
            "router_id = \"1.1.1.1\"\narea = \"0.0.0.0\"\ninterface = [{}, 5]\n",
            Some(ConfigFault::Type),
            "a member that is no table hides the keys of the others",
        ),
        (
            "router_id = \"0.0.0.0\"\narea = \"0.0.0.0\"\ninterface = [{kind = \"broadcast\", address = \"10.0.0.1/30\", cost = 1}]\n",
            Some(ConfigFault::Range),
            "a Router ID of zeros",
        ),
        (
            "router_id = \"1.1.1.1\"\narea = \"0.0.0.0\"\nstub_router = 1\ninterface = [{kind = \"broadcast\", address = \"10.0.0.1/30\", cost = 1}]\n",
            Some(ConfigFault::Type),
            "a stub router that is a number",
        ),
        (
            "router_id = \"1.1.1.1\"\narea = \"0.0.0.0\"\nother_lsas = 3\ninterface = [{kind = \"broadcast\", address = \"10.0.0.1/30\", cost = 1}]\n",
            Some(ConfigFault::Type),
            "what becomes of other LSAs is a number",
        ),
        (
            "router_id = \"1.1.1.1\"\narea = \"0.0.0.0\"\nother_lsas = \"maybe\"\ninterface = [{kind = \"broadcast\", address = \"10.0.0.1/30\", cost = 1}]\n",
            Some(ConfigFault::Range),
            "what becomes of other LSAs is neither",
        ),
        (
            "router_id = \"1.1.1.1\"\narea = \"0.0.0.0\"\nother_lsas = \"refuse\"\ninterface = [{kind = \"broadcast\", address = \"10.0.0.1/30\", cost = 1}]\n",
            None,
            "other LSAs are refused",
        ),
    ];
    for (text, fault, name) in cases {
        assert_eq!(rt; fault_of(rt.alloc(), text, "", "")?, fault, "{name}");
    }
    Ok(())
}

#[test]
fn refused_keys(rt: HostRuntime) -> Result<(), Fail> {
    let cases: [(&str, Option<ConfigFault>, &str); 15] = [
        (
            "dead = 10\n",
            Some(ConfigFault::DeadNotOverHello),
            "dead-not-over-hello",
        ),
        ("dead = 11\n", None, "dead just over hello"),
        (
            "hello = 40\n",
            Some(ConfigFault::DeadNotOverHello),
            "hello of the default dead",
        ),
        (
            "dead = 0\n",
            Some(ConfigFault::Range),
            "range before dead-not-over-hello",
        ),
        (
            "priority = 256\n",
            Some(ConfigFault::Range),
            "priority-out-of-range",
        ),
        (
            "priority = -1\n",
            Some(ConfigFault::Range),
            "a negative priority",
        ),
        ("priority = 255\n", None, "the highest priority"),
        ("colour = 1\n", Some(ConfigFault::Unknown), "unknown-key"),
        (
            "colour = 1\nmtu = 9001\n",
            Some(ConfigFault::Range),
            "range before unknown key",
        ),
        ("mtu = 575\n", Some(ConfigFault::Range), "a small mtu"),
        (
            "transmit_delay = 3601\n",
            Some(ConfigFault::Range),
            "a long delay",
        ),
        (
            "port = 1023\n",
            Some(ConfigFault::Range),
            "a privileged port",
        ),
        ("port = 0\n", None, "no port"),
        (
            "peers = [1024, 1.5]\n",
            Some(ConfigFault::Type),
            "a port that is no integer",
        ),
        (
            "peers = [1023]\n",
            Some(ConfigFault::Range),
            "a peer out of range",
        ),
    ];
    for (keys, fault, name) in cases {
        assert_eq!(rt;
            fault_of(rt.alloc(), TOP, INTERFACE, keys)?,
            fault,
            "{name}"
        );
    }
    Ok(())
}

#[test]
fn refused_interfaces(rt: HostRuntime) -> Result<(), Fail> {
    let cases: [(&str, Option<ConfigFault>, &str); 12] = [
        ("\"10.0.0.2/30\"\ncost = 10\n", None, "host-address"),
        (
            "\"10.0.0.3/30\"\ncost = 10\n",
            Some(ConfigFault::Range),
            "broadcast-address",
        ),
        (
            "\"10.0.0.0/30\"\ncost = 10\n",
            Some(ConfigFault::Range),
            "network-address",
        ),
        (
            "\"10.0.0.1/31\"\ncost = 10\n",
            Some(ConfigFault::Range),
            "a prefix of 31 bits",
        ),
        (
            "\"10.0.0.1/08\"\ncost = 10\n",
            Some(ConfigFault::Range),
            "a leading zero",
        ),
        (
            "\"010.0.0.1/30\"\ncost = 10\n",
            Some(ConfigFault::Range),
            "a leading zero in an octet",
        ),
        (
            "\"224.0.0.1/30\"\ncost = 10\n",
            Some(ConfigFault::Range),
            "a multicast address",
        ),
        (
            "\"10.0.0.1/30\"\ncost = 0\n",
            Some(ConfigFault::ZeroCost),
            "zero cost",
        ),
        (
            "\"10.0.0.1/30\"\ncost = 0\ncolour = 1\n",
            Some(ConfigFault::ZeroCost),
            "zero-cost-before-unknown-key",
        ),
        (
            "\"10.0.0.1/30\"\ncost = 65536\n",
            Some(ConfigFault::Range),
            "a cost out of range",
        ),
        (
            "\"10.0.0.1/30\"\ncost = \"10\"\n",
            Some(ConfigFault::Type),
            "a cost that is a text",
        ),
        ("\"10.0.0.1/30\"\n", Some(ConfigFault::Missing), "no cost"),
    ];
    for (rest, fault, name) in cases {
        assert_eq!(rt; fault_of(rt.alloc(), TOP, OTHER, rest)?, fault, "{name}");
    }
    Ok(())
}

#[test]
fn refused_pairs(rt: HostRuntime) -> Result<(), Fail> {
    let first = joined(rt.alloc(), TOP, INTERFACE, "")?;
    let cases: [(&str, Option<ConfigFault>, &str); 4] = [
        (
            "\"10.0.0.2/30\"\ncost = 10\n",
            Some(ConfigFault::SamePrefix),
            "same-prefix",
        ),
        (
            "\"10.0.0.1/24\"\ncost = 10\n",
            Some(ConfigFault::SamePrefix),
            "one address",
        ),
        (
            "\"10.0.0.2/29\"\ncost = 10\n",
            None,
            "prefixes of two lengths",
        ),
        (
            "\"10.0.0.2/30\"\ncost = \"10\"\n",
            Some(ConfigFault::Type),
            "wrong-type-before-same-prefix",
        ),
    ];
    for (rest, fault, name) in cases {
        assert_eq!(rt;
            fault_of(rt.alloc(), first.as_str(), OTHER, rest)?,
            fault,
            "{name}"
        );
    }
    Ok(())
}

#[test]
fn counts_of_interfaces(rt: HostRuntime) -> Result<(), Fail> {
    let most = interfaces(rt.alloc(), 32)?;
    assert_eq!(rt;
        fault_of(rt.alloc(), TOP, most.as_str(), "")?,
        None,
        "most-interfaces"
    );
    let more = interfaces(rt.alloc(), 33)?;
    assert_eq!(rt;
        fault_of(rt.alloc(), TOP, more.as_str(), "")?,
        Some(ConfigFault::Range),
        "too-many-interfaces"
    );
    Ok(())
}

// What is told of a text of three parts, one line a place.
fn explained(alloc: Global, first: &str, second: &str, third: &str) -> Result<String, ConfigFault> {
    let text = joined(alloc, first, second, third)?;
    let mut lines = String::new(alloc);
    for place in explain(alloc, text.as_str())?.iter() {
        let line = format!(in alloc; "{place}\n")?;
        lines.push_str(line.as_str())?;
    }
    Ok(lines)
}

#[test]
fn explains_keys(rt: HostRuntime) -> Result<(), Fail> {
    let alloc = rt.alloc();
    assert_eq!(rt; explained(alloc, TOP, INTERFACE, "")?.as_str(), "");
    let rows = [
        (
            "mtu = 100\n",
            "interface 0: mtu: 576 to 9000 wanted, 100 found\n",
        ),
        (
            "mtu = \"big\"\n",
            "interface 0: mtu: 576 to 9000 wanted, \"big\" found\n",
        ),
        (
            "dead = 10\n",
            "interface 0: dead: more than `hello` (defaults: dead 40, hello 10) wanted, 10 found\n",
        ),
        (
            "hello = 50\n",
            "interface 0: dead: more than `hello` (defaults: dead 40, hello 10) wanted, none found\n",
        ),
        (
            "colour = \"red\"\n",
            "interface 0: colour: a known key wanted, \"red\" found\n",
        ),
        ("\"\" = 1\n", "interface 0: \"\": a known key wanted, 1 found\n"),
        ("\"a b\" = 1\n", "interface 0: \"a b\": a known key wanted, 1 found\n"),
        (
            "peers = [1]\n",
            "interface 0: peers: an array of at most 32 ports, each 1024 to 65535, wanted, a list of 1 found\n",
        ),
        (
            "[[interface]]\nkind = \"broadcast\"\naddress = \"10.1.0.1/24\"\n",
            "interface 1: cost: 1 to 65535 wanted, none found\n",
        ),
        (
            "[[interface]]\nkind = \"broadcast\"\naddress = \"10.1.0.1/24\"\ncost = 0\n",
            "interface 1: cost: 1 to 65535 wanted, 0 found\n",
        ),
        (
            "[[interface]]\nkind = \"broadcast\"\naddress = \"10.0.0.2/30\"\ncost = 1\n",
            "interface 1: address: a prefix and an address that no earlier interface has wanted, \"10.0.0.2/30\" found\n",
        ),
        ("hello = 1\nmtu 7\n", "line 9: not valid TOML\n"),
    ];
    for (third, told) in rows.iter() {
        assert_eq!(rt; explained(alloc, TOP, INTERFACE, third)?.as_str(), *told);
    }
    Ok(())
}

// All faults of texts, and the places of each.
#[test]
fn explains_all_faults_in_order(rt: HostRuntime) -> Result<(), Fail> {
    let alloc = rt.alloc();
    let rows = [
        ("", ""),
        ("dead = 10\n", "C7 DeadNotOverHello: interface 0: dead: more than `hello` (defaults: dead 40, hello 10) wanted, 10 found\n"),
        (
            "dead = 0\n",
            "C4 Range: interface 0: dead: 1 to 65535 wanted, 0 found\n\
            C7 DeadNotOverHello: interface 0: dead: more than `hello` (defaults: dead 40, hello 10) wanted, 0 found\n",
        ),
        (
            "dead = -5\nhello = -6\n",
            "C4 Range: interface 0: hello: 1 to 65535 wanted, -6 found\n\
            C4 Range: interface 0: dead: 1 to 65535 wanted, -5 found\n",
        ),
        (
            "hello = 70000\n",
            "C4 Range: interface 0: hello: 1 to 65535 wanted, 70000 found\n\
            C7 DeadNotOverHello: interface 0: dead: more than `hello` (defaults: dead 40, hello 10) wanted, none found\n",
        ),
        ("dead = 70000\n", "C4 Range: interface 0: dead: 1 to 65535 wanted, 70000 found\n"),
        (
            "hello = \"50\"\ndead = 10\n",
            "C3 Type: interface 0: hello: 1 to 65535 wanted, \"50\" found\n",
        ),
        ("dead = 4.5\n", "C3 Type: interface 0: dead: 1 to 65535 wanted, a float found\n"),
        (
            "mtu = \"big\"\ncolour = 1\nport = 7\n",
            "C3 Type: interface 0: mtu: 576 to 9000 wanted, \"big\" found\n\
            C4 Range: interface 0: port: 0, or 1024 to 65535, wanted, 7 found\n\
            C8 Unknown: interface 0: colour: a known key wanted, 1 found\n",
        ),
        ("mtu = 100\nmtu 7\n", "C1 NotToml: line 9: not valid TOML\n"),
    ];
    for (third, told) in rows.iter() {
        let text = joined(alloc, TOP, INTERFACE, third)?;
        let faults = explain_all(alloc, text.as_str())?;
        let mut lines = String::new(alloc);
        for fault in faults.iter() {
            for place in fault.places.iter() {
                let line = format!(in alloc; "{}: {place}\n", fault.fault)?;
                lines.push_str(line.as_str())?;
            }
        }
        assert_eq!(rt; lines.as_str(), *told);
    }
    Ok(())
}

#[test]
fn explains_the_top(rt: HostRuntime) -> Result<(), Fail> {
    let alloc = rt.alloc();
    let told = explained(
        alloc,
        "router_id = 5\n",
        "stub_router = true\n",
        "area = \"0.0.0.0\"\ninterface = []\n",
    )?;
    let wanted =
        "router_id: a dotted string such as \"10.0.0.1\", not \"0.0.0.0\", wanted, 5 found\n";
    assert_eq!(rt; told.as_str(), wanted);
    let told = explained(alloc, TOP, "other_lsas = \"maybe\"\n", INTERFACE)?;
    let wanted = "other_lsas: \"refuse\" or \"pass over\" wanted, \"maybe\" found\n";
    assert_eq!(rt; told.as_str(), wanted);
    let told = explained(alloc, "stub_router = 1\n", "", "")?;
    let wanted =
        "router_id: a dotted string such as \"10.0.0.1\", not \"0.0.0.0\", wanted, none found\n\
        area: a dotted string such as \"0.0.0.1\", wanted, none found\n\
        interface: 1 to 32 tables [[interface]], not all passive, wanted, none found\n";
    assert_eq!(rt; told.as_str(), wanted);
    Ok(())
}

#[test]
fn prints_each_fault(rt: HostRuntime) -> Result<(), Fail> {
    let alloc = rt.alloc();
    let faults = [
        (ConfigFault::NotToml, "C1 NotToml"),
        (ConfigFault::Missing, "C2 Missing"),
        (ConfigFault::Type, "C3 Type"),
        (ConfigFault::Range, "C4 Range"),
        (ConfigFault::ZeroCost, "C5 ZeroCost"),
        (ConfigFault::SamePrefix, "C6 SamePrefix"),
        (ConfigFault::DeadNotOverHello, "C7 DeadNotOverHello"),
        (ConfigFault::Unknown, "C8 Unknown"),
        (ConfigFault::Memory, "C9 Memory"),
    ];
    for (fault, text) in faults.iter() {
        assert_eq!(rt; format!(in alloc; "{fault}")?.as_str(), *text);
    }
    Ok(())
}

// A configuration with these lines before its interface, and these behind it.
fn hosted(alloc: Global, before: &str, behind: &str) -> Result<Option<ConfigFault>, ConfigFault> {
    let top = joined(alloc, "router_id = \"1.1.1.1\"\narea = \"0.0.0.0\"\n", before, "\n")?;
    fault_of(alloc, top.as_str(), INTERFACE, behind)
}

// So many hosts, each with an address of its own.
fn hosts(alloc: Global, count: u8) -> Result<String, ConfigFault> {
    let mut text = String::new(alloc);
    for i in 0..count {
        let host = format!(in alloc; "[[host]]\naddress = \"10.9.0.{i}\"\ncost = {i}\n")?;
        text.push_str(host.as_str())?;
    }
    Ok(text)
}

#[test]
fn hosts_in_order(rt: HostRuntime) -> Result<(), Fail> {
    let two = "[[host]]\naddress = \"192.0.2.1\"\ncost = 0\n\n[[host]]\naddress = \"10.0.0.2\"\ncost = 65535\n";
    let text = joined(rt.alloc(), TOP, INTERFACE, two)?;
    let config = Config::from_text(rt.alloc(), text.as_str())?;
    assert_eq!(rt; config.interfaces.len(), 1);
    assert_eq!(rt; config.stubs.len(), 2);
    assert_eq!(rt; config.stubs[0].prefix.address, Addr(0xc000_0201));
    assert_eq!(rt; config.stubs[0].prefix.length, 32);
    assert_eq!(rt; config.stubs[0].cost, 0);
    assert_eq!(rt; config.stubs[1].prefix.address, Addr(0x0a00_0002));
    assert_eq!(rt; config.stubs[1].prefix.length, 32);
    assert_eq!(rt; config.stubs[1].cost, 65535);
    let without = joined(rt.alloc(), TOP, INTERFACE, "")?;
    assert!(rt; Config::from_text(rt.alloc(), without.as_str())?.stubs.is_empty());
    Ok(())
}

#[test]
fn refused_hosts(rt: HostRuntime) -> Result<(), Fail> {
    let cases: [(&str, Option<ConfigFault>, &str); 19] = [
        ("[[host]]\naddress = \"192.0.2.1\"\ncost = 1\n", None, "a host"),
        ("[[host]]\ncost = 1\n", Some(ConfigFault::Missing), "no address"),
        ("[[host]]\naddress = \"192.0.2.1\"\n", Some(ConfigFault::Missing), "no cost"),
        ("[[host]]\naddress = 5\ncost = 1\n", Some(ConfigFault::Type), "an address that is a number"),
        (
            "[[host]]\naddress = \"192.0.2.1\"\ncost = \"1\"\n",
            Some(ConfigFault::Type),
            "a cost that is a text",
        ),
        (
            "[[host]]\naddress = \"192.0.2.1/32\"\ncost = 1\n",
            Some(ConfigFault::Range),
            "an address with a length",
        ),
        (
            "[[host]]\naddress = \"192.0.02.1\"\ncost = 1\n",
            Some(ConfigFault::Range),
            "a leading zero",
        ),
        (
            "[[host]]\naddress = \"0.0.0.1\"\ncost = 1\n",
            Some(ConfigFault::Range),
            "a first octet of 0",
        ),
        (
            "[[host]]\naddress = \"224.0.0.5\"\ncost = 1\n",
            Some(ConfigFault::Range),
            "a multicast address",
        ),
        ("[[host]]\naddress = \"223.255.255.255\"\ncost = 0\n", None, "the last unicast address"),
        (
            "[[host]]\naddress = \"192.0.2.1\"\ncost = 65536\n",
            Some(ConfigFault::Range),
            "a cost out of range",
        ),
        (
            "[[host]]\naddress = \"192.0.2.1\"\ncost = -1\n",
            Some(ConfigFault::Range),
            "a negative cost",
        ),
        (
            "[[host]]\naddress = \"192.0.2.1\"\ncost = 1\nkind = \"broadcast\"\n",
            Some(ConfigFault::Unknown),
            "a key of an interface",
        ),
        (
            "[[host]]\naddress = \"10.0.0.1\"\ncost = 1\n",
            Some(ConfigFault::SamePrefix),
            "the address of an interface",
        ),
        ("[[host]]\naddress = \"10.0.0.2\"\ncost = 1\n", None, "an address of the interface's subnet"),
        (
            "[[host]]\naddress = \"192.0.2.1\"\ncost = 1\n[[host]]\naddress = \"192.0.2.1\"\ncost = 2\n",
            Some(ConfigFault::SamePrefix),
            "a host twice",
        ),
        (
            "[[host]]\naddress = \"10.0.0.1\"\ncost = 1\nkind = 1\n",
            Some(ConfigFault::SamePrefix),
            "one address before an unknown key",
        ),
        (
            "[[host]]\naddress = \"10.0.0.1\"\ncost = 70000\n",
            Some(ConfigFault::Range),
            "range before one address",
        ),
        (
            "[[host]]\naddress = \"10.0.0.1\"\ncost = 70000\n[[host]]\n",
            Some(ConfigFault::Missing),
            "a missing key of a later host before range",
        ),
    ];
    for (behind, fault, name) in cases {
        assert_eq!(rt; hosted(rt.alloc(), "", behind)?, fault, "{name}");
    }
    Ok(())
}

#[test]
fn counts_of_hosts(rt: HostRuntime) -> Result<(), Fail> {
    assert_eq!(rt; hosted(rt.alloc(), "host = []\n", "")?, None, "an empty list");
    assert_eq!(rt; hosted(rt.alloc(), "host = 5\n", "")?, Some(ConfigFault::Type), "no list");
    assert_eq!(rt; hosted(rt.alloc(), "host = [5]\n", "")?, Some(ConfigFault::Type), "no tables");
    let most = hosts(rt.alloc(), 32)?;
    assert_eq!(rt; hosted(rt.alloc(), "", most.as_str())?, None, "most hosts");
    let more = hosts(rt.alloc(), 33)?;
    let fault = hosted(rt.alloc(), "", more.as_str())?;
    assert_eq!(rt; fault, Some(ConfigFault::Range), "too many hosts");
    Ok(())
}

// An interface of this address and cost, with further lines.
fn interface(alloc: Global, address: &str, cost: u16, more: &str) -> Result<String, ConfigFault> {
    let text = format!(in alloc; "[[interface]]\nkind = \"point-to-point\"\naddress = \"{address}\"\ncost = {cost}\n{more}")?;
    Ok(text)
}

// So many interfaces, of which so many behind the first ones are passive.
fn passive_behind(alloc: Global, count: u8, passive: u8) -> Result<String, ConfigFault> {
    let mut text = String::new(alloc);
    for i in 0..count {
        let address = format!(in alloc; "10.{i}.1.1/24")?;
        let flag = if i + passive < count { "" } else { "passive = true\n" };
        let one = interface(alloc, address.as_str(), 1, flag)?;
        text.push_str(one.as_str())?;
    }
    Ok(text)
}

// The networks of the passive interfaces in order, then the hosts in order; a link's number counts
// the other interfaces alone.
#[test]
fn passive_interfaces_in_order(rt: HostRuntime) -> Result<(), Fail> {
    let alloc = rt.alloc();
    let host = "[[host]]\naddress = \"192.0.2.1\"\ncost = 3\n";
    let first = interface(alloc, "10.1.2.3/24", 7, "passive = true\n")?;
    let second = interface(alloc, "10.0.0.1/30", 5, "passive = false\n")?;
    let third = interface(alloc, "172.16.255.1/12", 65535, "passive = true\nprefix_suppression = true\n")?;
    let fourth = interface(alloc, "10.0.0.5/30", 9, "prefix_suppression = true\n")?;
    let early = joined(alloc, TOP, first.as_str(), second.as_str())?;
    let late = joined(alloc, third.as_str(), host, fourth.as_str())?;
    let text = joined(alloc, early.as_str(), late.as_str(), "")?;
    let config = Config::from_text(alloc, text.as_str())?;
    assert_eq!(rt; config.interfaces.len(), 2);
    assert_eq!(rt; config.interfaces[0].address.address, Addr(0x0a00_0001));
    assert!(rt; !config.interfaces[0].prefix_suppression);
    assert_eq!(rt; config.interfaces[1].address.address, Addr(0x0a00_0005));
    assert!(rt; config.interfaces[1].prefix_suppression);
    assert_eq!(rt; config.stubs.len(), 3);
    assert_eq!(rt; config.stubs[0].prefix.address, Addr(0x0a01_0200));
    assert_eq!(rt; config.stubs[0].prefix.length, 24);
    assert_eq!(rt; config.stubs[0].cost, 7);
    assert_eq!(rt; config.stubs[1].prefix.address, Addr(0xac10_0000));
    assert_eq!(rt; config.stubs[1].prefix.length, 12);
    assert_eq!(rt; config.stubs[1].cost, 65535);
    assert_eq!(rt; config.stubs[2].prefix.address, Addr(0xc000_0201));
    assert_eq!(rt; config.stubs[2].prefix.length, 32);
    assert_eq!(rt; config.stubs[2].cost, 3);
    Ok(())
}

#[test]
fn most_passive_interfaces(rt: HostRuntime) -> Result<(), Fail> {
    let alloc = rt.alloc();
    let interfaces = passive_behind(alloc, 32, 31)?;
    let hosts = hosts(alloc, 32)?;
    let text = joined(alloc, TOP, interfaces.as_str(), hosts.as_str())?;
    let config = Config::from_text(alloc, text.as_str())?;
    assert_eq!(rt; config.interfaces.len(), 1);
    assert_eq!(rt; config.stubs.len(), 63);
    assert_eq!(rt; config.stubs[30].prefix.address, Addr(0x0a1f_0100));
    assert_eq!(rt; config.stubs[31].prefix.address, Addr(0x0a09_0000));
    Ok(())
}

// The fault of a configuration of an interface that is not passive and of one with these lines.
fn beside(alloc: Global, address: &str, more: &str) -> Result<Option<ConfigFault>, ConfigFault> {
    let second = interface(alloc, address, 1, more)?;
    fault_of(alloc, TOP, INTERFACE, second.as_str())
}

#[test]
fn passive_interfaces_have_faults_too(rt: HostRuntime) -> Result<(), Fail> {
    let same = Some(ConfigFault::SamePrefix);
    let wrong = Some(ConfigFault::Type);
    let range = Some(ConfigFault::Range);
    let cases = [
        ("10.0.1.1/24", "passive = true\n", None, "a passive interface"),
        ("10.0.1.1/24", "passive = false\n", None, "one that is not"),
        ("10.0.1.1/24", "passive = 1\n", wrong, "a number"),
        ("10.0.1.1/24", "passive = \"true\"\n", wrong, "a text"),
        ("10.0.1.1/24", "prefix_suppression = true\n", None, "a suppressed prefix"),
        ("10.0.1.1/24", "prefix_suppression = 1\n", wrong, "suppression by a number"),
        ("10.0.1.1/24", "passive = true\nprefix_suppression = 0\n", wrong, "and at a passive one"),
        ("10.0.1.0/24", "passive = true\n", range, "an address that is the network's"),
        ("10.0.1.1/32", "passive = true\n", range, "a passive interface of 32 bits"),
        ("10.0.1.1/24", "passive = true\nmtu = 9001\n", range, "an MTU out of range"),
        (
            "10.0.1.1/24",
            "passive = true\ndead = 10\n",
            Some(ConfigFault::DeadNotOverHello),
            "dead with its next Hello",
        ),
        ("10.0.1.1/24", "passive = true\nmetric = 1\n", Some(ConfigFault::Unknown), "an unknown key"),
        ("10.0.0.1/24", "passive = true\n", same, "the address of the other interface"),
        ("10.0.0.2/30", "passive = true\n", same, "its prefix"),
        (
            "10.0.1.1/24",
            "passive = true\n[[host]]\naddress = \"10.0.1.1\"\ncost = 0\n",
            same,
            "a host at its address",
        ),
        (
            "10.0.1.1/24",
            "passive = true\n[[host]]\naddress = \"10.0.1.2\"\ncost = 0\n",
            None,
            "a host in its prefix",
        ),
    ];
    for (address, more, fault, name) in cases {
        assert_eq!(rt; beside(rt.alloc(), address, more)?, fault, "{name}");
    }
    Ok(())
}

#[test]
fn one_interface_is_not_passive(rt: HostRuntime) -> Result<(), Fail> {
    let alloc = rt.alloc();
    let range = Some(ConfigFault::Range);
    let cases: [(u8, u8, Option<ConfigFault>); 7] = [
        (1, 0, None),
        (1, 1, range),
        (2, 1, None),
        (2, 2, range),
        (32, 31, None),
        (32, 32, range),
        (33, 32, range),
    ];
    for (count, passive, fault) in cases {
        let interfaces = passive_behind(alloc, count, passive)?;
        let found = fault_of(alloc, TOP, interfaces.as_str(), "")?;
        assert_eq!(rt; found, fault, "{passive} of {count}");
    }
    let alone = passive_behind(alloc, 1, 1)?;
    let told = explained(alloc, TOP, alone.as_str(), "")?;
    assert_eq!(rt; told.as_str(), "interface: 1 to 32 tables [[interface]], not all passive, wanted, a list of 1 found\n");
    let wrong = interface(alloc, "10.0.1.1/24", 1, "passive = 1\nprefix_suppression = \"no\"\n")?;
    let told = explained(alloc, TOP, INTERFACE, wrong.as_str())?;
    let wanted = "interface 1: passive: true or false wanted, 1 found\n\
        interface 1: prefix_suppression: true or false wanted, \"no\" found\n";
    assert_eq!(rt; told.as_str(), wanted);
    Ok(())
}

// A configuration of one interface: these lines at the top, its kind and its address.
fn of_31_bits(
    alloc: Global,
    top: &str,
    kind: &str,
    address: &str,
) -> Result<Option<ConfigFault>, ConfigFault> {
    let head = joined(alloc, "router_id = \"1.1.1.1\"\narea = \"0.0.0.0\"\n", top, "")?;
    let interface = format!(in alloc; "[[interface]]\nkind = \"{kind}\"\naddress = \"{address}\"\ncost = 1\n")?;
    fault_of(alloc, head.as_str(), interface.as_str(), "")
}

// RFC 3021: both addresses of a prefix of 31 bits are hosts, on point-to-point links.
#[test]
fn prefixes_of_31_bits(rt: HostRuntime) -> Result<(), Fail> {
    let yes = "rfc3021 = true\n";
    let range = Some(ConfigFault::Range);
    let cases = [
        (yes, "point-to-point", "10.0.0.0/31", None, "the lower address"),
        (yes, "point-to-point", "10.0.0.1/31", None, "the upper address"),
        (yes, "point-to-point", "223.255.255.255/31", None, "the last address"),
        (yes, "point-to-point", "0.0.0.1/31", range, "a first octet of 0"),
        (yes, "point-to-point", "224.0.0.1/31", range, "a multicast address"),
        (yes, "point-to-point", "10.0.0.1/32", range, "32 bits"),
        (yes, "point-to-point", "10.0.0.0/30", range, "the network's address under 30 bits"),
        (yes, "point-to-point", "10.0.0.3/30", range, "the broadcast address under 30 bits"),
        (yes, "broadcast", "10.0.0.1/31", range, "a broadcast network"),
        (yes, "broadcast", "10.0.0.1/30", None, "a broadcast network of 30 bits"),
        ("rfc3021 = false\n", "point-to-point", "10.0.0.1/31", range, "not asked for"),
        ("", "point-to-point", "10.0.0.1/31", range, "the default"),
        ("rfc3021 = 1\n", "point-to-point", "10.0.0.1/30", Some(ConfigFault::Type), "a number"),
    ];
    for (top, kind, address, fault, name) in cases {
        assert_eq!(rt; of_31_bits(rt.alloc(), top, kind, address)?, fault, "{name}");
    }
    Ok(())
}

#[test]
fn explains_hosts_and_31_bits(rt: HostRuntime) -> Result<(), Fail> {
    let alloc = rt.alloc();
    let rows = [
        (
            "[[host]]\naddress = \"10.0.0.1\"\ncost = 1\n",
            "host 0: address: an address that no interface and no earlier host has wanted, \"10.0.0.1\" found\n",
        ),
        (
            "[[host]]\naddress = \"10.0.0.2\"\ncost = 1\n[[host]]\naddress = \"10.0.0.2\"\ncost = 1\n",
            "host 1: address: an address that no interface and no earlier host has wanted, \"10.0.0.2\" found\n",
        ),
        (
            "[[host]]\naddress = \"10.0.0.2\"\ncost = 70000\n",
            "host 0: cost: 0 to 65535 wanted, 70000 found\n",
        ),
        (
            "[[host]]\naddress = \"10.0.0.2/32\"\ncost = 1\n",
            "host 0: address: a dotted unicast address such as \"192.0.2.1\", wanted, \"10.0.0.2/32\" found\n",
        ),
        ("[[host]]\naddress = \"10.0.0.2\"\n", "host 0: cost: 0 to 65535 wanted, none found\n"),
        (
            "[[host]]\naddress = \"10.0.0.2\"\ncost = 1\nmtu = 7\n",
            "host 0: mtu: a known key wanted, 7 found\n",
        ),
    ];
    for (third, told) in rows.iter() {
        assert_eq!(rt; explained(alloc, TOP, INTERFACE, third)?.as_str(), *told);
    }
    let told = explained(alloc, "rfc3021 = 1\nhost = 5\n", TOP, INTERFACE)?;
    let wanted = "rfc3021: true or false wanted, 1 found\n\
        host: at most 32 tables [[host]] wanted, 5 found\n";
    assert_eq!(rt; told.as_str(), wanted);
    let told = explained(alloc, TOP, OTHER, "\"10.0.0.1/31\"\ncost = 1\n")?;
    let wanted = "interface 0: address: a host address and prefix length, 1 to 30 (31 with rfc3021), such as \"10.0.0.1/30\", wanted, \"10.0.0.1/31\" found\n";
    assert_eq!(rt; told.as_str(), wanted);
    Ok(())
}
