//! Lines that are read, lines that are not, and what is printed.

use ospf_base::{Addr, Instance, Kind, LsaKey, Prefix, RouterId};
use ospf_files::{first_line, lines};
use ospf_graph::NextHop;
use ospf_neighbour::NeighbourState;
use ospf_script::{
    Command, CommandFault, Expected, FloorShown, Many, View, Wanted, WorldEvent,
    words_spell_one_command,
};
use ospf_sim::Hint;
use ospf_views::{ListedShown, NeighbourShown, RefusalShown, WalkShown};
use std::alloc::Global;
use std::process::Abort;
use std::test::Fail;

const ONE: RouterId = RouterId(0x0101_0101);

const TWO: RouterId = RouterId(0x0202_0202);

// A line spells a command, which is printed as this text.
fn spells(
    rt: &impl Abort,
    alloc: Global,
    line: &str,
    command: &Command,
    printed: &str,
) -> Result<(), CommandFault> {
    let read = Command::read(alloc, line.as_bytes())?;
    assert_eq!(rt; read.as_ref(), Some(command), "{line}");
    assert_eq!(rt; format!(in alloc; "{command}")?.as_str(), printed);
    Ok(())
}

// A line spells an event.
fn happens(
    rt: &impl Abort,
    alloc: Global,
    line: &str,
    event: WorldEvent,
    printed: &str,
) -> Result<(), CommandFault> {
    spells(rt, alloc, line, &Command::Event { event }, printed)
}

#[test]
fn events(rt: HostRuntime) -> Result<(), Fail> {
    let (alloc, router) = (rt.alloc(), ONE);
    let start = |dd_start: u32, floor: i32| WorldEvent::Start {
        router: ONE,
        dd_start,
        floor,
    };
    let printed = "start 1.1.1.1 100 80000000";
    happens(&rt, alloc, "start 1.1.1.1 100", start(100, i32::MIN), printed)?;
    let (line, printed) = ("start 1.1.1.1 4294967295 7FFFfffe", "start 1.1.1.1 4294967295 7ffffffe");
    happens(&rt, alloc, line, start(u32::MAX, i32::MAX - 1), printed)?;
    let (line, printed) = (" start  1.1.1.1 007 00000000 ", "start 1.1.1.1 7 00000000");
    happens(&rt, alloc, line, start(7, 0), printed)?;
    let line = "stop 1.1.1.1";
    happens(&rt, alloc, line, WorldEvent::Stop { router }, line)?;
    let line = "tick 1.1.1.1";
    happens(&rt, alloc, line, WorldEvent::Tick { router }, line)?;
    let (line, link) = ("up 1.1.1.1 18446744073709551615", usize::MAX);
    happens(&rt, alloc, line, WorldEvent::LinkUp { router, link }, line)?;
    let down = WorldEvent::LinkDown { router, link: 2 };
    happens(&rt, alloc, "down 1.1.1.1 02", down, "down 1.1.1.1 2")?;
    let deliver = WorldEvent::Deliver {
        datagram: 5,
        router,
        link: 3,
    };
    let line = "deliver 5 1.1.1.1 3";
    happens(&rt, alloc, line, deliver, line)?;
    Ok(())
}

#[test]
fn many_events(rt: HostRuntime) -> Result<(), Fail> {
    let alloc = rt.alloc();
    let network = Addr(0x0a00_0005);
    let forms = [
        ("start all", Many::Start, "start all"),
        (" up  all ", Many::Up, "up all"),
        ("down all", Many::Down, "down all"),
        (" cut  10.0.0.5", Many::Cut { network }, "cut 10.0.0.5"),
        ("mend 10.0.0.5 ", Many::Mend { network }, "mend 10.0.0.5"),
    ];
    for (line, many, printed) in forms {
        spells(&rt, alloc, line, &Command::Many { many }, printed)?;
    }
    Ok(())
}

#[test]
fn running(rt: HostRuntime) -> Result<(), Fail> {
    let alloc = rt.alloc();
    let round = |most: Option<u64>| Command::Round { count: 20, most };
    spells(&rt, alloc, "round 20", &round(None), "round 20")?;
    let (line, printed) = ("round  020 18446744073709551615 ", "round 20 18446744073709551615");
    spells(&rt, alloc, line, &round(Some(u64::MAX)), printed)?;
    spells(&rt, alloc, "batch 0300", &Command::Batch { count: 300 }, "batch 300")?;
    let line = "batch 18446744073709551615";
    spells(&rt, alloc, line, &Command::Batch { count: u64::MAX }, line)?;
    let random = Command::Random {
        number: 7,
        count: 5000,
    };
    spells(&rt, alloc, "random 7 5000", &random, "random 7 5000")?;
    spells(&rt, alloc, "settle 0300", &Command::Settle { most: 300 }, "settle 300")?;
    let line = "settle 18446744073709551615";
    spells(&rt, alloc, line, &Command::Settle { most: u64::MAX }, line)?;
    Ok(())
}

#[test]
fn printing(rt: HostRuntime) -> Result<(), Fail> {
    let (alloc, router) = (rt.alloc(), ONE);
    let views = [
        ("neighbours 1.1.1.1", View::Neighbours, "neighbours 1.1.1.1"),
        ("neighbors 1.1.1.1", View::Neighbours, "neighbours 1.1.1.1"),
        ("listing 1.1.1.1", View::Listing, "listing 1.1.1.1"),
        ("table 1.1.1.1", View::Table, "table 1.1.1.1"),
        ("floor 1.1.1.1", View::Floor, "floor 1.1.1.1"),
    ];
    for (line, view, printed) in views {
        spells(&rt, alloc, line, &Command::Show { view, router }, printed)?;
    }
    spells(&rt, alloc, " label  on", &Command::Label { is_on: true }, "label on")?;
    spells(&rt, alloc, "label off ", &Command::Label { is_on: false }, "label off")?;
    let said = |text: &str| Ok::<_, CommandFault>(Command::Say {
        text: String::from_str(alloc, text)?,
    });
    spells(&rt, alloc, "say", &said("")?, "say ")?;
    spells(&rt, alloc, "say  two   words ", &said("two words")?, "say two words")?;
    spells(&rt, alloc, "say \u{e9} all", &said("\u{e9} all")?, "say \u{e9} all")?;
    let walk = |choices: Vec<u32>| Command::Walk {
        from: ONE,
        address: Addr(0x0a09_0909),
        choices,
    };
    spells(
        &rt,
        alloc,
        "walk 1.1.1.1 10.9.9.9",
        &walk(Vec::new(alloc)),
        "walk 1.1.1.1 10.9.9.9",
    )?;
    let choices = [0, 4_294_967_295].to_vec(alloc)?;
    spells(
        &rt,
        alloc,
        "walk 1.1.1.1 10.9.9.9 0  4294967295",
        &walk(choices),
        "walk 1.1.1.1 10.9.9.9 0 4294967295",
    )?;
    Ok(())
}

#[test]
fn asking(rt: HostRuntime) -> Result<(), Fail> {
    let alloc = rt.alloc();
    let why = |neighbour: Option<RouterId>| Command::Why {
        router: ONE,
        link: 2,
        neighbour,
    };
    spells(&rt, alloc, "why 1.1.1.1 2", &why(None), "why 1.1.1.1 2")?;
    let one = why(Some(TWO));
    spells(&rt, alloc, " why  1.1.1.1 02 2.2.2.2", &one, "why 1.1.1.1 2 2.2.2.2")?;
    let headline = Command::WhyHeadline { router: ONE };
    spells(&rt, alloc, " why  headline 1.1.1.1", &headline, "why headline 1.1.1.1")?;
    let loss = |percent: u8, network: Option<Addr>| Command::Loss {
        percent,
        number: 7,
        network,
    };
    spells(&rt, alloc, "loss 0 7", &loss(0, None), "loss 0 7")?;
    let there = loss(100, Some(Addr(0x0a00_0001)));
    spells(&rt, alloc, "loss 100 7 10.0.0.1", &there, "loss 100 7 10.0.0.1")?;
    let sent = |most: Option<u64>| Command::Datagrams { router: ONE, most };
    spells(&rt, alloc, "datagrams 1.1.1.1", &sent(None), "datagrams 1.1.1.1")?;
    spells(&rt, alloc, " drops 1.1.1.1", &Command::Drops { router: ONE }, "drops 1.1.1.1")?;
    spells(&rt, alloc, "lsas  1.1.1.1 ", &Command::Lsas { router: ONE }, "lsas 1.1.1.1")?;
    spells(&rt, alloc, "datagrams  1.1.1.1 05", &sent(Some(5)), "datagrams 1.1.1.1 5")?;
    Ok(())
}

// What is expected is read, and printed again as a line.
fn expects(
    rt: &impl Abort,
    alloc: Global,
    line: &str,
    expected: Expected,
    printed: &str,
) -> Result<(), CommandFault> {
    assert_eq!(rt; format!(in alloc; "{expected}")?.as_str(), printed);
    spells(rt, alloc, line, &Command::Expect { expected }, printed)
}

// A route of the first router to a prefix, of cost 12, is expected by these hops.
fn routes(
    rt: &impl Abort,
    alloc: Global,
    line: &str,
    prefix: Prefix,
    hops: &[NextHop],
    printed: &str,
) -> Result<(), CommandFault> {
    let hops = Vec::from_slice(alloc, hops)?;
    let route = wants(Wanted::Route { prefix, cost: 12, hops });
    expects(rt, alloc, line, route, printed)
}

// What is expected of the first router.
fn wants(wanted: Wanted) -> Expected {
    Expected::Router { router: ONE, wanted }
}

#[test]
fn expecting(rt: HostRuntime) -> Result<(), Fail> {
    let alloc = rt.alloc();
    let full = || stands(NeighbourState::Full);
    let line = "expect full 1.1.1.1 2.2.2.2";
    expects(&rt, alloc, line, full(), line)?;
    expects(&rt, alloc, "expect neighbour 1.1.1.1 2.2.2.2 Full", full(), line)?;
    expects(&rt, alloc, " expect neighbor  1.1.1.1 2.2.2.2 Full ", full(), line)?;
    let alone = || wants(Wanted::NoNeighbour { link: 3 });
    let line = "expect no neighbour 1.1.1.1 3";
    expects(&rt, alloc, line, alone(), line)?;
    expects(&rt, alloc, "expect no  neighbor 1.1.1.1 3 ", alone(), line)?;
    let prefix = Prefix {
        address: Addr(0x0a00_0004),
        length: 30,
    };
    let line = "expect route 1.1.1.1 10.0.0.4/30 12";
    routes(&rt, alloc, line, prefix, &[], line)?;
    let line = "expect no route 1.1.1.1 10.0.0.4/30";
    expects(&rt, alloc, line, wants(Wanted::NoRoute { prefix }), line)?;
    let prefix = Prefix {
        address: Addr(0),
        length: 0,
    };
    let line = "expect no route 1.1.1.1 0.0.0.0/0";
    expects(&rt, alloc, line, wants(Wanted::NoRoute { prefix }), line)?;
    Ok(())
}

// The second router is expected to be a neighbour of the first one in this state.
fn stands(state: NeighbourState) -> Expected {
    wants(Wanted::Neighbour { other: TWO, state })
}

#[test]
fn expecting_states(rt: HostRuntime) -> Result<(), Fail> {
    let alloc = rt.alloc();
    let states = [
        ("Down", NeighbourState::Down),
        ("Init", NeighbourState::Init),
        ("2-Way", NeighbourState::TwoWay),
        ("ExStart", NeighbourState::ExStart),
        ("Exchange", NeighbourState::Exchange),
        ("Loading", NeighbourState::Loading),
    ];
    for (word, state) in states {
        let printed = format!(in alloc; "expect neighbour 1.1.1.1 2.2.2.2 {word}")?;
        let line = format!(in alloc; " expect  neighbor 1.1.1.1 2.2.2.2 {word} ")?;
        expects(&rt, alloc, &printed, stands(state), &printed)?;
        expects(&rt, alloc, &line, stands(state), &printed)?;
    }
    Ok(())
}

#[test]
fn expecting_elections(rt: HostRuntime) -> Result<(), Fail> {
    let alloc = rt.alloc();
    let elected = |dr: Addr, backup: Option<Addr>| {
        wants(Wanted::Dr { link: 3, dr, backup })
    };
    let (third, second) = (Addr(0x0a01_0003), Addr(0x0a01_0002));
    let line = "expect dr 1.1.1.1 3 10.1.0.3";
    expects(&rt, alloc, line, elected(third, None), line)?;
    let line = "expect dr 1.1.1.1 3 10.1.0.3 10.1.0.2";
    expects(&rt, alloc, line, elected(third, Some(second)), line)?;
    let (line, printed) = (
        " expect dr  1.1.1.1 03 10.1.0.3 0.0.0.0 ",
        "expect dr 1.1.1.1 3 10.1.0.3 0.0.0.0",
    );
    expects(&rt, alloc, line, elected(third, Some(Addr(0))), printed)?;
    Ok(())
}

#[test]
fn expecting_hops(rt: HostRuntime) -> Result<(), Fail> {
    let alloc = rt.alloc();
    let prefix = Prefix {
        address: Addr(0x0a00_0004),
        length: 30,
    };
    let attached = NextHop::Attached;
    let over = NextHop::PointToPoint {
        local: Addr(0x0a00_0001),
        router: TWO,
    };
    let across = NextHop::Lan {
        local: Addr(0x0a01_0001),
        router: TWO,
        address: Addr(0xffff_ffff),
    };
    let line = "expect route 1.1.1.1 10.0.0.4/30 12 attached";
    routes(&rt, alloc, line, prefix, &[attached], line)?;
    let (line, printed) = (
        "expect route 1.1.1.1 10.0.0.4/30 012 10.1.0.1>2.2.2.2@255.255.255.255  10.0.0.1>2.2.2.2 ",
        "expect route 1.1.1.1 10.0.0.4/30 12 10.1.0.1>2.2.2.2@255.255.255.255 10.0.0.1>2.2.2.2",
    );
    routes(&rt, alloc, line, prefix, &[across, over], printed)?;
    let line = "expect route 1.1.1.1 10.0.0.4/30 12 attached attached";
    routes(&rt, alloc, line, prefix, &[attached, attached], line)?;
    Ok(())
}

#[test]
fn expecting_of_all(rt: HostRuntime) -> Result<(), Fail> {
    let alloc = rt.alloc();
    let walk = |cost: Option<u64>| Expected::Walk {
        from: ONE,
        address: Addr(0x0a09_0909),
        cost,
    };
    let line = "expect walk 1.1.1.1 10.9.9.9 arrived";
    expects(&rt, alloc, line, walk(None), line)?;
    let line = "expect walk 1.1.1.1 10.9.9.9 arrived 0";
    expects(&rt, alloc, line, walk(Some(0)), line)?;
    let (line, printed) = (
        " expect walk  1.1.1.1 10.9.9.9 arrived 018446744073709551615 ",
        "expect walk 1.1.1.1 10.9.9.9 arrived 18446744073709551615",
    );
    expects(&rt, alloc, line, walk(Some(u64::MAX)), printed)?;
    expects(&rt, alloc, "expect  agree ", Expected::Agree, "expect agree")?;
    expects(&rt, alloc, " expect settled", Expected::Settled, "expect settled")?;
    let headline = |router: Option<RouterId>| Expected::Headline { router };
    expects(&rt, alloc, "expect headline ", headline(None), "expect headline")?;
    let line = "expect headline 1.1.1.1";
    expects(&rt, alloc, " expect  headline 1.1.1.1", headline(Some(ONE)), line)?;
    Ok(())
}

// Each is refused for one reason.
const UNREADABLE: [&[u8]; 127] = [
    b"cut",
    b"cut all",
    b"cut 10.0.0",
    b"cut 10.0.0.5 1",
    b"mend",
    b"mend 10.0.0.256",
    b"mend 1.1.1.1 10.0.0.5",
    b"batch",
    b"batch x",
    b"batch +1",
    b"batch 18446744073709551616",
    b"batch 1 2",
    b"settle",
    b"settle x",
    b"settle +1",
    b"settle 18446744073709551616",
    b"settle 1 2",
    b"label",
    b"label On",
    b"label on off",
    b"expect agree all",
    b"expect Agree",
    b"expect settled 1",
    b"expect headline all",
    b"expect headline 1.1.1.1 2.2.2.2",
    b"expect headlines",
    b"why headline",
    b"why headline 1.1.1.1 0",
    b"expect walk 1.1.1.1 10.9.9.9",
    b"expect walk 1.1.1.1 arrived",
    b"expect walk 1.1.1.1 10.9.9.9 arrives",
    b"expect walk 1.1.1.1 10.9.9.9 arrived x",
    b"expect walk 1.1.1.1 10.9.9.9 arrived 18446744073709551616",
    b"expect walk 1.1.1.1 10.9.9.9 arrived 20 1",
    b"why 1.1.1.1",
    b"why 1.1.1.1 x",
    b"why 1.1.1.1 0 2.2.2",
    b"why 1.1.1.1 0 2.2.2.2 3.3.3.3",
    b"datagrams",
    b"datagrams all",
    b"datagrams 1.1.1.1 few",
    b"datagrams 1.1.1.1 1 2",
    b"drops",
    b"drops all",
    b"drops 1.1.1.1 0",
    b"lsas",
    b"lsas all",
    b"lsas 1.1.1.1 1.1.1.1",
    b"loss 30",
    b"loss 101 7",
    b"loss 30 x",
    b"loss 30 7 10.0.0",
    b"loss 30 7 10.0.0.1 8",
    b"expect",
    b"expect full 1.1.1.1",
    b"expect Full 1.1.1.1 2.2.2.2",
    b"expect full 1.1.1.1 2.2.2.2 Full",
    b"expect neighbour 1.1.1.1 2.2.2.2",
    b"expect neighbour 1.1.1.1 2.2.2.2 TwoWay",
    b"expect neighbour 1.1.1.1 2.2.2.2 2-way",
    b"expect neighbour 1.1.1.1 2.2.2.2 full",
    b"expect neighbour 1.1.1.1 2.2.2.2 \xff",
    b"expect neighbour 1.1.1.1 2.2.2 Full",
    b"expect neighbours 1.1.1.1 2.2.2.2 Full",
    b"expect neighbour 1.1.1.1 2.2.2.2 Full Full",
    b"expect dr 1.1.1.1 0",
    b"expect DR 1.1.1.1 0 10.1.0.3",
    b"expect dr 1.1.1.1 x 10.1.0.3",
    b"expect dr 1.1.1.1 0 10.1.0",
    b"expect dr 1.1.1.1 0 10.1.0.3 none",
    b"expect dr 1.1.1.1 0 10.1.0.3 10.1.0.2 10.1.0.1",
    b"expect no neighbours 1.1.1.1 0",
    b"expect route 1.1.1.1 10.0.0.4/30",
    b"expect route 1.1.1.1 10.0.0.5/30 12",
    b"expect route 1.1.1.1 10.0.0.4/33 12",
    b"expect route 1.1.1.1 10.0.0.4 12",
    b"expect route 1.1.1.1 10.0.0.4/30 12 Attached",
    b"expect route 1.1.1.1 10.0.0.4/30 12 attached,attached",
    b"expect route 1.1.1.1 10.0.0.4/30 12 10.0.0.1",
    b"expect route 1.1.1.1 10.0.0.4/30 12 10.0.0.1>",
    b"expect route 1.1.1.1 10.0.0.4/30 12 >2.2.2.2",
    b"expect route 1.1.1.1 10.0.0.4/30 12 10.0.0.1>2.2.2",
    b"expect route 1.1.1.1 10.0.0.4/30 12 10.0.0.1>2.2.2.2@",
    b"expect route 1.1.1.1 10.0.0.4/30 12 10.0.0.1>2.2.2.2@10.0.0.2@",
    b"expect route 1.1.1.1 10.0.0.4/30 12 10.0.0.1>2.2.2.2>3.3.3.3",
    b"expect route 1.1.1.1 10.0.0.4/30 12 attached 010.0.0.1>2.2.2.2",
    b"expect no route 1.1.1.1 10.0.0.4/",
    b"expect no route 1.1.1.1 10.0.0.4/+30",
    b"nonsense",
    b"TICK 1.1.1.1",
    b"tick",
    b"tick 1.1.1.1 2",
    b"tick\t1.1.1.1",
    b"tick 1.1.1.1\r",
    b"tick 01.1.1.1",
    b"tick 1.1.1",
    b"tick 1.1.1.256",
    b"tick 1.1.1.\xff",
    b"tick 1.1.1.\xc3\xa9",
    b"up 1.1.1.1",
    b"up 1.1.1.1 x",
    b"up 1.1.1.1 +1",
    b"up 1.1.1.1 -1",
    b"up 1.1.1.1 18446744073709551616",
    b"start 1.1.1.1",
    b"start 1.1.1.1 4294967296",
    b"start 1.1.1.1 1 8000000",
    b"start 1.1.1.1 1 080000000",
    b"start 1.1.1.1 1 8000000g",
    b"start 1.1.1.1 1 +0000000",
    b"start 1.1.1.1 1 80000000 1",
    b"start all 1",
    b"start ALL",
    b"tick all",
    b"up all 0",
    b"neighbor 1.1.1.1",
    b"neighbors",
    b"say \xff",
    b"round",
    b"round x",
    b"round 1 x",
    b"round 1 +2",
    b"round 1 18446744073709551616",
    b"round 1 2 3",
    b"walk 1.1.1.1",
    b"walk 1.1.1.1 10.9.9",
    b"walk 1.1.1.1 10.9.9.9 0 4294967296",
];

#[test]
fn unreadable(rt: HostRuntime) {
    for line in UNREADABLE {
        assert_eq!(rt;
            Command::read(rt.alloc(), line),
            Err(CommandFault::NotACommand)
        );
    }
}

const NAMES: &str = "start, stop, tick, up, down, deliver, cut, mend, round, batch, random, settle, neighbours, listing, table, walk, floor, say, why, datagrams, drops, lsas, loss, expect, label; each one alone, except say, shows its form";

#[test]
fn hints(rt: HostRuntime) -> Result<(), Fail> {
    let alloc = rt.alloc();
    let forms: [(&[u8], &str); 19] = [
        (b"cut all", "cut ADDRESS"),
        (b"mend", "mend ADDRESS"),
        (b"batch x", "batch COUNT"),
        (b"settle x", "settle MAX"),
        (b"label", "label on, or label off"),
        (b"up all 0", "up R LINK, or up all"),
        (b"why", "why R LINK [NEIGHBOUR], or why headline R"),
        (b"datagrams", "datagrams R [MOST]"),
        (b"drops 1.1.1.1 0", "drops R"),
        (b"lsas all", "lsas R"),
        (b"loss 101 7", "loss PERCENT NUMBER [ADDRESS]"),
        (
            b"expect fully",
            "expect full R S, expect neighbour R S STATE, expect no neighbour R LINK, expect dr R LINK ADDRESS [BACKUP], expect route R PREFIX COST [HOP..], expect no route R PREFIX, expect walk R ADDRESS arrived [COST], expect agree, expect headline [R], or expect settled",
        ),
        (b"tick", "tick R"),
        (b" start  1.1.1.1 ", "start R DD [FLOOR], or start all"),
        (b"neighbors", "neighbours R"),
        (b"deliver 1 2", "deliver N R LINK"),
        (b"round x", "round COUNT [MOST]"),
        (b"say \xff", "say WORD.."),
        (b"  ", ""),
    ];
    for (line, form) in forms {
        assert_eq!(rt; format!(in alloc; "{}", Hint(line))?.as_str(), form);
    }
    let words: [(&[u8], &str); 4] = [
        (b"tikc 1.1.1.1", "tikc"),
        (b"Tick", "Tick"),
        (b"tick\t1.1.1.1", "tick\\x091.1.1.1"),
        (b"\x7f~!\xc3\xa9", "\\x7f~!\\xc3\\xa9"),
    ];
    for (line, word) in words {
        let hint = format!(in alloc; "{word}: no such command; the commands are {NAMES}")?;
        assert_eq!(rt; format!(in alloc; "{}", Hint(line))?, hint);
    }
    Ok(())
}

#[test]
fn blank(rt: HostRuntime) {
    assert_eq!(rt; Command::read(rt.alloc(), b""), Ok(None));
    assert_eq!(rt; Command::read(rt.alloc(), b"   "), Ok(None));
}

#[test]
fn law() {
    words_spell_one_command();
}

#[test]
fn faults(rt: HostRuntime) -> Result<(), Fail> {
    let alloc = rt.alloc();
    let fault = CommandFault::NotACommand;
    assert_eq!(rt; format!(in alloc; "{fault}")?.as_str(), "not a command");
    let fault = CommandFault::Memory;
    assert_eq!(rt; format!(in alloc; "{fault}")?.as_str(), "Memory");
    Ok(())
}

#[test]
fn numbered(rt: HostRuntime) -> Result<(), Fail> {
    let found = lines(rt.alloc(), b"tick 1.1.1.1\r\n\n  \nround 1\r\r\nend\r")?;
    let expected: [(u64, &[u8]); 5] = [
        (1, b"tick 1.1.1.1"),
        (2, b""),
        (3, b"  "),
        (4, b"round 1\r"),
        (5, b"end\r"),
    ];
    assert_eq!(rt; found.len(), 5);
    for (line, (number, text)) in found.iter().zip(expected) {
        assert_eq!(rt; line.number, number);
        assert_eq!(rt; line.text, text);
    }
    let commented = lines(rt.alloc(), b"# all of it\r\nround 1 # one # only\nround 2#")?;
    let expected: [(u64, &[u8]); 3] = [(1, b""), (2, b"round 1 "), (3, b"round 2")];
    assert_eq!(rt; commented.len(), 3);
    for (line, (number, text)) in commented.iter().zip(expected) {
        assert_eq!(rt; line.number, number);
        assert_eq!(rt; line.text, text);
    }
    assert_eq!(rt; lines(rt.alloc(), b"\n")?.len(), 1);
    assert_eq!(rt; first_line(b""), None);
    Ok(())
}

#[test]
fn printed(rt: HostRuntime) -> Result<(), Fail> {
    let alloc = rt.alloc();
    let floor = FloorShown(i32::MAX);
    assert_eq!(rt; format!(in alloc; "{floor}")?.as_str(), "7fffffff");
    let refusal = RefusalShown {
        number: 7,
        fault: "W8 Floor",
    };
    assert_eq!(rt;
        format!(in alloc; "{refusal}")?.as_str(),
        "line 7: W8 Floor"
    );
    let neighbour = NeighbourShown {
        link: 0,
        router: RouterId(0x0202_0202),
        state: NeighbourState::Full,
    };
    assert_eq!(rt;
        format!(in alloc; "{neighbour}")?.as_str(),
        "0 2.2.2.2 Full"
    );
    let walk = WalkShown {
        routers: &[ONE, RouterId(0x0404_0404), RouterId(0x0303_0303)],
        cost: 23,
        end: "arrived",
    };
    assert_eq!(rt;
        format!(in alloc; "{walk}")?.as_str(),
        "1.1.1.1 4.4.4.4 3.3.3.3 cost 23 arrived"
    );
    Ok(())
}

#[test]
fn listed(rt: HostRuntime) -> Result<(), Fail> {
    let alloc = rt.alloc();
    let instance = |kind: Kind, id: u32, number: i32, sum: u16| Instance {
        key: LsaKey {
            kind,
            id,
            router: ONE,
        },
        number,
        sum,
    };
    let own = ListedShown(instance(Kind::Router, 0x0101_0101, i32::MIN + 2, 0xe02d));
    assert_eq!(rt;
        format!(in alloc; "{own}")?.as_str(),
        "router 1.1.1.1 1.1.1.1 80000002 e02d"
    );
    let network = ListedShown(instance(Kind::Network, 0x0a00_0001, 1, 0x2d));
    assert_eq!(rt;
        format!(in alloc; "{network}")?.as_str(),
        "network 10.0.0.1 1.1.1.1 00000001 002d"
    );
    Ok(())
}
