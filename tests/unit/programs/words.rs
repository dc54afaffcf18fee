//! The words of the program: what they ask for, and what is said of those that ask for nothing.

use super::program::outcome_of;
use ospf_base::{Addr, RouterId};
use ospf_failures::{Carrier, FailuresForm, FailuresJob, RouterFailures};
use ospf_files::Telling;
use ospf_words::{Job, RunJob, job};
use std::alloc::Global;
use std::test::Fail;

// Words by name, the exit status, and how standard output and standard error begin.
static WORDS: [(&str, &str, u8, &str, &str); 97] = [
    ("help", "--help", 0, "OSPF version 2 for one area\n", ""),
    ("help word", "help", 0, "OSPF version 2 for one area\n", ""),
    ("help of table", "table --help", 0, "Computes a routing", ""),
    (
        "help of check",
        "check --help",
        0,
        "Checks configurations",
        "",
    ),
    (
        "help of failures",
        "failures --help",
        0,
        "Shows what each single failure",
        "",
    ),
    ("failures of nobody", "failures", 2, "", "error: "),
    (
        "failures of no address",
        "failures --each 1.1.1",
        2,
        "",
        "1.1.1: not an address\n",
    ),
    (
        "unknown option of failures",
        "failures --all 1.1.1.1",
        2,
        "",
        "error: unexpected argument",
    ),
    (
        "failures of nothing",
        "failures --each --strict 1.1.1.1",
        1,
        "",
        "1.1.1.1: no router-LSA of this router\n",
    ),
    ("a carrier of no name", "failures all --carrier", 2, "", "error: a value is required for '--carrier <CARRIER>'"),
    ("an unknown carrier", "failures --carrier cable all", 2, "", "error: CARRIER is `direct`, `switch` or `process`\n"),
    ("an unknown carrier at no address", "failures --carrier Direct 1.1.1", 2, "", "error: CARRIER is `direct`, `switch` or `process`\n"),
    ("a carrier without a letter", "failures --carrier= all", 2, "", "error: CARRIER is `direct`, `switch` or `process`\n"),
    ("two carriers", "failures --carrier direct --carrier switch all", 2, "", "error: the argument '--carrier <CARRIER>' cannot be used multiple times"),
    ("a carrier at no address", "failures --carrier direct 1.1.1", 2, "", "1.1.1: not an address\n"),
    ("two versions of JSON", "failures --json --json2 all", 2, "", "error: only one of --json, --json=2 and --harm can be given\n"),
    ("harm as JSON", "failures --harm --json 1.1.1.1", 2, "", "error: only one of --json, --json=2 and --harm can be given\n"),
    ("three forms", "failures --harm --json --json2 all", 2, "", "error: only one of --json, --json=2 and --harm can be given\n"),
    ("two forms and an unknown carrier", "failures --harm --json --carrier cable all", 2, "", "error: CARRIER is `direct`, `switch` or `process`\n"),
    ("no file of an area", "check --area", 2, "", "error: "),
    (
        "unread file of an area",
        "check --area --explain a.toml",
        5,
        "",
        "a.toml: not read\n",
    ),
    ("drawing of nothing", "lsas --dot", 0, "graph area {\n", ""),
    ("drawing of a word", "lsas --dot area.svg", 2, "", "error: "),
    ("LSAs as JSON", "lsas --json", 0, "[]\n", ""),
    ("a drawing as JSON", "lsas --dot --json", 2, "", "error: --json cannot be combined with --dot\n"),
    ("all tables as JSON", "table all --json", 0, "[]\n", ""),
    ("a lookup as JSON", "table --json 1.1.1.1 10.0.0.1", 2, "", "error: neither `all` nor --json can be combined with ADDRESS or --without\n"),
    ("what is left out as JSON", "table --json 1.1.1.1 --without 2.2.2.2", 2, "", "error: neither `all` nor --json can be combined with ADDRESS"),
    ("all tables in lines", "table all --json2", 0, "{\"input\":{\"left_out\":0,\"lsas\":0},\"outside\":false,\"version\":2,\"warnings\":[]}\n", ""),
    ("two versions of a table", "table --json --json2 1.1.1.1", 2, "", "error: --json=2 cannot be combined with --json or --without, nor `all` with ADDRESS\n"),
    ("what is left out in lines", "table --json2 1.1.1.1 --without 2.2.2.2", 2, "", "error: --json=2 cannot be combined with --json or --without"),
    ("lookups in the lines of all", "table --json2 all 10.0.0.1", 2, "", "error: --json=2 cannot be combined with --json or --without"),
    ("no address in lines", "table --json2 1.1.1.1 10.0.0.01", 2, "", "10.0.0.01: not an address\n"),
    ("no root in lines", "table --json2 1.1.1", 2, "", "1.1.1: not an address\n"),
    ("a lookup in all tables", "table all 10.0.0.1", 2, "", "error: neither `all` nor --json can be combined with ADDRESS"),
    ("no address in all tables", "table all 10.0.0.01", 2, "", "error: neither `all` nor --json can be combined with ADDRESS"),
    ("all tables without a part", "table all --without 2.2.2.2", 2, "", "error: neither `all` nor --json can be combined with ADDRESS"),
    ("a root like all", "table ALL --without 2.2.2.2", 2, "", "ALL: not an address\n"),
    ("unread file as JSON", "check --json a.toml", 5, "", "a.toml: not read\n"),
    ("unread file with all faults", "check --all a.toml", 5, "", "a.toml: not read\n"),
    ("all faults of no file", "check --all", 2, "", "error: "),
    ("all faults as JSON", "check --all --json a.toml", 2, "", "error: --json cannot be combined with --all or --json=2\n"),
    ("two versions of a check", "check --json --json2 a.toml", 2, "", "error: --json cannot be combined with --all or --json=2\n"),
    ("unread file in lines", "check --json2 a.toml", 5, "", "a.toml: not read\n"),
    ("unread file of an area in lines", "check --json2 --area --all a.toml", 5, "", "a.toml: not read\n"),
    ("no file in lines", "check --json2", 2, "", "error: "),
    ("JSON of no log in sim", "sim --json a b.toml", 2, "", "error: --json needs --log\n"),
    ("JSON of a log in sim", "sim --json --log a.log a b.toml", 5, "", "a: not read\n"),
    ("an unread script of a strict simulation", "sim --strict a b.toml", 5, "", "a: not read\n"),
    ("JSON of no log in a run", "run --json 60 a.toml", 2, "", "error: --json needs --log or --log-lsas\n"),
    ("JSON of no log in a run without end", "run --json forever a.toml", 2, "", "error: --json needs --log or --log-lsas\n"),
    ("a log of LSAs in sim", "sim --log-lsas x a b.toml", 2, "", "error: unexpected argument '--log-lsas'"),
    ("a log of LSAs in no file", "run 60 a.toml --log-lsas", 2, "", "error: a value is required for '--log-lsas <FILE>'"),
    ("an LSDB in a file", "run --lsdb=x 60 a.toml", 2, "", "error: unexpected value 'x' for '--lsdb'"),
    ("a run without end of no file", "run forever", 2, "", "error: the following required arguments were not provided"),
    ("help of a run without end", "run forever --help", 0, "Runs a router", ""),
    ("a run of a word", "run never a.toml", 2, "", "error: invalid value 'never'"),
    ("help of edit", "edit --help", 0, "Changes the LSAs of an area", ""),
    ("help of diff", "diff --help", 0, "Compares two files of LSAs", ""),
    ("no change", "edit", 2, "", "error: at least one of --down, --cost and --drain is needed\n"),
    ("what goes down without a name", "edit --down", 2, "", "error: a value is required for '--down <NAME>'"),
    ("a cost without a word", "edit --drain 1.1.1.1 --cost", 2, "", "error: a value is required for '--cost <CHANGE>'"),
    ("a drained router without a name", "edit --drain", 2, "", "error: a value is required for '--drain <ROUTER>'"),
    ("a change behind no option", "edit 1.1.1.1", 2, "", "error: unexpected argument '1.1.1.1'"),
    ("unknown option of edit", "edit --up 1.1.1.1", 2, "", "error: unexpected argument '--up'"),
    ("what goes down in no area", "edit --down 1.1.1.1", 2, "", "1.1.1.1: not in this area\n"),
    ("a cost in no area", "edit --cost x", 2, "", "x: not in this area\n"),
    ("a drained router in no area", "edit --drain 1.1.1.1", 2, "", "1.1.1.1: not in this area\n"),
    ("the first of several words", "edit --drain x --cost y --down z", 2, "", "z: not in this area\n"),
    ("no files to compare", "diff", 2, "", "error: the following required arguments were not provided"),
    ("one file to compare", "diff a", 2, "", "error: the following required arguments were not provided"),
    ("three files to compare", "diff a b c", 2, "", "error: unexpected argument 'c'"),
    ("an unread file to compare", "diff a b", 5, "", "a: not read\n"),
    ("standard input twice", "diff - -", 2, "", "error: only one of BEFORE and AFTER can be `-`\n"),
    ("standard input twice at no router", "diff - - --root x", 2, "", "error: only one of BEFORE and AFTER can be `-`\n"),
    ("files compared at no address", "diff --root 1.1.1 a b", 2, "", "1.1.1: not an address\n"),
    ("files compared at all routers by name", "diff a b --root all", 2, "", "all: not an address\n"),
    ("two routers of a comparison", "diff a b --root 1.1.1.1 --root 2.2.2.2", 2, "", "error: the argument '--root <ROUTER>' cannot be used multiple times"),
    ("a router without a name", "diff a b --root", 2, "", "error: a value is required for '--root <ROUTER>'"),
    ("help of sim", "sim --help", 0, "Simulates an area", ""),
    ("help of run", "run --help", 0, "Runs a router", ""),
    ("no configuration of a run", "run 60", 2, "", "error: "),
    ("no tick", "run 0 a.toml", 2, "", "error: invalid value '0'"),
    (
        "too many ticks",
        "run 1000001 a.toml",
        2,
        "",
        "error: invalid value '1000001'",
    ),
    (
        "too long a tick",
        "run --tick 1001 60 a.toml",
        2,
        "",
        "error: invalid value '1001'",
    ),
    (
        "no address to look up",
        "run --lookup 10.0.0.01 60 a.toml",
        2,
        "",
        "10.0.0.01: not an address\n",
    ),
    ("version", "--version", 0, "ospfd 0.2.0 (proved)\n", ""),
    ("no command", "", 2, "", "error: "),
    ("no words", "table", 2, "", "error: "),
    ("no file", "check", 2, "", "error: "),
    ("no configuration", "sim a", 2, "", "error: "),
    ("unread script", "sim a b.toml", 5, "", "a: not read\n"),
    ("unread", "check a.toml", 5, "", "a.toml: not read\n"),
    (
        "unknown command",
        "tables 1.1.1.1",
        2,
        "",
        "error: unrecognized subcommand",
    ),
    (
        "unknown option",
        "table 1.1.1.1 --all",
        2,
        "",
        "error: unexpected argument",
    ),
    (
        "unknown option of check",
        "check --each",
        2,
        "",
        "error: unexpected argument",
    ),
    (
        "leading zero",
        "table 1.1.1.1 10.0.0.01 x",
        2,
        "",
        "10.0.0.01: not an address\n",
    ),
];

#[test]
fn tells_of_words(rt: HostRuntime) -> Result<(), Fail> {
    for (name, words, status, out, err) in &WORDS {
        let outcome = outcome_of(&rt, rt.alloc(), words, b"")?;
        assert_eq!(rt; outcome.status, *status, "{name}");
        assert!(rt; outcome.out.starts_with(out.as_bytes()), "{name}");
        assert!(rt; outcome.err.starts_with(err.as_bytes()), "{name}");
        assert_eq!(rt; outcome.out.is_empty(), out.is_empty(), "{name}");
        assert_eq!(rt; outcome.err.is_empty(), err.is_empty(), "{name}");
    }
    Ok(())
}

// Whether a help text says something.
fn says(help: &[u8], text: &str) -> bool {
    for start in 0..help.len() {
        if help[start..].starts_with(text.as_bytes()) {
            return true;
        }
    }
    false
}

#[test]
fn help_tells_commands(rt: HostRuntime) -> Result<(), Fail> {
    let help = outcome_of(&rt, rt.alloc(), "--help", b"")?;
    for text in ["  table ", "  edit ", "  diff ", "  check ", "  sim ", "  run "] {
        assert!(rt; says(&help.out, text), "{text}");
    }
    Ok(())
}

#[test]
fn help_tells_statuses_and_an_example(rt: HostRuntime) -> Result<(), Fail> {
    for words in [
        "--help",
        "table --help",
        "edit --help",
        "diff --help",
        "check --help",
        "sim --help",
        "run --help",
    ] {
        let help = outcome_of(&rt, rt.alloc(), words, b"")?;
        for text in ["  0  ", "  2  ", "  3  ", "  4  ", "  5  ", "\n  ospfd "] {
            assert!(rt; says(&help.out, text), "{words} {text}");
        }
    }
    Ok(())
}

#[test]
fn help_tells_output(rt: HostRuntime) -> Result<(), Fail> {
    let table = outcome_of(&rt, rt.alloc(), "help table", b"")?;
    assert!(rt; says(&table.out, "  LOCAL>ROUTER@ADDRESS "));
    let check = outcome_of(&rt, rt.alloc(), "help check", b"")?;
    assert!(rt; says(&check.out, "  FILE: ok "));
    Ok(())
}

#[test]
fn names_files(rt: HostRuntime) -> Result<(), Fail> {
    let Ok(Job::Check(check)) = job(rt.alloc(), &["check", "a.toml", "b c.toml"]) else {
        return Err(Fail::from("words"));
    };
    assert_eq!(rt; check.files.len(), 2);
    assert_eq!(rt; check.files[0].as_str(), "a.toml");
    assert_eq!(rt; check.files[1].as_str(), "b c.toml");
    assert_eq!(rt; check.how, Telling::Verdict);
    let Ok(Job::Check(explained)) = job(rt.alloc(), &["check", "--explain", "a.toml"]) else {
        return Err(Fail::from("words"));
    };
    assert_eq!(rt; explained.files.len(), 1);
    assert_eq!(rt; explained.how, Telling::Explained);
    let Ok(Job::Check(lines)) = job(rt.alloc(), &["check", "--all", "--json2", "a.toml"]) else {
        return Err(Fail::from("words"));
    };
    assert!(rt; lines.lines && !lines.json && !lines.area);
    assert_eq!(rt; lines.how, Telling::AllExplained);
    assert!(rt; !check.lines && !check.json);
    let Ok(Job::Check(all)) = job(rt.alloc(), &["check", "--all", "--area", "a.toml"]) else {
        return Err(Fail::from("words"));
    };
    assert_eq!(rt; all.how, Telling::AllExplained);
    assert!(rt; all.area && !all.json);
    let Ok(Job::Check(both)) = job(rt.alloc(), &["check", "--all", "--explain", "a.toml"]) else {
        return Err(Fail::from("words"));
    };
    assert_eq!(rt; both.how, Telling::AllExplained);
    Ok(())
}

// Whether texts are these words, in their order.
fn are(texts: &[String], words: &[&str]) -> bool {
    texts.len() == words.len() && texts.iter().zip(words).all(|(text, word)| text.as_str() == *word)
}

#[test]
fn reads_changes(rt: HostRuntime) -> Result<(), Fail> {
    let words = [
        "edit",
        "--down",
        "1.1.1.1-2.2.2.2@10.0.0.0/30",
        "--drain",
        "3.3.3.3",
        "--down",
        "@10.1.0.2",
        "--cost",
        "1.1.1.1@10.0.0.1=20",
        "--drain=",
    ];
    let Ok(Job::Edit(edit)) = job(rt.alloc(), &words) else {
        return Err(Fail::from("words"));
    };
    assert!(rt; are(&edit.down, &["1.1.1.1-2.2.2.2@10.0.0.0/30", "@10.1.0.2"]));
    assert!(rt; are(&edit.costs, &["1.1.1.1@10.0.0.1=20"]));
    assert!(rt; are(&edit.drains, &["3.3.3.3", ""]));
    for (option, counts) in [("--down", [1, 0, 0]), ("--cost", [0, 1, 0]), ("--drain", [0, 0, 1])] {
        let Ok(Job::Edit(edit)) = job(rt.alloc(), &["edit", option, "x"]) else {
            return Err(Fail::from("words"));
        };
        assert_eq!(rt; [edit.down.len(), edit.costs.len(), edit.drains.len()], counts, "{option}");
    }
    Ok(())
}

// Standard input is one of two files, and the router comes before them, between them or after them.
#[test]
fn reads_files_to_compare(rt: HostRuntime) -> Result<(), Fail> {
    let root = Some("1.1.1.1".parse::<RouterId>()?);
    for (words, before, after, wanted) in [
        (["diff", "a", "b", "--root=1.1.1.1"], "a", "b", root),
        (["diff", "--root=1.1.1.1", "a", "-"], "a", "-", root),
        (["diff", "-", "--root=1.1.1.1", "b"], "-", "b", root),
        (["diff", "--", "--root", "-"], "--root", "-", None),
    ] {
        let Ok(Job::Diff(diff)) = job(rt.alloc(), &words) else {
            return Err(Fail::from("words"));
        };
        assert_eq!(rt; diff.before.as_str(), before);
        assert_eq!(rt; diff.after.as_str(), after);
        assert!(rt; diff.root == wanted, "{before} {after}");
    }
    Ok(())
}

// A process alone fails where no carrier is given.
#[test]
fn reads_what_carries_links(rt: HostRuntime) -> Result<(), Fail> {
    for (words, wanted) in [
        (["failures", "all", "--strict", "--each"], Carrier::Process),
        (["failures", "--carrier", "process", "all"], Carrier::Process),
        (["failures", "all", "--carrier", "direct"], Carrier::Direct),
        (["failures", "--carrier=switch", "all", "--each"], Carrier::Switch),
    ] {
        let Ok(Job::Failures(FailuresJob::All { carrier, .. })) = job(rt.alloc(), &words) else {
            return Err(Fail::from("words"));
        };
        assert!(rt; carrier == wanted);
    }
    let words = ["failures", "--carrier", "switch", "1.1.1.1"];
    let Ok(Job::Failures(FailuresJob::Root(RouterFailures { carrier, .. }))) = job(rt.alloc(), &words) else {
        return Err(Fail::from("words"));
    };
    assert!(rt; carrier == Carrier::Switch);
    Ok(())
}

#[test]
fn reads_the_form_of_failures(rt: HostRuntime) -> Result<(), Fail> {
    for (words, wanted) in [
        (["failures", "all", "--strict"], FailuresForm::Text),
        (["failures", "--json", "all"], FailuresForm::Json),
        (["failures", "all", "--json2"], FailuresForm::JsonLines),
        (["failures", "--harm", "all"], FailuresForm::Harm),
    ] {
        let Ok(Job::Failures(FailuresJob::All { form, .. })) = job(rt.alloc(), &words) else {
            return Err(Fail::from("words"));
        };
        assert!(rt; form == wanted);
    }
    Ok(())
}

#[test]
fn a_simulation_is_strict_where_it_is_asked_for(rt: HostRuntime) -> Result<(), Fail> {
    for (words, strict) in [
        (["sim", "a", "b.toml", "c.toml"], false),
        (["sim", "--strict", "a", "b.toml"], true),
        (["sim", "a", "b.toml", "--strict"], true),
    ] {
        let Ok(Job::Sim(sim)) = job(rt.alloc(), &words) else {
            return Err(Fail::from("words"));
        };
        assert_eq!(rt; sim.strict, strict);
        assert_eq!(rt; sim.script.as_str(), "a");
    }
    Ok(())
}

#[test]
fn reads_the_words_of_a_run(rt: HostRuntime) -> Result<(), Fail> {
    let Ok(Job::Run(run)) = job(rt.alloc(), &["run", "60", "a.toml", "b.toml"]) else {
        return Err(Fail::from("words"));
    };
    assert_eq!(rt; run.ticks, Some(60));
    assert_eq!(rt; run.milliseconds, 1000);
    assert!(rt; run.lookup.is_none());
    assert!(rt; run.floor.is_none() && run.pcap.is_none() && run.every.is_none());
    assert!(rt; run.log.is_none() && !run.json);
    assert!(rt; !run.neighbours && !run.listing && !run.drops && !run.until_eof);
    assert_eq!(rt; run.files.len(), 2);
    let words = [
        "run",
        "--tick",
        "20",
        "--lookup",
        "192.168.2.9",
        "--floor",
        "80000007",
        "--pcap",
        "sent.pcap",
        "120",
        "a.toml",
    ];
    let run = run_of(rt.alloc(), &words)?;
    assert_eq!(rt; run.ticks, Some(120));
    assert_eq!(rt; run.milliseconds, 20);
    assert_eq!(rt; run.lookup, Some("192.168.2.9".parse::<Addr>()?));
    assert_eq!(rt; run.floor.as_deref(), Some("80000007"));
    assert_eq!(rt; run.pcap.as_deref(), Some("sent.pcap"));
    assert_eq!(rt; run.files.len(), 1);
    Ok(())
}

// The run that words ask for.
fn run_of(alloc: Global, words: &[&str]) -> Result<RunJob, Fail> {
    match job(alloc, words) {
        Ok(Job::Run(run)) => Ok(run),
        _ => Err(Fail::from("words")),
    }
}

#[test]
fn reads_a_run_without_a_last_tick(rt: HostRuntime) -> Result<(), Fail> {
    let words = [
        "run",
        "--neighbours",
        "--listing",
        "--drops",
        "--every",
        "10",
        "--until-eof",
        "--log",
        "area.log",
        "--json",
        "forever",
        "a.toml",
    ];
    let run = run_of(rt.alloc(), &words)?;
    assert!(rt; run.ticks.is_none() && run.until_eof);
    assert!(rt; run.neighbours && run.listing && run.drops);
    assert_eq!(rt; run.every, Some(10));
    assert_eq!(rt; run.log.as_deref(), Some("area.log"));
    assert!(rt; run.json);
    assert!(rt; !run.lsdb && run.log_lsas.is_none());
    assert_eq!(rt; run.files.len(), 1);
    assert!(rt; job(rt.alloc(), &["run", "never", "a.toml"]).is_err());
    Ok(())
}

#[test]
fn reads_what_is_told_of_lsas(rt: HostRuntime) -> Result<(), Fail> {
    let words = ["run", "--lsdb", "--json", "--log-lsas", "lsas.log", "60", "a.toml"];
    let run = run_of(rt.alloc(), &words)?;
    assert!(rt; run.lsdb && !run.listing);
    assert_eq!(rt; run.log_lsas.as_deref(), Some("lsas.log"));
    assert!(rt; run.json && run.log.is_none());
    let plain = run_of(rt.alloc(), &["run", "--listing", "--log", "a.log", "forever", "a.toml"])?;
    assert!(rt; plain.listing && !plain.lsdb && !plain.json);
    assert_eq!(rt; plain.log.as_deref(), Some("a.log"));
    assert!(rt; plain.log_lsas.is_none());
    Ok(())
}
