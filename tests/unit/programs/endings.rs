//! The exit status of a simulation: by what its lines expect, by the lines that are refused, and by the files that were wanted.

use super::failing::Failing;
use super::given::{CONFIG, FIRST};
use super::program::Nobody;
use ospf_files::{Failure, NamedFile, Status};
use ospf_journal::RouterChange;
use ospf_views::records::Journal;
use ospf_sim::{Console, SimStatus, console_text, sim_text};
use std::alloc::{AllocError, Global};
use std::io::BufReader;
use std::test::Fail;

// Lines, the exit status of a simulation, and that of a strict one.
static SCRIPTS: [(&str, u8, u8); 14] = [
    ("", 0, 0),
    ("say a\nstart all\nup all\nsettle 60\nexpect agree\n", 0, 0),
    ("stop 9.9.9.9\n", 0, 1),
    ("tick 1.1.1.1\n", 0, 1),
    ("deliver 9 1.1.1.1 0\n", 0, 1),
    ("cut 10.9.9.9\n", 0, 1),
    ("mend 10.9.9.9\n", 0, 1),
    ("loss 10 7 10.9.9.9\n", 0, 1),
    ("why 9.9.9.9 0\n", 0, 1),
    ("table 9.9.9.9\n", 0, 1),
    ("walk 9.9.9.9 10.0.0.1\n", 0, 1),
    ("stop 9.9.9.9\nsay a\nsay b\n", 0, 1),
    ("expect full 1.1.1.1 2.2.2.2\n", 1, 1),
    ("stop 9.9.9.9\nexpect full 1.1.1.1 2.2.2.2\nsay a\n", 1, 1),
];

// A line that spells no command ends a script with status 3, strict or not.
static ENDED: [&str; 3] = ["settel 9\n", "settle\n", "stop 9.9.9.9\nexpect ful 1.1.1.1 2.2.2.2\n"];

fn file(alloc: Global, name: &str, text: &str) -> Result<NamedFile, AllocError> {
    Ok(NamedFile {
        name: String::from_str(alloc, name)?,
        bytes: Some(text.as_bytes().to_vec(alloc)?),
    })
}

// The exit status of a script over a configuration in a file of this text.
fn code_of(alloc: Global, lines: &str, config: &str, strict: bool) -> Result<u8, AllocError> {
    let (mut out, mut err) = (Vec::new(alloc), Vec::new(alloc));
    let script = file(alloc, "script", lines)?;
    let files = [file(alloc, "a.toml", config)?];
    let simulated = sim_text(alloc, &script, &files, strict, &mut out, &mut err, &mut Nobody);
    Ok(simulated.end.code())
}

// That of the same lines at a console.
fn console_code_of(alloc: Global, lines: &str, strict: bool) -> Result<u8, Fail> {
    let (mut out, mut err) = (Vec::new(alloc), Vec::new(alloc));
    let files = [file(alloc, "a.toml", CONFIG)?];
    let console = Console {
        input: BufReader::new(alloc, lines.as_bytes())?,
        prompt: "",
    };
    let simulated = console_text(alloc, console, &files, strict, &mut out, &mut err, &mut Nobody);
    Ok(simulated.end.code())
}

#[test]
fn refused_lines_count_where_it_is_strict(rt: HostRuntime) -> Result<(), Fail> {
    let alloc = rt.alloc();
    for (lines, code, strict_code) in &SCRIPTS {
        assert_eq!(rt; code_of(alloc, lines, CONFIG, false)?, *code, "{lines}");
        assert_eq!(rt; code_of(alloc, lines, CONFIG, true)?, *strict_code, "{lines}");
        assert_eq!(rt; console_code_of(alloc, lines, false)?, *code, "{lines}");
        assert_eq!(rt; console_code_of(alloc, lines, true)?, *strict_code, "{lines}");
    }
    Ok(())
}

// At a console such a line is passed over.
#[test]
fn lines_that_spell_no_command(rt: HostRuntime) -> Result<(), Fail> {
    let alloc = rt.alloc();
    for lines in &ENDED {
        for strict in [false, true] {
            assert_eq!(rt; code_of(alloc, lines, CONFIG, strict)?, 3, "{lines}");
        }
        assert_eq!(rt; console_code_of(alloc, lines, false)?, 0, "{lines}");
        assert_eq!(rt; console_code_of(alloc, lines, true)?, 1, "{lines}");
    }
    Ok(())
}

// A configuration that is refused comes before all lines.
#[test]
fn refused_configurations(rt: HostRuntime) -> Result<(), Fail> {
    let alloc = rt.alloc();
    for strict in [false, true] {
        assert_eq!(rt; code_of(alloc, "stop 9.9.9.9\n", "x", strict)?, 3);
    }
    Ok(())
}

#[test]
fn files_that_were_wanted(rt: HostRuntime) -> Result<(), Fail> {
    let (done, refused) = (SimStatus::Ended(Status::Done), SimStatus::Ended(Status::Refused));
    for (end, journal, is_recorded, code) in [
        (done, None, true, 0),
        (done, None, false, 5),
        (done, Some(Failure::Memory), true, 4),
        (done, Some(Failure::Memory), false, 4),
        (done, Some(Failure::Output), true, 5),
        (SimStatus::Unmet, None, true, 1),
        (SimStatus::Unmet, None, false, 5),
        (SimStatus::Unmet, Some(Failure::Memory), true, 4),
        (refused, None, true, 3),
    ] {
        assert_eq!(rt; end.with_files(journal, is_recorded).code(), code);
    }
    Ok(())
}

// Why a journal is not written whole: memory for a line, or its file. What fails first stays.
#[test]
fn failures_of_a_journal(rt: HostRuntime) -> Result<(), Fail> {
    let alloc = rt.alloc();
    let mut short = Journal::new(Vec::new(alloc), false);
    assert_eq!(rt; short.failure(), None);
    short.write(alloc, 0, FIRST, Err(AllocError));
    assert_eq!(rt; short.failure(), Some(Failure::Memory));
    short.write(alloc, 1, FIRST, Ok(Vec::new(alloc)));
    assert_eq!(rt; short.failure(), Some(Failure::Memory));
    for left in 0..3 {
        let mut broken = Journal::new(Failing { left }, false);
        let mut changes = Vec::new(alloc);
        changes.push(RouterChange::Started)?;
        broken.write(alloc, 0, FIRST, Ok(changes));
        let failure = if left < 2 { Some(Failure::Output) } else { None };
        assert_eq!(rt; broken.failure(), failure, "{left}");
        assert_eq!(rt; broken.is_written(), left == 2, "{left}");
        broken.write(alloc, 1, FIRST, Err(AllocError));
        assert_eq!(rt; broken.failure(), Some(failure.unwrap_or(Failure::Memory)), "{left}");
    }
    Ok(())
}
