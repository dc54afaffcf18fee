//! What the programs write is flushed: over streams that keep it until then, the status tells of one that fails, be it as it is
//! given the bytes or as it is flushed itself.

use super::failing::Failing;
use super::given::{CONFIG, FIRST};
use super::program::Nobody;
use ospf_base::Addr;
use ospf_check::check_text;
use ospf_files::{NamedFile, Status, Telling};
use ospf_router::{Router, Sent, Step};
use ospf_run::{Config, Drops, Settings, Tap, run_text};
use ospf_sim::sim_text;
use ospf_table::{TableJob, table_text};
use std::alloc::{AllocError, Global};
use std::io::{self, BufWriter, Write};
use std::net::Net;
use std::sync::Wait;
use std::test::Fail;
use std::thread::Threads;
use std::time::Clock;

#[derive(Clone, Copy, Debug)]
enum Program {
    Table,
    Check,
    Sim,
    Run,
}

const PROGRAMS: [Program; 4] = [Program::Table, Program::Check, Program::Sim, Program::Run];

// What a program is given: what it answers on standard output, or what it tells of on standard error.
#[derive(Clone, Copy, Debug)]
enum Given {
    Good,
    Refused,
}

impl Tap for Nobody {
    fn another(&self, _file: &NamedFile, _config: &Config) -> Result<Nobody, AllocError> {
        Ok(Nobody)
    }

    fn ticks(&mut self) {}

    fn hears(&mut self, _link: usize, _source: Addr, _packet: &[u8]) {}

    fn sees(&mut self, _router: &Router, _step: &Step) {}

    fn sends(&mut self, _sent: &Sent) {}

    fn ends(&mut self) {}

    fn drops(&self, alloc: Global) -> Result<Vec<Drops>, AllocError> {
        Ok(Vec::new(alloc))
    }
}

fn file(alloc: Global, name: &str, text: &str) -> Result<NamedFile, AllocError> {
    Ok(NamedFile {
        name: String::from_str(alloc, name)?,
        bytes: Some(text.as_bytes().to_vec(alloc)?),
    })
}

// The table of an empty area, with a lookup; or a line that is no LSA.
fn table<R: Wait, O: Write, E: Write>(
    rt: &R,
    alloc: Global,
    given: Given,
    out: &mut O,
    err: &mut E,
) -> Result<Status, AllocError> {
    let mut addresses = Vec::new(alloc);
    addresses.push(Addr(0x0a00_0001))?;
    let job = TableJob {
        root: FIRST,
        addresses,
    };
    let input: &[u8] = match given {
        Given::Good => b"",
        Given::Refused => b"zz",
    };
    Ok(table_text(alloc, rt, &job, input, out, err))
}

// A floor that is printed, or an event that is refused.
fn sim<O: Write, E: Write>(
    alloc: Global,
    given: Given,
    out: &mut O,
    err: &mut E,
) -> Result<Status, AllocError> {
    let script = match given {
        Given::Good => "start 1.1.1.1 1\nfloor 1.1.1.1\n",
        Given::Refused => "tick 1.1.1.1\n",
    };
    let script = file(alloc, "script", script)?;
    let files = [file(alloc, "a.toml", CONFIG)?];
    Ok(sim_text(alloc, &script, &files, false, out, err, &mut Nobody).status)
}

// A configuration, or none.
fn check<O: Write, E: Write>(
    alloc: Global,
    given: Given,
    out: &mut O,
    err: &mut E,
) -> Result<Status, AllocError> {
    let text = match given {
        Given::Good => CONFIG,
        Given::Refused => "x",
    };
    let files = [file(alloc, "a.toml", text)?];
    Ok(check_text(alloc, &files, Telling::Verdict, out, err))
}

// A router that runs for a tick, or a floor that is none.
fn run<R: Net + Threads + Wait + Clock + Copy + Send + Drop + 'static, O: Write, E: Write>(
    rt: &R,
    alloc: Global,
    given: Given,
    out: &mut O,
    err: &mut E,
) -> Result<Status, AllocError> {
    let floor = match given {
        Given::Good => "80000000",
        Given::Refused => "8",
    };
    let settings = Settings {
        ticks: Some(1),
        ending: None,
        milliseconds: 1,
        lookup: None,
        floor: Some(String::from_str(alloc, floor)?),
        neighbours: false,
        listing: false,
        lsdb: false,
        drops: false,
    };
    let text = format!(in alloc; "{CONFIG}port = 17109\n")?;
    let files = [file(alloc, "a.toml", &text)?];
    Ok(run_text::<Router, _, _, _, _>(rt, alloc, &settings, &files, &Nobody, out, err))
}

fn status_of<R: Net + Threads + Wait + Clock + Copy + Send + Drop + 'static, O: Write, E: Write>(
    rt: &R,
    alloc: Global,
    program: Program,
    given: Given,
    out: &mut O,
    err: &mut E,
) -> Result<Status, AllocError> {
    match program {
        Program::Table => table(rt, alloc, given, out, err),
        Program::Check => check(alloc, given, out, err),
        Program::Sim => sim(alloc, given, out, err),
        Program::Run => run(rt, alloc, given, out, err),
    }
}

// A stream that is given bytes, and flushed, so often before it fails; it is given none before it is flushed.
fn kept(alloc: Global, left: usize) -> io::Result<BufWriter<Failing>> {
    BufWriter::new(alloc, Failing { left })
}

#[test]
fn output_that_is_not_flushed_is_told(rt: HostRuntime) -> Result<(), Fail> {
    let alloc = rt.alloc();
    for program in PROGRAMS {
        for left in 0..2 {
            let (mut out, mut err) = (kept(alloc, left)?, Vec::new(alloc));
            let status = status_of(&rt, alloc, program, Given::Good, &mut out, &mut err)?;
            assert_eq!(rt; status, Status::Stream, "{program:?} {left}");
            let told = b"standard output: not written\n".as_slice();
            assert_eq!(rt; err.as_slice(), told, "{program:?} {left}");
        }
        let (mut out, mut err) = (kept(alloc, 2)?, Vec::new(alloc));
        let status = status_of(&rt, alloc, program, Given::Good, &mut out, &mut err)?;
        assert_eq!(rt; status, Status::Done, "{program:?}");
        assert!(rt; err.is_empty(), "{program:?}");
    }
    Ok(())
}

#[test]
fn errors_that_are_not_flushed_fail(rt: HostRuntime) -> Result<(), Fail> {
    let alloc = rt.alloc();
    for program in PROGRAMS {
        for left in 0..2 {
            let (mut out, mut err) = (Vec::new(alloc), kept(alloc, left)?);
            let status = status_of(&rt, alloc, program, Given::Refused, &mut out, &mut err)?;
            assert_eq!(rt; status, Status::Stream, "{program:?} {left}");
            assert!(rt; out.is_empty(), "{program:?} {left}");
        }
        let (mut out, mut err) = (Vec::new(alloc), kept(alloc, 2)?);
        let status = status_of(&rt, alloc, program, Given::Refused, &mut out, &mut err)?;
        // A simulation goes on after an event that is refused.
        let expected = match program {
            Program::Sim => Status::Done,
            _ => Status::Refused,
        };
        assert_eq!(rt; status, expected, "{program:?}");
        assert!(rt; out.is_empty(), "{program:?}");
    }
    Ok(())
}
