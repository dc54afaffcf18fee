//! Whole answers to words and input.

use super::failing::Failing;
use ospf_change::edit::{EditJob, edit_text};
use ospf_check::{check_area_json, check_area_text, check_lines, check_text};
use ospf_failures::{Progress, failures_text};
use ospf_files::{FailedStreams, Failure, NamedFile, Status, tell_unread};
use ospf_inspect::inspect_text;
use ospf_sim::{EventWatch, Watch, World, WorldEvent, WorldFault, sim_text};
use ospf_table::table_text;
use ospf_words::{CheckJob, EditWords, Job, JobFault, job, not_text};
use std::alloc::{AllocError, AllocGlobal, Global};
use std::io::{self, BufReader, BufWriter, ErrorKind, Read, Write};
use std::sync::Wait;
use std::test::Fail;
use std::thread::Threads;

// Words, the input, and what is to come of them.
struct Case {
    name: &'static str,
    words: &'static str,
    input: &'static str,
    out: &'static str,
    err: &'static str,
    status: u8,
}

// Input that has a table.
static TABLES: [Case; 21] = [
    Case {
        name: "age above the greatest",
        words: "table 1.1.1.1",
        input: "ffff0201010101010101010180000001e22c003000000002020202020a0000010100000a0a000000fffffffc0300000a\n",
        out: "",
        err: "",
        status: 0,
    },
    Case {
        name: "blank lines and ends",
        words: "table 1.1.1.1",
        input: "   \r\n00000201010101010101010180000001E22C003000000002020202020A0000010100000A0A000000FFFFFFFC0300000A\r\n\n0000020102020202020202028000000197f1003c00000003010101010a0000020100000a0a000000fffffffc0300000ac0a80200ffffff0003000005",
        out: "10.0.0.0/30 10 attached\n192.168.2.0/24 15 10.0.0.1>2.2.2.2\n",
        err: "",
        status: 0,
    },
    Case {
        name: "cheaper stub",
        words: "table 1.1.1.1",
        input: "000002010101010101010101800000014879003c00000003020202020a0000010100000a030303030a0000050100000a040404040a0000090100000a\n00000201020202020202020280000001926a003000000002010101010a0000020100000a0a0100020a01000202000005\n00000201030303030303030380000001ae40003000000002010101010a0000060100000a0a0100030a01000302000005\n0000020104040404040404048000000108eb003000000002010101010a00000a0100000a0a010000ffffff0003000004\n000002020a0100020202020280000001de62001cffffff0002020202\n000002020a0100030303030380000001d85f001cffffff0003030303\n",
        out: "10.1.0.0/24 14 10.0.0.9>4.4.4.4\n",
        err: "",
        status: 0,
    },
    Case {
        name: "default route and longest match",
        words: "table 1.1.1.1 10.1.2.3 10.1.9.9 172.16.0.1",
        input: "00000201010101010101010180000001ffde0048000000040a010000ffff0000030000030a010200ffffff00030000070000000000000000030000090a010203ffffffff03000001\n",
        out: "0.0.0.0/0 9 attached\n10.1.0.0/16 3 attached\n10.1.2.0/24 7 attached\n10.1.2.3/32 1 attached\nlookup 10.1.2.3 10.1.2.3/32 1 attached\nlookup 10.1.9.9 10.1.0.0/16 3 attached\nlookup 172.16.0.1 0.0.0.0/0 9 attached\n",
        err: "",
        status: 0,
    },
    Case {
        name: "DoNotAge, at the ages 1 and 3599 without it",
        words: "table 1.1.1.1",
        input: "80010201010101010101010180000001e22c003000000002020202020a0000010100000a0a000000fffffffc0300000a\n8e0f020102020202020202028000000197f1003c00000003010101010a0000020100000a0a000000fffffffc0300000ac0a80200ffffff0003000005\n",
        out: "10.0.0.0/30 10 attached\n192.168.2.0/24 15 10.0.0.1>2.2.2.2\n",
        err: "",
        status: 0,
    },
    Case {
        name: "DoNotAge, at the age 3600 without it",
        words: "table 1.1.1.1",
        input: "80010201010101010101010180000001e22c003000000002020202020a0000010100000a0a000000fffffffc0300000a\n8e10020102020202020202028000000197f1003c00000003010101010a0000020100000a0a000000fffffffc0300000ac0a80200ffffff0003000005\n",
        out: "10.0.0.0/30 10 attached\n",
        err: "",
        status: 0,
    },
    Case {
        name: "expired are left out",
        words: "table 1.1.1.1",
        input: "0e100201010101010101010180000001e22c003000000002020202020a0000010100000a0a000000fffffffc0300000a\n0e100201010101010101010180000001e22c003000000002020202020a0000010100000a0a000000fffffffc0300000a\n",
        out: "",
        err: "",
        status: 0,
    },
    Case {
        name: "greatest metric",
        words: "table 2.2.2.2",
        input: "00000201010101010101010180000001c00a004800000004020202020a0000010100ffff0a000000fffffffc0300000a030303030a0000050100ffff0a000004fffffffc0300000a\n000002010202020202020202800000018287003000000002010101010a0000020100000a0a000000fffffffc0300000a\n00000201030303030303030380000001dcf8003c00000003010101010a0000060100000a0a000004fffffffc0300000a0a090000ffff000003000001\n",
        out: "10.0.0.0/30 10 attached\n10.0.0.4/30 20 10.0.0.2>1.1.1.1\n10.9.0.0/16 65546 10.0.0.2>1.1.1.1\n",
        err: "",
        status: 0,
    },
    Case {
        name: "link and lan tie",
        words: "table 1.1.1.1",
        input: "000002010101010101010101800000013aa2003c00000003020202020a0000010100000a0a000000fffffffc0300000a0a0100020a0100010200000a\n000002010202020202020202800000012b87004800000004010101010a0000020100000a0a000000fffffffc0300000a0a0100020a0100020200000a0a090000ffff000003000001\n000002020a010002020202028000000129100020ffffff000101010102020202\n",
        out: "10.0.0.0/30 10 attached\n10.1.0.0/24 10 attached\n10.9.0.0/16 11 10.0.0.1>2.2.2.2,10.1.0.1>2.2.2.2@10.1.0.2\n",
        err: "",
        status: 0,
    },
    Case {
        name: "no link back",
        words: "table 1.1.1.1",
        input: "00000201010101010101010180000001e22c003000000002020202020a0000010100000a0a000000fffffffc0300000a\n0000020102020202020202028000000129a9002400000001c0a80200ffffff0003000005\n",
        out: "10.0.0.0/30 10 attached\n",
        err: "",
        status: 0,
    },
    Case {
        name: "nothing listed",
        words: "table 1.1.1.1",
        input: "",
        out: "",
        err: "",
        status: 0,
    },
    Case {
        name: "one prefix on two networks",
        words: "table 1.1.1.1",
        input: "000002010101010101010101800000014879003c00000003020202020a0000010100000a030303030a0000050100000a040404040a0000090100000a\n00000201020202020202020280000001926a003000000002010101010a0000020100000a0a0100020a01000202000005\n00000201030303030303030380000001ae40003000000002010101010a0000060100000a0a0100030a01000302000005\n0000020104040404040404048000000126cc003000000002010101010a00000a0100000a0a010000ffffff0003000005\n000002020a0100020202020280000001de62001cffffff0002020202\n000002020a0100030303030380000001d85f001cffffff0003030303\n",
        out: "10.1.0.0/24 15 10.0.0.5>3.3.3.3,10.0.0.9>4.4.4.4\n",
        err: "",
        status: 0,
    },
    Case {
        name: "root not listed",
        words: "table 9.9.9.9 10.0.0.1",
        input: "00000201010101010101010180000001e22c003000000002020202020a0000010100000a0a000000fffffffc0300000a\n0000020102020202020202028000000197f1003c00000003010101010a0000020100000a0a000000fffffffc0300000ac0a80200ffffff0003000005\n",
        out: "lookup 10.0.0.1 none\n",
        err: "9.9.9.9: no router-LSA of this router\n",
        status: 0,
    },
    Case {
        name: "two links to one lan",
        words: "table 1.1.1.1",
        input: "000002010101010101010101800000013aa2003c00000003020202020a0000010100000a0a000000fffffffc0300000a0a0100020a0100010200000a\n0000020102020202020202028000000182f7005400000005010101010a0000020100000a0a000000fffffffc0300000a0a0100020a0100020200000a0a0100020a0100070200000a0a090000ffff000003000001\n000002020a010002020202028000000129100020ffffff000101010102020202\n",
        out: "10.0.0.0/30 10 attached\n10.1.0.0/24 10 attached\n10.9.0.0/16 11 10.0.0.1>2.2.2.2,10.1.0.1>2.2.2.2@10.1.0.2\n",
        err: "",
        status: 0,
    },
    Case {
        name: "two links to one lan other order",
        words: "table 1.1.1.1",
        input: "000002010101010101010101800000013aa2003c00000003020202020a0000010100000a0a000000fffffffc0300000a0a0100020a0100010200000a\n000002010202020202020202800000014634005400000005010101010a0000020100000a0a000000fffffffc0300000a0a0100020a0100070200000a0a0100020a0100020200000a0a090000ffff000003000001\n000002020a010002020202028000000129100020ffffff000101010102020202\n",
        out: "10.0.0.0/30 10 attached\n10.1.0.0/24 10 attached\n10.9.0.0/16 11 10.0.0.1>2.2.2.2,10.1.0.1>2.2.2.2@10.1.0.7\n",
        err: "",
        status: 0,
    },
    Case {
        name: "two routers",
        words: "table 1.1.1.1 192.168.2.9 10.9.9.9",
        input: "00000201010101010101010180000001e22c003000000002020202020a0000010100000a0a000000fffffffc0300000a\n0000020102020202020202028000000197f1003c00000003010101010a0000020100000a0a000000fffffffc0300000ac0a80200ffffff0003000005\n",
        out: "10.0.0.0/30 10 attached\n192.168.2.0/24 15 10.0.0.1>2.2.2.2\nlookup 192.168.2.9 192.168.2.0/24 15 10.0.0.1>2.2.2.2\nlookup 10.9.9.9 none\n",
        err: "",
        status: 0,
    },
    Case {
        name: "zero metric stub",
        words: "table 1.1.1.1",
        input: "00000201010101010101010180000001b563003000000002020202020a0000010100000a0a000000fffffffc03000000\n",
        out: "10.0.0.0/30 0 attached\n",
        err: "",
        status: 0,
    },
    Case {
        name: "routes outside the AS that are not asked for",
        words: "table 2.2.2.2",
        input: "00010201020202020202020280000001ec64001802000000\n",
        out: "",
        err: "",
        status: 0,
    },
    Case {
        name: "an AS boundary router, and no route",
        words: "table 2.2.2.2 10.9.9.9 10.8.8.8",
        input: "00010201020202020202020280000001ec64001802000000\n",
        out: "lookup 10.9.9.9 none\nlookup 10.8.8.8 none\n",
        err: "2.2.2.2: AS boundary router: external routes are not computed\n",
        status: 0,
    },
    Case {
        name: "a border router, and no route",
        words: "table 2.2.2.2 10.9.9.9",
        input: "00010201020202020202020280000001e968001801000000\n",
        out: "lookup 10.9.9.9 none\n",
        err: "2.2.2.2: border router: routes to and through other areas are not computed\n",
        status: 0,
    },
    Case {
        name: "both, and no router-LSA of the root",
        words: "table 9.9.9.9 10.9.9.9",
        input: "0001020101010101010101018000000190ab00181f000000\n00010201020202020202020280000001ec64001802000000\n",
        out: "lookup 10.9.9.9 none\n",
        err: "9.9.9.9: no router-LSA of this router\n1.1.1.1: AS boundary router, 1.1.1.1: border router: routes outside the area are not computed\n",
        status: 0,
    },
];

// Words or input that are refused.
static REFUSED: [Case; 18] = [
    Case {
        name: "bad address",
        words: "table 1.1.1.1 10.0.0.256 x",
        input: "00000201010101010101010180000001e22c003000000002020202020a0000010100000a0a000000fffffffc0300000a\n",
        out: "",
        err: "10.0.0.256: not an address\n",
        status: 2,
    },
    Case {
        name: "bad root",
        words: "table 1.1",
        input: "",
        out: "",
        err: "1.1: not an address\n",
        status: 2,
    },
    Case {
        name: "cut short",
        words: "table 1.1.1.1",
        input: "00000201010101010101010180000001e22c003000000002020202020a0000010100000a0a000000fffffffc030000\n",
        out: "",
        err: "line 1: L1 Short\n",
        status: 3,
    },
    Case {
        name: "not hex carriage return twice",
        words: "table 1.1.1.1",
        input: "\n00000201010101010101010180000001e22c003000000002020202020a0000010100000a0a000000fffffffc0300000a\r\r\n",
        out: "",
        err: "line 2: not hex\n",
        status: 3,
    },
    Case {
        name: "not hex leading space",
        words: "table 1.1.1.1",
        input: "\n 00000201010101010101010180000001e22c003000000002020202020a0000010100000a0a000000fffffffc0300000a\n",
        out: "",
        err: "line 2: not hex\n",
        status: 3,
    },
    Case {
        name: "not hex no digits",
        words: "table 1.1.1.1",
        input: "\nzz\n",
        out: "",
        err: "line 2: not hex\n",
        status: 3,
    },
    Case {
        name: "not hex odd digits",
        words: "table 1.1.1.1",
        input: "\n0\n",
        out: "",
        err: "line 2: not hex\n",
        status: 3,
    },
    Case {
        name: "not hex tab",
        words: "table 1.1.1.1",
        input: "\n\t\n",
        out: "",
        err: "line 2: not hex\n",
        status: 3,
    },
    Case {
        name: "one key twice",
        words: "table 1.1.1.1",
        input: "00000201010101010101010180000001e22c003000000002020202020a0000010100000a0a000000fffffffc0300000a\n00000201010101010101010180000001e22c003000000002020202020a0000010100000a0a000000fffffffc0300000a\n",
        out: "",
        err: "line 2: K1 Twice\n",
        status: 3,
    },
    Case {
        name: "too long",
        words: "table 1.1.1.1",
        input: "00000201010101010101010180000001e22c003000000002020202020a0000010100000a0a000000fffffffc0300000a00\n",
        out: "",
        err: "line 1: L2 Length\n",
        status: 3,
    },
    Case {
        name: "wrong sum",
        words: "table 1.1.1.1",
        input: "00000201010101010101010180000001e22c003000000002020202020a0000010100000a0a000000fffffffc0300000b\n",
        out: "",
        err: "line 1: L3 Sum\n",
        status: 3,
    },
    Case {
        name: "zero metric refused",
        words: "table 1.1.1.1",
        input: "000002010101010101010101800000012eea003000000002020202020a000001010000000a000000fffffffc0300000a\n",
        out: "",
        err: "line 1: L7 ZeroMetric\n",
        status: 3,
    },
    Case {
        name: "zero sum",
        words: "table 1.1.1.1",
        input: "000002010101010101010101800000010000003000000002020202020a0000010100000a0a000000fffffffc0300000a\n",
        out: "",
        err: "line 1: L3 Sum\n",
        status: 3,
    },
    Case {
        name: "a line feed",
        words: "table 1.1.1.1",
        input: "00000201010101010101010180000001e22c003000000002020202020a0000010100000a0a000000fffffffc0300000a\n00000201010101010101010180000001e22c003000000002020202020a0000010100000a0a000000fffffffc0300000a\n",
        out: "",
        err: "line 2: K1 Twice\n",
        status: 3,
    },
    Case {
        name: "a carriage return and a line feed",
        words: "table 1.1.1.1",
        input: "00000201010101010101010180000001e22c003000000002020202020a0000010100000a0a000000fffffffc0300000a\r\n00000201010101010101010180000001e22c003000000002020202020a0000010100000a0a000000fffffffc0300000a\r\n",
        out: "",
        err: "line 2: K1 Twice\n",
        status: 3,
    },
    Case {
        name: "no end",
        words: "table 1.1.1.1",
        input: "00000201010101010101010180000001e22c003000000002020202020a0000010100000a0a000000fffffffc0300000a\n00000201010101010101010180000001e22c003000000002020202020a0000010100000a0a000000fffffffc0300000a",
        out: "",
        err: "line 2: K1 Twice\n",
        status: 3,
    },
    Case {
        name: "a carriage return and no line feed",
        words: "table 1.1.1.1",
        input: "00000201010101010101010180000001e22c003000000002020202020a0000010100000a0a000000fffffffc0300000a\n00000201010101010101010180000001e22c003000000002020202020a0000010100000a0a000000fffffffc0300000a\r",
        out: "",
        err: "line 2: not hex\n",
        status: 3,
    },
    Case {
        name: "a line feed first",
        words: "table 1.1.1.1",
        input: "\n\r\n  \n00000201010101010101010180000001e22c003000000002020202020a0000010100000a0a000000fffffffc0300000a\n00000201010101010101010180000001e22c003000000002020202020a0000010100000a0a000000fffffffc0300000a",
        out: "",
        err: "line 5: K1 Twice\n",
        status: 3,
    },
];

// What was written, and the exit status.
#[derive(Drop)]
pub(crate) struct Outcome {
    pub(crate) out: Vec<u8>,
    pub(crate) err: Vec<u8>,
    pub(crate) status: u8,
}

// A file that cannot be read.
fn unread_file(name: String) -> NamedFile {
    NamedFile { name, bytes: None }
}

// Files that cannot be read.
fn unread(alloc: Global, names: Vec<String>) -> Result<Vec<NamedFile>, AllocError> {
    let mut files = Vec::with_capacity(alloc, names.len())?;
    for name in names {
        files.push(unread_file(name))?;
    }
    Ok(files)
}

// Nobody is told how far a simulation has come, or the failures of an area.
#[derive(Drop)]
pub(crate) struct Nobody;

impl Progress for Nobody {
    fn comes(&mut self, _done: usize, _count: usize) {}
}

impl EventWatch for Nobody {
    fn comes(&mut self, _world: &World, _event: &WorldEvent) {}

    fn came(&mut self, _world: &World, _event: &WorldEvent, _answer: &Result<(), WorldFault>) {}
}

impl Watch for Nobody {
    fn begins_round(&mut self, _done: u64, _count: u64) {}

    fn draws_events(&mut self, _done: u64, _count: u64) {}

    fn ends_line(&mut self) {}
}

// The changes that words ask for.
fn changes(words: EditWords) -> EditJob {
    let EditWords {
        down,
        costs,
        drains,
    } = words;
    EditJob {
        down,
        costs,
        drains,
    }
}

// What is said of the first of two files that cannot be read.
fn unread_area<E: Write>(alloc: Global, name: String, err: &mut E) -> Status {
    let mut streams = FailedStreams::none();
    match tell_unread(alloc, &unread_file(name), err, &mut streams) {
        Ok(()) => Status::Stream,
        Err(failure) => failure.tell(err, &mut streams),
    }
}

// Does what words say, where no file can be read.
fn status_of<R: AllocGlobal + Threads + Wait + Sync, O: Write, E: Write>(
    rt: &R,
    alloc: Global,
    words: &str,
    input: &[u8],
    out: &mut O,
    err: &mut E,
) -> Result<u8, AllocError> {
    let words: Vec<&str> = words.split_whitespace().collect(alloc)?;
    let status = match job(alloc, &words) {
        Ok(Job::Table(table)) => table_text(alloc, rt, &table, input, out, err),
        Ok(Job::Failures(failures)) => {
            return Ok(failures_text(rt, &failures, input, out, err, &mut Nobody).code());
        }
        Ok(Job::Inspect(inspect)) => return Ok(inspect_text(alloc, &inspect, input, out, err)),
        Ok(Job::Edit(edit)) => return Ok(edit_text(alloc, &changes(edit), input, out, err)),
        Ok(Job::Diff(diff)) => unread_area(alloc, diff.before, err),
        Ok(Job::Check(check)) => {
            let CheckJob {
                files,
                how,
                area,
                json,
                lines,
            } = check;
            let files = unread(alloc, files)?;
            if lines {
                check_lines(alloc, &files, how, area, out, err)
            } else if json {
                check_area_json(alloc, &files, out, err)
            } else if area {
                check_area_text(alloc, &files, how, out, err)
            } else {
                check_text(alloc, &files, how, out, err)
            }
        }
        Ok(Job::Sim(sim)) => {
            let script = unread_file(sim.script);
            let files = unread(alloc, sim.files)?;
            sim_text(alloc, &script, &files, sim.strict, out, err, &mut Nobody).status
        }
        Ok(Job::Run(_)) => Status::Words,
        Err(fault) => fault.tell(out, err),
    };
    Ok(status.code())
}

// What comes of words and of input.
pub(crate) fn outcome_of<R: AllocGlobal + Threads + Wait + Sync>(
    rt: &R,
    alloc: Global,
    words: &str,
    input: &[u8],
) -> Result<Outcome, AllocError> {
    let mut out = Vec::new(alloc);
    let mut err = Vec::new(alloc);
    let status = status_of(rt, alloc, words, input, &mut out, &mut err)?;
    Ok(Outcome {
        out,
        err,
        status,
    })
}

#[test]
fn prints_tables(rt: HostRuntime) -> Result<(), Fail> {
    for case in &TABLES {
        let name = case.name;
        let outcome = outcome_of(&rt, rt.alloc(), case.words, case.input.as_bytes())?;
        assert_eq!(rt; outcome.status, case.status, "{name}");
        assert_eq!(rt; outcome.err.as_slice(), case.err.as_bytes(), "{name}");
        assert_eq!(rt; outcome.out.as_slice(), case.out.as_bytes(), "{name}");
    }
    Ok(())
}

#[test]
fn refuses(rt: HostRuntime) -> Result<(), Fail> {
    for case in &REFUSED {
        let name = case.name;
        let outcome = outcome_of(&rt, rt.alloc(), case.words, case.input.as_bytes())?;
        assert_eq!(rt; outcome.status, case.status, "{name}");
        assert_eq!(rt; outcome.err.as_slice(), case.err.as_bytes(), "{name}");
        assert!(rt; outcome.out.is_empty(), "{name}");
    }
    Ok(())
}

#[test]
fn not_hex_no_text(rt: HostRuntime) -> Result<(), Fail> {
    let outcome = outcome_of(&rt, rt.alloc(), "table 1.1.1.1", b"\n\xff\xff\n")?;
    assert_eq!(rt; outcome.status, 3);
    assert_eq!(rt; outcome.err.as_slice(), b"line 2: not hex\n".as_slice());
    assert!(rt; outcome.out.is_empty());
    Ok(())
}

#[test]
fn takes_a_long_line(rt: HostRuntime) -> Result<(), Fail> {
    let alloc = rt.alloc();
    let zeros = vec![in alloc; b'0'; 1 << 20]?;
    let long = outcome_of(&rt, alloc, "table 1.1.1.1", &zeros)?;
    assert_eq!(rt; long.status, 3);
    assert_eq!(rt; long.err.as_slice(), b"line 1: L2 Length\n".as_slice());
    assert!(rt; long.out.is_empty());
    Ok(())
}

// A reader that fails.
#[derive(Drop)]
struct Broken;

impl Read for Broken {
    fn read(&mut self, _buf: &mut [u8]) -> io::Result<usize> {
        Err(io::Error::from(ErrorKind::BrokenPipe))
    }
}

// What is told of standard output that takes so many writes, and holds what it is given until it is flushed.
fn told_of_output<R: AllocGlobal + Threads + Wait + Sync>(
    rt: &R,
    alloc: Global,
    left: usize,
    words: &str,
) -> Result<Outcome, Fail> {
    let mut out = BufWriter::new(alloc, Failing { left })?;
    let mut err = Vec::new(alloc);
    let status = status_of(rt, alloc, words, b"", &mut out, &mut err)?;
    Ok(Outcome {
        out: Vec::new(alloc),
        err,
        status,
    })
}

#[test]
fn flushes_what_it_writes(rt: HostRuntime) -> Result<(), Fail> {
    for words in ["table 1.1.1.1 10.0.0.1", "--version", "help"] {
        let told = told_of_output(&rt, rt.alloc(), 0, words)?;
        assert_eq!(rt; told.status, 5, "{words}");
        assert_eq!(rt;
            told.err.as_slice(),
            b"standard output: not written\n".as_slice(),
            "{words}"
        );
        assert_eq!(rt;
            told_of_output(&rt, rt.alloc(), 100, words)?.status,
            0,
            "{words}"
        );
    }
    Ok(())
}

#[test]
fn refused_words_are_printed(rt: HostRuntime) -> Result<(), Fail> {
    let alloc = rt.alloc();
    let word = String::from_str(alloc, "10.0.0.256")?;
    for (fault, text) in [
        (JobFault::Address(word), "10.0.0.256: not an address"),
        (JobFault::Memory, "J3 Memory"),
    ] {
        assert_eq!(rt; format!(in alloc; "{fault}")?.as_str(), text);
    }
    Ok(())
}

#[test]
fn tells_each_failure(rt: HostRuntime) -> Result<(), Fail> {
    for (failure, status, text) in [
        (Failure::Memory, 4, "out of memory\n"),
        (Failure::Input, 5, "standard input: not read\n"),
        (Failure::Output, 5, "standard output: not written\n"),
        (Failure::Error, 5, "standard error: not written\n"),
        (Failure::Closed, 5, "the published table is closed\n"),
    ] {
        let mut err = Vec::new(rt.alloc());
        assert_eq!(rt; failure.tell(&mut err, &mut FailedStreams::none()).code(), status, "{text}");
        assert_eq!(rt; err.as_slice(), text.as_bytes());
    }
    let mut err = Vec::new(rt.alloc());
    assert_eq!(rt;
        not_text(rt.alloc())
            .tell(&mut Failing { left: 0 }, &mut err)
            .code(),
        2
    );
    assert!(rt; err.starts_with(b"error: an argument is not UTF-8\n"));
    Ok(())
}

// The status where both writers take so many writes.
fn status_after<R: AllocGlobal + Threads + Wait + Sync>(
    rt: &R,
    alloc: Global,
    left: usize,
    words: &str,
    input: &[u8],
) -> Result<u8, AllocError> {
    let mut out = Failing { left };
    let mut err = Failing { left };
    status_of(rt, alloc, words, input, &mut out, &mut err)
}

#[test]
fn tells_of_failed_reads(rt: HostRuntime) -> Result<(), Fail> {
    let alloc = rt.alloc();
    let words = ["table", "1.1.1.1", "10.0.0.1"];
    for text in ["", "\n", "  \n ", "\n\n0"] {
        let Ok(Job::Table(table)) = job(alloc, &words) else {
            return Err(Fail::from("words"));
        };
        let input = BufReader::new(alloc, text.as_bytes().chain(Broken))?;
        let mut out = Vec::new(alloc);
        let mut err = Vec::new(alloc);
        let status = table_text(alloc, &rt, &table, input, &mut out, &mut err);
        assert_eq!(rt; status.code(), 5, "{text:?}");
        assert_eq!(rt;
            err.as_slice(),
            b"standard input: not read\n".as_slice(),
            "{text:?}"
        );
        assert!(rt; out.is_empty(), "{text:?}");
    }
    Ok(())
}

#[test]
fn tells_of_failed_writes(rt: HostRuntime) -> Result<(), Fail> {
    for (words, input, whole) in [
        ("table 1.1.1.1 10.0.0.1 10.0.0.2", b"".as_slice(), 0),
        ("table 1.1.1.1", b"zz".as_slice(), 3),
        ("--version", b"".as_slice(), 0),
        ("table x", b"".as_slice(), 2),
    ] {
        let mut needed = 100;
        for left in 0..100 {
            let status = status_after(&rt, rt.alloc(), left, words, input)?;
            if status == whole {
                needed = left;
                break;
            }
            assert_eq!(rt; status, 5, "{words} {left}");
        }
        assert!(rt; 1 < needed && needed < 100, "{words} {needed}");
    }
    Ok(())
}
