//! A console: what is answered to its lines, over an input, and where something fails.

use super::failing::Failing;
use super::given::CONFIG;
use super::program::Nobody;
use ospf_files::{NamedFile, Status};
use ospf_sim::{Console, Simulated, console_text};
use std::alloc::{AllocError, Global};
use std::io::{self, BufReader, ErrorKind, Read, Write};
use std::test::Fail;

// What stands before each line.
const PROMPT: &str = "> ";

// An input, and what is to come of it.
struct Case {
    input: &'static str,
    out: &'static str,
    err: &'static str,
    is_unmet: bool,
}

static CASES: [Case; 6] = [
    Case {
        input: "",
        out: "> ",
        err: "",
        is_unmet: false,
    },
    Case {
        input: "say a\nsay b\n",
        out: "> a\n> b\n> ",
        err: "",
        is_unmet: false,
    },
    // A carriage return belongs to the end of a line, and the last line needs none.
    Case {
        input: "say a # and more\r\n\r\n#\nsay b",
        out: "> a\n> > > b\n> ",
        err: "",
        is_unmet: false,
    },
    // Neither a line that is no command nor one that is refused ends it.
    Case {
        input: "tick\nstop 9.9.9.9\nsay a\n",
        out: "> > > a\n> ",
        err: "line 1: not a command\n  tick R\nline 2: W1 NoRouter\n",
        is_unmet: false,
    },
    // Only before a line feed a carriage return is none of the line.
    Case {
        input: "say a\ntick 1.1.1.1\r",
        out: "> a\n> > ",
        err: "line 2: not a command\n  tick R\n",
        is_unmet: false,
    },
    // What has come about stays.
    Case {
        input: "start 1.1.1.1 1\nup 1.1.1.1 0\nfly\nexpect full 1.1.1.1 2.2.2.2\ntable 1.1.1.1\n",
        out: "> > > > not met: expect full 1.1.1.1 2.2.2.2\n> 10.0.0.0/30 10 attached\n> ",
        err: "line 3: not a command\n  fly: no such command; the commands are start, stop, tick, up, down, deliver, cut, mend, round, batch, random, settle, neighbours, listing, table, walk, floor, say, why, datagrams, drops, lsas, loss, expect, label; each one alone, except say, shows its form\n",
        is_unmet: true,
    },
];

fn file(alloc: Global, text: Option<&str>) -> Result<NamedFile, AllocError> {
    let bytes = match text {
        Some(text) => Some(text.as_bytes().to_vec(alloc)?),
        None => None,
    };
    Ok(NamedFile {
        name: String::from_str(alloc, "a.toml")?,
        bytes,
    })
}

// What comes of an input, over a configuration in a file of this text, and what is written.
fn outcome<R: Read + Drop>(
    alloc: Global,
    text: Option<&str>,
    input: R,
) -> Result<(Simulated, Vec<u8>, Vec<u8>), Fail> {
    let (mut out, mut err) = (Vec::new(alloc), Vec::new(alloc));
    let console = Console {
        input: BufReader::new(alloc, input)?,
        prompt: PROMPT,
    };
    let files = [file(alloc, text)?];
    let simulated = console_text(alloc, console, &files, false, &mut out, &mut err, &mut Nobody);
    Ok((simulated, out, err))
}

#[test]
fn lines_are_answered(rt: HostRuntime) -> Result<(), Fail> {
    let alloc = rt.alloc();
    for case in &CASES {
        let (simulated, out, err) = outcome(alloc, Some(CONFIG), case.input.as_bytes())?;
        assert_eq!(rt; simulated.status, Status::Done, "{}", case.input);
        assert_eq!(rt; out.as_slice(), case.out.as_bytes(), "{}", case.input);
        assert_eq!(rt; err.as_slice(), case.err.as_bytes(), "{}", case.input);
        let is_unmet = simulated.left.map(|left| left.is_unmet);
        assert_eq!(rt; is_unmet, Some(case.is_unmet), "{}", case.input);
    }
    Ok(())
}

// Without a world no line is answered, and no prompt printed.
#[test]
fn no_world_has_no_console(rt: HostRuntime) -> Result<(), Fail> {
    let alloc = rt.alloc();
    for (text, status, told) in [
        (Some("x"), Status::Refused, "a.toml: C1 NotToml\n"),
        (None, Status::Stream, "a.toml: not read\n"),
    ] {
        let (simulated, out, err) = outcome(alloc, text, b"say a\n".as_slice())?;
        assert_eq!(rt; simulated.status, status, "{told}");
        assert_eq!(rt; err.as_slice(), told.as_bytes());
        assert!(rt; out.is_empty(), "{told}");
        assert!(rt; simulated.left.is_none(), "{told}");
    }
    Ok(())
}

// An input that gives a line, and the beginning of another, and fails.
#[derive(Drop)]
struct Broken {
    is_given: bool,
}

impl Read for Broken {
    fn read(&mut self, buf: &mut [u8]) -> io::Result<usize> {
        if self.is_given {
            return Err(io::Error::from(ErrorKind::BrokenPipe));
        }
        self.is_given = true;
        let mut text = b"say a\nsay b".as_slice();
        text.read(buf)
    }
}

#[test]
fn unread_input_is_told(rt: HostRuntime) -> Result<(), Fail> {
    let (simulated, out, err) = outcome(rt.alloc(), Some(CONFIG), Broken { is_given: false })?;
    assert_eq!(rt; simulated.status, Status::Stream);
    assert_eq!(rt; out.as_slice(), b"> a\n> ".as_slice());
    assert_eq!(rt; err.as_slice(), b"standard input: not read\n".as_slice());
    Ok(())
}

// However many writes and flushes standard output takes before it fails, that is told, and no line behind it is answered.
#[test]
fn unwritten_output_is_told(rt: HostRuntime) -> Result<(), Fail> {
    let alloc = rt.alloc();
    let files = [file(alloc, Some(CONFIG))?];
    let mut failures = 0;
    for left in 0..100 {
        let console = Console {
            input: BufReader::new(alloc, b"say a\ntick\nsay b\n".as_slice())?,
            prompt: PROMPT,
        };
        let mut err = Vec::new(alloc);
        let mut out = Failing { left };
        let simulated = console_text(alloc, console, &files, false, &mut out, &mut err, &mut Nobody);
        if simulated.status == Status::Done {
            break;
        }
        failures += 1;
        assert_eq!(rt; simulated.status, Status::Stream, "{left}");
        assert!(rt; err.ends_with(b"standard output: not written\n"), "{left}");
    }
    // Prompts, texts, and the flushes of both and of what is told.
    assert!(rt; failures > 8, "{failures}");
    assert!(rt; failures < 100, "{failures}");
    Ok(())
}
