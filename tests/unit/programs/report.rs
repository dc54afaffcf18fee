//! What a command has computed is printed whole, or a failure ends it, and says so last.

use super::failing::Failing;
use ospf_files::{Failure, Report, print_report};
use std::alloc::{AllocError, Global};
use std::test::Fail;

// A report of one line on each stream.
fn report(alloc: Global) -> Result<Report, AllocError> {
    Ok(Report {
        warnings: String::from_str(alloc, "LSAs left out at MaxAge: 1\n")?,
        text: String::from_str(alloc, "0001\n")?,
        status: 7,
    })
}

#[test]
fn a_report_is_printed_whole(rt: HostRuntime) -> Result<(), Fail> {
    let alloc = rt.alloc();
    let (mut out, mut err) = (Vec::new(alloc), Vec::new(alloc));
    let status = print_report(Ok(report(alloc)?), &mut out, &mut err);
    assert_eq!(rt; status, 7);
    assert_eq!(rt; out.as_slice(), b"0001\n".as_slice());
    assert_eq!(rt; err.as_slice(), b"LSAs left out at MaxAge: 1\n".as_slice());
    Ok(())
}

#[test]
fn without_a_report_only_the_failure_is_printed(rt: HostRuntime) -> Result<(), Fail> {
    let alloc = rt.alloc();
    for (failure, line, status) in [
        (Failure::Memory, "out of memory\n", 4),
        (Failure::Input, "standard input: not read\n", 5),
    ] {
        let (mut out, mut err) = (Vec::new(alloc), Vec::new(alloc));
        assert_eq!(rt; print_report(Err(failure), &mut out, &mut err), status, "{line}");
        assert_eq!(rt; err.as_slice(), line.as_bytes(), "{line}");
        assert!(rt; out.is_empty(), "{line}");
    }
    Ok(())
}

// The write fails, or the flush behind it.
#[test]
fn output_that_fails_is_named_behind_the_warnings(rt: HostRuntime) -> Result<(), Fail> {
    let alloc = rt.alloc();
    for left in 0..2 {
        let mut err = Vec::new(alloc);
        let status = print_report(Ok(report(alloc)?), &mut Failing { left }, &mut err);
        assert_eq!(rt; status, 5, "{left}");
        let both = b"LSAs left out at MaxAge: 1\nstandard output: not written\n";
        assert_eq!(rt; err.as_slice(), both.as_slice(), "{left}");
    }
    Ok(())
}

#[test]
fn nothing_is_printed_where_the_warnings_fail(rt: HostRuntime) -> Result<(), Fail> {
    let alloc = rt.alloc();
    for left in 0..2 {
        let mut out = Vec::new(alloc);
        let status = print_report(Ok(report(alloc)?), &mut out, &mut Failing { left });
        assert_eq!(rt; status, 5, "{left}");
        assert!(rt; out.is_empty(), "{left}");
    }
    Ok(())
}
