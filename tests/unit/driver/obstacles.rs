//! What keeps routers from running: what is told of it, and the status that it ends with.

use ospf_files::{FailedStreams, NamedFile, Status};
use ospf_drive::udp::{Stop, prepare, status_of, tell_obstacle};
use std::alloc::{AllocError, Global};
use std::test::Fail;

const FLOOR: &str = "80000001";

// A file with a configuration of a router, whose interfaces have these ports.
fn file(
    alloc: Global,
    name: &str,
    router: &str,
    ports: &[Option<u16>],
) -> Result<NamedFile, AllocError> {
    let mut text = format!(in alloc; "router_id = \"{router}\"\narea = \"0.0.0.0\"\n")?;
    for (number, port) in ports.iter().enumerate() {
        text.push_str(&format!(in alloc;
            "[[interface]]\nkind = \"point-to-point\"\naddress = \"10.0.{number}.1/30\"\ncost = 10\n"
        )?)?;
        if let Some(port) = port {
            text.push_str(&format!(in alloc; "port = {port}\n")?)?;
        }
    }
    Ok(NamedFile {
        name: String::from_str(alloc, name)?,
        bytes: Some(text.as_bytes().to_vec(alloc)?),
    })
}

// What is told of the routers of files that do not run, and the status.
fn told(alloc: Global, floor: &str, files: &[NamedFile]) -> Result<(Vec<u8>, Status), Fail> {
    let mut err = Vec::new(alloc);
    let floor = Some(String::from_str(alloc, floor)?);
    match prepare(alloc, &floor, files) {
        Err(Stop::Obstacle(obstacle)) => {
            let mut streams = FailedStreams::none();
            match tell_obstacle(alloc, obstacle, &mut err, &mut streams) {
                Ok(()) => Ok((err, status_of(obstacle))),
                Err(_) => Err(Fail::from("not told")),
            }
        }
        _ => Err(Fail::from("no obstacle")),
    }
}

#[test]
fn floors_are_told(rt: HostRuntime) -> Result<(), Fail> {
    let alloc = rt.alloc();
    let no_number = "floor: not a number\n  eight hexadecimal digits wanted\n";
    let greatest = "floor: S2 Floor\n  no number is above 7fffffff\n";
    for (floor, expected) in [
        ("", no_number),
        ("8000000", no_number),
        ("800000000", no_number),
        ("8000000g", no_number),
        ("7fffffff", greatest),
        ("7FFFFFFF", greatest),
    ] {
        let (lines, status) = told(alloc, floor, &[])?;
        assert_eq!(rt; lines.as_slice(), expected.as_bytes());
        assert_eq!(rt; status, Status::Refused);
    }
    Ok(())
}

#[test]
fn files_of_one_router_are_told(rt: HostRuntime) -> Result<(), Fail> {
    let alloc = rt.alloc();
    // The first two have no port, and are told of before that is.
    let twice = [
        file(alloc, "a.toml", "1.1.1.1", &[None])?,
        file(alloc, "b.toml", "1.1.1.1", &[None])?,
    ];
    let (lines, status) = told(alloc, FLOOR, &twice)?;
    let expected = b"W7 SameRouter\n  1.1.1.1: a.toml, b.toml\n".as_slice();
    assert_eq!(rt; lines.as_slice(), expected);
    assert_eq!(rt; status, Status::Refused);
    // The third is the first that has the Router ID of an earlier one.
    let both = [
        file(alloc, "a.toml", "1.1.1.1", &[Some(17001)])?,
        file(alloc, "b.toml", "2.2.2.2", &[Some(17002)])?,
        file(alloc, "c.toml", "2.2.2.2", &[Some(17003)])?,
        file(alloc, "d.toml", "1.1.1.1", &[Some(17004)])?,
    ];
    let (lines, _) = told(alloc, FLOOR, &both)?;
    let expected = b"W7 SameRouter\n  2.2.2.2: b.toml, c.toml\n".as_slice();
    assert_eq!(rt; lines.as_slice(), expected);
    Ok(())
}

#[test]
fn the_first_interface_without_a_port_is_told(rt: HostRuntime) -> Result<(), Fail> {
    let alloc = rt.alloc();
    for (ports, expected) in [
        (
            [None, Some(17002), None],
            "b.toml: no port\n  interface 0: port: 1024 to 65535 wanted\n",
        ),
        (
            [Some(17002), None, None],
            "b.toml: no port\n  interface 1: port: 1024 to 65535 wanted\n",
        ),
        (
            [Some(17002), Some(17003), Some(0)],
            "b.toml: no port\n  interface 2: port: 1024 to 65535 wanted\n",
        ),
    ] {
        let files = [
            file(alloc, "a.toml", "1.1.1.1", &[Some(17001)])?,
            file(alloc, "b.toml", "2.2.2.2", &ports)?,
            file(alloc, "c.toml", "3.3.3.3", &[None])?,
        ];
        let (lines, status) = told(alloc, FLOOR, &files)?;
        assert_eq!(rt; lines.as_slice(), expected.as_bytes());
        assert_eq!(rt; status, Status::Refused);
    }
    Ok(())
}
