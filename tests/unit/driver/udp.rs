//! The wire, with a socket that sends to it.

use ospf_base::Addr;
use ospf_config::Config;
use ospf_drive::{Arrival, LONGEST, Wire, WireFault};
use ospf_drive::udp::{Ending, NoSocket, OpenFault, SocketCause, UdpWire};
use std::alloc::Global;
use std::fmt::Write;
use std::io;
use std::net::{Net, UdpSocket};
use std::test::Fail;
use std::time::Duration;

const HEAD: &str =
    "router_id = \"1.1.1.1\"\narea = \"0.0.0.0\"\n[[interface]]\nkind = \"point-to-point\"\naddress = \"10.0.0.1/30\"\ncost = 10\n";

const PLUG: &str = "port = 17106\npeers = [17107]\n";

// The configuration of a router, whose interface has a port or none.
fn config(alloc: Global, plug: &str) -> Result<Config, Fail> {
    Ok(Config::from_text(alloc, &format!(in alloc; "{HEAD}{plug}")?)?)
}

// What comes over the wire, call by call.
fn heard<W: Wire>(wire: &mut W, alloc: Global) -> Result<Vec<Result<Arrival, WireFault>>, Fail> {
    let mut buffer = [0; LONGEST];
    let mut all = Vec::new(alloc);
    for _ in 0..4 {
        if wire.failures() == 0 {
            all.push(wire.recv(&mut buffer))?;
        }
    }
    Ok(all)
}

// Datagrams of every length below nine bytes, and one that is longer than any is, and then one of nine bytes.
fn send_useless<N: Net>(net: &N) -> io::Result<()> {
    let far = UdpSocket::bind(net, "127.0.0.1:17107")?;
    let bytes = [10, 0, 0, 2, 10, 0, 0, 1, 9];
    for count in 0..8usize {
        far.send_to(&bytes[..count], "127.0.0.1:17106")?;
    }
    far.send_to(&[7; 16393], "127.0.0.1:17106")?;
    far.send_to(&bytes, "127.0.0.1:17106")?;
    Ok(())
}

#[test]
fn useless_datagrams_are_passed_over(rt: HostRuntime) -> Result<(), Fail> {
    let alloc = rt.alloc();
    let config = config(alloc, PLUG)?;
    let mut wire = UdpWire::open(
        &rt,
        alloc,
        rt,
        &config,
        Duration::from_secs(2),
        Some(1),
        None,
    )?;
    send_useless(&rt)?;
    let datagram = Arrival::Datagram {
        link: 0,
        source: Addr(0x0a00_0002),
        destination: Addr(0x0a00_0001),
        length: 1,
    };
    let expected = [
        Ok(Arrival::LinkUp { link: 0 }),
        Ok(datagram),
        Ok(Arrival::Tick),
        Ok(Arrival::End),
    ];
    assert_eq!(rt; heard(&mut wire, alloc)?.as_slice(), expected.as_slice());
    Ok(())
}

#[test]
fn wires_that_are_not_opened(rt: HostRuntime) -> Result<(), Fail> {
    let alloc = rt.alloc();
    let portless = config(alloc, "")?;
    let taken = config(alloc, "port = 17108\npeers = [17107]\n")?;
    let _holder = UdpSocket::bind(&rt, "127.0.0.1:17108")?;
    let in_use = OpenFault::Socket(NoSocket {
        port: taken.interfaces[0].port,
        cause: SocketCause::InUse,
    });
    for (config, expected) in [(&portless, OpenFault::NoPort), (&taken, in_use)] {
        let second = Duration::from_secs(1);
        match UdpWire::open(&rt, alloc, rt, config, second, Some(1), None) {
            Ok(_) => return Err(Fail::from("opened")),
            Err(fault) => assert_eq!(rt; fault, expected),
        }
    }
    Ok(())
}

#[test]
fn refusals_are_printed(rt: HostRuntime) -> Result<(), Fail> {
    let mut text = String::new(rt.alloc());
    for fault in [OpenFault::NoPort, OpenFault::Memory] {
        write!(text, "{fault}; ")?;
    }
    for cause in [
        SocketCause::InUse,
        SocketCause::NotPermitted,
        SocketCause::NotAvailable,
        SocketCause::TooMany,
        SocketCause::Refused,
    ] {
        let none = OpenFault::Socket(NoSocket { port: None, cause });
        write!(text, "{none}; ")?;
    }
    let port = config(rt.alloc(), PLUG)?.interfaces[0].port;
    let cause = SocketCause::InUse;
    write!(text, "{}", NoSocket { port, cause })?;
    let expected = "no port; out of memory; sockets is in use; sockets: permission denied; \
        sockets: address not available; sockets: too many open files; \
        sockets: refused by the system; port 17106 is in use";
    assert_eq!(rt; text.as_str(), expected);
    Ok(())
}

#[test]
fn ends_where_it_is_told(rt: HostRuntime) -> Result<(), Fail> {
    let alloc = rt.alloc();
    let config = config(alloc, "port = 17109\npeers = [17110]\n")?;
    let ending = Ending::new(alloc)?;
    let long = Duration::from_secs(1000);
    let told = Some(ending.another()?);
    let mut wire = UdpWire::open(&rt, alloc, rt, &config, long, None, told)?;
    ending.tell();
    let mut buffer = [0; LONGEST];
    assert_eq!(rt; wire.recv(&mut buffer), Ok(Arrival::LinkUp { link: 0 }));
    assert_eq!(rt; wire.recv(&mut buffer), Ok(Arrival::End));
    Ok(())
}
