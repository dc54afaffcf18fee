//! A capture that was written by hand from the formats (`tests/simulations/check-capture` reads it), and what is refused.

use super::given::{FIRST, SECOND};
use super::worlds::two_that_run;
use super::written::{HELLO, UPDATE};
use ospf_base::{ALL_SPF_ROUTERS, Addr};
use ospf_views::records::{
    CaptureFault, Moment, Recorder, capture, captures_go_on, checksum_holds, has_one_reading,
    lengths_are_told, logs_go_on, write_datagram, write_header,
};
use ospf_world::WorldEvent;
use std::alloc::{AllocError, Global};
use std::test::Fail;

// What a file begins with.
static HEADER: &str = "a1b2c3d4 0002 0004 00000000 00000000 0000ffff 00000065";

// What stands before the Hello: 1,600,000,000.25 seconds, 64 bytes, and the IP header.
static BEFORE_HELLO: &str = "5f5e1000 0003d090 00000040 00000040
    45c00040 00000000 0159ce9f 0a000001 e0000005";

// What stands before the Update: 1,600,000,001 seconds, 96 bytes, and the IP header.
static BEFORE_UPDATE: &str = "5f5e1001 00000000 00000060 00000060
    45c00060 00000000 0159a483 0a000001 0a000002";

// The bytes of hexadecimal texts, one after the other, whose spaces and ends of lines mean nothing.
fn bytes_of(alloc: Global, texts: &[&str]) -> Result<Vec<u8>, AllocError> {
    let mut bytes = Vec::new(alloc);
    for text in texts {
        for byte in &super::written::bytes_of(alloc, text)? {
            bytes.push(*byte)?;
        }
    }
    Ok(bytes)
}

#[test]
fn a_capture_of_two_packets(rt: HostRuntime) -> Result<(), Fail> {
    let alloc = rt.alloc();
    let here = Addr(0x0a00_0001);
    let mut out = Vec::new(alloc);
    write_header(&mut out)?;
    write_datagram(
        &mut out,
        Moment {
            seconds: 1_600_000_000,
            microseconds: 250_000,
        },
        here,
        ALL_SPF_ROUTERS,
        &bytes_of(alloc, &[HELLO])?,
    )?;
    write_datagram(
        &mut out,
        Moment {
            seconds: 1_600_000_001,
            microseconds: 0,
        },
        here,
        Addr(0x0a00_0002),
        &bytes_of(alloc, &[UPDATE])?,
    )?;
    let wanted = bytes_of(alloc, &[HEADER, BEFORE_HELLO, HELLO, BEFORE_UPDATE, UPDATE])?;
    assert_eq!(rt; out.as_slice(), wanted.as_slice());
    Ok(())
}

#[test]
fn the_longest_packet_and_a_longer_one(rt: HostRuntime) -> Result<(), Fail> {
    let alloc = rt.alloc();
    let at = Moment {
        seconds: 0,
        microseconds: 999_999,
    };
    let mut out = Vec::new(alloc);
    let longer = vec![in alloc; 0u8; 65516]?;
    let fault = write_datagram(&mut out, at, Addr(1), Addr(2), &longer);
    assert_eq!(rt; fault, Err(CaptureFault::TooLong));
    assert_eq!(rt; out.len(), 0);
    write_datagram(&mut out, at, Addr(1), Addr(2), &longer[..65515])?;
    assert_eq!(rt; out.len(), 16 + 65535);
    assert_eq!(rt;
        format!(in alloc; "{}", CaptureFault::TooLong)?.as_str(),
        "TooLong"
    );
    assert_eq!(rt; CaptureFault::Memory.text(), "Memory");
    checksum_holds();
    lengths_are_told();
    has_one_reading();
    captures_go_on();
    logs_go_on();
    Ok(())
}

// Each router's first Hello goes out as its link comes up, and the next one with its tenth tick.
#[test]
fn a_capture_that_goes_on(rt: HostRuntime) -> Result<(), Fail> {
    let alloc = rt.alloc();
    let mut world = two_that_run(alloc)?;
    let mut recorder = Recorder::new(alloc);
    let mut out = Vec::new(alloc);
    write_header(&mut out)?;
    recorder.add_sent(&mut out, &world)?;
    assert_eq!(rt; recorder.datagrams(), 2);
    assert_eq!(rt; out.len(), 24 + 2 * 80);
    for _ in 0..10 {
        for router in [FIRST, SECOND] {
            world.step(WorldEvent::Tick { router }, alloc)?;
            recorder.add_sent(&mut out, &world)?;
        }
    }
    let moments = ["00000000 00000000", "00000000 00000001", "0000000a 00000000", "0000000a 00000001"];
    assert_eq!(rt; out.len(), 24 + moments.len() * 80);
    for (record, moment) in out[24..].chunks(80).zip(moments) {
        assert_eq!(rt; record[..8], *bytes_of(alloc, &[moment])?);
    }
    assert_eq!(rt; out.as_slice(), capture(&world, alloc)?.as_slice());
    Ok(())
}
