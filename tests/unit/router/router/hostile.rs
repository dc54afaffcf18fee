//! Packets that lie, as datagrams to a router that awaits an acknowledgement: each is dropped, and nothing changes.

use super::answers::{Answers, is_silent};
use super::crafted::{first_and_held, hear};
use hex::decode;
use ospf_router::{Dropped, Router};
use std::alloc::Global;
use std::test::Fail;

// An Update with the router-LSA that 1.1.1.1 issues first: 76 bytes, with 1.1.1.1 as its sender.
const UPDATE: &str =
    "0204004c01010101000000007730000000000000000000000000000100010201010101010101010180000001e22c003000000002020202020a0000010100000a0a000000fffffffc0300000a";

const LENGTH: usize = 76;

// The bytes of the Authentication field, of which the sum says nothing.
fn is_authentication(place: usize) -> bool {
    (16..24).contains(&place)
}

// Whether a datagram from 2.2.2.2 is dropped for this cause, nothing comes of it, and the router answers as before.
fn is_dropped(
    router: &mut Router,
    bytes: &[u8],
    cause: Dropped,
    before: &Answers,
    alloc: Global,
) -> Result<bool, Fail> {
    let step = hear(router, bytes, alloc)?;
    let is_told = step.dropped == Some(cause);
    Ok(is_told && is_silent(&step) && Answers::of(router, alloc)? == *before)
}

// 1.1.1.1, and what it answers.
fn waiting(alloc: Global) -> Result<(Router, Answers), Fail> {
    let (first, _held) = first_and_held(alloc)?;
    let before = Answers::of(&first, alloc)?;
    if !before.has_one_to_acknowledge() {
        return Err(Fail::from("nothing is awaited"));
    }
    Ok((first, before))
}

// With another Authentication it is read, and bears the router's own Router ID.
#[test]
fn each_turned_bit_is_dropped(rt: HostRuntime) -> Result<(), Fail> {
    let alloc = rt.alloc();
    let (mut first, before) = waiting(alloc)?;
    let mut bytes = decode(alloc, UPDATE)?;
    assert_eq!(rt; bytes.len(), LENGTH);
    let mut others = 0;
    for place in 0..LENGTH {
        let is_read = is_authentication(place);
        let cause = if is_read {
            Dropped::OwnPacket
        } else {
            Dropped::Packet
        };
        for bit in [1u8, 2, 4, 8, 16, 32, 64, 128] {
            bytes[place] ^= bit;
            assert!(rt;
                is_dropped(&mut first, &bytes, cause, &before, alloc)?,
                "{place} {bit}"
            );
            bytes[place] ^= bit;
            others += if is_read { 0 } else { 1 };
        }
    }
    assert_eq!(rt; others, 544);
    Ok(())
}

// Each with a right sum: of no LSA and of 4,294,967,295, and LSAs of 19 and of 65,535 bytes.
const COUNTS: [&[(usize, u8)]; 4] = [
    &[(27, 0), (13, 0x31)],
    &[(24, 0xff), (25, 0xff), (26, 0xff), (27, 0xff), (13, 0x31)],
    &[(47, 0x13), (13, 0x4d)],
    &[(46, 0xff), (47, 0xff), (13, 0x60)],
];

#[test]
fn hostile_counts_are_dropped(rt: HostRuntime) -> Result<(), Fail> {
    let alloc = rt.alloc();
    let (mut first, before) = waiting(alloc)?;
    for changes in COUNTS {
        let mut bytes = decode(alloc, UPDATE)?;
        for (place, byte) in changes {
            bytes[*place] = *byte;
        }
        assert!(rt; is_dropped(&mut first, &bytes, Dropped::Packet, &before, alloc)?);
    }
    Ok(())
}

#[test]
fn each_cut_packet_is_dropped(rt: HostRuntime) -> Result<(), Fail> {
    let alloc = rt.alloc();
    let (mut first, before) = waiting(alloc)?;
    let bytes = decode(alloc, UPDATE)?;
    for length in 0..LENGTH {
        let cut = &bytes[..length];
        assert!(rt;
            is_dropped(&mut first, cut, Dropped::Packet, &before, alloc)?,
            "{length}"
        );
    }
    Ok(())
}
