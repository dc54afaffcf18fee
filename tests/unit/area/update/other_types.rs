//! LSAs of types that a router passes over.

use super::super::made::lsa_of;
use super::{FIRST, FROM_FIRST, acknowledged, area, delayed, takes_bytes, update_of};
use ospf_area::Outputs;
use ospf_base::{lsa_sum, packet_sum};
use ospf_neighbour::iface::IfaceState;
use std::alloc::Global;
use std::test::Fail;

// Where the LSA of an Update with one begins, and in it the LS type and the checksum; the checksum of the packet.
const LSA_AT: usize = 28;

const TYPE_AT: usize = 3;

const SUM_AT: usize = 16;

const PACKET_SUM_AT: usize = 12;

fn put(bytes: &mut [u8], at: usize, number: u16) {
    let [high, low] = number.to_be_bytes();
    bytes[at] = high;
    bytes[at + 1] = low;
}

// The bytes of an Update with an LSA of this type, whose checksum is right, or one too high.
fn update_of_type(alloc: Global, kind: u8, is_right: bool) -> Result<Vec<u8>, Fail> {
    let mut lsas = Vec::new(alloc);
    lsas.push(lsa_of(alloc, 7, FIRST, 10)?)?;
    let mut bytes = update_of(alloc, lsas)?;
    bytes[LSA_AT + TYPE_AT] = kind;
    let sum = lsa_sum(&bytes[LSA_AT..]);
    let sum = if is_right { sum } else { sum ^ 1 };
    put(&mut bytes, LSA_AT + SUM_AT, sum);
    let whole = packet_sum(&bytes);
    put(&mut bytes, PACKET_SUM_AT, whole);
    Ok(bytes)
}

// How many acknowledgements go out directly, how many wait, and how many LSAs are listed, by an Update of this type to a
// router that passes such LSAs over, or does not.
fn answers_type(
    kind: u8,
    is_right: bool,
    passes_over: bool,
    alloc: Global,
) -> Result<(usize, usize, usize), Fail> {
    let mut area = area(alloc, IfaceState::Dr, &[])?;
    area.passes_over = passes_over;
    let bytes = update_of_type(alloc, kind, is_right)?;
    let mut out = Outputs::new(alloc);
    takes_bytes(&mut area, FROM_FIRST, &bytes, &mut out, alloc)?;
    let listed = area.database.listing(alloc)?.lsas().len();
    Ok((acknowledged(&out)?, delayed(&area), listed))
}

#[test]
fn summaries_and_externals_are_acknowledged_and_passed_over(rt: HostRuntime) -> Result<(), Fail> {
    for kind in [3, 4, 5] {
        assert_eq!(rt; answers_type(kind, true, true, rt.alloc())?, (1, 0, 0), "{kind}");
        assert_eq!(rt; answers_type(kind, false, true, rt.alloc())?, (0, 0, 0), "{kind}");
        assert_eq!(rt; answers_type(kind, true, false, rt.alloc())?, (0, 0, 0), "{kind}");
    }
    for kind in [0, 6, 7, 9, 10, 11] {
        assert_eq!(rt; answers_type(kind, true, true, rt.alloc())?, (0, 0, 0), "{kind}");
    }
    Ok(())
}
