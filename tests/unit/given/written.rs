//! Packets of two routers, written in hexadecimal, which an independent program computed.

use std::alloc::{AllocError, Global};

/// The first Hello of 1.1.1.1.
pub(crate) static HELLO: &str = "0201002c 01010101 00000000 f9a0 0000 0000000000000000
    fffffffc 000a 02 01 00000028 00000000 00000000";

/// The first Database Description of 2.2.2.2.
pub(crate) static DESCRIPTION: &str = "02020020 02020202 00000000 f12e 0000 0000000000000000
    05dc 02 07 000000c8";

/// The Request of 1.1.1.1 for the router-LSA of 2.2.2.2.
pub(crate) static REQUEST: &str = "02030024 01010101 00000000 f3cd 0000 0000000000000000
    00000001 02020202 02020202";

/// The Update of 1.1.1.1 with its router-LSA at age 1.
pub(crate) static UPDATE: &str = "0204004c 01010101 00000000 7730 0000 0000000000000000 00000001
    0001 0201 01010101 01010101 80000001 e22c 0030 00000002
    02020202 0a000001 0100000a 0a000000 fffffffc 0300000a";

/// The bytes of a hexadecimal text, whose spaces and ends of lines mean nothing.
pub(crate) fn bytes_of(alloc: Global, text: &str) -> Result<Vec<u8>, AllocError> {
    let mut bytes = Vec::new(alloc);
    let mut high = None;
    for digit in text.chars().filter_map(|c| c.to_digit(16)) {
        let digit = (digit % 16) as u8;
        match high {
            None => high = Some(digit),
            Some(first) => {
                bytes.push(digit.wrapping_add(first.wrapping_mul(16)))?;
                high = None;
            }
        }
    }
    Ok(bytes)
}
