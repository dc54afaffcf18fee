//! Numbers that are printed in four parts.

use ospf_base::{Addr, AreaId, Prefix, RouterId};
use std::fmt::Write;
use std::test::Fail;

#[test]
fn four_parts_are_printed(rt: HostRuntime) -> Result<(), Fail> {
    let (router, area, address) = (RouterId(0x0102_0304), AreaId(0), Addr(0xffff_ff00));
    let prefix = Prefix {
        address: Addr(0x0a00_0900),
        length: 24,
    };
    let mut text = String::new(rt.alloc());
    write!(text, "{router} {area} {address} {prefix}")?;
    assert_eq!(rt; text.as_str(), "1.2.3.4 0.0.0.0 255.255.255.0 10.0.9.0/24");
    Ok(())
}
