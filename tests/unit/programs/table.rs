//! Lines that are no LSAs.

use ospf_lsa::LsaFault;
use ospf_table::{LineFault, lsa_line};
use std::test::Fail;

// Each with what is told of it.
const REFUSED: [(&str, LineFault, &str); 3] = [
    ("0", LineFault::NotHex, "not hex"),
    ("zz", LineFault::NotHex, "not hex"),
    ("00", LineFault::Lsa(LsaFault::Short), "L1 Short"),
];

#[test]
fn refusals_are_printed(rt: HostRuntime) -> Result<(), Fail> {
    let alloc = rt.alloc();
    for (line, expected, text) in REFUSED {
        let Err(fault) = lsa_line(alloc, line) else {
            return Err(Fail::from("an LSA"));
        };
        assert_eq!(rt; fault, expected, "{line}");
        assert_eq!(rt; format!(in alloc; "{fault}")?.as_str(), text);
    }
    Ok(())
}
