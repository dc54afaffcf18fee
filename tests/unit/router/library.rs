//! The program that `docs/LIBRARY.md` goes through.

use super::two_routers::looked_up;
use std::test::Fail;

// 10 over the link between the routers, and 5 over the interface of the second.
#[test]
fn two_routers_find_the_network(rt: HostRuntime) -> Result<(), Fail> {
    let alloc = rt.alloc();
    let found = looked_up(&rt, alloc).ok().flatten();
    assert!(rt; found.is_some());
    if let Some(found) = found {
        let text = format!(in alloc; "{found}")?;
        assert_eq!(rt;
            text.as_str(),
            "lookup 192.168.2.9 192.168.2.0/24 15 10.0.0.1>2.2.2.2"
        );
    }
    Ok(())
}
