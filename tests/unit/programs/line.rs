//! The words of a line, and what a word spells.

use ospf_base::{Addr, Prefix, RouterId};
use ospf_graph::NextHop;
use ospf_script::{
    Spelled, address_of, first_word, floor_of, is_alone, number_of, number_up_to, one_word,
    parts_at, percent_of, prefix_of, router_of, text_of, three_words, two_words,
};

#[test]
fn words(rt: HostRuntime) {
    let rest: (&[u8], &[u8]) = (b"up\tall", b"  2");
    assert_eq!(rt; first_word(b"  up\tall  2"), Some(rest));
    assert_eq!(rt; first_word(b"   "), None);
    assert_eq!(rt; first_word(b""), None);
    assert_eq!(rt; one_word(b" up "), Some(b"up".as_slice()));
    assert_eq!(rt; one_word(b"up all"), None);
    assert_eq!(rt; one_word(b""), None);
    let two: (&[u8], &[u8]) = (b"up", b"all");
    assert_eq!(rt; two_words(b"up  all "), Some(two));
    assert_eq!(rt; two_words(b"up"), None);
    assert_eq!(rt; two_words(b"up all 1"), None);
    let three: (&[u8], &[u8], &[u8]) = (b"a", b"b", b"c");
    assert_eq!(rt; three_words(b"a b c"), Some(three));
    assert_eq!(rt; three_words(b"a b"), None);
    assert_eq!(rt; three_words(b"a b c d"), None);
    assert!(rt; is_alone(b" all ", "all"));
    assert!(rt; !is_alone(b"all all", "all"));
    assert!(rt; !is_alone(b"All", "all"));
}

#[test]
fn numbers(rt: HostRuntime) {
    assert_eq!(rt; number_of(b"0018446744073709551615"), Some(u64::MAX));
    assert_eq!(rt; number_of(b"18446744073709551616"), None);
    assert_eq!(rt; number_of(b"+1"), None);
    assert_eq!(rt; number_of(b""), None);
    assert_eq!(rt; number_up_to(b"32", 32), Some(32));
    assert_eq!(rt; number_up_to(b"33", 32), None);
    assert_eq!(rt; percent_of(b"100"), Some(100));
    assert_eq!(rt; percent_of(b"101"), None);
    assert_eq!(rt; floor_of(b"7FFFfffe"), Some(i32::MAX - 1));
    assert_eq!(rt; floor_of(b"80000000"), Some(i32::MIN));
    assert_eq!(rt; floor_of(b"8000000"), None);
    assert_eq!(rt; floor_of(b"+0000000"), None);
    assert_eq!(rt; u32::of_word(b"4294967295"), Some(u32::MAX));
    assert_eq!(rt; u32::of_word(b"4294967296"), None);
}

#[test]
fn addresses(rt: HostRuntime) {
    assert_eq!(rt; router_of(b"1.1.1.1"), Some(RouterId(0x0101_0101)));
    assert_eq!(rt; router_of(b"01.1.1.1"), None);
    assert_eq!(rt; address_of(b"10.0.0.255"), Some(Addr(0x0a00_00ff)));
    assert_eq!(rt; address_of(b"10.0.0.256"), None);
    let prefix = Prefix {
        address: Addr(0x0a00_0004),
        length: 30,
    };
    assert_eq!(rt; prefix_of(b"10.0.0.4/30"), Some(prefix));
    assert_eq!(rt; prefix_of(b"10.0.0.5/30"), None);
    assert_eq!(rt; prefix_of(b"10.0.0.4/33"), None);
    assert_eq!(rt; prefix_of(b"10.0.0.4"), None);
    let parts: (&[u8], &[u8]) = (b"a", b"b>c");
    assert_eq!(rt; parts_at(b"a>b>c", b'>'), Some(parts));
    assert_eq!(rt; parts_at(b"abc", b'>'), None);
    assert_eq!(rt; text_of(b"2-Way"), Some("2-Way"));
    assert_eq!(rt; text_of(b"\xff"), None);
}

#[test]
fn hops(rt: HostRuntime) {
    let (local, router) = (Addr(0x0a00_0001), RouterId(0x0202_0202));
    assert_eq!(rt; NextHop::of_word(b"attached"), Some(NextHop::Attached));
    assert_eq!(rt;
        NextHop::of_word(b"10.0.0.1>2.2.2.2"),
        Some(NextHop::PointToPoint { local, router })
    );
    let address = Addr(0x0a00_0002);
    assert_eq!(rt;
        NextHop::of_word(b"10.0.0.1>2.2.2.2@10.0.0.2"),
        Some(NextHop::Lan { local, router, address })
    );
    assert_eq!(rt; NextHop::of_word(b"Attached"), None);
    assert_eq!(rt; NextHop::of_word(b"10.0.0.1>"), None);
    assert_eq!(rt; NextHop::of_word(b"10.0.0.1>2.2.2.2@"), None);
}
