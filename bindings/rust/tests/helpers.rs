//! Address patterns and operators on lists.

use std::net::{Ipv4Addr, Ipv6Addr};

use netkat::{
    bits, bits_of_ipv4, bits_of_ipv6, bits_of_words, desugar, limits, Core, Exp, Expr, ParsePatternError, Pattern, View,
};

fn depth(term: &Expr) -> usize {
    match term {
        Expr::Union(a, b) | Expr::Sequence(a, b) => 1 + depth(a).max(depth(b)),
        _ => 1,
    }
}

#[test]
fn the_first_octet_is_the_highest() {
    let address = Ipv4Addr::new(128, 0, 0, 1);
    let mut expected = vec![false; 32];
    expected[0] = true;
    expected[31] = true;
    assert_eq!(bits_of_ipv4(address), expected);
    assert_eq!(bits_of_ipv4(Ipv4Addr::new(1, 2, 3, 4)), bits(0x0102_0304, 32));
    assert_eq!(bits_of_ipv6(Ipv6Addr::new(0x8000, 0, 0, 0, 0, 0, 0, 3)), bits(1 << 127 | 3, 128));
}

#[test]
fn the_first_word_is_the_highest() {
    assert_eq!(bits_of_words(&[]), []);
    assert_eq!(bits_of_words(&[5]), bits(5, 32));
    assert_eq!(bits_of_words(&[0x2001_0db8, 0, 0, 5]), bits_of_ipv6("2001:db8::5".parse().unwrap()));
    // Beyond 128 bits: the lowest word, and the highest bit.
    let stack = bits_of_words(&[1 << 31, 0, 0, 0, 0, 5]);
    assert_eq!(stack.len(), limits::MAX_LITERAL_BITS);
    assert_eq!(stack[..191], bits(5, 191));
    assert!(stack[191]);
    // One word more is one too many.
    let refused = |words: &[u32]| Expr::bit_range_test(0, 32 * words.len() as u32, bits_of_words(words)).check();
    assert_eq!(refused(&[0; 6]), Ok(true));
    assert_eq!(refused(&[0; 7]).unwrap_err().number, 5);
}

#[test]
fn address_patterns() {
    let [a, b] = [Ipv4Addr::new(10, 1, 0, 0), Ipv4Addr::new(0, 0, 255, 255)];
    let (a_bits, b_bits) = (bits(0x0a01_0000, 32), bits(0xffff, 32));
    assert_eq!(Pattern::ipv4(a), Pattern::Exact(a_bits.clone()));
    assert_eq!(Pattern::ipv4_prefix(a, 16), Pattern::Cidr { address: a_bits.clone(), prefix_len: 16 });
    assert_eq!(Pattern::ipv4_range(b, a), Pattern::IpRange { start: b_bits.clone(), end: a_bits.clone() });
    assert_eq!(Pattern::ipv4_wildcard(a, b), Pattern::Wildcard { address: a_bits, mask: b_bits });

    let [a, b] = [Ipv6Addr::new(0x2001, 0xdb8, 0, 0, 0, 0, 0, 1), Ipv6Addr::from(0xffff)];
    let (a_bits, b_bits) = (bits(0x2001_0db8 << 96 | 1, 128), bits(0xffff, 128));
    assert_eq!(Pattern::ipv6(a), Pattern::Exact(a_bits.clone()));
    assert_eq!(Pattern::ipv6_prefix(a, 32), Pattern::Cidr { address: a_bits.clone(), prefix_len: 32 });
    assert_eq!(Pattern::ipv6_range(b, a), Pattern::IpRange { start: b_bits.clone(), end: a_bits.clone() });
    assert_eq!(Pattern::ipv6_wildcard(a, b), Pattern::Wildcard { address: a_bits, mask: b_bits });
}

#[test]
fn a_prefix_and_its_wildcard_mean_the_same() {
    let address = Ipv4Addr::new(192, 168, 0, 0);
    let core = |pattern| desugar(&Expr::bit_range_match(0, 32, pattern)).unwrap();
    let prefix = core(Pattern::ipv4_prefix(address, 16));
    assert_eq!(core(Pattern::ipv4_wildcard(address, Ipv4Addr::new(0, 0, 255, 255))), prefix);
    // The highest bit of the first octet is the highest field.
    let last = prefix.nodes().next_back().unwrap();
    assert_eq!(last.view(), View::Test(31, true));
}

#[test]
fn wrong_constructors_are_refused_on_use() {
    let refused = |pattern| Expr::bit_range_match(0, 32, pattern).check().unwrap_err().number;
    assert_eq!(refused(Pattern::ipv4_prefix(Ipv4Addr::LOCALHOST, 33)), 17);
    assert_eq!(refused(Pattern::ipv4_range(Ipv4Addr::BROADCAST, Ipv4Addr::LOCALHOST)), 21);
    assert_eq!(refused(Pattern::ipv6_prefix(Ipv6Addr::LOCALHOST, 8)), 18);
}

#[test]
fn patterns_from_text() {
    let read = |text: &str| text.parse::<Pattern>();
    let [one, nine] = [Ipv4Addr::new(10, 0, 0, 1), Ipv4Addr::new(10, 0, 0, 9)];
    assert_eq!(read("10.0.0.1"), Ok(Pattern::ipv4(one)));
    assert_eq!(read(" 10.0.0.1 "), Ok(Pattern::ipv4(one)));
    assert_eq!(read("10.0.0.1/8"), Ok(Pattern::ipv4_prefix(one, 8)));
    assert_eq!(read("10.0.0.1/0"), Ok(Pattern::ipv4_prefix(one, 0)));
    assert_eq!(read("10.0.0.1-10.0.0.9"), Ok(Pattern::ipv4_range(one, nine)));
    assert_eq!(read("10.0.0.9 - 10.0.0.1"), Ok(Pattern::ipv4_range(nine, one)));
    assert_eq!(read("10.0.0.1 mask 10.0.0.9"), Ok(Pattern::ipv4_wildcard(one, nine)));
    let [one, nine] = [Ipv6Addr::from(1), Ipv6Addr::from(9)];
    assert_eq!(read("::1"), Ok(Pattern::ipv6(one)));
    assert_eq!(read("::1/128"), Ok(Pattern::ipv6_prefix(one, 128)));
    assert_eq!(read("::1-::9"), Ok(Pattern::ipv6_range(one, nine)));
    assert_eq!(read("::1 mask ::9"), Ok(Pattern::ipv6_wildcard(one, nine)));
}

#[test]
fn texts_that_are_no_patterns() {
    let error = |text: &str| text.parse::<Pattern>().unwrap_err();
    let address = |text: &str| ParsePatternError::Address(text.into());
    let prefix = |found: &str, longest| ParsePatternError::Prefix { found: found.into(), longest };
    assert_eq!(error(""), address(""));
    assert_eq!(error("10.0.0"), address("10.0.0"));
    assert_eq!(error("10.0.0.256/8"), address("10.0.0.256"));
    assert_eq!(error("10.0.0.1-"), address(""));
    assert_eq!(error("10.0.0.1 mask x"), address("x"));
    assert_eq!(error("10.0.0.1/33"), prefix("33", 32));
    assert_eq!(error("10.0.0.1/+8"), prefix("+8", 32));
    assert_eq!(error("10.0.0.1/"), prefix("", 32));
    assert_eq!(error("10.0.0.1/8/8"), prefix("8/8", 32));
    assert_eq!(error("::1/129"), prefix("129", 128));
    assert_eq!(error("10.0.0.1-::1"), ParsePatternError::MixedFamilies);
    assert_eq!(error("10.0.0.300").to_string(), "\"10.0.0.300\" is not an IPv4 or IPv6 address");
    assert_eq!(error("::1-10.0.0.1").to_string(), "one address is IPv4 and the other IPv6");
}

#[test]
fn lists_are_balanced_and_in_order() {
    assert_eq!(Expr::union_all([]), Expr::zero());
    assert_eq!(Expr::sequence_all(vec![]), Expr::one());
    assert_eq!(Expr::union_all([Expr::dup()]), Expr::dup());
    for (count, levels) in [(2, 2), (3, 3), (4, 3), (5, 4), (1_000, 11), (2_048, 12)] {
        let terms = || (0..count).map(|field| Expr::test(field, true));
        for list in [Expr::union_all(terms()), Expr::sequence_all(terms())] {
            assert_eq!(depth(&list), levels);
            let leaves: Vec<&Expr> = list.nodes().filter(|node| matches!(node, Expr::Test(..))).collect();
            assert!(leaves.into_iter().eq(terms().collect::<Vec<Exp>>().iter().map(|term| &**term)));
            assert_eq!(list.check(), Ok(true));
        }
    }
    assert_eq!(Expr::union_all((0..2_049).map(|field| Expr::test(field, true))).check().unwrap_err().number, 6);
}

#[test]
fn cores_are_joined_as_terms_are() {
    assert_eq!(Core::union_all([]), Core::default());
    for count in [1, 2, 3, 7, 64, 100] {
        let terms: Vec<Exp> = (0..count).map(|field| Expr::bit_range_test(field, field + 2, bits(1, 2))).collect();
        let joined = Core::union_all(terms.iter().map(|term| desugar(term).unwrap()));
        assert_eq!(joined, desugar(&Expr::union_all(terms)).unwrap());
    }
}
