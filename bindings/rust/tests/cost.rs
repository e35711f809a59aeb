//! The cost of a pattern is what its match draws, and it is refused as the match is.

mod common;

use std::ops::Range;

use common::Random;
use netkat::limits::{MAX_LITERAL_BITS, MAX_RANGE_PATTERN_COST};
use netkat::{bits, bits_of_words, cost, Desugarer, Expr, Names, Pattern, Refusal};

fn exact(value: u128, width: usize) -> Pattern {
    Pattern::Exact(bits(value, width))
}

fn cidr(width: usize, prefix_len: usize) -> Pattern {
    Pattern::Cidr { address: bits(5, width), prefix_len }
}

fn wildcard(address: usize, mask: Vec<bool>) -> Pattern {
    Pattern::Wildcard { address: bits(5, address), mask }
}

/// From one value to another, each with its length.
fn values(start: (u128, usize), end: (u128, usize)) -> Pattern {
    Pattern::IpRange { start: bits(start.0, start.1), end: bits(end.0, end.1) }
}

#[test]
fn figures() {
    let widest = 0..u32::MAX;
    let cases: [(Range<u32>, Pattern, u64); 22] = [
        (0..4, exact(5, 3), 7),
        (3..3, exact(0, 0), 1),
        (widest.clone(), exact(5, 3), 8_589_934_589),
        (1..u32::MAX, exact(0, 0), 8_589_934_587),
        (0..1 << 31, exact(0, 0), u32::MAX.into()),
        (0..192, Pattern::Exact(bits_of_words(&[7; 6])), 383),
        (0..8, cidr(8, 3), 5),
        (0..8, cidr(8, 0), 1),
        (0..192, cidr(192, 192), 383),
        (4..8, wildcard(4, bits(0b1010, 4)), 3),
        (4..8, wildcard(4, bits(0b0111, 4)), 1),
        (4..8, wildcard(4, bits(0b1111, 4)), 1),
        (0..192, wildcard(192, bits(0, 192)), 383),
        (0..2, values((1, 2), (2, 2)), 11),
        (0..2, values((0, 0), (3, 2)), 1),
        (0..4, values((2, 2), (2, 4)), 7),
        // An upper bound: 2w - 1, and 2k + 2 for each standing bit at a distance of k from the top. A lower bound: for each clear bit.
        (0..3, values((0, 3), (5, 3)), 5 + 2 + 6),
        (0..3, values((1, 3), (7, 3)), 5 + 2 + 4),
        (0..3, values((1, 3), (5, 3)), 13 + 11 + 1),
        (100..228, values((1 << 127, 128), (!(1 << 126), 128)), MAX_RANGE_PATTERN_COST),
        (0..128, values((1, 1), (u128::MAX - 1, 128)), 33_023),
        (0..32, "10.0.0.1-10.0.0.255".parse().unwrap(), 1_575),
    ];
    for (range, pattern, nodes) in cases {
        assert_eq!(cost(range.clone(), &pattern), Ok(nodes), "{range:?} {pattern:?}");
    }
}

/// A range that ends below its start, and patterns that do not suit their range; with the number, and what is said.
fn refused() -> Vec<(Range<u32>, Pattern, u32, &'static str)> {
    #[allow(clippy::reversed_empty_ranges)]
    let reversed = 4..3;
    let long = MAX_LITERAL_BITS + 1;
    vec![
        (0..200, exact(0, long), 5, "the value has 193 bits, and 192 are the limit"),
        (reversed.clone(), cidr(long, 300), 5, "the CIDR address has 193 bits, and 192 are the limit"),
        (0..4, wildcard(200, bits(0, 4)), 5, "the wildcard's address has 200 bits, and 192 are the limit"),
        (0..4, wildcard(4, bits(0, 1_000)), 5, "the wildcard's mask has 1,000 bits, and 192 are the limit"),
        (0..4, values((1, 256), (0, 4)), 5, "the start of the range pattern has 256 bits, and 192 are the limit"),
        (reversed.clone(), values((1, 4), (0, long)), 5, "the end of the range pattern has 193 bits, and 192 are the limit"),
        (reversed.clone(), exact(1, 5), 14, "the range of x[4..3] ends below its start"),
        (reversed.clone(), cidr(5, 9), 14, "the range of x[4..3] ends below its start"),
        (reversed.clone(), wildcard(5, vec![]), 14, "the range of x[4..3] ends below its start"),
        (reversed, values((1, 5), (0, 5)), 14, "the range of x[4..3] ends below its start"),
        (0..4, exact(17, 5), 15, "the value 0b10001 has 5 bits, but x[0..4] has 4 fields"),
        (0..4, cidr(3, 5), 17, "the CIDR prefix is 5, but x[0..4] has 4 fields"),
        (0..4, cidr(3, 4), 18, "the CIDR address 0b101 has 3 bits, but x[0..4] has 4 fields"),
        (
            0..4,
            wildcard(3, bits(1, 4)),
            19,
            "the wildcard's address 0b101 has 3 bits and its mask 0x1 has 4 bits, but x[0..4] has 4 fields",
        ),
        (
            0..4,
            wildcard(4, vec![]),
            19,
            "the wildcard's address 0x5 has 4 bits and its mask has 0 bits, but x[0..4] has 4 fields",
        ),
        (
            0..129,
            values((2, 8), (1, 8)),
            20,
            "x[0..129] has 129 fields, and a range pattern, here with bounds of 8 and 8 bits, can be matched against 128 at most",
        ),
        (
            0..4,
            values((9, 5), (1, 4)),
            20,
            "the start of the range pattern 0b01001 has 5 bits and its end 0x1 has 4 bits, but x[0..4] has 4 fields",
        ),
        (
            0..4,
            values((1, 4), (9, 5)),
            20,
            "the start of the range pattern 0x1 has 4 bits and its end 0b01001 has 5 bits, but x[0..4] has 4 fields",
        ),
        (0..4, values((9, 4), (1, 1)), 21, "the range pattern starts at 9, above its end 1"),
    ]
}

#[test]
fn refusals() {
    let names = Names::new();
    for (range, pattern, number, facts) in refused() {
        let refusal = Refusal { number, place: 0 };
        assert_eq!(cost(range.clone(), &pattern), Err(refusal), "{range:?} {pattern:?}");
        let matched = Expr::bit_range_match(range.start, range.end, pattern);
        assert_eq!(matched.check(), Err(refusal));
        let text = refusal.explain(&matched, &names);
        assert_eq!(text.lines().next(), Some(format!("{facts} (record 0, refusal {number})").as_str()));
    }
}

/// A prefix that no term can have is a number like any other here.
#[test]
fn long_prefixes() {
    let names = Names::new();
    for prefix_len in [256, 1_001, u32::MAX as usize, u32::MAX as usize + 1, usize::MAX] {
        let number = if prefix_len <= 1_000 { 18 } else { 17 };
        assert_eq!(cost(0..1_000, &cidr(100, prefix_len)), Err(Refusal { number, place: 0 }));
        let refusal = cost(0..8, &cidr(8, prefix_len)).unwrap_err();
        assert_eq!(refusal.number, 17);
        let text = refusal.explain(&Expr::bit_range_match(0, 8, cidr(8, prefix_len)), &names);
        assert!(
            text.starts_with("the CIDR prefix is ") && text.contains(", but x[0..8] has 8 fields (record 0, refusal 17)"),
            "{text}"
        );
    }
    assert_eq!(cost(0..u32::MAX, &cidr(100, u32::MAX as usize)).unwrap_err().number, 18);
}

/// Cost and Desugar agree on the match; the cost, if there is one.
fn same(desugarer: &mut Desugarer, range: Range<u32>, pattern: Pattern) -> Option<u64> {
    let nodes = cost(range.clone(), &pattern);
    let desugared = desugarer.desugar(&Expr::bit_range_match(range.start, range.end, pattern));
    match &desugared {
        Ok(desugared) => assert_eq!((nodes, desugared.core.len()), (Ok(desugared.drawn.into()), desugared.drawn as usize)),
        Err(refusal) => assert_eq!(nodes, Err(*refusal)),
    }
    nodes.ok()
}

#[test]
fn every_small_pattern_as_drawn() {
    let literals = || (0..=4).flat_map(|length| (0..1 << length).map(move |value| bits(value, length)));
    let mut desugarer = Desugarer::new();
    let mut costs = 0;
    for width in 0..=5 {
        let mut all = Vec::new();
        for a in literals() {
            all.push(Pattern::Exact(a.clone()));
            all.extend((0..=width as usize + 1).map(|prefix_len| Pattern::Cidr { address: a.clone(), prefix_len }));
            for b in literals() {
                all.push(Pattern::Wildcard { address: a.clone(), mask: b.clone() });
                all.push(Pattern::IpRange { start: a.clone(), end: b });
            }
        }
        costs += all.into_iter().filter_map(|pattern| same(&mut desugarer, 7..7 + width, pattern)).count();
    }
    assert_eq!(costs, 88 + 129 + 341 + 1_215, "Exact, Cidr, Wildcard, IpRange");
}

#[test]
fn random_patterns_as_drawn() {
    let mut random = Random::new(5);
    let mut desugarer = Desugarer::new();
    let (mut costs, mut dear) = (0, 0);
    for _ in 0..20_000 {
        let (start, end, width) = random.range();
        let pattern = random.pattern(width);
        let bounds = matches!(pattern, Pattern::IpRange { .. });
        if let Some(nodes) = same(&mut desugarer, start..end, pattern) {
            costs += 1;
            dear += usize::from(nodes > 10_000);
            assert!(!bounds || nodes <= MAX_RANGE_PATTERN_COST);
        }
    }
    assert!(costs > 10_000 && dear > 20, "{costs} costs, {dear} of them above 10,000");
}

/// An allowance of the cost is enough, and one less is not. A cost beyond every allowance is a cost.
#[test]
fn allowances() {
    for (width, pattern) in [(16, values((1_024, 16), (49_151, 16))), (128, values((1, 1), (2, 128))), (1_000, exact(5, 3))] {
        let nodes = cost(0..width, &pattern).unwrap() as u32;
        let matched = Expr::bit_range_match(0, width, pattern);
        assert_eq!(Desugarer::with_allowance(nodes).desugar(&matched).unwrap().drawn, nodes);
        assert_eq!(Desugarer::with_allowance(nodes - 1).desugar(&matched), Err(Refusal { number: 24, place: 0 }));
    }
    assert_eq!(cost(0..32_769, &exact(5, 3)), Ok(65_537));
    assert_eq!(Expr::bit_range_match(0, 32_769, exact(5, 3)).desugar().unwrap_err().number, 24);
}
