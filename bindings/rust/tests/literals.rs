//! Literals up to the limit of 192 bits, in each place that takes one, and range patterns, whose own limit is 128 fields.

mod common;

use common::Random;
use netkat::limits::{MAX_LITERAL_BITS, MAX_RANGE_PATTERN_FIELDS};
use netkat::{bits, bytes, desugar, Core, Desugarer, Exp, Expr, Names, Pattern, Refusal};

const ALIAS: u16 = 1;

/// The core of a term that draws each of its nodes once.
fn core(term: &Expr) -> Core {
    let desugared = Desugarer::new().desugar(term).unwrap();
    assert_eq!(desugared.drawn as usize, desugared.core.len());
    desugared.core
}

/// A chain that leans right; One of nothing.
fn chain(links: Vec<Exp>, join: fn(Exp, Exp) -> Exp) -> Core {
    let chain = links.into_iter().rev().reduce(|rest, link| join(link, rest)).unwrap_or_else(Expr::one);
    Core::from_expr(&chain).unwrap()
}

/// Fields from `start` on with their values, those that are `None` left out.
fn tests(start: u32, values: impl IntoIterator<Item = Option<bool>>) -> Core {
    let links = (start..).zip(values).filter_map(|(field, value)| Some(Expr::test(field, value?)));
    chain(links.collect(), Expr::intersect)
}

/// The literal and false bits above it, up to the width.
fn filled(literal: &[bool], width: usize) -> impl Iterator<Item = Option<bool>> + '_ {
    (0..width).map(|i| Some(literal.get(i).copied().unwrap_or(false)))
}

fn alias(width: usize, body: Exp) -> Exp {
    Expr::let_bit_range(ALIAS, 7, 7 + width as u32, body)
}

fn matched(width: usize, pattern: Pattern) -> Exp {
    Expr::bit_range_match(7, 7 + width as u32, pattern)
}

#[test]
fn tests_and_assignments() {
    let mut random = Random::new(1);
    for length in 1..=MAX_LITERAL_BITS {
        let literal = random.bits(length);
        let end = 7 + length as u32;
        let test = Expr::bit_range_test(7, end, literal.clone());
        assert_eq!(core(&test), tests(7, filled(&literal, length)));
        assert_eq!(desugar(&Expr::test_negation(Expr::test_negation(test.clone()))), Ok(core(&test)));
        let assignments = (7..).zip(&literal).map(|(field, value)| Expr::assign(field, *value));
        assert_eq!(core(&Expr::bit_range_assign(7, end, literal.clone())), chain(assignments.collect(), Expr::sequence));

        // A short literal gets zeros above, also beyond the limit of literals.
        for width in [length, length + 1, 192, 200] {
            let expected = tests(7, filled(&literal, width));
            assert_eq!(core(&alias(width, Expr::var_test(ALIAS, literal.clone()))), expected);
            assert_eq!(core(&matched(width, Pattern::Exact(literal.clone()))), expected);
            let assigned = core(&alias(width, Expr::var_assign(ALIAS, literal.clone())));
            assert_eq!(assigned.len(), 2 * width - 1);
        }
    }
}

#[test]
fn cidr_patterns() {
    let mut random = Random::new(2);
    for length in [1, 127, 128, 129, 130, 160, 191, 192] {
        let address = random.bits(length);
        for prefix_len in (0..=length).filter(|prefix| prefix % 8 < 2 || *prefix == length) {
            let pattern = Pattern::Cidr { address: address.clone(), prefix_len };
            let expected = tests(7, (0..length).map(|i| (i >= length - prefix_len).then(|| address[i])));
            assert_eq!(core(&matched(length, pattern.clone())), expected);
            assert_eq!(core(&alias(length, Expr::var_match(ALIAS, pattern))), expected);
        }
        let refused =
            |address: Vec<bool>, prefix_len| matched(length, Pattern::Cidr { address, prefix_len }).check().unwrap_err().number;
        assert_eq!(refused(address.clone(), length + 1), 17);
        assert_eq!(refused(address[1..].to_vec(), 0), 18);
    }
}

#[test]
fn wildcard_patterns() {
    let mut random = Random::new(3);
    for length in [1, 127, 128, 129, 130, 160, 191, 192] {
        let (address, mask) = (random.bits(length), random.bits(length));
        let pattern = Pattern::Wildcard { address: address.clone(), mask: mask.clone() };
        let expected = tests(7, (0..length).map(|i| (!mask[i]).then(|| address[i])));
        assert_eq!(core(&matched(length, pattern.clone())), expected);
        assert_eq!(core(&alias(length, Expr::var_match(ALIAS, pattern))), expected);
        let refused = |address: &[bool], mask: &[bool]| {
            let pattern = Pattern::Wildcard { address: address.to_vec(), mask: mask.to_vec() };
            matched(length, pattern).check().unwrap_err().number
        };
        assert_eq!(refused(&address[1..], &mask), 19);
        assert_eq!(refused(&address, &mask[1..]), 19);
    }
}

/// A term for each place of a literal, with this literal there.
fn places(literal: &[bool]) -> Vec<Exp> {
    let (long, short) = (|| literal.to_vec(), || bits(1, 1));
    let width = literal.len();
    vec![
        alias(width, Expr::var_assign(ALIAS, long())),
        alias(width, Expr::var_test(ALIAS, long())),
        Expr::bit_range_assign(7, 7 + width as u32, long()),
        Expr::bit_range_test(7, 7 + width as u32, long()),
        matched(width, Pattern::Exact(long())),
        matched(width, Pattern::Cidr { address: long(), prefix_len: width.min(255) }),
        matched(width, Pattern::Wildcard { address: long(), mask: short() }),
        matched(width, Pattern::Wildcard { address: short(), mask: long() }),
        matched(width, Pattern::IpRange { start: long(), end: short() }),
        matched(width, Pattern::IpRange { start: short(), end: long() }),
    ]
}

#[test]
fn the_limit() {
    let names = Names::new();
    for length in [128, 129, 191, 192] {
        for term in places(&Random::new(4).bits(length)) {
            let bytes = term.to_bytes().unwrap();
            assert_eq!(Expr::from_bytes(&bytes).as_ref(), Ok(&term));
            assert!(bytes::num_fields(&bytes).is_ok(), "good form: {term:?}");
        }
    }
    for length in [193, 200, 255, 256] {
        for term in places(&Random::new(4).bits(length)) {
            let refusal = term.check().unwrap_err();
            assert_eq!(refusal, Refusal { number: 5, place: term.nodes().count() as u32 - 1 });
            assert_eq!(term.desugar(), Err(refusal));
            let text = refusal.explain(&term, &names);
            assert!(text.contains(&format!(" has {length} bits, and 192 are the limit (record ")), "{text}");
            assert_eq!(Expr::one().substitute(1, &term), Err(Refusal { number: 35, ..refusal }));
        }
    }
}

#[test]
fn range_patterns() {
    let range = |width, start: usize, end: usize| matched(width, Pattern::IpRange { start: bits(0, start), end: bits(1, end) });
    let widest = MAX_RANGE_PATTERN_FIELDS;
    assert_eq!(widest, 128);
    for (start, end) in [(128, 128), (1, 128), (128, 1), (0, 127)] {
        assert_eq!(range(widest, start, end).check(), Ok(true));
        assert!(range(widest, start, end).desugar().is_ok());
    }
    let values = |start, end| matched(widest, Pattern::IpRange { start: bits(start, widest), end: bits(end, widest) });
    assert_eq!(core(&values(0, u128::MAX)), tests(7, []));
    assert_eq!(core(&values(9, 9)), tests(7, filled(&bits(9, widest), widest)));
    assert_eq!(values(9, 8).check().unwrap_err().number, 21);

    // A bound that is longer than the field, and fields beyond the limit whatever the bounds.
    let refused = [(128, 129, 128), (128, 128, 129), (128, 192, 192), (129, 0, 0), (129, 1, 1), (129, 129, 129), (192, 192, 192)];
    for (width, start, end) in refused {
        assert_eq!(range(width, start, end).check(), Err(Refusal { number: 20, place: 0 }), "{width}, {start}, {end}");
        assert_eq!(range(width, start, end).desugar(), Err(Refusal { number: 20, place: 0 }));
    }
}

/// Ifs over matches of two literals of 192 bits: 4,096 records, and no term has more bytes.
#[test]
fn the_longest_term() {
    let long = || bits(u128::MAX, MAX_LITERAL_BITS);
    let leaf = || Expr::bit_range_match(u32::MAX - 1, u32::MAX, Pattern::Wildcard { address: long(), mask: long() });
    let mut parts: Vec<Exp> = (0..2_731).map(|_| leaf()).collect();
    while parts.len() > 1 {
        // The last ones stay as they are: an odd number of parts less two each time ends at one.
        let rest = parts.split_off(parts.len() / 3 * 3);
        let mut front = parts.into_iter();
        let mut joined = Vec::new();
        while let (Some(a), Some(b), Some(c)) = (front.next(), front.next(), front.next()) {
            joined.push(Expr::if_then_else(a, b, c));
        }
        joined.extend(rest);
        parts = joined;
    }
    let term = parts.pop().unwrap();
    assert_eq!(term.nodes().count(), 4_096);

    let bytes = term.to_bytes().unwrap();
    assert_eq!(bytes.len(), 1_365 * 2 + 2_731 * 61);
    assert_eq!(Expr::from_bytes(&bytes).as_ref(), Ok(&term));
    // The wildcards do not fit their ranges of one field.
    assert_eq!(term.check().unwrap_err().number, 19);
    assert_eq!(term.substitute(1, &Expr::One).as_ref(), Ok(&term));
    assert_eq!(Expr::var(1).substitute(1, &term), Ok(term));
}
