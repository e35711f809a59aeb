//! Every number has its kind and its sentence, and every number that a caller can cause is caused.

use std::collections::HashSet;
use std::error::Error;

use netkat::{bits, bytes, compute_subrange, limits, Desugarer, Exp, Expr, FormFault, Pattern, Refusal, RefusalKind};

fn numbers() -> impl Iterator<Item = u32> {
    (1..=28).chain(31..=38).chain(41..=42).chain(48..=50)
}

#[test]
fn every_number_has_a_kind_of_its_own() {
    let kinds: HashSet<RefusalKind> = numbers().map(|number| Refusal { number, place: 0 }.kind()).collect();
    assert_eq!(kinds.len(), 41);
    assert!(!kinds.contains(&RefusalKind::Unknown));
    for number in [0, 29, 30, 39, 40, 43, 47, 51, 71, 72, u32::MAX] {
        assert_eq!(Refusal { number, place: 0 }.kind(), RefusalKind::Unknown);
    }
    assert_eq!(Refusal { number: 37, place: 0 }.kind(), RefusalKind::Replacement(FormFault::TooDeep));
}

#[test]
fn every_number_has_a_sentence_of_its_own() {
    let sentences: HashSet<String> = numbers()
        .map(|number| {
            let text = Refusal { number, place: 9_876 }.to_string();
            assert!(text.contains(&format!("refusal {number})")), "{text}");
            let has_record = !matches!(number, 8..=10 | 26..=28 | 38 | 48..=50);
            assert_eq!(text.contains("(record 9876, "), has_record, "{text}");
            assert_eq!(text.contains("(packet 9876, "), number == 50, "{text}");
            text.split(" (").next().unwrap().to_owned()
        })
        .collect();
    assert_eq!(sentences.len(), 41);
}

#[test]
fn a_refusal_is_an_error() {
    fn review() -> Result<(), Box<dyn Error>> {
        Expr::test_negation(Expr::dup()).desugar()?;
        Ok(())
    }
    let text = review().unwrap_err().to_string();
    assert_eq!(text, "only a test can be negated, and this operand is not a test (record 0, refusal 22)");
}

fn refused<T: std::fmt::Debug>(result: Result<T, Refusal>) -> (u32, u32) {
    let refusal = result.unwrap_err();
    (refusal.number, refusal.place)
}

#[test]
fn form() {
    let stars = [1, 14].repeat(256);
    let many: Vec<u8> = [[1, 7].repeat(11), [0].repeat(5_000)].concat();
    let large = balanced(13);
    let cases: [(&[u8], (u32, u32)); 9] = [
        (&[1, 14], (1, 1)),
        (&[1, 27], (2, 0)),
        (&[2, 1, 0], (3, 0)),
        (&[1, 0], (4, 0)),
        (&[0x21, 6, 2], (5, 0)),
        (&[0x41, 22, 193], (5, 0)), // a literal of 193 bits
        (&large, (6, 4_096)),
        (&stars, (7, 256)),
        (&many, (8, 23)),
    ];
    for (term, (number, place)) in cases {
        assert_eq!(refused(Expr::from_bytes(term)), (number, place));
        assert_eq!(refused(bytes::check(term)), (number, place));
        assert_eq!(refused(bytes::desugar(term)), (number, place));
        assert_eq!(refused(bytes::num_fields(term)), (number, place));
        assert_eq!(refused(bytes::is_test_fragment(term)), (number, place));
        assert_eq!(refused(bytes::substitute(term, 1, &[0])), (number, place));
        assert_eq!(refused(bytes::substitute(&[0], 1, term)), (number + 30, place));
    }
}

/// The bytes of a balanced tree of Unions, of this depth: 2 to its power records, less 1.
fn balanced(depth: usize) -> Vec<u8> {
    (1..depth).fold(vec![0], |half, _| [vec![1, 7], half.clone(), half].concat())
}

#[test]
fn trees_beyond_the_byte_form() {
    let long = Expr::union(Expr::one(), Expr::var_test(1, bits(0, limits::MAX_LITERAL_BITS + 1)));
    assert_eq!(refused(long.check()), (5, 2));
    assert_eq!(refused(Expr::one().substitute(1, &long)), (35, 2));
    let prefix = Pattern::Cidr { address: bits(0, 8), prefix_len: 256 };
    assert_eq!(refused(Expr::bit_range_match(0, 8, prefix).desugar()), (5, 0));
}

#[test]
fn rules() {
    let alias = |body: Exp| Expr::let_bit_range(1, 0, 4, body);
    let matched = |pattern| Expr::bit_range_match(0, 4, pattern);
    let cidr = |width, prefix_len| matched(Pattern::Cidr { address: bits(0, width), prefix_len });
    let wildcard = |a, b| matched(Pattern::Wildcard { address: bits(0, a), mask: bits(0, b) });
    let values = |from, to, width| matched(Pattern::IpRange { start: bits(from, width), end: bits(to, width) });
    let cases: [(Exp, (u32, u32)); 18] = [
        (Expr::var_assign(1, bits(1, 1)), (11, 0)),
        (alias(Expr::var_match(2, Pattern::Exact(bits(1, 1)))), (11, 1)),
        (Expr::let_in(1, Expr::var(1), Expr::one()), (12, 1)),
        (alias(Expr::var(1)), (13, 1)),
        (Expr::bit_range_test(4, 3, vec![]), (14, 0)),
        (alias(Expr::var_assign(1, bits(1, 5))), (15, 1)),
        (matched(Pattern::Exact(bits(1, 5))), (15, 0)),
        (Expr::bit_range_assign(0, 4, bits(1, 5)), (16, 0)),
        (cidr(4, 5), (17, 0)),
        (cidr(3, 4), (18, 0)),
        (wildcard(4, 3), (19, 0)),
        (wildcard(3, 4), (19, 0)),
        (values(0, 1, 5), (20, 0)),
        (values(3, 2, 4), (21, 0)),
        (Expr::star(Expr::test_negation(Expr::star(Expr::one()))), (22, 1)),
        (Expr::test_negation(Expr::assign(0, true)), (22, 0)),
        (Expr::if_then_else(Expr::dup(), Expr::one(), Expr::one()), (23, 0)),
        (Expr::union(Expr::one(), Expr::if_then_else(Expr::end(), Expr::one(), Expr::one())), (23, 2)),
    ];
    for (term, expected) in cases {
        assert_eq!(refused(term.check()), expected, "{term:?}");
        assert_eq!(refused(term.desugar()), expected, "{term:?}");
    }
}

#[test]
fn allowance() {
    for wrong in [0, 65_536, u32::MAX] {
        assert_eq!(refused(Desugarer::with_allowance(wrong).desugar(&Expr::One)), (9, 0));
    }
    let too_long = Expr::var_test(1, bits(0, 200));
    assert_eq!(refused(Desugarer::with_allowance(0).desugar(&too_long)), (9, 0), "the allowance comes before the form");
    assert_eq!(refused(Desugarer::with_allowance(0).desugar_to_expr(&too_long)), (9, 0));
    let term = Expr::bit_range_test(0, 2, bits(1, 2));
    assert_eq!(refused(Desugarer::with_allowance(2).desugar(&term)), (24, 0));
    assert_eq!(Desugarer::with_allowance(3).desugar(&term).unwrap().drawn, 3);
    assert_eq!(Desugarer::default().allowance(), 65_535);
}

#[test]
fn the_buffer_is_long_enough() {
    // Each node but one is a record of 7 bytes or a Sequence of 2; the allowance is spent to the last node.
    let term = Expr::bit_range_assign(0x0100_0000, 0x0100_0004, bits(15, 4));
    let mut desugarer = Desugarer::with_allowance(7);
    assert_eq!(desugarer.desugar_bytes(&term.to_bytes().unwrap()).unwrap().core.len(), 4 * 7 + 3 * 2);
    let test = Expr::test(u32::MAX, true);
    assert_eq!(Desugarer::with_allowance(1).desugar(&test).unwrap().core.to_expr(), test);
}

#[test]
fn operations() {
    let term = Expr::union(Expr::test(1, true), Expr::assign(u32::MAX, false));
    assert_eq!(refused(term.num_fields()), (25, 2));

    let twice = Expr::union(Expr::var(0), Expr::var(0));
    let large = Expr::from_bytes(&balanced(11)).unwrap();
    assert_eq!(large.nodes().count(), 2_047);
    assert_eq!(twice.substitute(0, &large).unwrap().nodes().count(), 4_095);
    assert_eq!(refused(twice.substitute(0, &Expr::Star(large))), (27, 0));

    assert_eq!(compute_subrange(4..8, 0..4), Ok(4..8));
    assert_eq!(refused(compute_subrange(4..8, 0..5)), (28, 0));
    #[allow(clippy::reversed_empty_ranges)]
    let reversed = 3..2;
    assert_eq!(refused(compute_subrange(4..8, reversed)), (28, 0));
    assert_eq!(refused(compute_subrange(u32::MAX..u32::MAX, 1..1)), (28, 0));
}

#[test]
fn names_run_out() {
    let mut names = netkat::Names::new();
    assert!(names.is_empty());
    for number in 0..=u16::MAX {
        assert_eq!(names.intern(&number.to_string()), number);
    }
    assert_eq!(names.len(), 65_536);
    assert_eq!(names.try_intern("one more"), None);
    assert_eq!(names.try_intern("17"), Some(17));
    assert_eq!((names.number("99"), names.text(99)), (Some(99), Some("99")));
    assert_eq!(names.number("one more"), None);
}
