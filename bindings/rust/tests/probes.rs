//! The probes of the requirement ("document 01"), starred and not.

use std::fs;
use std::path::Path;

use netkat::{bits, bytes, desugar, Core, Desugared, Desugarer, Exp, Expr, Kind, Pattern, Refusal};

fn desugared(term: &Expr) -> Desugared {
    Desugarer::with_allowance(1_000).desugar(term).unwrap()
}

/// The refusal's number; check and desugaring must agree on the refusal.
fn refused(term: &Expr) -> u32 {
    let refusal = desugar(term).unwrap_err();
    assert_eq!(term.check(), Err(refusal));
    refusal.number
}

/// The core that is written as an expression.
fn core(expr: Exp) -> Core {
    Core::from_expr(&expr).unwrap()
}

/// A chain of tests that leans right.
fn tests(fields: &[(u32, bool)]) -> Core {
    let (&(field, value), front) = fields.split_last().unwrap();
    let chain = front
        .iter()
        .rev()
        .fold(Expr::test(field, value), |rest, &(field, value)| Expr::intersect(Expr::test(field, value), rest));
    core(chain)
}

fn cidr(prefix_len: usize) -> Exp {
    Expr::bit_range_match(0, 8, Pattern::Cidr { address: bits(160, 8), prefix_len })
}

fn values(end: u32, from: u128, to: u128) -> Exp {
    Expr::bit_range_match(0, end, Pattern::IpRange { start: bits(from, 2), end: bits(to, 2) })
}

fn hex(text: &str) -> Vec<u8> {
    if text == "-" {
        return Vec::new();
    }
    (0..text.len()).step_by(2).map(|i| u8::from_str_radix(&text[i..i + 2], 16).unwrap()).collect()
}

#[test]
fn direct_range_test() {
    let term = Expr::bit_range_test(0, 2, bits(1, 2));
    assert_eq!(term.to_bytes().unwrap(), hex("4918020000000201"));
    let Desugared { core, drawn, .. } = desugared(&term);
    assert_eq!(core.to_bytes(), hex("0108210601050601000000"));
    assert_eq!(core, tests(&[(0, true), (1, false)]));
    assert_eq!(drawn, 3);
}

#[test]
fn empty_range() {
    let test = Expr::bit_range_test(3, 3, vec![]);
    assert_eq!(desugar(&test), Ok(core(Expr::one())));
    assert_eq!(desugar(&Expr::bit_range_assign(3, 3, vec![])), Ok(core(Expr::one())));
    assert_eq!(desugar(&Expr::test_negation(test)), Ok(core(Expr::zero())));
    assert_eq!(desugar(&Expr::test_negation(Expr::bit_range_assign(3, 3, vec![]))), Ok(core(Expr::zero())));
}

#[test]
fn alias_literals() {
    let alias = |literal| Expr::let_bit_range(1, 4, 8, Expr::var_test(1, literal));
    let Desugared { core, drawn, .. } = desugared(&alias(bits(5, 3)));
    assert_eq!(core, tests(&[(4, true), (5, false), (6, true), (7, false)]));
    assert_eq!(drawn, 7);
    assert_eq!(refused(&alias(bits(5, 5))), 15);
    assert_eq!(refused(&Expr::bit_range_test(4, 8, bits(5, 3))), 16);
}

#[test]
fn cidr_patterns() {
    assert_eq!(desugared(&cidr(3)).core, tests(&[(5, true), (6, false), (7, true)]));
    assert_eq!(refused(&cidr(9)), 17);
    assert_eq!(desugar(&cidr(0)), Ok(core(Expr::one())));
}

#[test]
fn range_patterns() {
    assert_eq!(desugared(&values(2, 1, 2)).core.len(), 11);
    assert_eq!(desugar(&values(2, 0, 3)), Ok(core(Expr::one())));
    assert_eq!(refused(&values(2, 2, 1)), 21);
    assert_eq!(refused(&values(129, 0, 1)), 20);
}

#[test]
fn negated_xor() {
    let xor = || Expr::xor(Expr::test(0, true), Expr::test(1, true));
    let once = Expr::test_negation(xor());
    let twice = Expr::test_negation(once.clone());
    let answer = |term: &Expr| (desugared(term).core, desugared(term).drawn);
    assert_eq!(answer(&once), (core(Expr::difference(Expr::one(), xor())), 8));
    assert_eq!(answer(&twice), (core(Expr::union(Expr::zero(), xor())), 13));
}

#[test]
fn one_is_kept_in_an_if() {
    let core = desugared(&Expr::if_then_else(Expr::test(0, true), Expr::one(), Expr::zero())).core;
    assert_eq!(core.len(), 7);
    assert!(core.nodes().any(|node| node.kind() == Kind::One));
}

#[test]
fn definitions_keep_their_bindings() {
    let (a, v) = (1, 2);
    let inner = Expr::let_bit_range(a, 8, 12, Expr::var(v));
    let term = Expr::let_bit_range(a, 0, 4, Expr::let_in(v, Expr::var_test(a, bits(1, 1)), inner));
    assert_eq!(desugared(&term).core, tests(&[(0, true), (1, false), (2, false), (3, false)]));
}

#[test]
fn alias_is_judged_on_use() {
    assert_eq!(desugar(&Expr::let_bit_range(1, 5, 3, Expr::one())), Ok(core(Expr::one())));
    assert_eq!(refused(&Expr::let_bit_range(1, 5, 3, Expr::var_test(1, bits(1, 1)))), 14);
}

#[test]
fn alias_hides_a_variable() {
    let term = Expr::let_bit_range(1, 0, 4, Expr::var(1));
    assert_eq!(term.substitute(1, &Expr::One), Ok(term));
}

#[test]
fn unbound_variable() {
    assert_eq!(bytes::desugar(&[0x01, 0x14]), Err(Refusal { number: 12, place: 0 }));
}

/// The package has copies of two files of the project, so that its tests need nothing else. Where the project is there, they are the same.
#[test]
fn copies_are_the_project_s_files() {
    let package = Path::new(env!("CARGO_MANIFEST_DIR"));
    for (copy, file) in [("probes.txt", "tests/probes.txt"), ("prefix.term", "examples/prefix.term")] {
        if let Ok(bytes) = fs::read(package.join("../..").join(file)) {
            assert!(fs::read(package.join("tests").join(copy)).unwrap() == bytes, "tests/{copy} is not {file} of the project");
        }
    }
}

/// tests/probes.txt of the project; docs/TESTS.md says what its lines are.
#[test]
fn probe_lines() {
    let lines = include_str!("probes.txt").lines().filter(|line| !line.starts_with('#'));
    let mut count = 0;
    for line in lines {
        let words: Vec<&str> = line.split_whitespace().filter(|word| *word != "=>").collect();
        let shown = |result: Result<String, Refusal>| match result {
            Ok(values) => format!("ok {values}"),
            Err(Refusal { number, place }) => format!("no {number} {place}"),
        };
        let written = |bytes: &[u8]| bytes.iter().map(|byte| format!("{byte:02x}")).collect::<String>();
        let term = hex(words[1]);
        let (answer, given) = match words[0] {
            "desugar" => {
                let mut desugarer = Desugarer::with_allowance(words[2].parse().unwrap());
                let result = desugarer.desugar_bytes(&term);
                let values = result.map(|d| format!("{} {} {}", d.drawn, d.core.len(), written(d.core)));
                (shown(values), &words[5..])
            }
            "check" => (shown(bytes::check(&term).map(|test| u8::from(test).to_string())), &words[2..]),
            "substitute" => {
                let result = bytes::substitute(&term, words[2].parse().unwrap(), &hex(words[3]));
                (shown(result.map(|bytes| format!("{} {}", bytes.len(), written(&bytes)))), &words[5..])
            }
            other => panic!("no operation {other}"),
        };
        assert_eq!(answer, given.join(" "), "{line}");
        count += 1;
    }
    assert_eq!(count, 19);
}

/// examples/prefix.term, with the answer that the project's README shows.
#[test]
fn prefix_example() {
    let mut desugarer = Desugarer::with_allowance(1_000);
    let desugared = desugarer.desugar_bytes(include_bytes!("prefix.term")).unwrap();
    assert_eq!((desugared.drawn, desugared.core.len()), (15, 61));
    assert!(desugared.core.starts_with(&hex("0107010b0108250605000000")));
}
