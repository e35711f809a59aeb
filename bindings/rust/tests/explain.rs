//! Each refusal that a policy can cause, explained with its facts.

mod common;

use netkat::limits::MAX_LITERAL_BITS;
use netkat::{bits, bits_of_words, Core, Desugarer, Exp, Expr, Names, Pattern, Refusal};

/// Names with the words of the cases: a is 0, b is 1, v is 2, "two words" is 3.
fn names() -> Names {
    let mut names = Names::new();
    for word in ["a", "b", "v", "two words"] {
        names.intern(word);
    }
    names
}

const A: u16 = 0;
const B: u16 = 1;
const V: u16 = 2;

fn explained(policy: &Expr) -> String {
    policy.check().unwrap_err().explain(policy, &names())
}

/// The first line and the part of the policy.
fn case(policy: Exp, facts: &str, part: &str) {
    assert_eq!(explained(&policy), format!("{facts}\n  in: {part}"));
}

fn alias(body: Exp) -> Exp {
    Expr::let_bit_range(A, 0, 4, body)
}

fn matched(pattern: Pattern) -> Exp {
    Expr::bit_range_match(0, 4, pattern)
}

#[test]
fn names_without_a_binding() {
    case(
        Expr::var_assign(A, bits(1, 1)),
        "this assignment needs an alias `a`, and no let around it gives `a` a range of fields; there are no aliases here (record 0, refusal 11)",
        "a := 1",
    );
    case(
        alias(Expr::let_in(B, Expr::one(), Expr::var_test(B, bits(1, 1)))),
        "this test needs an alias `b`, and no let around it gives `b` a range of fields (a variable of that name does not count); \
         the aliases here are `a` (record 3, refusal 11)",
        "b ~ 1",
    );
    case(
        Expr::sequence(alias(Expr::one()), Expr::var_match(A, Pattern::Exact(bits(1, 1)))),
        "this match needs an alias `a`, and no let around it gives `a` a range of fields; there are no aliases here (record 3, refusal 11)",
        "a ~ 1",
    );
    case(
        Expr::let_in(A, Expr::one(), Expr::let_in(V, Expr::var(V), Expr::one())),
        "no let around this use defines the variable `v`; a let does not reach into its own definition; the variables here are `a` \
         (record 3, refusal 12)",
        "v",
    );
    case(
        alias(Expr::star(Expr::var(A))),
        "`a` is an alias of x[0..4] and no variable: it can be assigned, tested or matched, but is not a policy by itself \
         (record 2, refusal 13)",
        "a",
    );
    case(
        Expr::var(3),
        "no let around this use defines the variable `n3` (\"two words\"); there are no variables here (record 0, refusal 12)",
        "n3",
    );
}

#[test]
fn many_names_in_scope() {
    let policy = (10..20).fold(Expr::var(9), |body, name| Expr::let_in(name, Expr::one(), body));
    let text = explained(&Expr::let_in(10, Expr::one(), policy));
    assert!(text.contains("; the variables here are `n10`, `n11`, `n12`, `n13`, `n14`, … (record 22, refusal 12)"), "{text}");
}

#[test]
fn ranges_that_end_below_their_start() {
    case(
        Expr::bit_range_test(4, 3, vec![]),
        "the range of x[4..3] ends below its start (record 0, refusal 14)",
        "x[4..3] == 0/0",
    );
    case(
        Expr::let_bit_range(A, 0, 4, Expr::let_bit_range(A, 5, 3, Expr::var_assign(A, bits(1, 1)))),
        "the range of alias `a`, x[5..3], ends below its start (record 2, refusal 14)",
        "a := 1",
    );
}

#[test]
fn widths_of_values() {
    case(
        alias(Expr::var_assign(A, bits(17, 5))),
        "the value 0b10001 has 5 bits, but alias `a`, x[0..4], has 4 fields (record 1, refusal 15)",
        "a := 17",
    );
    case(
        alias(Expr::var_test(A, bits(1, 8))),
        "the value 0x01 has 8 bits, but alias `a`, x[0..4], has 4 fields (record 1, refusal 15)",
        "a ~ 0x01",
    );
    case(
        matched(Pattern::Exact(bits(1, 40))),
        "the value has 40 bits, but x[0..4] has 4 fields (record 0, refusal 15)",
        "x[0..4] ~ 0x0000000001",
    );
    case(
        Expr::bit_range_assign(4, 5, bits(5, 3)),
        "the value 0b101 has 3 bits, but x[4..5] has 1 field, and a direct range takes exactly as many bits (record 0, refusal 16)",
        "x[4..5] := 5/3",
    );
    case(
        Expr::union(Expr::one(), Expr::bit_range_test(4, 8, vec![])),
        "the value has 0 bits, but x[4..8] has 4 fields, and a direct range takes exactly as many bits (record 2, refusal 16)",
        "x[4..8] == 0/0",
    );
}

#[test]
fn widths_of_patterns() {
    case(
        matched(Pattern::Cidr { address: bits(0, 4), prefix_len: 5 }),
        "the CIDR prefix is 5, but x[0..4] has 4 fields (record 0, refusal 17)",
        "x[0..4] ~ 0/5",
    );
    case(
        alias(Expr::var_match(A, Pattern::Cidr { address: bits(2, 3), prefix_len: 4 })),
        "the CIDR address 0b010 has 3 bits, but alias `a`, x[0..4], has 4 fields (record 1, refusal 18)",
        "a ~ 0b010/4",
    );
    case(
        matched(Pattern::Wildcard { address: bits(1, 4), mask: bits(3, 3) }),
        "the wildcard's address 0x1 has 4 bits and its mask 0b011 has 3 bits, but x[0..4] has 4 fields (record 0, refusal 19)",
        "x[0..4] ~ 1 mask 0b011",
    );
    case(
        matched(Pattern::IpRange { start: bits(1, 5), end: bits(2, 2) }),
        "the start of the range pattern 0b00001 has 5 bits and its end 0b10 has 2 bits, but x[0..4] has 4 fields (record 0, refusal 20)",
        "x[0..4] ~ 0b00001-0b10",
    );
    case(
        Expr::bit_range_match(0, 1_129, Pattern::IpRange { start: bits(1, 2), end: bits(2, 2) }),
        "x[0..1129] has 1,129 fields, and a range pattern, here with bounds of 2 and 2 bits, can be matched against 128 at most \
         (record 0, refusal 20)",
        "x[0..1129] ~ 0b01-0b10",
    );
    case(
        matched(Pattern::IpRange { start: bits(3, 4), end: bits(2, 4) }),
        "the range pattern starts at 3, above its end 2 (record 0, refusal 21)",
        "x[0..4] ~ 3-2",
    );
    case(
        Expr::bit_range_match(0, 32, "10.0.0.9-10.0.0.1".parse().unwrap()),
        "the range pattern starts at 10.0.0.9, above its end 10.0.0.1 (record 0, refusal 21)",
        "x[0..32] ~ 10.0.0.9-10.0.0.1",
    );
}

/// A label stack of six words, and its digits. They are too many for a sentence and stand in the part.
fn stack() -> Vec<bool> {
    bits_of_words(&[0x10040, 0x11040, 0x12040, 0x13040, 0x14040, 0x15140])
}

const STACK: &str = "0x00010040_00011040_00012040_00013040_00014040_00015140";

fn five_words(body: Exp) -> Exp {
    Expr::let_bit_range(A, 0, 160, body)
}

#[test]
fn widths_of_long_values() {
    case(
        five_words(Expr::var_test(A, stack())),
        "the value has 192 bits, but alias `a`, x[0..160], has 160 fields (record 1, refusal 15)",
        &format!("a ~ {STACK}"),
    );
    case(
        Expr::bit_range_match(0, 191, Pattern::Exact(stack())),
        "the value has 192 bits, but x[0..191] has 191 fields (record 0, refusal 15)",
        &format!("x[0..191] ~ {STACK}"),
    );
    case(
        Expr::bit_range_assign(0, 160, stack()),
        "the value has 192 bits, but x[0..160] has 160 fields, and a direct range takes exactly as many bits (record 0, refusal 16)",
        &format!("x[0..160] := {STACK}/192"),
    );
}

#[test]
fn widths_of_long_patterns() {
    case(
        Expr::bit_range_match(0, 192, Pattern::Cidr { address: stack(), prefix_len: 193 }),
        "the CIDR prefix is 193, but x[0..192] has 192 fields (record 0, refusal 17)",
        &format!("x[0..192] ~ {STACK}/193"),
    );
    case(
        five_words(Expr::var_match(A, Pattern::Cidr { address: stack(), prefix_len: 96 })),
        "the CIDR address has 192 bits, but alias `a`, x[0..160], has 160 fields (record 1, refusal 18)",
        &format!("a ~ {STACK}/96"),
    );
    let mask = || bits_of_words(&[0, 0, 0, u32::MAX, u32::MAX, u32::MAX]);
    case(
        Expr::bit_range_match(0, 160, Pattern::Wildcard { address: stack(), mask: mask() }),
        "the wildcard's address has 192 bits and its mask has 192 bits, but x[0..160] has 160 fields (record 0, refusal 19)",
        &format!("x[0..160] ~ {STACK} mask 0x00000000_00000000_00000000_ffffffff_ffffffff_ffffffff"),
    );
}

#[test]
fn wide_range_patterns() {
    let (low, high) = (|width| bits(1, width), |width| bits(u128::MAX, width));
    let range = |fields, start, end| Expr::bit_range_match(0, fields, Pattern::IpRange { start: low(start), end: high(end) });
    case(
        range(192, 192, 192),
        "x[0..192] has 192 fields, and a range pattern, here with bounds of 192 and 192 bits, can be matched against 128 at most \
         (record 0, refusal 20)",
        "x[0..192] ~ 0x00000000_00000000_00000000_00000000_00000000_00000001-0x00000000_00000000_ffffffff_ffffffff_ffffffff_ffffffff",
    );
    case(
        range(129, 128, 0),
        "x[0..129] has 129 fields, and a range pattern, here with bounds of 128 and 0 bits, can be matched against 128 at most \
         (record 0, refusal 20)",
        &format!("x[0..129] ~ 0x{}1-0b", "0".repeat(31)),
    );
    case(
        range(128, 132, 128),
        "the start of the range pattern has 132 bits and its end has 128 bits, but x[0..128] has 128 fields (record 0, refusal 20)",
        &format!("x[0..128] ~ 0x0_00000000_00000000_00000000_00000001-0x{}", "f".repeat(32)),
    );
    let facts = "the start of the range pattern has 128 bits and its end has 129 bits, but x[0..128] has 128 fields (record 0, refusal 20)";
    assert_eq!(explained(&range(128, 128, 129)).lines().next(), Some(facts));
}

#[test]
fn what_is_not_a_test() {
    case(
        Expr::star(Expr::test_negation(Expr::dup())),
        "only a test can be negated, and `dup` is not one (record 1, refusal 22)",
        "!dup",
    );
    case(
        Expr::test_negation(Expr::union(Expr::test(0, true), Expr::sequence(Expr::one(), Expr::assign(1, true)))),
        "only a test can be negated, and `x0 == 1 + 1 ; x1 := 1` is not one because of `x1 := 1` at record 5 (record 0, refusal 22)",
        "!(x0 == 1 + 1 ; x1 := 1)",
    );
    // By way of a variable, whose definition stands elsewhere; empty assignments are tests.
    let empty = || Expr::bit_range_assign(3, 3, vec![]);
    case(
        Expr::let_in(V, Expr::intersect(empty(), Expr::star(Expr::one())), Expr::if_then_else(Expr::var(V), empty(), empty())),
        "the condition of an if must be a test, and `v` is not one because of `1*` at record 3 (record 5, refusal 23)",
        "if v then x[3..3] := 0 else x[3..3] := 0",
    );
    case(
        Expr::if_then_else(Expr::end(), Expr::one(), Expr::one()),
        "the condition of an if must be a test, and `end` is not one (record 0, refusal 23)",
        "if end then 1 else 1",
    );
}

#[test]
fn long_parts_are_shortened() {
    let long = Expr::test_negation(Expr::union_all((0..60).map(|field| Expr::assign(field, true))));
    let text = explained(&long);
    let part = text.lines().last().unwrap().strip_prefix("  in: ").unwrap();
    assert_eq!(part.chars().count(), 145, "{text}");
    assert!(part.starts_with("!(x0 := 1 + x1 := 1") && part.ends_with('…'), "{text}");
}

fn spent(allowance: u32, policy: &Expr) -> String {
    let refusal = Desugarer::with_allowance(allowance).desugar(policy).unwrap_err();
    assert_eq!(refusal.number, 24);
    refusal.explain(policy, &names())
}

#[test]
fn spent_allowances() {
    let here = "desugaring makes more core nodes than the allowance, which is spent here";
    let small = alias(Expr::var_test(A, bits(1, 1)));
    assert_eq!(
        spent(2, &small),
        format!(
            "{here} (alias `a`, x[0..4], has 4 fields) (record 1, refusal 24)\n  in: a ~ 1\n  \
             the policy keeps all rules: an allowance of 7 is enough"
        )
    );
    assert!(Desugarer::with_allowance(6).desugar(&small).is_err() && Desugarer::with_allowance(7).desugar(&small).is_ok());
    let wide = Expr::let_bit_range(A, 0, 1_000_000_000, Expr::var_test(A, bits(1, 1)));
    assert_eq!(
        spent(65_535, &wide),
        format!(
            "{here} (alias `a`, x[0..1000000000], has 1,000,000,000 fields) (record 1, refusal 24)\n  in: a ~ 1\n  \
             the policy keeps all rules, but the greatest allowance, 65,535, is not enough: make its ranges narrower, or desugar it in parts"
        )
    );
    let broken = Expr::union(Expr::bit_range_test(0, 4, bits(1, 4)), Expr::test_negation(Expr::dup()));
    assert_eq!(
        spent(2, &broken),
        format!(
            "{here} (x[0..4] has 4 fields) (record 1, refusal 24)\n  in: x[0..4] ~ 1\n  no allowance is enough, as a rule is broken too: \
             only a test can be negated, and `dup` is not one (record 2, refusal 22)\n  in: !dup"
        )
    );
}

#[test]
fn literals_beyond_the_limit() {
    case(
        Expr::bit_range_test(0, 193, bits(0, 193)),
        "the value has 193 bits, and 192 are the limit (record 0, refusal 5)",
        &format!("x[0..193] ~ 0b0{}_{}…", format!("_{}", "0".repeat(32)).repeat(3), "0".repeat(29)),
    );
    case(
        Expr::bit_range_match(0, 196, Pattern::Cidr { address: bits(1, 196), prefix_len: 96 }),
        "the CIDR address has 196 bits, and 192 are the limit (record 0, refusal 5)",
        "x[0..196] ~ 0x0_00000000_00000000_00000000_00000000_00000000_00000001/96",
    );
}

#[test]
fn form() {
    case(
        Expr::union(Expr::one(), Expr::var_test(A, bits(0, 1_129))),
        &format!("the value has 1,129 bits, and {MAX_LITERAL_BITS} are the limit (record 2, refusal 5)"),
        &format!("a ~ 0b{}{}_{}…", "0".repeat(9), format!("_{}", "0".repeat(32)).repeat(3), "0".repeat(29)),
    );
    let long = || bits(0, 200);
    let facts = |pattern: Pattern| explained(&matched(pattern)).lines().next().unwrap().to_owned();
    assert_eq!(
        facts(Pattern::Cidr { address: bits(0, 4), prefix_len: 256 }),
        "the CIDR prefix is 256, and 255 is the limit (record 0, refusal 5)"
    );
    assert_eq!(
        facts(Pattern::Wildcard { address: bits(0, 4), mask: long() }),
        format!("the wildcard's mask has 200 bits, and {MAX_LITERAL_BITS} are the limit (record 0, refusal 5)")
    );
    assert_eq!(
        facts(Pattern::IpRange { start: long(), end: long() }),
        format!("the start of the range pattern has 200 bits, and {MAX_LITERAL_BITS} are the limit (record 0, refusal 5)")
    );
    assert_eq!(
        facts(Pattern::Exact(long())),
        format!("the value has 200 bits, and {MAX_LITERAL_BITS} are the limit (record 0, refusal 5)")
    );

    let many = Expr::union_all((0..2_500).map(|_| Expr::dup()));
    let facts = "the policy has 4,999 expressions, and 4,096 are the limit (record 4096, refusal 6)";
    assert_eq!(explained(&many).lines().next(), Some(facts));
    let deep = (0..299).fold(Expr::dup(), |body, _| Expr::star(body));
    case(
        deep.clone(),
        "the policy is nested 300 levels deep, and 256 are the limit (record 256, refusal 7)",
        &format!("dup{}", "*".repeat(43)),
    );
    let refusal = Expr::one().substitute(V, &deep).unwrap_err();
    assert!(refusal.explain(&deep, &names()).starts_with("in the replacement, the policy is nested 300 levels deep"));
}

#[test]
fn field_count() {
    let policy = Expr::union(Expr::one(), Expr::test(u32::MAX, true));
    assert_eq!(
        policy.num_fields().unwrap_err().explain(&policy, &names()),
        "field 4,294,967,295 is used here, and a count of fields that includes it is too large (record 2, refusal 25)\n  \
         in: x4294967295 == 1"
    );
    // Of a core, which may be larger than a policy.
    let deep = (1..65_535).fold(Expr::assign(u32::MAX, false), |body, _| Expr::star(body));
    let refusal = Core::from_expr(&deep).unwrap().num_fields().unwrap_err();
    assert_eq!(
        refusal.explain(&deep, &names()),
        "field 4,294,967,295 is used here, and a count of fields that includes it is too large (record 65534, refusal 25)\n  \
         in: x4294967295 := 0"
    );
}

#[test]
fn no_core() {
    let policy = Expr::union(Expr::star(Expr::dup()), Expr::let_in(V, Expr::one(), Expr::var(V)));
    let refusal = Core::from_expr(&policy).unwrap_err();
    assert_eq!(Core::from_bytes(&policy.to_bytes().unwrap()).unwrap_err(), refusal);
    assert_eq!(
        refusal.explain(&policy, &names()),
        "a core has no Let: desugaring replaces it (record 3, refusal 41)\n  in: let v = 1 in v"
    );
    assert!(refusal
        .explain(&Expr::union_all((0..3).map(|_| Expr::dup())), &names())
        .contains("it is not the one that was refused"));
}

/// Packets are run through a core that is not a test: its policy is explained, or the core itself.
#[test]
fn no_test_for_packets() {
    let policy = Expr::let_in(V, Expr::assign(4, true), alias(Expr::union(Expr::var_test(A, bits(3, 4)), Expr::var(V))));
    let core = policy.desugar().unwrap();
    let refusal = core.run(&[&[0]]).unwrap_err();
    assert_eq!(
        refusal.explain(&policy, &names()),
        "packets can be run through a test only, and this is not one because of `x4 := 1` at record 1 (refusal 48)\n  \
         in: let v = x4 := 1 in let a = &x[0..4] in a ~ 0x3 + v"
    );
    let text = refusal.explain(&core.to_expr(), &names());
    assert!(text.contains("is not one because of `x4 := 1` at record 8 (refusal 48)"), "{text}");
    let text = Core::from_expr(&Expr::Dup).unwrap().run(&[&[0]]).unwrap_err().explain(&Expr::Dup, &names());
    assert_eq!(text, "packets can be run through a test only, and this is not one (refusal 48)\n  in: dup");
    assert!(refusal.explain(&Expr::one(), &names()).contains("it is not the one that was refused"));
}

/// Whatever the refusal and the policy, there is a text, and it has the number.
#[test]
fn another_policy() {
    let policies = [
        Expr::one(),
        Expr::var(A),
        alias(Expr::var(A)),
        alias(Expr::var_test(A, bits(1, 1))),
        Expr::let_in(V, Expr::dup(), Expr::test_negation(Expr::var(V))),
        matched(Pattern::Cidr { address: bits(0, 4), prefix_len: 2 }),
        matched(Pattern::IpRange { start: bits(0, 200), end: bits(0, 200) }),
        Expr::if_then_else(Expr::one(), Expr::one(), Expr::one()),
    ];
    for policy in &policies {
        for number in (0..=60).chain([u32::MAX]) {
            for place in [0, 1, 2, 3, 4_096, u32::MAX] {
                let text = Refusal { number, place }.explain(policy, &names());
                assert!(text.contains(&format!("refusal {number})")), "{text}");
            }
        }
    }
    let refusal = Refusal { number: 17, place: 0 };
    assert_eq!(
        refusal.explain(&policies[5], &names()),
        format!(
            "{refusal}\n  in: x[0..4] ~ 0/2\n  the policy given here does not break this rule there: it is not the one that was refused"
        )
    );
    let refusal = Refusal { number: 17, place: 9 };
    assert_eq!(
        refusal.explain(&policies[5], &names()),
        format!(
            "{refusal}\n  the policy given here has no record 9, or is beyond the limits: it is not the one that was refused"
        )
    );
}

/// What the library refuses is always found in the policy again.
#[test]
fn random_policies() {
    let mut random = common::Random::new(9);
    let mut refused = 0;
    for _ in 0..3_000 {
        let depth = 1 + random.below(7);
        let policy = random.term(depth);
        if let Err(refusal) = policy.check() {
            refused += 1;
            let text = refusal.explain(&policy, &names());
            assert!(!text.contains("the policy given here"), "{policy:?}: {text}");
        }
    }
    assert!(refused > 1_000, "only {refused}");
}
