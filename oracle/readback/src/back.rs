//! The original's tree as the crate's.
use crate::expr::{Expr as Original, Pattern as OriginalPattern};
use netkat::{Exp, Expr, Pattern};
use std::collections::HashMap;

/// Names get the numbers of their texts. Recurses, as the parser did.
pub fn convert(tree: &Original, numbers: &HashMap<String, u16>) -> Exp {
    let sub = |tree: &Original| convert(tree, numbers);
    let name = |text: &String| numbers[text];
    match tree {
        Original::Zero => Expr::zero(),
        Original::One => Expr::one(),
        Original::Top => Expr::top(),
        Original::Dup => Expr::dup(),
        Original::End => Expr::end(),
        Original::Assign(field, value) => Expr::assign(*field, *value),
        Original::Test(field, value) => Expr::test(*field, *value),
        Original::Var(word) => Expr::var(name(word)),
        Original::VarAssign(word, bits) => Expr::var_assign(name(word), bits.clone()),
        Original::VarTest(word, bits) => Expr::var_test(name(word), bits.clone()),
        Original::VarMatch(word, p) => Expr::var_match(name(word), pattern(p)),
        Original::BitRangeAssign(start, end, bits) => Expr::bit_range_assign(*start, *end, bits.clone()),
        Original::BitRangeTest(start, end, bits) => Expr::bit_range_test(*start, *end, bits.clone()),
        Original::BitRangeMatch(start, end, p) => Expr::bit_range_match(*start, *end, pattern(p)),
        Original::Union(a, b) => Expr::union(sub(a), sub(b)),
        Original::Intersect(a, b) => Expr::intersect(sub(a), sub(b)),
        Original::Xor(a, b) => Expr::xor(sub(a), sub(b)),
        Original::Difference(a, b) => Expr::difference(sub(a), sub(b)),
        Original::Sequence(a, b) => Expr::sequence(sub(a), sub(b)),
        Original::LtlUntil(a, b) => Expr::ltl_until(sub(a), sub(b)),
        Original::Complement(a) => Expr::complement(sub(a)),
        Original::TestNegation(a) => Expr::test_negation(sub(a)),
        Original::Star(a) => Expr::star(sub(a)),
        Original::LtlNext(a) => Expr::ltl_next(sub(a)),
        Original::IfThenElse(a, b, c) => Expr::if_then_else(sub(a), sub(b), sub(c)),
        Original::Let(word, a, b) => Expr::let_in(name(word), sub(a), sub(b)),
        Original::LetBitRange(word, start, end, a) => Expr::let_bit_range(name(word), *start, *end, sub(a)),
    }
}

fn pattern(pattern: &OriginalPattern) -> Pattern {
    match pattern.clone() {
        OriginalPattern::Exact(bits) => Pattern::Exact(bits),
        OriginalPattern::Cidr { address, prefix_len } => Pattern::Cidr { address, prefix_len },
        OriginalPattern::Wildcard { address, mask } => Pattern::Wildcard { address, mask },
        OriginalPattern::IpRange { start, end } => Pattern::IpRange { start, end },
    }
}

/// The policy with the match of the same value for each test of an alias or a range, which the written syntax does not have.
pub fn tests_as_matches(policy: &Expr) -> Exp {
    let mut policy = Box::new(policy.clone());
    let mut pending = vec![&mut *policy];
    while let Some(node) = pending.pop() {
        match node {
            Expr::VarTest(name, bits) => *node = *Expr::var_match(*name, Pattern::Exact(std::mem::take(bits))),
            Expr::BitRangeTest(start, end, bits) => {
                *node = *Expr::bit_range_match(*start, *end, Pattern::Exact(std::mem::take(bits)))
            }
            Expr::Union(a, b)
            | Expr::Intersect(a, b)
            | Expr::Xor(a, b)
            | Expr::Difference(a, b)
            | Expr::Sequence(a, b)
            | Expr::LtlUntil(a, b)
            | Expr::Let(_, a, b) => pending.extend([&mut **a, &mut **b]),
            Expr::Complement(a) | Expr::Star(a) | Expr::LtlNext(a) | Expr::TestNegation(a) | Expr::LetBitRange(_, _, _, a) => {
                pending.push(&mut **a)
            }
            Expr::IfThenElse(a, b, c) => pending.extend([&mut **a, &mut **b, &mut **c]),
            _ => {}
        }
    }
    policy
}
