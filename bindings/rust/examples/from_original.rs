//! From the original's own expressions to this crate's.
//!
//! In a tree that has the original (KATch2), delete the module `original` below, put `use crate::expr as original;` in its place, and take the rest
//! as it is.

use netkat::{desugar, Exp, Expr, Names, Pattern};

/// The original's two types, as its `src/expr.rs` declares them. The example builds few of the cases itself.
#[allow(dead_code)]
mod original {
    #[derive(Clone, Debug)]
    pub enum Pattern {
        Cidr { address: Vec<bool>, prefix_len: usize },
        IpRange { start: Vec<bool>, end: Vec<bool> },
        Wildcard { address: Vec<bool>, mask: Vec<bool> },
        Exact(Vec<bool>),
    }

    #[derive(Clone, Debug)]
    pub enum Expr {
        Zero,
        One,
        Top,
        Assign(u32, bool),
        Test(u32, bool),
        VarAssign(String, Vec<bool>),
        VarTest(String, Vec<bool>),
        BitRangeAssign(u32, u32, Vec<bool>),
        BitRangeTest(u32, u32, Vec<bool>),
        BitRangeMatch(u32, u32, Pattern),
        VarMatch(String, Pattern),
        Union(Exp, Exp),
        Intersect(Exp, Exp),
        Xor(Exp, Exp),
        Difference(Exp, Exp),
        Complement(Exp),
        TestNegation(Exp),
        IfThenElse(Exp, Exp, Exp),
        Var(String),
        Let(String, Exp, Exp),
        LetBitRange(String, u32, u32, Exp),
        Sequence(Exp, Exp),
        Star(Exp),
        Dup,
        LtlNext(Exp),
        LtlUntil(Exp, Exp),
        End,
    }

    pub type Exp = Box<Expr>;
}

/// The same expression with numbers for names, which `names` gives by first appearance. Does not recurse.
fn from_original(expr: &original::Expr, names: &mut Names) -> Exp {
    let mut nodes = Vec::new();
    let mut pending = vec![expr];
    while let Some(node) = pending.pop() {
        let name = name_of(node).map_or(0, |word| names.intern(word));
        nodes.push((node, name));
        pending.extend(children(node).into_iter().rev());
    }
    // From the last node to the first: a node's children are complete before it, its first child on top.
    let mut complete: Vec<Exp> = Vec::new();
    for (node, name) in nodes.into_iter().rev() {
        let node = rebuilt(node, name, || complete.pop().expect("the children stand behind the node"));
        complete.push(node);
    }
    complete.pop().expect("there is a root")
}

/// The name that a node has itself.
fn name_of(node: &original::Expr) -> Option<&str> {
    use original::Expr::*;
    match node {
        VarAssign(name, _) | VarTest(name, _) | VarMatch(name, _) | Var(name) | Let(name, ..) | LetBitRange(name, ..) => {
            Some(name)
        }
        _ => None,
    }
}

fn children(node: &original::Expr) -> Vec<&original::Expr> {
    use original::Expr::*;
    match node {
        Union(a, b) | Intersect(a, b) | Xor(a, b) | Difference(a, b) | Sequence(a, b) | LtlUntil(a, b) | Let(_, a, b) => {
            vec![a, b]
        }
        Complement(a) | TestNegation(a) | Star(a) | LtlNext(a) | LetBitRange(_, _, _, a) => vec![a],
        IfThenElse(a, b, c) => vec![a, b, c],
        _ => vec![],
    }
}

/// The node with this name; `child` gives its children, left to right.
fn rebuilt(node: &original::Expr, name: u16, mut child: impl FnMut() -> Exp) -> Exp {
    use original::Expr::*;
    match node {
        Zero => Expr::zero(),
        One => Expr::one(),
        Top => Expr::top(),
        Dup => Expr::dup(),
        End => Expr::end(),
        Assign(field, value) => Expr::assign(*field, *value),
        Test(field, value) => Expr::test(*field, *value),
        VarAssign(_, bits) => Expr::var_assign(name, bits.clone()),
        VarTest(_, bits) => Expr::var_test(name, bits.clone()),
        VarMatch(_, matched) => Expr::var_match(name, pattern(matched)),
        BitRangeAssign(start, end, bits) => Expr::bit_range_assign(*start, *end, bits.clone()),
        BitRangeTest(start, end, bits) => Expr::bit_range_test(*start, *end, bits.clone()),
        BitRangeMatch(start, end, matched) => Expr::bit_range_match(*start, *end, pattern(matched)),
        Union(..) => Expr::union(child(), child()),
        Intersect(..) => Expr::intersect(child(), child()),
        Xor(..) => Expr::xor(child(), child()),
        Difference(..) => Expr::difference(child(), child()),
        Sequence(..) => Expr::sequence(child(), child()),
        LtlUntil(..) => Expr::ltl_until(child(), child()),
        Complement(_) => Expr::complement(child()),
        TestNegation(_) => Expr::test_negation(child()),
        Star(_) => Expr::star(child()),
        LtlNext(_) => Expr::ltl_next(child()),
        IfThenElse(..) => Expr::if_then_else(child(), child(), child()),
        Var(_) => Expr::var(name),
        Let(..) => Expr::let_in(name, child(), child()),
        LetBitRange(_, start, end, _) => Expr::let_bit_range(name, *start, *end, child()),
    }
}

fn pattern(pattern: &original::Pattern) -> Pattern {
    match pattern.clone() {
        original::Pattern::Exact(bits) => Pattern::Exact(bits),
        original::Pattern::Cidr { address, prefix_len } => Pattern::Cidr { address, prefix_len },
        original::Pattern::Wildcard { address, mask } => Pattern::Wildcard { address, mask },
        original::Pattern::IpRange { start, end } => Pattern::IpRange { start, end },
    }
}

fn main() {
    use original::Expr::*;
    // let guest = x0 == 1 in if guest then x1 := 1 else 0
    let branch = IfThenElse(Box::new(Var("guest".into())), Box::new(Assign(1, true)), Box::new(Zero));
    let policy = Let("guest".into(), Box::new(Test(0, true)), Box::new(branch));

    let mut names = Names::new();
    let policy = from_original(&policy, &mut names);
    println!("{}", policy.display(&names));
    match desugar(&policy) {
        Ok(core) => println!("{core}"),
        Err(refusal) => println!("{}", refusal.explain(&policy, &names)),
    }
}

#[cfg(test)]
mod tests {
    use super::original::{Expr::*, Pattern as P};
    use super::*;
    use netkat::bits;

    fn b(expr: original::Expr) -> original::Exp {
        Box::new(expr)
    }

    #[test]
    fn every_kind() {
        let literal = || bits(5, 3);
        let cases: Vec<(original::Expr, Exp)> = vec![
            (Zero, Expr::zero()),
            (One, Expr::one()),
            (Top, Expr::top()),
            (Dup, Expr::dup()),
            (End, Expr::end()),
            (Assign(3, true), Expr::assign(3, true)),
            (Test(3, false), Expr::test(3, false)),
            (VarAssign("a".into(), literal()), Expr::var_assign(0, literal())),
            (VarTest("a".into(), literal()), Expr::var_test(0, literal())),
            (BitRangeAssign(1, 4, literal()), Expr::bit_range_assign(1, 4, literal())),
            (BitRangeTest(1, 4, literal()), Expr::bit_range_test(1, 4, literal())),
            (BitRangeMatch(1, 4, P::Exact(literal())), Expr::bit_range_match(1, 4, Pattern::Exact(literal()))),
            (Union(b(One), b(Dup)), Expr::union(Expr::one(), Expr::dup())),
            (Intersect(b(One), b(Dup)), Expr::intersect(Expr::one(), Expr::dup())),
            (Xor(b(One), b(Dup)), Expr::xor(Expr::one(), Expr::dup())),
            (Difference(b(One), b(Dup)), Expr::difference(Expr::one(), Expr::dup())),
            (Sequence(b(One), b(Dup)), Expr::sequence(Expr::one(), Expr::dup())),
            (LtlUntil(b(One), b(Dup)), Expr::ltl_until(Expr::one(), Expr::dup())),
            (Complement(b(Dup)), Expr::complement(Expr::dup())),
            (TestNegation(b(Dup)), Expr::test_negation(Expr::dup())),
            (Star(b(Dup)), Expr::star(Expr::dup())),
            (LtlNext(b(Dup)), Expr::ltl_next(Expr::dup())),
            (IfThenElse(b(Zero), b(One), b(Dup)), Expr::if_then_else(Expr::zero(), Expr::one(), Expr::dup())),
            (Let("a".into(), b(One), b(Var("a".into()))), Expr::let_in(0, Expr::one(), Expr::var(0))),
            (LetBitRange("a".into(), 1, 4, b(Dup)), Expr::let_bit_range(0, 1, 4, Expr::dup())),
        ];
        for (theirs, ours) in cases {
            assert_eq!(from_original(&theirs, &mut Names::new()), ours);
        }
    }

    #[test]
    fn patterns() {
        let (x, y) = (bits(1, 4), bits(2, 4));
        let cases = [
            (P::Exact(x.clone()), Pattern::Exact(x.clone())),
            (P::Cidr { address: x.clone(), prefix_len: 3 }, Pattern::Cidr { address: x.clone(), prefix_len: 3 }),
            (P::Wildcard { address: x.clone(), mask: y.clone() }, Pattern::Wildcard { address: x.clone(), mask: y.clone() }),
            (P::IpRange { start: x.clone(), end: y.clone() }, Pattern::IpRange { start: x, end: y }),
        ];
        for (theirs, ours) in cases {
            assert_eq!(from_original(&VarMatch("a".into(), theirs), &mut Names::new()), Expr::var_match(0, ours));
        }
    }

    #[test]
    fn names_by_first_appearance() {
        let mut names = Names::new();
        let inner = Let("v".into(), b(VarTest("a".into(), bits(1, 1))), b(Var("v".into())));
        let policy = from_original(&LetBitRange("a".into(), 0, 4, b(inner)), &mut names);
        assert_eq!((names.number("a"), names.number("v"), names.len()), (Some(0), Some(1), 2));
        assert_eq!(policy.display(&names).to_string(), "let a = &x[0..4] in let v = a ~ 1 in v");
        assert_eq!(policy.check(), Ok(true));
    }

    #[test]
    fn deep_expressions() {
        let deep = (0..5_000).fold(One, |body, _| Star(b(body)));
        assert_eq!(from_original(&deep, &mut Names::new()).nodes().count(), 5_001);
    }
}
