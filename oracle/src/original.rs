//! The original: its trees from and to the model's trees and bytes, and its messages as numbers of document 01.
use crate::expr::{Exp, Expr, Pattern};
use crate::model::{self, Node};
use crate::packets;
use std::panic::{catch_unwind, UnwindSafe};

/// Whether overflow panics in this build (Cargo.toml's profiles).
pub const CHECKED: bool = cfg!(debug_assertions);
/// Stands for a refusal's number where the original panics as it shows a literal.
pub const SHIFT_PANIC: u32 = 1000;

pub fn name(n: u16) -> String {
    format!("n{n}")
}
fn unname(s: &str) -> u16 {
    s[1..].parse().unwrap()
}

fn pattern(kind: u32, number: u32, a: Vec<bool>, b: Vec<bool>) -> Pattern {
    match kind {
        0 => Pattern::Exact(a),
        1 => Pattern::Cidr { address: a, prefix_len: number as usize },
        2 => Pattern::Wildcard { address: a, mask: b },
        _ => Pattern::IpRange { start: a, end: b },
    }
}

fn node_pattern(n: &Node) -> Pattern {
    pattern(n.pat as u32, n.num as u32, n.a.clone(), n.b.clone())
}

pub fn to_expr(n: &Node) -> Exp {
    let k = |i: usize| to_expr(&n.kids[i]);
    let nm = || name(n.name);
    match n.kind {
        0 => Expr::zero(),
        1 => Expr::one(),
        2 => Expr::top(),
        3 => Expr::dup(),
        4 => Expr::end(),
        5 => Expr::assign(n.start, n.num == 1),
        6 => Expr::test(n.start, n.num == 1),
        7 => Expr::union(k(0), k(1)),
        8 => Expr::intersect(k(0), k(1)),
        9 => Expr::xor(k(0), k(1)),
        10 => Expr::difference(k(0), k(1)),
        11 => Expr::sequence(k(0), k(1)),
        12 => Expr::ltl_until(k(0), k(1)),
        13 => Expr::complement(k(0)),
        14 => Expr::star(k(0)),
        15 => Expr::ltl_next(k(0)),
        16 => Expr::test_negation(k(0)),
        17 => Expr::if_then_else(k(0), k(1), k(2)),
        18 => Expr::let_in(nm(), k(0), k(1)),
        19 => Expr::let_bit_range(nm(), n.start, n.end, k(0)),
        20 => Expr::var(nm()),
        21 => Expr::var_assign(nm(), n.a.clone()),
        22 => Expr::var_test(nm(), n.a.clone()),
        23 => Expr::bit_range_assign(n.start, n.end, n.a.clone()),
        24 => Expr::bit_range_test(n.start, n.end, n.a.clone()),
        25 => Expr::bit_range_match(n.start, n.end, node_pattern(n)),
        26 => Expr::var_match(nm(), node_pattern(n)),
        _ => unreachable!(),
    }
}

/// The record of an expression without its children, and the children.
fn record(e: &Expr) -> (Node, Vec<&Expr>) {
    let mut n = Node::default();
    let mut kids: Vec<&Expr> = vec![];
    let pat = |n: &mut Node, p: &Pattern| match p {
        Pattern::Exact(a) => n.a = a.clone(),
        Pattern::Cidr { address, prefix_len } => {
            n.pat = 1;
            n.num = *prefix_len as u8;
            n.a = address.clone();
        }
        Pattern::Wildcard { address, mask } => {
            n.pat = 2;
            n.a = address.clone();
            n.b = mask.clone();
        }
        Pattern::IpRange { start, end } => {
            n.pat = 3;
            n.a = start.clone();
            n.b = end.clone();
        }
    };
    match e {
        Expr::Zero => n.kind = 0,
        Expr::One => n.kind = 1,
        Expr::Top => n.kind = 2,
        Expr::Dup => n.kind = 3,
        Expr::End => n.kind = 4,
        Expr::Assign(f, v) => { n.kind = 5; n.start = *f; n.num = *v as u8; }
        Expr::Test(f, v) => { n.kind = 6; n.start = *f; n.num = *v as u8; }
        Expr::Union(a, b) => { n.kind = 7; kids = vec![a, b]; }
        Expr::Intersect(a, b) => { n.kind = 8; kids = vec![a, b]; }
        Expr::Xor(a, b) => { n.kind = 9; kids = vec![a, b]; }
        Expr::Difference(a, b) => { n.kind = 10; kids = vec![a, b]; }
        Expr::Sequence(a, b) => { n.kind = 11; kids = vec![a, b]; }
        Expr::LtlUntil(a, b) => { n.kind = 12; kids = vec![a, b]; }
        Expr::Complement(a) => { n.kind = 13; kids = vec![a]; }
        Expr::Star(a) => { n.kind = 14; kids = vec![a]; }
        Expr::LtlNext(a) => { n.kind = 15; kids = vec![a]; }
        Expr::TestNegation(a) => { n.kind = 16; kids = vec![a]; }
        Expr::IfThenElse(a, b, c) => { n.kind = 17; kids = vec![a, b, c]; }
        Expr::Let(x, a, b) => { n.kind = 18; n.name = unname(x); kids = vec![a, b]; }
        Expr::LetBitRange(x, s, t, a) => { n.kind = 19; n.name = unname(x); n.start = *s; n.end = *t; kids = vec![a]; }
        Expr::Var(x) => { n.kind = 20; n.name = unname(x); }
        Expr::VarAssign(x, a) => { n.kind = 21; n.name = unname(x); n.a = a.clone(); }
        Expr::VarTest(x, a) => { n.kind = 22; n.name = unname(x); n.a = a.clone(); }
        Expr::BitRangeAssign(s, t, a) => { n.kind = 23; n.start = *s; n.end = *t; n.a = a.clone(); }
        Expr::BitRangeTest(s, t, a) => { n.kind = 24; n.start = *s; n.end = *t; n.a = a.clone(); }
        Expr::BitRangeMatch(s, t, p) => { n.kind = 25; n.start = *s; n.end = *t; pat(&mut n, p); }
        Expr::VarMatch(x, p) => { n.kind = 26; n.name = unname(x); pat(&mut n, p); }
    }
    (n, kids)
}

/// The record of each node, in prefix order.
fn each_record(e: &Expr, mut take: impl FnMut(Node)) {
    let mut stack = vec![e];
    while let Some(e) = stack.pop() {
        let (n, kids) = record(e);
        take(n);
        stack.extend(kids.into_iter().rev());
    }
}

pub fn expr_bytes(e: &Expr) -> Vec<u8> {
    let mut out = Vec::new();
    each_record(e, |n| model::put_record(&n, &mut out));
    out
}

/// Kind, field and value of each node of a core.
pub fn core_records(e: &Expr) -> Vec<[u32; 3]> {
    let mut records = Vec::new();
    each_record(e, |n| records.push([n.kind as u32, n.start, n.num as u32]));
    records
}

/// A term of good form, straight from its bytes to the original's tree. It looks for missing bytes only.
pub fn read(bytes: &[u8]) -> Option<Exp> {
    let mut rest = bytes;
    let e = read_expr(&mut rest)?;
    rest.is_empty().then_some(e)
}

fn take<'a>(rest: &mut &'a [u8], n: usize) -> Option<&'a [u8]> {
    let (front, back) = rest.split_at_checked(n)?;
    *rest = back;
    Some(front)
}

fn read_number(rest: &mut &[u8], present: bool, width: usize) -> Option<u32> {
    if !present {
        return Some(0);
    }
    Some(take(rest, width)?.iter().rev().fold(0, |v, b| v << 8 | *b as u32))
}

fn read_literal(rest: &mut &[u8], present: bool) -> Option<Vec<bool>> {
    if !present {
        return Some(vec![]);
    }
    let len = take(rest, 1)?[0] as usize;
    let bytes = take(rest, len.div_ceil(8))?;
    Some((0..len).map(|i| bytes[i / 8] >> (i % 8) & 1 == 1).collect())
}

fn read_expr(rest: &mut &[u8]) -> Option<Exp> {
    let map = take(rest, 1)?[0];
    let has = |bit: u8| map >> bit & 1 == 1;
    let kind = read_number(rest, has(0), 1)?;
    let name_number = read_number(rest, has(1), 2)? as u16;
    let start = read_number(rest, has(2), 4)?;
    let end = read_number(rest, has(3), 4)?;
    let pat = read_number(rest, has(4), 1)?;
    let num = read_number(rest, has(5), 1)?;
    let a = read_literal(rest, has(6))?;
    let b = read_literal(rest, has(7))?;
    let mut child = || read_expr(rest);
    Some(match kind {
        0 => Expr::zero(),
        1 => Expr::one(),
        2 => Expr::top(),
        3 => Expr::dup(),
        4 => Expr::end(),
        5 => Expr::assign(start, num == 1),
        6 => Expr::test(start, num == 1),
        7 => Expr::union(child()?, child()?),
        8 => Expr::intersect(child()?, child()?),
        9 => Expr::xor(child()?, child()?),
        10 => Expr::difference(child()?, child()?),
        11 => Expr::sequence(child()?, child()?),
        12 => Expr::ltl_until(child()?, child()?),
        13 => Expr::complement(child()?),
        14 => Expr::star(child()?),
        15 => Expr::ltl_next(child()?),
        16 => Expr::test_negation(child()?),
        17 => Expr::if_then_else(child()?, child()?, child()?),
        18 => Expr::let_in(name(name_number), child()?, child()?),
        19 => Expr::let_bit_range(name(name_number), start, end, child()?),
        20 => Expr::var(name(name_number)),
        21 => Expr::var_assign(name(name_number), a),
        22 => Expr::var_test(name(name_number), a),
        23 => Expr::bit_range_assign(start, end, a),
        24 => Expr::bit_range_test(start, end, a),
        25 => Expr::bit_range_match(start, end, pattern(pat, num, a, b)),
        26 => Expr::var_match(name(name_number), pattern(pat, num, a, b)),
        _ => return None,
    })
}

/// A core's bytes, straight from the original's tree.
pub fn write_core(e: &Expr, out: &mut Vec<u8>) {
    let mut one_bit = |kind: u8, field: u32, value: bool| {
        out.extend([1 | ((field != 0) as u8) << 2 | (value as u8) << 5, kind]);
        if field != 0 {
            out.extend_from_slice(&field.to_le_bytes());
        }
        if value {
            out.push(1);
        }
    };
    let (kind, children): (u8, [Option<&Expr>; 2]) = match e {
        Expr::Assign(f, v) => return one_bit(5, *f, *v),
        Expr::Test(f, v) => return one_bit(6, *f, *v),
        Expr::Zero => return out.push(0),
        Expr::One => (1, [None, None]),
        Expr::Top => (2, [None, None]),
        Expr::Dup => (3, [None, None]),
        Expr::End => (4, [None, None]),
        Expr::Union(a, b) => (7, [Some(a), Some(b)]),
        Expr::Intersect(a, b) => (8, [Some(a), Some(b)]),
        Expr::Xor(a, b) => (9, [Some(a), Some(b)]),
        Expr::Difference(a, b) => (10, [Some(a), Some(b)]),
        Expr::Sequence(a, b) => (11, [Some(a), Some(b)]),
        Expr::LtlUntil(a, b) => (12, [Some(a), Some(b)]),
        Expr::Complement(a) => (13, [Some(a), None]),
        Expr::Star(a) => (14, [Some(a), None]),
        Expr::LtlNext(a) => (15, [Some(a), None]),
        _ => unreachable!("not a core"),
    };
    out.extend([1, kind]);
    for child in children.into_iter().flatten() {
        write_core(child, out);
    }
}

/// Whether a packet passes a tree that is a test; the right operand is looked at only where it counts.
pub fn passes(e: &Expr, packet: &[u8]) -> bool {
    match e {
        Expr::Zero => false,
        Expr::One => true,
        Expr::Test(field, value) => packets::bit(packet, *field) == *value,
        Expr::Union(a, b) => passes(a, packet) || passes(b, packet),
        Expr::Intersect(a, b) | Expr::Sequence(a, b) => passes(a, packet) && passes(b, packet),
        Expr::Xor(a, b) => passes(a, packet) != passes(b, packet),
        Expr::Difference(a, b) => passes(a, packet) && !passes(b, packet),
        _ => unreachable!("not a test"),
    }
}

/// Document 01's number for a message of the original; 0 for one that should never come, a panic among them.
pub fn number(message: &str) -> u32 {
    let starts = |p: &str| message.starts_with(p);
    if starts("Unknown alias '") {
        11
    } else if starts("Unbound variable: ") {
        12
    } else if starts("Bit range alias '") {
        13
    } else if starts("Invalid bit range [") {
        14
    } else if starts("Bit width mismatch: ") || starts("Pattern has ") {
        15
    } else if starts("Bit range [") {
        16
    } else if starts("CIDR prefix length ") {
        17
    } else if starts("CIDR address has ") {
        18
    } else if starts("Wildcard pattern expects ") {
        19
    } else if starts("Invalid IP range widths") {
        20
    } else if starts("Invalid range: start is greater") {
        21
    } else if starts("Test negation (!)") {
        22
    } else if starts("If-then-else condition must") {
        23
    } else if message == "panics: attempt to shift left with overflow" {
        SHIFT_PANIC
    } else {
        0
    }
}

/// What a call gives, or the message of its panic.
fn caught<T>(call: impl FnOnce() -> T + UnwindSafe) -> Result<T, String> {
    catch_unwind(call).map_err(|panic| {
        let text = panic.downcast_ref::<&str>().map(|s| s.to_string());
        let text = text.or_else(|| panic.downcast_ref::<String>().cloned());
        format!("panics: {}", text.unwrap_or_default())
    })
}

/// The core, or a number and the message.
fn core(e: &Exp) -> Result<Exp, (u32, String)> {
    let message = match caught(|| crate::desugar::desugar(e)) {
        Ok(Ok(c)) => return Ok(c),
        Ok(Err(e)) => e.message,
        Err(panic) => panic,
    };
    Err((number(&message), message))
}

pub fn desugar(n: &Node) -> Result<Vec<u8>, (u32, String)> {
    core(&to_expr(n)).map(|c| expr_bytes(&c))
}

/// How many nodes the core of a direct match has. The prefix may be one that a record's byte does not hold.
pub fn match_nodes(start: u32, end: u32, kind: u32, prefix: u32, a: Vec<bool>, b: Vec<bool>) -> Result<u64, (u32, String)> {
    core(&Expr::bit_range_match(start, end, pattern(kind, prefix, a, b))).map(|c| node_count(&c))
}

fn node_count(e: &Expr) -> u64 {
    let mut nodes = 0;
    each_record(e, |_| nodes += 1);
    nodes
}

/// Whether a message that shows this term panics in a build that checks overflow: the original shows a literal by `1 << i`, as a u128.
pub fn shown_beyond_u128(n: &Node) -> bool {
    [&n.a, &n.b].iter().any(|bits| bits.iter().skip(128).any(|b| *b)) || n.kids.iter().any(shown_beyond_u128)
}

/// As the original shows it.
pub fn text(e: &Expr) -> String {
    caught(|| e.to_string()).unwrap_or_else(|panic| panic)
}

/// None where `num_fields` panics because a field has no successor.
pub fn fields(e: &Expr) -> Option<u32> {
    match caught(|| e.num_fields()) {
        Ok(count) => Some(count),
        Err(panic) if panic == "panics: Field count overflow" => None,
        Err(panic) => panic!("num_fields {panic}"),
    }
}

pub fn subrange(a: u32, b: u32, s: u32, e: u32) -> Option<(u32, u32)> {
    let mut env = crate::desugar::DesugarEnv::new();
    env.add_alias("a".into(), a, b);
    env.compute_subrange("a", s, e)
}
