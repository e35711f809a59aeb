//! The model: document 01 in Rust, written from the document, on trees. Nothing here uses the original.
use std::rc::Rc;

/// Number and place.
pub type Refusal = (u32, u32);
pub type Res<T> = Result<T, Refusal>;

pub const MAX_RECORDS: u32 = 4096;
pub const MAX_DEPTH: u32 = 256;
pub const MAX_LITERAL: usize = 192;
/// The widest field that a range pattern may be on. Its bounds fit a u128, other literals need not.
pub const MAX_RANGE_BITS: u64 = 128;

pub const ZERO: u8 = 0;
pub const ONE: u8 = 1;
pub const TOP: u8 = 2;
pub const DUP: u8 = 3;
pub const END: u8 = 4;
pub const ASSIGN: u8 = 5;
pub const TEST: u8 = 6;
pub const UNION: u8 = 7;
pub const INTERSECT: u8 = 8;
pub const XOR: u8 = 9;
pub const DIFFERENCE: u8 = 10;
pub const SEQUENCE: u8 = 11;
pub const UNTIL: u8 = 12;
pub const COMPLEMENT: u8 = 13;
pub const STAR: u8 = 14;
pub const NEXT: u8 = 15;
pub const NEGATION: u8 = 16;
pub const IF: u8 = 17;
pub const LET: u8 = 18;
pub const LETRANGE: u8 = 19;
pub const VAR: u8 = 20;
pub const VARASSIGN: u8 = 21;
pub const VARTEST: u8 = 22;
pub const RANGEASSIGN: u8 = 23;
pub const RANGETEST: u8 = 24;
pub const RANGEMATCH: u8 = 25;
pub const VARMATCH: u8 = 26;

/// One record with its children. `place` is its index in written order.
#[derive(Clone, Debug, PartialEq, Eq, Default)]
pub struct Node {
    pub kind: u8,
    pub name: u16,
    pub start: u32, // or the field of Assign and Test
    pub end: u32,
    pub pat: u8,
    pub num: u8,
    pub a: Vec<bool>,
    pub b: Vec<bool>,
    pub kids: Vec<Node>,
    pub place: u32,
}

pub fn children(kind: u8) -> usize {
    match kind {
        7..=12 => 2,
        13..=16 => 1,
        17 => 3,
        18 => 2,
        19 => 1,
        _ => 0,
    }
}

/// The map bits that a kind has (bit 0 is every kind's).
pub fn kind_bits(kind: u8) -> u8 {
    let list: &[u8] = match kind {
        5 | 6 => &[2, 5],
        18 | 20 => &[1],
        19 => &[1, 2, 3],
        21 | 22 => &[1, 6],
        23 | 24 => &[2, 3, 6],
        25 => &[2, 3, 4, 5, 6, 7],
        26 => &[1, 4, 5, 6, 7],
        _ => &[],
    };
    list.iter().fold(1u8, |m, b| m | (1 << b))
}

/// In 25 and 26, which of bits 5 and 7 the pattern has.
fn pattern_bits(pat: u8) -> u8 {
    match pat {
        0 => 0,
        1 => 1 << 5,
        _ => 1 << 7,
    }
}

struct Reader<'a> {
    bytes: &'a [u8],
    at: usize,
    records: u32,
    /// The greatest length of a literal so far.
    longest: usize,
}

impl<'a> Reader<'a> {
    fn new(bytes: &'a [u8]) -> Self {
        Reader { bytes, at: 0, records: 0, longest: 0 }
    }

    fn take(&mut self, n: usize, place: u32) -> Res<&'a [u8]> {
        if self.bytes.len() - self.at < n {
            return Err((1, place));
        }
        let part = &self.bytes[self.at..self.at + n];
        self.at += n;
        Ok(part)
    }

    fn number(&mut self, n: usize, place: u32) -> Res<u32> {
        let v = self.take(n, place)?.iter().rev().fold(0u32, |acc, b| acc << 8 | *b as u32);
        if v == 0 { Err((4, place)) } else { Ok(v) }
    }

    fn literal(&mut self, place: u32) -> Res<Vec<bool>> {
        let len = self.take(1, place)?[0] as usize;
        if len == 0 {
            return Err((4, place));
        }
        self.longest = self.longest.max(len);
        if len > MAX_LITERAL {
            return Err((5, place));
        }
        let bytes = self.take((len + 7) / 8, place)?;
        let all: Vec<bool> = (0..bytes.len() * 8).map(|i| bytes[i / 8] >> (i % 8) & 1 == 1).collect();
        if all[len..].iter().any(|b| *b) {
            return Err((4, place));
        }
        Ok(all[..len].to_vec())
    }

    fn record(&mut self, depth: u32) -> Res<Node> {
        let place = self.records;
        if place >= MAX_RECORDS {
            return Err((6, place));
        }
        if depth > MAX_DEPTH {
            return Err((7, place));
        }
        let map = self.take(1, place)?[0];
        let mut n = Node { place, ..Node::default() };
        if map & 1 != 0 {
            let k = self.take(1, place)?[0];
            if k == 0 {
                return Err((4, place));
            }
            if k > 26 {
                return Err((2, place));
            }
            n.kind = k;
        }
        if map & !kind_bits(n.kind) != 0 {
            return Err((3, place));
        }
        if map & 1 << 1 != 0 {
            n.name = self.number(2, place)? as u16;
        }
        if map & 1 << 2 != 0 {
            n.start = self.number(4, place)?;
        }
        if map & 1 << 3 != 0 {
            n.end = self.number(4, place)?;
        }
        if map & 1 << 4 != 0 {
            n.pat = self.number(1, place)? as u8;
            if n.pat > 3 {
                return Err((5, place));
            }
        }
        if n.kind == RANGEMATCH || n.kind == VARMATCH {
            let judged = map & (1 << 5 | 1 << 7);
            if judged & !pattern_bits(n.pat) != 0 {
                return Err((3, place));
            }
        }
        if map & 1 << 5 != 0 {
            n.num = self.number(1, place)? as u8;
            if (n.kind == ASSIGN || n.kind == TEST) && n.num > 1 {
                return Err((5, place));
            }
        }
        if map & 1 << 6 != 0 {
            n.a = self.literal(place)?;
        }
        if map & 1 << 7 != 0 {
            n.b = self.literal(place)?;
        }
        self.records += 1;
        for _ in 0..children(n.kind) {
            let kid = self.record(depth + 1)?;
            n.kids.push(kid);
        }
        Ok(n)
    }
}

/// Form: the tree and its record count.
pub fn decode(bytes: &[u8]) -> Res<(Node, u32)> {
    let mut r = Reader::new(bytes);
    let n = r.record(1)?;
    if r.at < bytes.len() {
        return Err((8, r.records));
    }
    Ok((n, r.records))
}

/// The length of the longest literal that Form comes to, whether it refuses or not.
pub fn longest_literal(bytes: &[u8]) -> usize {
    let mut r = Reader::new(bytes);
    let _ = r.record(1);
    r.longest
}

/// Eight bits a byte, the least significant first.
pub fn packed(bits: &[bool]) -> Vec<u8> {
    bits.chunks(8).map(|chunk| chunk.iter().enumerate().fold(0, |b, (i, x)| b | (*x as u8) << i)).collect()
}

fn put_literal(out: &mut Vec<u8>, bits: &[bool]) {
    out.push(bits.len() as u8);
    out.extend(packed(bits));
}

pub fn put_record(n: &Node, out: &mut Vec<u8>) {
    let present = [
        n.kind != 0, n.name != 0, n.start != 0, n.end != 0, n.pat != 0, n.num != 0,
        !n.a.is_empty(), !n.b.is_empty(),
    ];
    out.push(present.iter().enumerate().fold(0, |m, (i, p)| m | (*p as u8) << i));
    if present[0] { out.push(n.kind); }
    if present[1] { out.extend(n.name.to_le_bytes()); }
    if present[2] { out.extend(n.start.to_le_bytes()); }
    if present[3] { out.extend(n.end.to_le_bytes()); }
    if present[4] { out.push(n.pat); }
    if present[5] { out.push(n.num); }
    if present[6] { put_literal(out, &n.a); }
    if present[7] { put_literal(out, &n.b); }
}

pub fn encode(n: &Node, out: &mut Vec<u8>) {
    put_record(n, out);
    for k in &n.kids {
        encode(k, out);
    }
}

pub fn encoded(n: &Node) -> Vec<u8> {
    let mut v = Vec::new();
    encode(n, &mut v);
    v
}

// ---------------------------------------------------------------- core

/// A core node: kinds 0 to 15. `size` is its node count.
pub struct CoreNode {
    pub kind: u8,
    pub field: u32,
    pub value: bool,
    pub kids: Vec<Core>,
    pub size: u64,
    pub test: bool,
}
pub type Core = Rc<CoreNode>;

pub fn leaf(kind: u8, field: u32, value: bool) -> Core {
    Rc::new(CoreNode { kind, field, value, kids: vec![], size: 1, test: matches!(kind, ZERO | ONE | TEST) })
}
pub fn op(kind: u8, kids: Vec<Core>) -> Core {
    let size = 1 + kids.iter().map(|k| k.size).sum::<u64>();
    let test = matches!(kind, UNION..=SEQUENCE) && kids.iter().all(|k| k.test);
    Rc::new(CoreNode { kind, field: 0, value: false, kids, size, test })
}
fn two(kind: u8, a: Core, b: Core) -> Core {
    op(kind, vec![a, b])
}
fn one() -> Core {
    leaf(ONE, 0, false)
}
fn test(field: u32, value: bool) -> Core {
    leaf(TEST, field, value)
}

/// In prefix order.
pub fn core_nodes(c: &Core) -> Vec<&CoreNode> {
    let mut nodes = Vec::new();
    let mut stack: Vec<&CoreNode> = vec![c];
    while let Some(n) = stack.pop() {
        nodes.push(n);
        stack.extend(n.kids.iter().rev().map(|kid| &**kid));
    }
    nodes
}

pub fn core_bytes(c: &Core) -> Vec<u8> {
    let mut out = Vec::new();
    for n in core_nodes(c) {
        put_record(&Node { kind: n.kind, start: n.field, num: n.value as u8, ..Node::default() }, &mut out);
    }
    out
}

/// Sequence drops a One, the left looked at first.
fn sequence(a: Core, b: Core) -> Core {
    if a.kind == ONE {
        b
    } else if b.kind == ONE {
        a
    } else {
        two(SEQUENCE, a, b)
    }
}

/// A core desugared again: only Sequence can change.
pub fn again(c: &Core) -> Core {
    if c.kids.is_empty() {
        return c.clone();
    }
    let kids: Vec<Core> = c.kids.iter().map(again).collect();
    if c.kind == SEQUENCE {
        sequence(kids[0].clone(), kids[1].clone())
    } else {
        op(c.kind, kids)
    }
}

pub fn negate(c: &Core) -> Core {
    let k = &c.kids;
    match c.kind {
        ZERO => one(),
        ONE => leaf(ZERO, 0, false),
        TEST => test(c.field, !c.value),
        UNION => two(INTERSECT, negate(&k[0]), negate(&k[1])),
        INTERSECT | SEQUENCE => two(UNION, negate(&k[0]), negate(&k[1])),
        XOR => two(DIFFERENCE, one(), c.clone()),
        DIFFERENCE => two(UNION, negate(&k[0]), again(&k[1])),
        _ => unreachable!("negation of a core that is no test"),
    }
}

/// A chain that leans right, in the order given; One if empty.
fn chain(kind: u8, mut items: Vec<Core>) -> Core {
    match items.pop() {
        None => one(),
        Some(last) => items.into_iter().rev().fold(last, |rest, x| two(kind, x, rest)),
    }
}

/// Node count of a chain of n leaves.
pub fn chain_size(n: u64) -> u64 {
    if n == 0 { 1 } else { 2 * n - 1 }
}

fn range_chain(kind: u8, join: u8, start: u32, width: u64, bits: &[bool]) -> Core {
    let items = (0..width)
        .map(|i| leaf(kind, (start as u64 + i) as u32, bits.get(i as usize).copied().unwrap_or(false)))
        .collect();
    chain(join, items)
}

/// The bound term: for each bit, from the top, that lets a value be decided there (a standing bit of an
/// upper bound, a clear bit of a lower one): the bits above agree and this one differs; last, all agree.
/// Every term goes from the highest field down; terms are a Union leaning right.
fn bound_term(start: u32, bound: &[bool], upper: bool) -> Core {
    let w = bound.len();
    let mut terms = Vec::new();
    for i in (0..w).rev() {
        if bound[i] == upper {
            let mut parts: Vec<Core> = (i + 1..w).rev().map(|j| test(start + j as u32, bound[j])).collect();
            parts.push(test(start + i as u32, !bound[i]));
            terms.push(chain(INTERSECT, parts));
        }
    }
    terms.push(chain(INTERSECT, (0..w).rev().map(|j| test(start + j as u32, bound[j])).collect()));
    chain(UNION, terms)
}

/// Node count of a bound term: 2w - 1, and 2k + 2 for each deciding bit at distance k from the top.
pub fn bound_cost(bound: &[bool], upper: bool) -> u64 {
    let w = bound.len();
    let mut n = 2 * w as u64 - 1;
    for i in 0..w {
        if bound[i] == upper {
            n += 2 * (w - 1 - i) as u64 + 2;
        }
    }
    n
}

// ---------------------------------------------------------------- leaf rules

/// What a leaf on a range makes, before it is made.
enum Plan {
    Chain { kind: u8, join: u8, start: u32, width: u64, bits: Vec<bool> },
    Tests(Vec<(u32, bool)>),
    One,
    Bounds { start: u32, lower: Option<Vec<bool>>, upper: Option<Vec<bool>> },
}

impl Plan {
    fn draw(&self) -> u64 {
        match self {
            Plan::Chain { width, .. } => chain_size(*width),
            Plan::Tests(t) => chain_size(t.len() as u64),
            Plan::One => 1,
            Plan::Bounds { lower, upper, .. } => {
                let l = lower.as_ref().map(|b| bound_cost(b, false));
                let u = upper.as_ref().map(|b| bound_cost(b, true));
                match (l, u) {
                    (Some(l), Some(u)) => l + u + 1,
                    (Some(n), None) | (None, Some(n)) => n,
                    (None, None) => unreachable!(),
                }
            }
        }
    }
    fn make(&self) -> Core {
        match self {
            Plan::Chain { kind, join, start, width, bits } => range_chain(*kind, *join, *start, *width, bits),
            Plan::Tests(t) => chain(INTERSECT, t.iter().map(|(f, v)| test(*f, *v)).collect()),
            Plan::One => one(),
            Plan::Bounds { start, lower, upper } => {
                let l = lower.as_ref().map(|b| bound_term(*start, b, false));
                let u = upper.as_ref().map(|b| bound_term(*start, b, true));
                match (l, u) {
                    (Some(l), Some(u)) => two(INTERSECT, l, u),
                    (Some(c), None) | (None, Some(c)) => c,
                    (None, None) => unreachable!(),
                }
            }
        }
    }
}

/// Of at most MAX_RANGE_BITS bits.
pub fn value(bits: &[bool]) -> u128 {
    bits.iter().enumerate().fold(0, |v, (i, b)| v | (*b as u128) << i)
}

/// Rules 14 to 21 at a leaf of kinds 21 to 26, its range known. Err is the refusal's number.
fn leaf_plan(n: &Node, start: u32, end: u32) -> Result<Plan, u32> {
    if end < start {
        return Err(14);
    }
    let width = (end - start) as u64;
    let alen = n.a.len() as u64;
    let blen = n.b.len() as u64;
    match n.kind {
        VARASSIGN | VARTEST => {
            if alen > width {
                return Err(15);
            }
        }
        RANGEASSIGN | RANGETEST => {
            if alen != width {
                return Err(16);
            }
        }
        _ => return match n.pat {
            0 => {
                if alen > width {
                    return Err(15);
                }
                Ok(Plan::Chain { kind: TEST, join: INTERSECT, start, width, bits: n.a.clone() })
            }
            1 => {
                let prefix = n.num as u64;
                if prefix > width {
                    return Err(17);
                }
                if alen != width {
                    return Err(18);
                }
                let low = (width - prefix) as u32;
                Ok(Plan::Tests((low..width as u32).map(|i| (start + i, n.a[i as usize])).collect()))
            }
            2 => {
                if alen != width || blen != width {
                    return Err(19);
                }
                Ok(Plan::Tests(
                    (0..width as usize).filter(|i| !n.b[*i]).map(|i| (start + i as u32, n.a[i])).collect(),
                ))
            }
            _ => {
                if width > MAX_RANGE_BITS || alen > width || blen > width {
                    return Err(20);
                }
                let (mut lo, mut hi) = (n.a.clone(), n.b.clone());
                lo.resize(width as usize, false);
                hi.resize(width as usize, false);
                let (from, to) = (value(&lo), value(&hi));
                if from > to {
                    return Err(21);
                }
                let no_lower = from == 0;
                let no_upper = hi.iter().all(|b| *b);
                if from == to {
                    Ok(Plan::Chain { kind: TEST, join: INTERSECT, start, width, bits: lo })
                } else if no_lower && no_upper {
                    Ok(Plan::One)
                } else {
                    Ok(Plan::Bounds {
                        start,
                        lower: if no_lower { None } else { Some(lo) },
                        upper: if no_upper { None } else { Some(hi) },
                    })
                }
            }
        },
    }
    let (kind, join) = if n.kind == VARASSIGN || n.kind == RANGEASSIGN { (ASSIGN, SEQUENCE) } else { (TEST, INTERSECT) };
    Ok(Plan::Chain { kind, join, start, width, bits: n.a.clone() })
}

/// Bindings: two name spaces, innermost last. V is what a variable stands for.
#[derive(Clone)]
pub struct Env<V> {
    vars: Vec<(u16, V)>,
    aliases: Vec<(u16, (u32, u32))>,
}
impl<V: Clone> Env<V> {
    pub fn new() -> Self {
        Env { vars: vec![], aliases: vec![] }
    }
    fn var(&self, name: u16) -> Option<V> {
        self.vars.iter().rev().find(|(n, _)| *n == name).map(|(_, v)| v.clone())
    }
    fn alias(&self, name: u16) -> Option<(u32, u32)> {
        self.aliases.iter().rev().find(|(n, _)| *n == name).map(|(_, v)| *v)
    }
}

/// The rules at a leaf of kinds 21 to 26 under the bindings.
fn range_leaf<V: Clone>(n: &Node, env: &Env<V>) -> Res<Plan> {
    let (start, end) = match n.kind {
        VARASSIGN | VARTEST | VARMATCH => env.alias(n.name).ok_or((11, n.place))?,
        _ => (n.start, n.end),
    };
    leaf_plan(n, start, end).map_err(|k| (k, n.place))
}

fn variable<V: Clone>(n: &Node, env: &Env<V>) -> Res<V> {
    match env.var(n.name) {
        Some(v) => Ok(v),
        None if env.alias(n.name).is_some() => Err((13, n.place)),
        None => Err((12, n.place)),
    }
}

// ---------------------------------------------------------------- Check

fn check_walk(n: &Node, env: &mut Env<bool>) -> Res<bool> {
    match n.kind {
        LET => {
            let def = check_walk(&n.kids[0], env)?;
            env.vars.push((n.name, def));
            let body = check_walk(&n.kids[1], env)?;
            env.vars.pop();
            return Ok(body);
        }
        LETRANGE => {
            env.aliases.push((n.name, (n.start, n.end)));
            let body = check_walk(&n.kids[0], env)?;
            env.aliases.pop();
            return Ok(body);
        }
        _ => {}
    }
    let mut sorts = Vec::new();
    for k in &n.kids {
        sorts.push(check_walk(k, env)?);
    }
    match n.kind {
        ZERO | ONE | TEST => Ok(true),
        UNION | INTERSECT | XOR | DIFFERENCE | SEQUENCE => Ok(sorts[0] && sorts[1]),
        NEGATION => if sorts[0] { Ok(true) } else { Err((22, n.place)) },
        IF => if sorts[0] { Ok(sorts[1] && sorts[2]) } else { Err((23, n.place)) },
        VAR => variable(n, env),
        VARTEST | RANGETEST | RANGEMATCH | VARMATCH => range_leaf(n, env).map(|_| true),
        VARASSIGN | RANGEASSIGN => match range_leaf(n, env)? {
            Plan::Chain { width, .. } => Ok(width == 0),
            _ => unreachable!(),
        },
        _ => Ok(false),
    }
}

pub fn check(bytes: &[u8]) -> Res<bool> {
    let (n, _) = decode(bytes)?;
    check_walk(&n, &mut Env::new())
}

// ---------------------------------------------------------------- Desugar

/// The allowance as it falls, with every draw made so far.
pub struct Meter {
    pub left: u64,
    pub draws: Vec<(u32, u64)>,
}
impl Meter {
    pub fn new(allowance: u64) -> Self {
        Meter { left: allowance, draws: vec![] }
    }
    fn draw(&mut self, place: u32, n: u64) -> Res<()> {
        if n > self.left {
            return Err((24, place));
        }
        self.left -= n;
        self.draws.push((place, n));
        Ok(())
    }
    pub fn total(&self) -> u64 {
        self.draws.iter().map(|d| d.1).sum()
    }
}

pub fn desugar_walk(n: &Node, env: &mut Env<Core>, m: &mut Meter) -> Res<Core> {
    match n.kind {
        LET => {
            let def = desugar_walk(&n.kids[0], env, m)?;
            env.vars.push((n.name, def));
            let body = desugar_walk(&n.kids[1], env, m)?;
            env.vars.pop();
            m.draw(n.place, 0)?;
            return Ok(body);
        }
        LETRANGE => {
            env.aliases.push((n.name, (n.start, n.end)));
            let body = desugar_walk(&n.kids[0], env, m)?;
            env.aliases.pop();
            m.draw(n.place, 0)?;
            return Ok(body);
        }
        _ => {}
    }
    let mut k = Vec::new();
    for kid in &n.kids {
        k.push(desugar_walk(kid, env, m)?);
    }
    match n.kind {
        ZERO..=TEST => {
            m.draw(n.place, 1)?;
            Ok(leaf(n.kind, n.start, n.num == 1))
        }
        SEQUENCE => {
            let (a, b) = (k[0].clone(), k[1].clone());
            m.draw(n.place, if a.kind == ONE || b.kind == ONE { 0 } else { 1 })?;
            Ok(sequence(a, b))
        }
        UNION..=NEXT => {
            m.draw(n.place, 1)?;
            Ok(op(n.kind, k))
        }
        NEGATION => {
            if !k[0].test {
                return Err((22, n.place));
            }
            let r = negate(&k[0]);
            m.draw(n.place, r.size)?;
            Ok(r)
        }
        IF => {
            if !k[0].test {
                return Err((23, n.place));
            }
            let not = negate(&k[0]);
            m.draw(n.place, not.size + 3)?;
            Ok(two(
                UNION,
                two(SEQUENCE, k[0].clone(), k[1].clone()),
                two(SEQUENCE, not, k[2].clone()),
            ))
        }
        VAR => {
            let c = variable(n, env)?;
            m.draw(n.place, c.size)?;
            Ok(c)
        }
        _ => {
            let plan = range_leaf(n, env)?;
            m.draw(n.place, plan.draw())?;
            let c = plan.make();
            assert_eq!(c.size, plan.draw());
            Ok(c)
        }
    }
}

/// A successful Desugar: the drawn total and the core's bytes.
#[derive(Debug, PartialEq, Eq, Clone)]
pub struct Desugared {
    pub drawn: u64,
    pub core: Vec<u8>,
}

pub fn work_needed(allowance: u64) -> u64 {
    8 * allowance + 8192
}

pub fn desugar(bytes: &[u8], allowance: u64, work: u64, out: u64) -> Res<Desugared> {
    if allowance < 1 || allowance > 65535 {
        return Err((9, 0));
    }
    if work < work_needed(allowance) {
        return Err((10, 0));
    }
    let (n, _) = decode(bytes)?;
    let mut m = Meter::new(allowance);
    let c = desugar_walk(&n, &mut Env::new(), &mut m)?;
    let core = core_bytes(&c);
    if core.len() as u64 > out {
        return Err((26, 0));
    }
    Ok(Desugared { drawn: m.total(), core })
}

// ---------------------------------------------------------------- Substitute, fragment, fields, subrange

pub fn size_depth(n: &Node) -> (u64, u64) {
    n.kids.iter().map(size_depth).fold((1, 1), |(s, d), (ks, kd)| (s + ks, d.max(kd + 1)))
}

/// Which children the substitution goes into.
fn open(n: &Node, name: u16, kid: usize) -> bool {
    match n.kind {
        LET => !(kid == 1 && n.name == name),
        LETRANGE => n.name != name,
        _ => true,
    }
}

fn subst_size(n: &Node, name: u16, repl: (u64, u64)) -> (u64, u64) {
    if n.kind == VAR && n.name == name {
        return repl;
    }
    let mut r = (1, 1);
    for (i, k) in n.kids.iter().enumerate() {
        let (s, d) = if open(n, name, i) { subst_size(k, name, repl) } else { size_depth(k) };
        r = (r.0 + s, r.1.max(d + 1));
    }
    r
}

fn subst(n: &Node, name: u16, repl: &Node) -> Node {
    if n.kind == VAR && n.name == name {
        return repl.clone();
    }
    let mut r = n.clone();
    r.kids = n.kids.iter().enumerate()
        .map(|(i, k)| if open(n, name, i) { subst(k, name, repl) } else { k.clone() })
        .collect();
    r
}

/// The tree alone, whatever its size up to `cap` records.
pub fn substitute_tree(n: &Node, name: u16, repl: &Node, cap: u64) -> Option<Node> {
    if subst_size(n, name, size_depth(repl)).0 > cap { None } else { Some(subst(n, name, repl)) }
}

pub fn substitute(term: &[u8], name: u16, repl: &[u8], out: u64) -> Res<Vec<u8>> {
    let (t, _) = decode(term)?;
    let (r, _) = decode(repl).map_err(|(n, p)| (n + 30, p))?;
    let (records, depth) = subst_size(&t, name, size_depth(&r));
    if records > MAX_RECORDS as u64 || depth > MAX_DEPTH as u64 {
        return Err((27, 0));
    }
    let bytes = encoded(&subst(&t, name, &r));
    if bytes.len() as u64 > out {
        return Err((26, 0));
    }
    Ok(bytes)
}

fn fragment_tree(n: &Node) -> bool {
    match n.kind {
        ZERO | ONE | TEST | VARTEST | RANGETEST | RANGEMATCH | VARMATCH => true,
        UNION | INTERSECT | XOR | DIFFERENCE | SEQUENCE | NEGATION => n.kids.iter().all(fragment_tree),
        _ => false,
    }
}

pub fn fragment(term: &[u8]) -> Res<bool> {
    Ok(fragment_tree(&decode(term)?.0))
}

fn fields_tree(n: &Node) -> Res<u32> {
    let mut top = match n.kind {
        ASSIGN | TEST => {
            if n.start == u32::MAX {
                return Err((25, n.place));
            }
            n.start + 1
        }
        RANGEASSIGN | RANGETEST | RANGEMATCH | LETRANGE => n.end,
        _ => 0,
    };
    for k in &n.kids {
        top = top.max(fields_tree(k)?);
    }
    Ok(top)
}

pub fn fields(term: &[u8]) -> Res<u32> {
    fields_tree(&decode(term)?.0)
}

/// Subrange [s, e) of the alias range [a, b).
pub fn subrange(a: u32, b: u32, s: u32, e: u32) -> Res<(u32, u32)> {
    let from = a as u64 + s as u64;
    let to = a as u64 + e as u64;
    let top = u32::MAX as u64;
    if from > top || to > top || s > e || to > b as u64 {
        return Err((28, 0));
    }
    Ok((from as u32, to as u32))
}
