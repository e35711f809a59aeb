//! What a match costs (document 02, change 5): the node count of its core, by that document's figures, with nothing made. Compared with
//! netkat_cost, with the core that the original makes, and with what the library's Desugar draws for the same match.
use crate::bounds;
use crate::compare::{Stats, LARGEST_CORE};
use crate::gen::{Gen, Rng};
use crate::lent::Lent;
use crate::model::{bound_cost, chain_size, encoded, value, work_needed, Node, Res, MAX_RANGE_BITS, RANGEMATCH};
use crate::{original, port};
use std::panic::{catch_unwind, AssertUnwindSafe};

const EXACT: u32 = 0;
const CIDR: u32 = 1;
const WILDCARD: u32 = 2;
const IP_RANGE: u32 = 3;

/// No range pattern costs more.
const DEAREST_RANGE: u64 = 33_529;
const MAX_ALLOWANCE: u64 = 65_535;

/// A direct match as it is lent. Exact has A; Cidr has number and A; Wildcard and IpRange have A and B. The rest is not looked at.
#[derive(Clone)]
pub struct Match {
    pub start: u32,
    pub end: u32,
    pub pattern: u32,
    pub number: u32,
    pub a: Lent,
    pub b: Lent,
}

impl Match {
    pub fn of(n: &Node) -> Match {
        let (a, b) = (Lent::of_bits(&n.a), Lent::of_bits(&n.b));
        Match { start: n.start, end: n.end, pattern: n.pat as u32, number: n.num as u32, a, b }
    }

    pub fn question(&self) -> String {
        format!("cost {} {} {} {} {} {}", self.start, self.end, self.pattern, self.number, self.a.text(), self.b.text())
    }

    fn has_b(&self) -> bool {
        self.pattern == WILDCARD || self.pattern == IP_RANGE
    }

    /// A and B, the latter empty where the pattern lacks it; or the refusal by form.
    fn literals(&self) -> Res<(Vec<bool>, Vec<bool>)> {
        if self.pattern > IP_RANGE {
            return Err((5, 0));
        }
        Ok((self.a.literal()?, if self.has_b() { self.b.literal()? } else { vec![] }))
    }

    /// The same match as a record. None where its form is refused, or a record's byte does not hold the prefix.
    fn record(&self) -> Option<Node> {
        let (a, b) = self.literals().ok()?;
        let num = if self.pattern == CIDR { self.number.try_into().ok()? } else { 0 };
        Some(Node { kind: RANGEMATCH, start: self.start, end: self.end, pat: self.pattern as u8, num, a, b, ..Node::default() })
    }

    /// Another with the same answer: all that is not looked at may differ.
    fn same_answer(&self, r: &mut Rng) -> Match {
        let mut other = Match { a: self.a.same_literal(r), b: self.b.same_literal(r), ..self.clone() };
        if self.pattern != CIDR {
            other.number = r.next() as u32;
        }
        if !self.has_b() {
            other.b = Lent { bits: *r.pick(&[0, 1, 8, 193, u32::MAX]), bytes: vec![r.next() as u8; r.below(3) as usize] };
        }
        other
    }
}

/// The cost, or the refusal: by form first, then by the rules of a direct match in their order.
pub fn cost(m: &Match) -> Res<u64> {
    let (mut a, mut b) = m.literals()?;
    let width = m.end.checked_sub(m.start).ok_or((14, 0))? as u64;
    let (alen, blen) = (a.len() as u64, b.len() as u64);
    let prefix = m.number as u64;
    match m.pattern {
        EXACT if alen > width => Err((15, 0)),
        EXACT => Ok(chain_size(width)),
        CIDR if prefix > width => Err((17, 0)),
        CIDR if alen != width => Err((18, 0)),
        CIDR => Ok(chain_size(prefix)),
        WILDCARD if alen != width || blen != width => Err((19, 0)),
        WILDCARD => Ok(chain_size(b.iter().filter(|masked| !**masked).count() as u64)),
        _ if width > MAX_RANGE_BITS || alen > width || blen > width => Err((20, 0)),
        _ => {
            a.resize(width as usize, false);
            b.resize(width as usize, false);
            range_cost(&a, &b)
        }
    }
}

/// Of bounds at full length.
fn range_cost(low: &[bool], high: &[bool]) -> Res<u64> {
    let (from, to) = (value(low), value(high));
    if from > to {
        return Err((21, 0));
    }
    if from == to {
        return Ok(chain_size(low.len() as u64));
    }
    let lower = low.contains(&true).then(|| bound_cost(low, false));
    let upper = high.contains(&false).then(|| bound_cost(high, true));
    Ok(match (lower, upper) {
        (Some(lower), Some(upper)) => lower + upper + 1,
        (Some(nodes), None) | (None, Some(nodes)) => nodes,
        (None, None) => 1,
    })
}

/// One match through everything.
pub fn case(stats: &mut Stats, m: &Match, r: &mut Rng) {
    stats.inputs += 1;
    let answer = cost(m);
    match answer {
        Ok(nodes) => {
            stats.count(&format!("cost of pattern {}", m.pattern));
            let dear = m.pattern == IP_RANGE && nodes > DEAREST_RANGE;
            stats.expect(!dear, "model: a range pattern over the most", || m.question());
        }
        Err((number, _)) => stats.count(&format!("cost refused by {number:02}")),
    }
    beside_original(stats, m, answer);
    let compared = catch_unwind(AssertUnwindSafe(|| beside_port(stats, m, answer, r)));
    if compared.is_err() {
        stats.differs("PORT breaks a promise of the header, see the panic's message", 1, m.question());
    }
}

/// The nodes of the core that the original makes, and its refusals.
fn beside_original(stats: &mut Stats, m: &Match, answer: Res<u64>) {
    let Ok((a, b)) = m.literals() else { return };
    if answer.is_ok_and(|nodes| nodes > LARGEST_CORE) {
        stats.count("original: left out, core too large");
        return;
    }
    stats.count(if answer.is_ok() { "original compared: core" } else { "original compared: refusal" });
    let made = original::match_nodes(m.start, m.end, m.pattern, m.number, a, b);
    let expected = answer.map_err(|(number, _)| number);
    stats.same("ORIGINAL cost", &m.question(), expected, made.map_err(|(number, _)| number));
}

/// netkat_cost, also with what it does not look at changed; and the drawn total of netkat_desugar.
fn beside_port(stats: &mut Stats, m: &Match, answer: Res<u64>, r: &mut Rng) {
    let other = m.same_answer(r);
    stats.same("PORT cost", &m.question(), answer, port::cost(m));
    stats.same("PORT cost", &other.question(), answer, port::cost(&other));
    let Some(record) = m.record() else { return };
    let drawn = answer.and_then(|nodes| if nodes > MAX_ALLOWANCE { Err((24, 0)) } else { Ok(nodes) });
    stats.count(match drawn {
        Ok(_) => "port desugar compared: drawn total",
        Err((24, _)) => "port desugar compared: 24, more than any allowance",
        Err(_) => "port desugar compared: refusal",
    });
    let allowance = answer.unwrap_or(1).min(MAX_ALLOWANCE);
    let made = port::desugar(&encoded(&record), allowance, work_needed(allowance), 7 * allowance);
    stats.same("PORT cost and desugar", &m.question(), drawn, made.map(|d| d.drawn));
}

/// All matches over fields of at most six bits, with literals and prefixes of up to one bit more; then `count` random ones.
pub fn run(seed: u64, count: u64) -> Stats {
    let mut stats = Stats::default();
    let mut r = Rng::new(seed);
    for width in 0..=6 {
        all(width, |m| case(&mut stats, &m, &mut r));
    }
    for i in 0..count {
        let mut r = Rng::new(seed.wrapping_mul(0x1_0000_0007).wrapping_add(i));
        let m = random(&mut r);
        case(&mut stats, &m, &mut r);
    }
    stats
}

/// Those over a field of this width.
fn all(width: u32, mut each: impl FnMut(Match)) {
    let literals = Lent::all(width + 1);
    let none = &literals[0];
    for a in &literals {
        let mut ask = |pattern, number, b: &Lent| each(Match { start: 2, end: 2 + width, pattern, number, a: a.clone(), b: b.clone() });
        ask(EXACT, 0, none);
        for prefix in 0..=width + 1 {
            ask(CIDR, prefix, none);
        }
        for b in &literals {
            ask(WILDCARD, 0, b);
            ask(IP_RANGE, 0, b);
        }
    }
}

/// A match as in random terms, a range over up to 128 bits, or a very wide Exact; one in four lent carelessly, at times twice over.
pub fn random(r: &mut Rng) -> Match {
    let mut m = match r.below(100) {
        0 => random_wide(r),
        1..=10 => random_range(r),
        _ => random_pattern(r),
    };
    if r.pct(25) {
        for _ in 0..1 + r.below(2) {
            spoil(r, &mut m);
        }
    }
    if r.pct(30) { m.same_answer(r) } else { m }
}

fn random_pattern(r: &mut Rng) -> Match {
    let (slip, long) = (*r.pick(&[0, 0, 20, 150]), r.pct(30));
    let mut g = Gen::new(r, slip, 1, true);
    g.long = long;
    Match::of(&g.range_match())
}

fn random_range(r: &mut Rng) -> Match {
    let (width, mut a, mut b) = bounds::random(r);
    if bounds::compare(width, &a, &b).is_ok_and(|(order, _)| order == bounds::ABOVE) {
        std::mem::swap(&mut a, &mut b);
    }
    let start = (r.below(3) as u32).min(u32::MAX - width);
    Match { start, end: start + width, pattern: IP_RANGE, number: 0, a, b }
}

/// Around the limits of an allowance and of 32 bits, or anywhere.
fn random_wide(r: &mut Rng) -> Match {
    let anywhere = (r.next() as u32) >> r.below(12);
    let width = *r.pick(&[32_768, 32_769, 1 << 31, (1 << 31) + 1, u32::MAX - 1, u32::MAX, anywhere, anywhere]);
    let bits = r.below(193) as usize;
    let a = Lent::of_bits(&Gen::new(r, 0, 1, true).bits(bits));
    let start = (r.below(3) as u32).min(u32::MAX - width);
    Match { start, end: start + width, pattern: EXACT, number: 0, a, b: Lent::of(0, 0) }
}

/// One thing amiss: a literal, the pattern's number, the range, the prefix, or the order of the literals.
fn spoil(r: &mut Rng, m: &mut Match) {
    let (width, top) = (m.end.saturating_sub(m.start), m.end.max(1));
    match r.below(10) {
        how @ 0..=4 => {
            let literal = if r.bool() { &mut m.a } else { &mut m.b };
            literal.spoil(r, how)
        }
        5 => m.pattern = *r.pick(&[4, 5, 255, 256, 256 | m.pattern, u32::MAX]),
        6 => (m.start, m.end) = (top, r.below(top as u64) as u32),
        7 => m.end = m.end.saturating_add(1),
        8 => m.number = *r.pick(&[width.saturating_add(1), 255, 256, 256 + width.min(192), 1 << 16, u32::MAX]),
        _ => std::mem::swap(&mut m.a, &mut m.b),
    }
}
