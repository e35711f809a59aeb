//! Random inputs: terms with many scopes, short literals, small widths, nested negations and ifs, some with literals of 129 to 192
//! bits; damaged encodings; random bytes; inputs at the limits. Everything follows from one 64-bit seed.
use crate::model::*;

#[derive(Clone)]
pub struct Rng(pub u64);
impl Rng {
    pub fn new(seed: u64) -> Self {
        let mut r = Rng(seed ^ 0x9e37_79b9_7f4a_7c15);
        r.next();
        r
    }
    pub fn next(&mut self) -> u64 {
        self.0 = self.0.wrapping_add(0x9e37_79b9_7f4a_7c15);
        let mut z = self.0;
        z = (z ^ (z >> 30)).wrapping_mul(0xbf58_476d_1ce4_e5b9);
        z = (z ^ (z >> 27)).wrapping_mul(0x94d0_49bb_1331_11eb);
        z ^ (z >> 31)
    }
    pub fn below(&mut self, n: u64) -> u64 {
        self.next() % n
    }
    pub fn pct(&mut self, p: u64) -> bool {
        self.below(100) < p
    }
    pub fn permille(&mut self, p: u64) -> bool {
        self.below(1000) < p
    }
    pub fn bool(&mut self) -> bool {
        self.next() >> 63 == 1
    }
    pub fn pick<'a, T>(&mut self, s: &'a [T]) -> &'a T {
        let i = self.below(s.len() as u64) as usize;
        &s[i]
    }
}

pub fn node(kind: u8, kids: Vec<Node>) -> Node {
    Node { kind, kids, ..Node::default() }
}

pub struct Gen<'a> {
    pub r: &'a mut Rng,
    /// chance in a thousand, at each choice, of what may break a rule
    pub slip: u64,
    /// records that may still be made, roughly
    pub budget: i64,
    pub wide: bool,
    /// many widths of 129 to 192 fields, beyond a u128
    pub long: bool,
    /// fields 0 to 5 only
    pub small: bool,
    vars: Vec<(u16, bool)>,
    aliases: Vec<(u16, u32, u32)>,
}

const NAMES: [u16; 6] = [0, 1, 2, 3, 1, 2];
/// Literal lengths around the limits, as a length byte.
const LENGTHS: [u8; 10] = [127, 128, 129, 130, 191, 192, 193, 194, 200, 255];

impl<'a> Gen<'a> {
    pub fn new(r: &'a mut Rng, slip: u64, budget: i64, wide: bool) -> Self {
        Gen { r, slip, budget, wide, long: false, small: false, vars: vec![], aliases: vec![] }
    }
    fn slips(&mut self) -> bool {
        let s = self.slip;
        self.r.permille(s)
    }
    fn name(&mut self) -> u16 {
        if self.r.pct(4) {
            *self.r.pick(&[255u16, 256, 65535, 4097])
        } else {
            *self.r.pick(&NAMES)
        }
    }
    /// 129 to 192, and beyond where it may break a rule: a literal of that length has no good form.
    fn long_width(&mut self) -> u32 {
        if self.slips() {
            return *self.r.pick(&[193, 193, 200, 255, 256]);
        }
        if self.r.pct(70) {
            *self.r.pick(&[129, 129, 160, 191, 192, 192])
        } else {
            129 + self.r.below(64) as u32
        }
    }
    fn width(&mut self) -> u32 {
        if self.long && self.r.pct(40) {
            return self.long_width();
        }
        match self.r.below(100) {
            0..=9 => 0,
            10..=24 => 1,
            25..=79 => 2 + self.r.below(7) as u32,
            80..=89 => 9 + self.r.below(24) as u32,
            90..=94 if self.wide => 33 + self.r.below(96) as u32,
            95..=96 if self.wide => *self.r.pick(&[127, 128, 64, 65, 63]),
            97 if self.wide => *self.r.pick(&[129, 129, 129, 130, 200, 300, 255, 256]),
            98 if self.wide && self.r.pct(20) => *self.r.pick(&[4000, 32767, 32768, 32769, 65535, 65536, 1 << 31, u32::MAX]),
            _ => self.r.below(9) as u32,
        }
    }
    fn range(&mut self) -> (u32, u32) {
        if self.small {
            let s = self.r.below(6) as u32;
            let w = self.r.below(7 - s as u64) as u32;
            return (s, s + w);
        }
        let w = self.width();
        let room = u32::MAX - w;
        let start = match self.r.below(100) {
            0..=89 => self.r.below(12) as u32,
            90..=93 => room,
            94..=95 => room.saturating_sub(1),
            96..=97 => 255 + self.r.below(3) as u32,
            _ => self.r.next() as u32,
        }
        .min(room);
        if self.slips() {
            // backwards
            let s = start.max(1).saturating_add(self.r.below(3) as u32);
            return (s, s - 1 - self.r.below(s as u64) as u32);
        }
        (start, start + w)
    }
    pub fn bits(&mut self, len: usize) -> Vec<bool> {
        match self.r.below(8) {
            0 => vec![false; len],
            1 => vec![true; len],
            2 => {
                let mut v = vec![false; len];
                if len > 0 {
                    let i = self.r.below(len as u64) as usize;
                    v[i] = true;
                }
                v
            }
            3 => {
                let mut v = vec![true; len];
                if len > 0 {
                    let i = self.r.below(len as u64) as usize;
                    v[i] = false;
                }
                v
            }
            _ => (0..len).map(|_| self.r.bool()).collect(),
        }
    }
    /// A literal length near w, exact unless it slips.
    fn exact_len(&mut self, w: u32) -> usize {
        let mut l = w.min(MAX_LITERAL as u32) as i64;
        if self.slips() {
            l += *self.r.pick(&[-1i64, 1, 1, 2, -2, 8]);
        }
        l.clamp(0, MAX_LITERAL as i64) as usize
    }
    /// The literal of an assignment to or a test of [s, e).
    fn range_literal(&mut self, s: u32, e: u32) -> Vec<bool> {
        let w = if s <= e { e - s } else { self.width() };
        let l = self.exact_len(w);
        self.bits(l)
    }
    fn short_len(&mut self, w: u32) -> usize {
        let w = w.min(MAX_LITERAL as u32);
        let mut l = match self.r.below(10) {
            0..=4 => w as i64,
            5 => 0,
            _ => self.r.below(w as u64 + 1) as i64,
        };
        if self.slips() {
            l = w as i64 + 1 + self.r.below(3) as i64;
        }
        l.clamp(0, MAX_LITERAL as i64) as usize
    }
    /// How many of the four patterns a field of this width can have without breaking a rule.
    fn patterns(w: u32) -> u64 {
        if w as u64 <= MAX_RANGE_BITS {
            4
        } else if w as usize <= MAX_LITERAL {
            3
        } else {
            1
        }
    }
    fn pattern(&mut self, n: &mut Node, w: u32) {
        let any = self.slips() || self.slip > 0 && self.r.pct(30);
        n.pat = self.r.below(if any { 4 } else { Self::patterns(w) }) as u8;
        match n.pat {
            0 => {
                let l = self.short_len(w);
                n.a = self.bits(l);
            }
            1 => {
                let l = self.exact_len(w);
                n.a = self.bits(l);
                let top = w.min(255);
                n.num = match self.r.below(6) {
                    0 => 0,
                    1 => top as u8,
                    _ => self.r.below(top as u64 + 1) as u8,
                };
                if self.slips() {
                    n.num = if self.r.pct(70) { w.saturating_add(1).min(255) as u8 } else { 255 };
                }
            }
            2 => {
                let l = self.exact_len(w);
                n.a = self.bits(l);
                let l = self.exact_len(w);
                n.b = self.bits(l);
            }
            _ => self.bounds(n, w),
        }
    }
    fn bound_len(&mut self, w: u32) -> usize {
        if self.long && self.slips() {
            self.long_width().min(MAX_LITERAL as u32) as usize
        } else {
            self.short_len(w)
        }
    }
    /// The bounds of a range pattern.
    fn bounds(&mut self, n: &mut Node, w: u32) {
        let (l, m) = (self.bound_len(w), self.bound_len(w));
        let (mut a, mut b) = (self.bits(l), self.bits(m));
        // by their standing bits, the highest first
        let standing = |v: &[bool]| (0..v.len()).rev().filter(|i| v[*i]).collect::<Vec<_>>();
        if standing(&a) > standing(&b) && !(self.slip > 0 && self.r.pct(10 + self.slip / 4)) {
            std::mem::swap(&mut a, &mut b);
        }
        if self.r.pct(15) && a.len() <= w as usize {
            b = vec![true; w.min(MAX_LITERAL as u32) as usize]; // to the top
        }
        if self.r.pct(8) {
            a = vec![false; a.len()];
        }
        if self.r.pct(6) {
            b = a.clone();
        }
        n.a = a;
        n.b = b;
    }
    fn alias(&mut self) -> Option<(u16, u32, u32)> {
        if self.aliases.is_empty() {
            return None;
        }
        let i = self.r.below(self.aliases.len() as u64) as usize;
        let name = self.aliases[i].0;
        // the innermost of that name
        self.aliases.iter().rev().find(|a| a.0 == name).copied()
    }
    fn variable(&mut self, want_test: bool) -> Option<u16> {
        if self.vars.is_empty() {
            return None;
        }
        for _ in 0..4 {
            let i = self.r.below(self.vars.len() as u64) as usize;
            let name = self.vars[i].0;
            let inner = self.vars.iter().rev().find(|v| v.0 == name).unwrap();
            if inner.1 || !want_test {
                return Some(name);
            }
        }
        None
    }
    fn field(&mut self) -> u32 {
        if self.small {
            return self.r.below(6) as u32;
        }
        match self.r.below(50) {
            0 => u32::MAX - 1,
            1 => 256,
            2 if self.slips() => u32::MAX,
            3 if self.slip > 0 => u32::MAX,
            _ => self.r.below(10) as u32,
        }
    }
    fn one_bit(&mut self, kind: u8) -> Node {
        let f = self.field();
        Node { kind, start: f, num: self.r.bool() as u8, ..Node::default() }
    }
    pub fn range_match(&mut self) -> Node {
        let (s, e) = self.range();
        let mut n = Node { kind: RANGEMATCH, start: s, end: e, ..Node::default() };
        self.pattern(&mut n, e.saturating_sub(s));
        n
    }
    fn test_leaf(&mut self) -> Node {
        if self.slips() {
            if self.r.pct(50) {
                // a name that may be unbound, or only an alias's
                let name = match self.alias() {
                    Some(a) if self.r.pct(60) => a.0,
                    _ => self.name(),
                };
                let kind = *self.r.pick(&[VAR, VAR, VAR, VARASSIGN, VARTEST, VARMATCH]);
                return Node { kind, name, ..Node::default() };
            }
            return self.any_leaf();
        }
        match self.r.below(20) {
            0 => node(ZERO, vec![]),
            1 | 2 => node(ONE, vec![]),
            3..=6 => self.one_bit(TEST),
            7 | 8 => {
                let (s, e) = self.range();
                Node { kind: RANGETEST, start: s, end: e, a: self.range_literal(s, e), ..Node::default() }
            }
            9 | 10 => self.range_match(),
            11 | 12 => match self.alias() {
                Some((name, s, e)) => {
                    let mut n = Node { kind: VARMATCH, name, ..Node::default() };
                    if self.slips() {
                        n.name = self.name();
                    }
                    self.pattern(&mut n, e.saturating_sub(s));
                    n
                }
                None => self.one_bit(TEST),
            },
            13 | 14 => match self.alias() {
                Some((name, s, e)) => {
                    let l = self.short_len(e.saturating_sub(s));
                    let mut n = Node { kind: VARTEST, name, a: self.bits(l), ..Node::default() };
                    if self.slips() {
                        n.name = self.name();
                    }
                    n
                }
                None => self.one_bit(TEST),
            },
            15..=17 => match self.variable(true) {
                Some(name) => {
                    let mut n = Node { kind: VAR, name, ..Node::default() };
                    if self.slips() {
                        n.name = self.name();
                    }
                    n
                }
                None => self.one_bit(TEST),
            },
            18 => {
                // a range assignment of width 0 is a test
                let s = self.r.below(5) as u32;
                Node { kind: RANGEASSIGN, start: s, end: s, ..Node::default() }
            }
            _ => match self.alias() {
                Some((name, s, e)) if s == e => Node { kind: VARASSIGN, name, ..Node::default() },
                _ => self.one_bit(TEST),
            },
        }
    }
    fn any_leaf(&mut self) -> Node {
        match self.r.below(16) {
            0 => node(TOP, vec![]),
            1 => node(DUP, vec![]),
            2 => node(END, vec![]),
            3 | 4 => self.one_bit(ASSIGN),
            5 | 6 => {
                let (s, e) = self.range();
                Node { kind: RANGEASSIGN, start: s, end: e, a: self.range_literal(s, e), ..Node::default() }
            }
            7 | 8 => match self.alias() {
                Some((name, s, e)) => {
                    let l = self.short_len(e.saturating_sub(s));
                    Node { kind: VARASSIGN, name, a: self.bits(l), ..Node::default() }
                }
                None => self.one_bit(ASSIGN),
            },
            9 | 10 => match self.variable(false) {
                Some(name) => Node { kind: VAR, name, ..Node::default() },
                None => node(TOP, vec![]),
            },
            11 if self.slips() => {
                let name = self.name();
                let kind = *self.r.pick(&[VAR, VARASSIGN, VARTEST, VARMATCH]);
                Node { kind, name, ..Node::default() }
            }
            _ => {
                let s = self.slip;
                self.slip = 0;
                let n = self.test_leaf();
                self.slip = s;
                n
            }
        }
    }
    fn binding(&mut self, depth: u32, test: bool) -> Node {
        let name = self.name();
        if self.r.pct(50) {
            let def_test = self.r.pct(60);
            let def = if def_test { self.test(depth - 1) } else { self.any(depth - 1) };
            self.vars.push((name, def_test));
            let body = if test { self.test(depth - 1) } else { self.any(depth - 1) };
            self.vars.pop();
            Node { kind: LET, name, kids: vec![def, body], ..Node::default() }
        } else {
            let (s, e) = self.range();
            self.aliases.push((name, s, e));
            let body = if test { self.test(depth - 1) } else { self.any(depth - 1) };
            self.aliases.pop();
            Node { kind: LETRANGE, name, start: s, end: e, kids: vec![body], ..Node::default() }
        }
    }
    pub fn test(&mut self, depth: u32) -> Node {
        self.budget -= 1;
        if depth == 0 || self.budget <= 0 || self.r.pct(18) {
            return self.test_leaf();
        }
        let d = depth - 1;
        match self.r.below(24) {
            0 | 1 => node(UNION, vec![self.test(d), self.test(d)]),
            2 | 3 => node(INTERSECT, vec![self.test(d), self.test(d)]),
            4 | 5 => node(XOR, vec![self.test(d), self.test(d)]),
            6..=8 => node(DIFFERENCE, vec![self.test(d), self.test(d)]),
            9 | 10 => node(SEQUENCE, vec![self.test(d), self.test(d)]),
            11..=14 => {
                let inner = if self.slips() { self.any(d) } else { self.test(d) };
                node(NEGATION, vec![inner])
            }
            15..=17 => self.choice(d, true),
            18 => {
                // a double negation
                let x = self.test(d.saturating_sub(1));
                node(NEGATION, vec![node(NEGATION, vec![x])])
            }
            _ => self.binding(depth, true),
        }
    }
    fn choice(&mut self, d: u32, test: bool) -> Node {
        let c = if self.slips() { self.any(d) } else { self.test(d) };
        let arm = |g: &mut Self| {
            if g.r.pct(30) {
                node(ONE, vec![])
            } else if test {
                g.test(d)
            } else {
                g.any(d)
            }
        };
        let t = arm(self);
        let e = arm(self);
        node(IF, vec![c, t, e])
    }
    pub fn any(&mut self, depth: u32) -> Node {
        self.budget -= 1;
        if depth == 0 || self.budget <= 0 || self.r.pct(12) {
            return self.any_leaf();
        }
        let d = depth - 1;
        match self.r.below(30) {
            0 | 1 => node(UNION, vec![self.any(d), self.any(d)]),
            2 => node(INTERSECT, vec![self.any(d), self.any(d)]),
            3 => node(XOR, vec![self.any(d), self.any(d)]),
            4 => node(DIFFERENCE, vec![self.any(d), self.any(d)]),
            5..=8 => node(SEQUENCE, vec![self.any(d), self.any(d)]),
            9 => node(UNTIL, vec![self.any(d), self.any(d)]),
            10 => node(COMPLEMENT, vec![self.any(d)]),
            11 => node(STAR, vec![self.any(d)]),
            12 => node(NEXT, vec![self.any(d)]),
            13..=15 => {
                let inner = if self.slips() { self.any(d) } else { self.test(d) };
                node(NEGATION, vec![inner])
            }
            16..=19 => self.choice(d, false),
            20..=22 => self.test(depth),
            _ => self.binding(depth, false),
        }
    }
}

/// A random term of up to about `budget` records.
pub fn term(r: &mut Rng, max_budget: i64) -> Node {
    let long = r.pct(18);
    term_with(r, max_budget, long)
}

fn term_with(r: &mut Rng, max_budget: i64, long: bool) -> Node {
    let slip = if long { *r.pick(&[0u64, 0, 20, 60, 150]) } else { *r.pick(&[0, 0, 0, 0, 5, 20, 20, 60, 150]) };
    let budget = 1 + r.below(max_budget as u64) as i64;
    let depth = 1 + r.below(if max_budget > 100 { 22 } else { 9 }) as u32;
    let wide = r.pct(40);
    let test = r.pct(40);
    let mut g = Gen::new(r, slip, budget, wide);
    g.long = long;
    let bind = long as u64 + g.r.below(4);
    let mut n = if test { g.test(depth) } else { g.any(depth) };
    // often a few bindings around the whole, so that names resolve
    for _ in 0..bind {
        if n.kind == LET || n.kind == LETRANGE {
            break;
        }
        let (s, e) = g.range();
        n = Node { kind: LETRANGE, name: g.name(), start: s, end: e, kids: vec![n], ..Node::default() };
    }
    n
}

/// The term with some of its leaves replaced by variables, so that names are free.
pub fn with_free_vars(r: &mut Rng, n: &Node) -> Node {
    let mut m = n.clone();
    if n.kids.is_empty() && r.pct(35) {
        return Node { kind: VAR, name: *r.pick(&NAMES), ..Node::default() };
    }
    m.kids = n.kids.iter().map(|k| with_free_vars(r, k)).collect();
    m
}

/// A damaged copy.
pub fn damage(r: &mut Rng, good: &[u8]) -> Vec<u8> {
    let mut v = good.to_vec();
    let times = 1 + r.below(3);
    for _ in 0..times {
        match r.below(7) {
            0 | 1 | 2 if !v.is_empty() => {
                let i = r.below(v.len() as u64) as usize;
                v[i] ^= 1 << r.below(8);
            }
            3 => {
                let n = r.below(v.len() as u64 + 1) as usize;
                v.truncate(n);
            }
            4 => {
                for _ in 0..1 + r.below(3) {
                    v.push(if r.bool() { r.next() as u8 } else { 0 });
                }
            }
            5 if !v.is_empty() => {
                let i = r.below(v.len() as u64) as usize;
                v[i] = if r.pct(75) { *r.pick(&[0u8, 1, 2, 3, 4, 5, 26, 27, 8]) } else { *r.pick(&LENGTHS) };
            }
            _ => {
                let i = r.below(v.len() as u64 + 1) as usize;
                let b = if r.bool() { r.next() as u8 } else { r.below(28) as u8 };
                if r.bool() || i == v.len() {
                    v.insert(i, b);
                } else {
                    v.remove(i);
                }
            }
        }
    }
    v
}

/// The bytes of a literal of so many bits, without its length; the spare bits of the last byte are clear.
fn literal_bytes(r: &mut Rng, bits: u8) -> Vec<u8> {
    let mut v: Vec<u8> = (0..bits.div_ceil(8)).map(|_| r.next() as u8).collect();
    if let (Some(last), 1..) = (v.last_mut(), bits % 8) {
        *last &= (1 << bits % 8) - 1;
    }
    v
}

/// The term's bytes, and where in them the length bytes of literals are.
fn literal_places(n: &Node, out: &mut Vec<u8>, places: &mut Vec<usize>) {
    put_record(n, out);
    let mut end = out.len();
    for bits in [n.b.len(), n.a.len()] {
        if bits > 0 {
            end -= 1 + bits.div_ceil(8);
            places.push(end);
        }
    }
    n.kids.iter().for_each(|k| literal_places(k, out, places));
}

/// A copy with a literal of another length, around a limit: the old bytes, or as many as belong to it, at times with a spare bit or
/// some of them lacking.
fn other_length(r: &mut Rng, good: &Node) -> Vec<u8> {
    let (mut v, mut places) = (vec![], vec![]);
    literal_places(good, &mut v, &mut places);
    if places.is_empty() {
        return damage(r, &v);
    }
    let at = *r.pick(&places);
    let before = v[at].div_ceil(8) as usize;
    v[at] = *r.pick(&LENGTHS);
    if r.pct(25) {
        return v;
    }
    let mut bytes = literal_bytes(r, v[at]);
    let last = at + bytes.len();
    if r.pct(20) {
        *bytes.last_mut().unwrap() |= 1 << r.below(8);
    }
    v.splice(at + 1..at + 1 + before, bytes);
    if r.pct(15) {
        v.truncate(last - r.below(3) as usize);
    }
    v
}

/// Bytes that look like records: sensible maps and kinds, careless fields.
pub fn near_records(r: &mut Rng) -> Vec<u8> {
    let mut v = Vec::new();
    for _ in 0..1 + r.below(5) {
        let kind = match r.below(10) {
            0 => r.below(30) as u8,
            1..=4 => 25 + r.below(2) as u8,
            _ => r.below(27) as u8,
        };
        let mut map = (kind != 0) as u8;
        let has = kind_bits(kind.min(26));
        for b in 1..8 {
            if has >> b & 1 == 1 && r.pct(60) || r.pct(2) {
                map |= 1 << b;
            }
        }
        v.push(map);
        if map & 1 != 0 { v.push(kind); }
        let small = |r: &mut Rng, n: usize, v: &mut Vec<u8>| {
            let x = if r.pct(5) { 0 } else { 1 + r.below(20) as u32 };
            v.extend(&x.to_le_bytes()[..n]);
        };
        if map & 2 != 0 { small(r, 2, &mut v); }
        if map & 4 != 0 { small(r, 4, &mut v); }
        if map & 8 != 0 { small(r, 4, &mut v); }
        if map & 16 != 0 { v.push(r.below(5) as u8); }
        if map & 32 != 0 { v.push(r.below(10) as u8); }
        for bit in [64u8, 128] {
            if map & bit != 0 {
                let len = match r.below(100) {
                    0 => 0,
                    1..=4 => *r.pick(&LENGTHS),
                    _ => 1 + r.below(17) as u8,
                };
                v.push(len);
                let mut bytes = literal_bytes(r, len);
                if let (Some(last), true) = (bytes.last_mut(), r.pct(7)) {
                    *last = r.next() as u8;
                }
                v.extend(bytes);
            }
        }
    }
    if r.pct(10) {
        let n = r.below(v.len() as u64 + 1) as usize;
        v.truncate(n);
    }
    v
}

fn unary_chain(r: &mut Rng, depth: u32, tests: bool) -> Node {
    let mut n = if r.bool() { node(ONE, vec![]) } else { Node { kind: TEST, start: 1, num: 1, ..Node::default() } };
    for _ in 1..depth {
        let k = if tests { NEGATION } else { *r.pick(&[COMPLEMENT, STAR, NEXT]) };
        n = node(k, vec![n]);
    }
    n
}

/// A balanced term of exactly `count` records, none deeper than about log2.
pub fn balanced(r: &mut Rng, count: u64) -> Node {
    match count {
        0 | 1 => match r.below(4) {
            0 => node(ZERO, vec![]),
            1 => node(ONE, vec![]),
            _ => Node { kind: TEST, start: r.below(300) as u32, num: r.bool() as u8, ..Node::default() },
        },
        2 => node(NEGATION, vec![balanced(r, 1)]),
        _ => {
            let left = (count - 1) / 2;
            let k = *r.pick(&[UNION, INTERSECT, XOR, DIFFERENCE, SEQUENCE]);
            node(k, vec![balanced(r, left), balanced(r, count - 1 - left)])
        }
    }
}

/// Inputs at the limits.
pub fn limit(r: &mut Rng) -> Vec<u8> {
    match r.below(9) {
        0 => {
            let d = *r.pick(&[255u32, 256, 257, 258, 300]);
            let tests = r.bool();
            encoded(&unary_chain(r, d, tests))
        }
        1 => {
            let n = *r.pick(&[4095u64, 4096, 4097, 4098]);
            encoded(&balanced(r, n))
        }
        2 => {
            // a chain to one side, at the depth limit, with something at the bottom
            let d = *r.pick(&[254u32, 255, 256]);
            let left = r.bool();
            let mut n = term(r, 3);
            for _ in 1..d {
                let k = *r.pick(&[UNION, INTERSECT, XOR, DIFFERENCE, SEQUENCE]);
                let l = Node { kind: TEST, start: r.below(9) as u32, ..Node::default() };
                n = node(k, if left { vec![n, l] } else { vec![l, n] });
            }
            encoded(&n)
        }
        3 => {
            // literal lengths
            let l = if r.pct(70) { *r.pick(&LENGTHS) } else { *r.pick(&[0, 1, 8, 9]) };
            let w = if r.bool() { l as u32 } else { *r.pick(&[128, 192]) };
            let mut v = vec![0x49, if r.bool() { RANGETEST } else { RANGEASSIGN }];
            v.extend(w.to_le_bytes());
            v.push(l);
            v.extend(literal_bytes(r, l));
            v
        }
        4 => {
            // more records than allowed, and deeper than allowed: which comes first
            let mut v = Vec::new();
            for _ in 0..*r.pick(&[250u32, 255, 256, 257]) {
                v.extend([1, UNION]);
            }
            for _ in 0..r.below(10) {
                v.push(0);
            }
            v
        }
        5 => {
            // about 4,096 records, the last of them at about depth 257: 6 and 7 at once
            let extra = r.below(3);
            let fill = balanced(r, 4096 - 257 + extra);
            let deep = *r.pick(&[254u32, 255, 256, 257]);
            let chain = unary_chain(r, deep, false);
            encoded(&node(UNION, vec![fill, chain]))
        }
        6 => {
            // nested ifs in else branches
            let d = *r.pick(&[10u32, 60, 255]);
            let mut n = node(ONE, vec![]);
            for i in 1..d {
                let c = Node { kind: TEST, start: i % 11, num: 1, ..Node::default() };
                let t = if r.bool() { node(ONE, vec![]) } else { Node { kind: ASSIGN, start: i, ..Node::default() } };
                n = node(IF, vec![c, t, n]);
            }
            encoded(&n)
        }
        7 => {
            // many lets, doubling
            let d = 1 + r.below(20) as u16;
            let v = |n: u16| Node { kind: VAR, name: n, ..Node::default() };
            let mut n = v(d);
            for i in (1..=d).rev() {
                let k = *r.pick(&[UNION, INTERSECT, XOR, DIFFERENCE, SEQUENCE]);
                let def = node(k, vec![v(i - 1), v(i - 1)]);
                n = Node { kind: LET, name: i, kids: vec![def, n], ..Node::default() };
            }
            let def = Node { kind: TEST, start: 1, num: 1, ..Node::default() };
            encoded(&Node { kind: LET, name: 0, kids: vec![def, n], ..Node::default() })
        }
        _ => {
            // a wide alias and a short literal: draws without building
            let w = *r.pick(&[499u32, 500, 501, 32767, 32768, 32769, 65536, 1 << 20, u32::MAX]);
            let s = (r.below(3) as u32).min(u32::MAX - w);
            let kind = *r.pick(&[VARTEST, VARASSIGN, VARMATCH]);
            let use_ = Node { kind, name: 7, a: vec![true, false, true], ..Node::default() };
            encoded(&Node { kind: LETRANGE, name: 7, start: s, end: s + w, kids: vec![use_], ..Node::default() })
        }
    }
}

/// An alias range and a range within it, or not.
pub fn subrange(r: &mut Rng) -> [u32; 4] {
    [(); 4].map(|_| match r.below(6) {
        0 => u32::MAX - r.below(6) as u32,
        1 => r.next() as u32,
        _ => r.below(12) as u32,
    })
}

/// One input of the random stream: 70 % terms, 15 % damaged terms, 7 % careless records, 4 % random bytes, 1 % at the limits, the rest
/// terms.
pub fn input(r: &mut Rng, max_budget: i64) -> Vec<u8> {
    match r.below(100) {
        0..=69 => encoded(&term(r, max_budget)),
        70..=84 => {
            let good = term(r, max_budget.min(25));
            if r.pct(15) {
                return other_length(r, &good);
            }
            damage(r, &encoded(&good))
        }
        85..=91 => near_records(r),
        92..=95 => (0..r.below(24)).map(|_| if r.bool() { r.below(28) as u8 } else { r.next() as u8 }).collect(),
        _ if r.pct(25) => {
            let l = limit(r);
            if r.pct(12) {
                let n = l.len() - 1 - r.below(l.len() as u64) as usize % 6;
                l[..n].to_vec()
            } else {
                l
            }
        }
        _ => encoded(&term(r, max_budget)),
    }
}

/// An input in which Form comes to a literal of more than 128 bits.
pub fn long_input(r: &mut Rng, max_budget: i64) -> Vec<u8> {
    loop {
        let good = term_with(r, max_budget, true);
        let bytes = match r.below(100) {
            0..=84 => encoded(&good),
            85..=94 => other_length(r, &good),
            _ => damage(r, &encoded(&good)),
        };
        if longest_literal(&bytes) > 128 {
            return bytes;
        }
    }
}
