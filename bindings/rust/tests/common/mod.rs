//! A small generator of terms and cores. The same seed gives the same ones.

use netkat::{Exp, Expr, Pattern};

/// Random terms within the limits.
#[allow(dead_code)] // Not every test has a use for it.
pub fn terms(seed: u64, count: usize) -> impl Iterator<Item = Exp> {
    exprs(seed, count, 7, Random::term)
}

/// Random expressions that are cores.
#[allow(dead_code)]
pub fn core_exprs(seed: u64, count: usize) -> impl Iterator<Item = Exp> {
    exprs(seed, count, 9, Random::core)
}

/// What is made of at most so many levels.
fn exprs(seed: u64, count: usize, levels: usize, make: fn(&mut Random, usize) -> Exp) -> impl Iterator<Item = Exp> {
    let mut random = Random::new(seed);
    std::iter::repeat_with(move || {
        let depth = 1 + random.below(levels);
        make(&mut random, depth)
    })
    .take(count)
}

pub struct Random(u64);

impl Random {
    pub fn new(seed: u64) -> Self {
        Random(seed)
    }

    /// The next number (splitmix64).
    fn next(&mut self) -> u64 {
        self.0 = self.0.wrapping_add(0x9e37_79b9_7f4a_7c15);
        let mut z = self.0;
        z = (z ^ z >> 30).wrapping_mul(0xbf58_476d_1ce4_e5b9);
        z = (z ^ z >> 27).wrapping_mul(0x94d0_49bb_1331_11eb);
        z ^ z >> 31
    }

    /// A number below `bound`.
    pub fn below(&mut self, bound: usize) -> usize {
        (self.next() % bound as u64) as usize
    }

    fn flag(&mut self) -> bool {
        self.below(2) == 1
    }

    pub fn bits(&mut self, length: usize) -> Vec<bool> {
        (0..length).map(|_| self.flag()).collect()
    }

    /// The bytes with a change: cut off, one more, a bit flipped, or one byte another.
    #[allow(dead_code)]
    pub fn changed(&mut self, bytes: &[u8]) -> Vec<u8> {
        let mut changed = bytes.to_vec();
        let at = self.below(changed.len());
        match self.below(5) {
            0 => changed.truncate(at),
            1 => changed.insert(at, self.below(256) as u8),
            2 => changed[at] ^= 1 << self.below(8),
            3 => changed.push(self.below(3) as u8),
            _ => changed[at] = self.below(40) as u8,
        }
        changed
    }

    /// The length of a literal: mostly short, now and then up to the limit.
    fn length(&mut self) -> usize {
        match self.below(20) {
            0 => [127, 128, 129, 191, 192][self.below(5)],
            1 => 130 + self.below(61),
            _ => self.below(10),
        }
    }

    fn literal(&mut self) -> Vec<bool> {
        let length = self.length();
        self.bits(length)
    }

    fn name(&mut self) -> u16 {
        [0, 1, 2, 258, u16::MAX][self.below(5)]
    }

    fn field(&mut self) -> u32 {
        match self.below(20) {
            0 => u32::MAX,
            1 => 0x0102_0304,
            _ => self.below(12) as u32,
        }
    }

    /// A range and its width; now and then one that ends below its start.
    pub fn range(&mut self) -> (u32, u32, usize) {
        let start = self.below(12) as u32;
        if self.below(15) == 0 {
            return (start + 3, start, 0);
        }
        let width = self.length();
        (start, start + width as u32, width)
    }

    /// A pattern for a range of this width; now and then one that does not suit it.
    pub fn pattern(&mut self, width: usize) -> Pattern {
        let width = if self.below(6) == 0 { self.length() } else { width };
        match self.below(4) {
            0 => Pattern::Exact(self.bits(width)),
            1 => Pattern::Cidr { address: self.bits(width), prefix_len: self.below(width + 2) },
            2 => Pattern::Wildcard { address: self.bits(width), mask: self.bits(width) },
            _ => Pattern::IpRange { start: self.bits(width), end: self.bits(width) },
        }
    }

    /// A term of at most `depth` levels, which has every kind in it now and then.
    pub fn term(&mut self, depth: usize) -> Exp {
        if depth <= 1 {
            return self.leaf();
        }
        let d = depth - 1;
        match self.below(18) {
            0 => Expr::union(self.term(d), self.term(d)),
            1 => Expr::intersect(self.term(d), self.term(d)),
            2 => Expr::xor(self.term(d), self.term(d)),
            3 => Expr::difference(self.term(d), self.term(d)),
            4 | 5 => Expr::sequence(self.term(d), self.term(d)),
            6 => Expr::ltl_until(self.term(d), self.term(d)),
            7 => Expr::complement(self.term(d)),
            8 => Expr::star(self.term(d)),
            9 => Expr::ltl_next(self.term(d)),
            10 | 11 => Expr::test_negation(self.term(d)),
            12 => Expr::if_then_else(self.term(d), self.term(d), self.term(d)),
            13 | 14 => Expr::let_in(self.name(), self.term(d), self.term(d)),
            15 | 16 => {
                let (start, end, _) = self.range();
                Expr::let_bit_range(self.name(), start, end, self.term(d))
            }
            _ => self.leaf(),
        }
    }

    /// An expression that is a core, of at most `depth` levels.
    fn core(&mut self, depth: usize) -> Exp {
        let fields = [0, 1, 7, 255, 256, 0x0102_0304, u32::MAX];
        let field = fields[self.below(fields.len())];
        let d = depth - 1;
        match self.below(if depth > 1 { 22 } else { 10 }) {
            0 => Expr::zero(),
            1 => Expr::one(),
            2 => Expr::top(),
            3 => Expr::dup(),
            4 => Expr::end(),
            5 | 6 => Expr::assign(field, self.flag()),
            7..=9 => Expr::test(field, self.flag()),
            10 | 11 => Expr::union(self.core(d), self.core(d)),
            12 | 13 => Expr::intersect(self.core(d), self.core(d)),
            14 => Expr::xor(self.core(d), self.core(d)),
            15 => Expr::difference(self.core(d), self.core(d)),
            16 | 17 => Expr::sequence(self.core(d), self.core(d)),
            18 => Expr::ltl_until(self.core(d), self.core(d)),
            19 => Expr::complement(self.core(d)),
            20 => Expr::star(self.core(d)),
            _ => Expr::ltl_next(self.core(d)),
        }
    }

    /// An expression that is a core and a test, of at most `depth` levels, on the fields below a number.
    #[allow(dead_code)]
    pub fn test(&mut self, depth: usize, fields: usize) -> Exp {
        let d = depth - 1;
        match self.below(if depth > 1 { 16 } else { 6 }) {
            0 => Expr::zero(),
            1 => Expr::one(),
            2..=5 => Expr::test(self.below(fields) as u32, self.flag()),
            6..=8 => Expr::union(self.test(d, fields), self.test(d, fields)),
            9 | 10 => Expr::intersect(self.test(d, fields), self.test(d, fields)),
            11 | 12 => Expr::xor(self.test(d, fields), self.test(d, fields)),
            13 | 14 => Expr::difference(self.test(d, fields), self.test(d, fields)),
            _ => Expr::sequence(self.test(d, fields), self.test(d, fields)),
        }
    }

    fn leaf(&mut self) -> Exp {
        match self.below(16) {
            0 => Expr::zero(),
            1 => Expr::one(),
            2 => Expr::top(),
            3 => Expr::dup(),
            4 => Expr::end(),
            5 => Expr::assign(self.field(), self.flag()),
            6 | 7 => Expr::test(self.field(), self.flag()),
            8 => Expr::var(self.name()),
            9 => Expr::var_assign(self.name(), self.literal()),
            10 => Expr::var_test(self.name(), self.literal()),
            11 => Expr::var_match(self.name(), self.pattern(4)),
            12 => {
                let (start, end, width) = self.range();
                Expr::bit_range_assign(start, end, self.bits(width))
            }
            13 => {
                let (start, end, width) = self.range();
                Expr::bit_range_test(start, end, self.bits(width))
            }
            14 => Expr::bit_range_test(self.field(), self.field(), self.literal()),
            _ => {
                let (start, end, width) = self.range();
                Expr::bit_range_match(start, end, self.pattern(width))
            }
        }
    }
}
