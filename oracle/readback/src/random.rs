//! Random policies. The same seed gives the same ones.
use netkat::{Exp, Expr, Pattern};

/// Names are the numbers below; the last two have no word.
pub const NAMES: u16 = 20;

pub struct Random {
    state: u64,
    /// Whether literals and ranges suit each other, so that the syntax can say the policy.
    tidy: bool,
}

impl Random {
    pub fn new(seed: u64) -> Self {
        Random { state: seed, tidy: true }
    }

    /// The next number (splitmix64).
    fn next(&mut self) -> u64 {
        self.state = self.state.wrapping_add(0x9e37_79b9_7f4a_7c15);
        let mut z = self.state;
        z = (z ^ z >> 30).wrapping_mul(0xbf58_476d_1ce4_e5b9);
        z = (z ^ z >> 27).wrapping_mul(0x94d0_49bb_1331_11eb);
        z ^ z >> 31
    }

    fn below(&mut self, bound: usize) -> usize {
        (self.next() % bound as u64) as usize
    }

    fn one_in(&mut self, times: usize) -> bool {
        self.below(times) == 0
    }

    fn bits(&mut self, width: usize) -> Vec<bool> {
        let highest = if self.one_in(3) { self.below(width + 1) } else { width };
        (0..width).map(|i| i < highest && self.one_in(2)).collect()
    }

    /// A width that the original's parser reads without wrapping, or one of literals that `Display` keeps from it.
    fn width(&mut self) -> usize {
        match self.below(8) {
            0 => 32,
            1 => self.below(127) + 1,
            2 if !self.tidy => 0,
            3 if !self.tidy => self.below(64) + 129,
            _ => self.below(9) + 1,
        }
    }

    /// Mostly `width`.
    fn near(&mut self, width: usize) -> usize {
        if !self.tidy && self.one_in(4) {
            self.width()
        } else {
            width
        }
    }

    fn name(&mut self) -> u16 {
        self.below(usize::from(NAMES)) as u16
    }

    fn field(&mut self) -> u32 {
        if self.one_in(20) {
            u32::MAX
        } else {
            self.below(12) as u32
        }
    }

    fn range(&mut self) -> (u32, u32, usize) {
        let width = if self.one_in(8) { 0 } else { self.width() };
        let start = if self.one_in(20) { u32::MAX - width as u32 } else { self.below(12) as u32 };
        (start, start + width as u32, width)
    }

    /// A pattern for a direct range of this width, or for an alias, where the width is 0.
    fn pattern(&mut self, width: usize) -> Pattern {
        let free = if width == 0 || self.one_in(3) { self.width() } else { width };
        match self.below(4) {
            0 => Pattern::Exact(self.bits(free)),
            1 => {
                let width = self.near(32);
                Pattern::Cidr {
                    address: self.bits(width),
                    prefix_len: self.below(33) + usize::from(!self.tidy && self.one_in(9)),
                }
            }
            2 => {
                let (a, b) = (self.near(32), self.near(32));
                Pattern::Wildcard { address: self.bits(a), mask: self.bits(b) }
            }
            _ => self.range_pattern(free.max(width)),
        }
    }

    fn range_pattern(&mut self, width: usize) -> Pattern {
        let bounds = |random: &mut Self, a, b| Pattern::IpRange { start: random.bits(a), end: random.bits(b) };
        match self.below(4) {
            0 => bounds(self, 32, 32),
            1 => {
                let (a, b) = (self.below(33), 32);
                bounds(self, a, b)
            }
            _ => {
                let (a, b) = (self.near(width), self.near(width));
                bounds(self, a, b)
            }
        }
    }

    pub fn policy(&mut self) -> Exp {
        self.tidy = !self.one_in(4);
        let depth = 1 + self.below(7);
        if self.one_in(3) {
            self.closed(depth)
        } else {
            self.term(depth, false)
        }
    }

    /// A policy that mostly keeps the rules: a few aliases around a term.
    fn closed(&mut self, depth: usize) -> Exp {
        let mut body = self.term(depth, true);
        for name in 0..NAMES {
            let width = [8, 32, 32, 127][self.below(4)];
            body = Expr::let_bit_range(name, 10, 10 + width, body);
            if self.one_in(2) {
                body = Expr::let_in(name, Expr::test(name.into(), true), body);
            }
        }
        body
    }

    /// A term of at most this depth; `plain` ones have no lets of their own.
    fn term(&mut self, depth: usize, plain: bool) -> Exp {
        if depth <= 1 {
            return self.leaf();
        }
        let d = depth - 1;
        let mut sub = || self.term(d, plain);
        let (a, b) = (sub(), sub());
        match self.below(if plain { 15 } else { 19 }) {
            0 | 1 => Expr::union(a, b),
            2 => Expr::intersect(a, b),
            3 => Expr::xor(a, b),
            4..=6 => Expr::difference(a, b),
            7 | 8 => Expr::sequence(a, b),
            9 => Expr::ltl_until(a, b),
            10 => Expr::complement(a),
            11 => Expr::star(a),
            12 => Expr::ltl_next(a),
            13 => Expr::test_negation(a),
            14 => self.leaf(),
            15 => Expr::if_then_else(a, b, self.term(d, plain)),
            16 | 17 => Expr::let_in(self.name(), a, b),
            _ => {
                let (start, end, _) = self.range();
                let (start, end) = if self.one_in(5) { (end, start) } else { (start, end) };
                Expr::let_bit_range(self.name(), start, end, a)
            }
        }
    }

    fn leaf(&mut self) -> Exp {
        match self.below(16) {
            0 => Expr::zero(),
            1 => Expr::one(),
            2 => Expr::top(),
            3 => Expr::dup(),
            4 => Expr::end(),
            5 => Expr::assign(self.field(), self.one_in(2)),
            6 => Expr::test(self.field(), self.one_in(2)),
            7 => Expr::var(self.name()),
            8 => {
                let width = self.width();
                Expr::var_assign(self.name(), self.bits(width))
            }
            9 | 10 => {
                let width = self.width();
                Expr::var_test(self.name(), self.bits(width))
            }
            11 => Expr::var_match(self.name(), self.pattern(0)),
            12 => {
                let (start, end, width) = self.range();
                let width = self.near(width);
                Expr::bit_range_assign(start, end, self.bits(width))
            }
            13 => {
                let (start, end, width) = self.range();
                let width = self.near(width);
                Expr::bit_range_test(start, end, self.bits(width))
            }
            _ => self.bit_range_match(),
        }
    }

    /// Now and then over a range that ends below its start.
    fn bit_range_match(&mut self) -> Exp {
        let (start, end, width) = self.range();
        if width > 0 && self.one_in(10) {
            let free = self.width();
            return Expr::bit_range_match(end, start, Pattern::Exact(self.bits(free)));
        }
        Expr::bit_range_match(start, end, self.pattern(width))
    }
}
