//! A literal as a host lends it, for the operations that take no term.
use crate::gen::Rng;
use crate::model::{packed, Res, MAX_LITERAL};
use crate::vectors::hex;

/// Its length in bits, and bytes, of which some may lack or stand over.
#[derive(Clone)]
pub struct Lent {
    pub bits: u32,
    pub bytes: Vec<u8>,
}

impl Lent {
    pub fn of(value: u128, bits: u32) -> Lent {
        Lent { bits, bytes: value.to_le_bytes()[..bits.div_ceil(8) as usize].to_vec() }
    }

    pub fn of_bits(bits: &[bool]) -> Lent {
        Lent { bits: bits.len() as u32, bytes: packed(bits) }
    }

    /// All literals of at most so many bits.
    pub fn all(most: u32) -> Vec<Lent> {
        (0..=most).flat_map(|bits| (0..1 << bits).map(move |value| Lent::of(value, bits))).collect()
    }

    pub fn judge(&self) -> Res<()> {
        if self.bits as usize > MAX_LITERAL {
            return Err((5, 0));
        }
        if self.bytes.len() < self.bits.div_ceil(8) as usize {
            return Err((1, 0));
        }
        Ok(())
    }

    /// The bit, false behind the end; the literal is judged already.
    pub fn at(&self, i: u32) -> bool {
        i < self.bits && self.bytes[i as usize / 8] >> (i % 8) & 1 == 1
    }

    pub fn literal(&self) -> Res<Vec<bool>> {
        self.judge()?;
        Ok((0..self.bits).map(|i| self.at(i)).collect())
    }

    /// Its two words in a vector line.
    pub fn text(&self) -> String {
        format!("{} {}", self.bits, hex(&self.bytes))
    }

    /// Another with the same literal, or the same refusal: spare bits and bytes behind may differ.
    pub fn same_literal(&self, r: &mut Rng) -> Lent {
        let mut other = self.clone();
        if self.judge() != Err((1, 0)) {
            other.bytes.extend((0..r.below(4)).map(|_| r.next() as u8));
            for (i, byte) in other.bytes.iter_mut().enumerate() {
                let kept = (self.bits as usize).saturating_sub(8 * i).min(8);
                *byte ^= r.next() as u8 & (0xff << kept) as u8;
            }
        }
        other
    }

    /// Lent carelessly, in one of five ways: a byte lacking, a byte or a bit too many, more bits than a literal has or than a bound has.
    pub fn spoil(&mut self, r: &mut Rng, how: u64) {
        match how {
            0 => drop(self.bytes.pop()),
            1 => self.bytes.push(r.next() as u8),
            2 => self.bytes.last_mut().into_iter().for_each(|last| *last |= 0x80),
            3 => self.bits = *r.pick(&[193, 200, 255, 1000, u32::MAX]),
            _ => *self = Lent { bits: 129 + r.below(64) as u32, bytes: vec![r.next() as u8; 24] },
        }
    }
}
