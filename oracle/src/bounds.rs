//! Comparing bounds (document 02, change 2): their order, and how many of the field's bits are looked at. The library exports no function for
//! it, so these lines go through the program `replay` (bounds.sh) and second.py. A line's refusals are those of a caller that is lent
//! the bounds and judges them as a range pattern's.
use crate::gen::Rng;
use crate::lent::Lent;
use crate::model::{Res, MAX_RANGE_BITS};

const EQUAL: u32 = 0;
const BELOW: u32 = 1;
pub const ABOVE: u32 = 2;

/// The order's number and the count of bits, from the top bit to the first that differs.
pub fn compare(width: u32, a: &Lent, b: &Lent) -> Res<(u32, u32)> {
    a.judge()?;
    b.judge()?;
    if width as u64 > MAX_RANGE_BITS || a.bits > width || b.bits > width {
        return Err((20, 0));
    }
    for (above, i) in (0..width).rev().enumerate() {
        let looked = above as u32 + 1;
        match (a.at(i), b.at(i)) {
            (false, true) => return Ok((BELOW, looked)),
            (true, false) => return Ok((ABOVE, looked)),
            _ => {}
        }
    }
    Ok((EQUAL, width))
}

/// All pairs of bounds over fields of at most five bits, then `count` random ones.
pub fn pairs(seed: u64, count: u64) -> Vec<(u32, Lent, Lent)> {
    let mut pairs = Vec::new();
    for width in 0..=5 {
        for a in Lent::all(width) {
            pairs.extend(Lent::all(width).into_iter().map(|b| (width, a.clone(), b)));
        }
    }
    let random = (0..count).map(|i| random(&mut Rng::new(seed.wrapping_mul(0x1_0000_0005).wrapping_add(i))));
    pairs.extend(random);
    pairs
}

fn wide(r: &mut Rng) -> u128 {
    (r.next() as u128) << 64 | r.next() as u128
}

fn low_bits(n: u32) -> u128 {
    u128::MAX.checked_shr(128 - n).unwrap_or(0)
}

/// Bounds that are equal above some bit, many of them with high zeros, at full length or without some of these; one in ten lent carelessly.
pub fn random(r: &mut Rng) -> (u32, Lent, Lent) {
    let mut width = match r.below(6) {
        0 => 128,
        1 => *r.pick(&[0, 1, 63, 64, 65, 127]),
        _ => 1 + r.below(128) as u32,
    };
    let mut up_to = |top: u32| r.below(top as u64 + 1) as u32;
    let (short, below) = (up_to(width), up_to(width));
    let first = wide(r) & low_bits(if r.bool() { width } else { short });
    let second = first & !low_bits(below) | wide(r) & low_bits(if r.bool() { below } else { below.min(short) });
    let mut bounds = [first, second].map(|value| {
        let least = 128 - value.leading_zeros();
        Lent::of(value, if r.bool() { least + r.below((width - least) as u64 + 1) as u32 } else { width })
    });
    if r.pct(10) {
        let which = r.below(2) as usize;
        spoil(r, &mut bounds[which], &mut width);
    }
    let [a, b] = bounds;
    (width, a, b)
}

/// A bound lent carelessly, or a width out of range.
fn spoil(r: &mut Rng, bound: &mut Lent, width: &mut u32) {
    match r.below(6) {
        5 => *width = *r.pick(&[0, 3, 129, 192, 1000, u32::MAX]),
        how => bound.spoil(r, how),
    }
}
