//! Literals as text.
//!
//! The written syntax has four kinds. A dotted address has 32 bits, a hexadecimal literal four for each digit and a binary one as many
//! as digits; a decimal one has the width that its place in the policy gives it.

use std::fmt;
use std::net::Ipv4Addr;

/// How many bits the value needs: 1 for zero.
pub(crate) fn shortest(bits: &[bool]) -> usize {
    bits.iter().rposition(|bit| *bit).map_or(1, |highest| highest + 1)
}

/// The most bits of a value that is written in decimal: what a number holds, here and in the original's parser. A literal can have more.
const NUMBER_BITS: usize = u128::BITS as usize;

/// The value; `None` of more bits than a number holds.
pub(crate) fn value(bits: &[bool]) -> Option<u128> {
    if bits.len() > NUMBER_BITS {
        return None;
    }
    Some(bits.iter().rev().fold(0, |value, bit| value << 1 | u128::from(*bit)))
}

/// Groups of thousands, for sentences: `65,535`.
pub(crate) fn grouped(number: impl Into<u64>) -> String {
    let digits = number.into().to_string();
    let mut text = String::new();
    for (i, digit) in digits.chars().enumerate() {
        if i > 0 && (digits.len() - i) % 3 == 0 {
            text.push(',');
        }
        text.push(digit);
    }
    text
}

/// A literal, written so that it is read with its own width wherever the syntax can say that.
///
/// Beyond a number's bits there is `_` between the digits of 32 bits each, the words of a label stack. The original's parser has no number
/// for these literals, and takes some of them for others where it reads the digits; it refuses `_`.
#[derive(Clone, Copy)]
pub(crate) struct Literal<'a> {
    bits: &'a [bool],
    decimal: bool,
}

impl<'a> Literal<'a> {
    /// At a place where a decimal literal of this value is read with `decimal_width` bits.
    pub fn at(bits: &'a [bool], decimal_width: usize) -> Self {
        let decimal = bits.len() == decimal_width && bits.len() != 32 && bits.len() <= NUMBER_BITS;
        Literal { bits, decimal }
    }

    /// Where a decimal literal would be read with another width.
    pub fn with_own_width(bits: &'a [bool]) -> Self {
        Literal { bits, decimal: false }
    }

    pub fn is_decimal(&self) -> bool {
        self.decimal
    }
}

impl fmt::Display for Literal<'_> {
    fn fmt(&self, f: &mut fmt::Formatter<'_>) -> fmt::Result {
        match (self.bits.len(), value(self.bits)) {
            (32, Some(address)) => write!(f, "{}", Ipv4Addr::from(address as u32)),
            (_, Some(value)) if self.decimal => write!(f, "{value}"),
            (0, _) => f.write_str("0b"),
            (width, _) if width % 4 == 0 => {
                f.write_str("0x")?;
                digits(self.bits, 4, f)
            }
            _ => {
                f.write_str("0b")?;
                digits(self.bits, 1, f)
            }
        }
    }
}

/// Digits of `size` bits, the highest first; that one may have fewer.
fn digits(bits: &[bool], size: usize, f: &mut fmt::Formatter<'_>) -> fmt::Result {
    for (i, digit) in bits.chunks(size).enumerate().rev() {
        let digit = digit.iter().rev().fold(0, |digit, bit| digit << 1 | u8::from(*bit));
        write!(f, "{digit:x}")?;
        if bits.len() > NUMBER_BITS && i > 0 && i * size % 32 == 0 {
            f.write_str("_")?;
        }
    }
    Ok(())
}

/// Value and width, `5/3`: for a width that no literal of the written syntax has at this place.
pub(crate) struct ValueAndWidth<'a>(pub &'a [bool]);

impl fmt::Display for ValueAndWidth<'_> {
    fn fmt(&self, f: &mut fmt::Formatter<'_>) -> fmt::Result {
        match value(self.0) {
            Some(value) => write!(f, "{value}/{}", self.0.len()),
            // The width is said, so the digits need not say it: hexadecimal ones are shorter.
            None => {
                f.write_str("0x")?;
                digits(self.0, 4, f)?;
                write!(f, "/{}", self.0.len())
            }
        }
    }
}

#[cfg(test)]
mod tests {
    use super::*;
    use crate::bits;

    #[test]
    fn kinds_of_literals() {
        let text = |value, width, decimal_width| Literal::at(&bits(value, width), decimal_width).to_string();
        assert_eq!(text(5, 3, 3), "5");
        assert_eq!(text(5, 4, 3), "0x5");
        assert_eq!(text(5, 5, 3), "0b00101");
        assert_eq!(text(0xa5, 8, 0), "0xa5");
        assert_eq!(text(0x0a00_0001, 32, 32), "10.0.0.1");
        assert_eq!(text(0, 0, 1), "0b");
        assert_eq!(text(0, 0, 0), "0");
        assert_eq!(text(u128::MAX, 128, 128), u128::MAX.to_string());
        assert_eq!(text(1, 129, 129), format!("0b0{}1", format!("_{}", "0".repeat(32)).repeat(4).strip_suffix('0').unwrap()));
        assert_eq!(text(1, 132, 132), "0x0_00000000_00000000_00000000_00000001");
        assert_eq!(text(u128::MAX, 160, 160), "0x00000000_ffffffff_ffffffff_ffffffff_ffffffff");
    }

    #[test]
    fn values_with_widths() {
        assert_eq!(ValueAndWidth(&bits(5, 3)).to_string(), "5/3");
        assert_eq!(ValueAndWidth(&[]).to_string(), "0/0");
        assert_eq!(ValueAndWidth(&bits(u128::MAX, 128)).to_string(), format!("{}/128", u128::MAX));
        assert_eq!(ValueAndWidth(&bits(1, 132)).to_string(), "0x0_00000000_00000000_00000000_00000001/132");
        assert_eq!(ValueAndWidth(&[true; 129]).to_string(), "0x1_ffffffff_ffffffff_ffffffff_ffffffff/129");
    }

    #[test]
    fn thousands() {
        let cases: [(u32, &str); 5] = [(0, "0"), (999, "999"), (1_000, "1,000"), (65_535, "65,535"), (u32::MAX, "4,294,967,295")];
        for (number, text) in cases {
            assert_eq!(grouped(number), text);
        }
    }
}
