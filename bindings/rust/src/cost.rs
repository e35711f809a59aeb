//! What a pattern will draw.

use std::ops::Range;

use crate::limits::MAX_LITERAL_BITS;
use crate::record::{kind, pack_literal, Record};
use crate::{ffi, Field, Pattern, Refusal};

/// What a match of the pattern on the range will draw: the number of nodes of its core, without making them. An allowance can so be planned
/// before it is spent, and a core that no allowance is enough for is found out at once.
///
/// ```
/// use netkat::{bits, cost, limits, Desugarer, Expr, Pattern};
///
/// let ports = Pattern::IpRange { start: bits(1_024, 16), end: bits(49_151, 16) };
/// assert_eq!(cost(0..16, &ports), Ok(591));
/// assert_eq!(Desugarer::new().desugar(&Expr::bit_range_match(0, 16, ports)).unwrap().drawn, 591);
///
/// // The widest match; and the range pattern that costs most: from 2^127 to the highest value without bit 126, on 128 fields.
/// assert_eq!(cost(0..u32::MAX, &Pattern::Exact(bits(5, 3))), Ok(8_589_934_589));
/// let most = Pattern::IpRange { start: bits(1 << 127, 128), end: bits(!(1 << 126), 128) };
/// assert_eq!(cost(0..128, &most), Ok(limits::MAX_RANGE_PATTERN_COST));
/// ```
///
/// Refused as the match would be, by 5, 14, 15 or 17 to 21, and never by 24. The place is 0: that of the match as a policy of its own, with
/// which [`Refusal::explain`] puts it into words.
///
/// ```
/// use netkat::{cost, Expr, Names, Pattern};
///
/// let guests: Pattern = "10.1.0.0/16".parse()?;
/// let refusal = cost(0..24, &guests).unwrap_err();
/// assert_eq!(refusal.number, 18);
/// assert_eq!(
///     refusal.explain(&Expr::bit_range_match(0, 24, guests), &Names::new()),
///     "the CIDR address 10.1.0.0 has 32 bits, but x[0..24] has 24 fields (record 0, refusal 18)\n  in: x[0..24] ~ 10.1.0.0/16"
/// );
/// # Ok::<(), netkat::ParsePatternError>(())
/// ```
///
/// A CIDR prefix above [`MAX_CIDR_PREFIX`](crate::limits::MAX_CIDR_PREFIX) is refused by 17 or 18 here, if not by 5 or 14 before; in a
/// policy, where it cannot be written, by 5.
pub fn cost(range: Range<Field>, pattern: &Pattern) -> Result<u64, Refusal> {
    let Record { pattern, number, a, b, .. } = Record::new(kind::BIT_RANGE_MATCH).with_pattern(pattern);
    // What stands for a prefix beyond 32 bits is above every width but the greatest, on which every address is too short: 18, not 17.
    let number = u32::try_from(number).unwrap_or(u32::MAX);
    let ((a, a_bits), (b, b_bits)) = (lent(a), lent(b));
    ffi::cost(range, pattern, number, (&a, a_bits), (&b, b_bits))
}

/// A literal's bytes, with zeros behind them, and its length. One that is too long is lent without its bits, as its length is refused.
fn lent(bits: &[bool]) -> ([u8; MAX_LITERAL_BITS / 8], u32) {
    let mut bytes = [0; MAX_LITERAL_BITS / 8];
    if bits.len() <= MAX_LITERAL_BITS {
        pack_literal(bits, &mut bytes);
    }
    (bytes, u32::try_from(bits.len()).unwrap_or(u32::MAX))
}
