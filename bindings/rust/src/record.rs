//! One record of the byte form, without its children: the requirement's "Term bytes".

use crate::limits::{MAX_CIDR_PREFIX, MAX_LITERAL_BITS};
use crate::{Pattern, Refusal};

/// The kind numbers. 0 to 15 are the core.
pub(crate) mod kind {
    pub const ZERO: u8 = 0;
    pub const ONE: u8 = 1;
    pub const TOP: u8 = 2;
    pub const DUP: u8 = 3;
    pub const END: u8 = 4;
    pub const ASSIGN: u8 = 5;
    pub const TEST: u8 = 6;
    pub const UNION: u8 = 7;
    pub const INTERSECT: u8 = 8;
    pub const XOR: u8 = 9;
    pub const DIFFERENCE: u8 = 10;
    pub const SEQUENCE: u8 = 11;
    pub const LTL_UNTIL: u8 = 12;
    pub const COMPLEMENT: u8 = 13;
    pub const STAR: u8 = 14;
    pub const LTL_NEXT: u8 = 15;
    pub const TEST_NEGATION: u8 = 16;
    pub const IF_THEN_ELSE: u8 = 17;
    pub const LET: u8 = 18;
    pub const LET_BIT_RANGE: u8 = 19;
    pub const VAR: u8 = 20;
    pub const VAR_ASSIGN: u8 = 21;
    pub const VAR_TEST: u8 = 22;
    pub const BIT_RANGE_ASSIGN: u8 = 23;
    pub const BIT_RANGE_TEST: u8 = 24;
    pub const BIT_RANGE_MATCH: u8 = 25;
    pub const VAR_MATCH: u8 = 26;

    pub const LAST: u8 = VAR_MATCH;
}

/// The bits of the map byte, in the order of the fields.
const KIND: u8 = 1 << 0;
const NAME: u8 = 1 << 1;
const START: u8 = 1 << 2;
const END: u8 = 1 << 3;
const PATTERN: u8 = 1 << 4;
const NUMBER: u8 = 1 << 5;
const A: u8 = 1 << 6;
const B: u8 = 1 << 7;

/// The map bits that records of a kind may have.
fn map_of_kind(kind: u8) -> u8 {
    KIND | match kind {
        kind::ASSIGN | kind::TEST => START | NUMBER,
        kind::LET | kind::VAR => NAME,
        kind::LET_BIT_RANGE => NAME | START | END,
        kind::VAR_ASSIGN | kind::VAR_TEST => NAME | A,
        kind::BIT_RANGE_ASSIGN | kind::BIT_RANGE_TEST => START | END | A,
        kind::BIT_RANGE_MATCH => START | END | PATTERN | NUMBER | A | B,
        kind::VAR_MATCH => NAME | PATTERN | NUMBER | A | B,
        _ => 0,
    }
}

/// Of the map bits NUMBER and B, those that a pattern has.
fn map_of_pattern(pattern: u8) -> u8 {
    match pattern {
        0 => 0,
        1 => NUMBER,
        _ => B,
    }
}

/// A record's fields; one that is absent in the bytes is zero or empty. Literals are borrowed or owned.
#[derive(Clone, Copy, Debug, Default, PartialEq, Eq)]
pub(crate) struct Record<L> {
    pub kind: u8,
    pub name: u16,
    /// The start of a range, or the field of Assign and Test.
    pub start: u32,
    pub end: u32,
    pub pattern: u8,
    /// The value of Assign and Test, or a CIDR prefix.
    pub number: usize,
    pub a: L,
    pub b: L,
}

impl<'a> Record<&'a [bool]> {
    pub fn new(kind: u8) -> Self {
        Record { kind, ..Record::default() }
    }

    #[inline(always)]
    pub fn with_pattern(self, pattern: &'a Pattern) -> Self {
        match pattern {
            Pattern::Exact(a) => Record { pattern: 0, a, ..self },
            Pattern::Cidr { address, prefix_len } => Record { pattern: 1, number: *prefix_len, a: address, ..self },
            Pattern::Wildcard { address, mask } => Record { pattern: 2, a: address, b: mask, ..self },
            Pattern::IpRange { start, end } => Record { pattern: 3, a: start, b: end, ..self },
        }
    }

    pub fn to_owned(self) -> Record<Vec<bool>> {
        let Record { kind, name, start, end, pattern, number, a, b } = self;
        Record { kind, name, start, end, pattern, number, a: a.to_vec(), b: b.to_vec() }
    }

    /// Appends the bytes of the record. Refused by 5 if a field is too large for its place.
    #[inline(always)]
    pub fn write(&self, out: &mut Vec<u8>) -> Result<(), u32> {
        if self.number > MAX_CIDR_PREFIX || self.a.len() > MAX_LITERAL_BITS || self.b.len() > MAX_LITERAL_BITS {
            return Err(5);
        }
        let map = self.map();
        out.push(map);
        if map & KIND != 0 {
            out.push(self.kind);
        }
        if map & NAME != 0 {
            out.extend(self.name.to_le_bytes());
        }
        if map & START != 0 {
            out.extend(self.start.to_le_bytes());
        }
        if map & END != 0 {
            out.extend(self.end.to_le_bytes());
        }
        if map & PATTERN != 0 {
            out.push(self.pattern);
        }
        if map & NUMBER != 0 {
            out.push(self.number as u8);
        }
        if map & A != 0 {
            write_literal(self.a, out);
        }
        if map & B != 0 {
            write_literal(self.b, out);
        }
        Ok(())
    }

    /// The map byte: a bit for each field that is not zero or empty.
    #[inline(always)]
    fn map(&self) -> u8 {
        let bit = |bit, present| if present { bit } else { 0 };
        bit(KIND, self.kind != 0)
            | bit(NAME, self.name != 0)
            | bit(START, self.start != 0)
            | bit(END, self.end != 0)
            | bit(PATTERN, self.pattern != 0)
            | bit(NUMBER, self.number != 0)
            | bit(A, !self.a.is_empty())
            | bit(B, !self.b.is_empty())
    }
}

impl Record<Vec<bool>> {
    /// The pattern of a record that has one.
    pub fn into_pattern(self) -> Pattern {
        match self.pattern {
            0 => Pattern::Exact(self.a),
            1 => Pattern::Cidr { address: self.a, prefix_len: self.number },
            2 => Pattern::Wildcard { address: self.a, mask: self.b },
            _ => Pattern::IpRange { start: self.a, end: self.b },
        }
    }

    pub fn children(&self) -> u8 {
        match self.kind {
            kind::UNION..=kind::LTL_UNTIL | kind::LET => 2,
            kind::COMPLEMENT..=kind::TEST_NEGATION | kind::LET_BIT_RANGE => 1,
            kind::IF_THEN_ELSE => 3,
            _ => 0,
        }
    }

    /// Reads one record. A refusal is its number.
    pub fn read(bytes: &mut Input) -> Result<Self, u32> {
        let map = bytes.byte()?;
        let mut record = Record::<Vec<bool>>::default();
        if map & KIND != 0 {
            record.kind = nonzero(bytes.byte()?)?;
            if record.kind > kind::LAST {
                return Err(2);
            }
        }
        if map & !map_of_kind(record.kind) != 0 {
            return Err(3);
        }
        if map & NAME != 0 {
            record.name = nonzero(u16::from_le_bytes(bytes.array()?))?;
        }
        if map & START != 0 {
            record.start = nonzero(u32::from_le_bytes(bytes.array()?))?;
        }
        if map & END != 0 {
            record.end = nonzero(u32::from_le_bytes(bytes.array()?))?;
        }
        record.read_pattern(map, bytes)?;
        if map & A != 0 {
            record.a = bytes.literal()?;
        }
        if map & B != 0 {
            record.b = bytes.literal()?;
        }
        Ok(record)
    }

    /// Reads the pattern and the number, which for a match depends on the pattern.
    fn read_pattern(&mut self, map: u8, bytes: &mut Input) -> Result<(), u32> {
        if map & PATTERN != 0 {
            self.pattern = nonzero(bytes.byte()?)?;
            if self.pattern > 3 {
                return Err(5);
            }
        }
        let matches = matches!(self.kind, kind::BIT_RANGE_MATCH | kind::VAR_MATCH);
        if matches && map & (NUMBER | B) & !map_of_pattern(self.pattern) != 0 {
            return Err(3);
        }
        if map & NUMBER != 0 {
            self.number = usize::from(nonzero(bytes.byte()?)?);
            if !matches && self.number > 1 {
                return Err(5);
            }
        }
        Ok(())
    }
}

/// The bytes that are not read yet.
pub(crate) struct Input<'a>(pub &'a [u8]);

impl<'a> Input<'a> {
    fn take(&mut self, count: usize) -> Result<&'a [u8], u32> {
        let (front, rest) = self.0.split_at_checked(count).ok_or(1u32)?;
        self.0 = rest;
        Ok(front)
    }

    fn array<const N: usize>(&mut self) -> Result<[u8; N], u32> {
        let mut array = [0; N];
        array.copy_from_slice(self.take(N)?);
        Ok(array)
    }

    fn byte(&mut self) -> Result<u8, u32> {
        self.array().map(|[byte]| byte)
    }

    fn literal(&mut self) -> Result<Vec<bool>, u32> {
        let length = usize::from(nonzero(self.byte()?)?);
        if length > MAX_LITERAL_BITS {
            return Err(5);
        }
        let packed = self.take(length.div_ceil(8))?;
        let mut bits: Vec<bool> = packed.iter().flat_map(|byte| (0..8).map(move |i| byte >> i & 1 == 1)).collect();
        if bits[length..].contains(&true) {
            return Err(4);
        }
        bits.truncate(length);
        Ok(bits)
    }
}

fn nonzero<T: Default + PartialEq>(value: T) -> Result<T, u32> {
    if value == T::default() {
        Err(4)
    } else {
        Ok(value)
    }
}

/// Appends the length byte and the bits of a literal that is within the limit.
fn write_literal(bits: &[bool], out: &mut Vec<u8>) {
    let mut packed = [0; 1 + MAX_LITERAL_BITS / 8];
    packed[0] = bits.len() as u8;
    pack_literal(bits, &mut packed[1..]);
    // A copy of a fixed length takes no call.
    let end = out.len() + 1 + bits.len().div_ceil(8);
    out.extend_from_slice(&packed);
    out.truncate(end);
}

/// The bits of a literal, eight to a byte, in the front of `bytes`, which has room for them. The spare bits of the last byte are zero.
#[inline(always)]
pub(crate) fn pack_literal(bits: &[bool], bytes: &mut [u8]) {
    let chunks = bits.chunks_exact(8);
    let rest = chunks.remainder();
    for (byte, chunk) in bytes.iter_mut().zip(chunks) {
        *byte = pack(chunk.try_into().expect("a chunk of eight"));
    }
    if !rest.is_empty() {
        bytes[bits.len() / 8] = rest.iter().rev().fold(0, |byte, bit| byte << 1 | u8::from(*bit));
    }
}

/// Eight bits as a byte, the first one lowest.
#[inline]
fn pack(bits: &[bool; 8]) -> u8 {
    // Byte i of the word is 0 or 1, and is wanted at bit 56 + i: the factor has bit 56 - 7 * i. No two products meet in a bit.
    let word = u64::from_le_bytes(bits.map(u8::from));
    (word.wrapping_mul(0x0102_0408_1020_4080) >> 56) as u8
}

pub(crate) fn refusal(number: u32, place: usize) -> Refusal {
    Refusal { number, place: u32::try_from(place).unwrap_or(u32::MAX) }
}

/// The names of the kinds, in the order of their numbers.
pub(crate) const NAMES: [&str; kind::LAST as usize + 1] = [
    "Zero",
    "One",
    "Top",
    "Dup",
    "End",
    "Assign",
    "Test",
    "Union",
    "Intersect",
    "Xor",
    "Difference",
    "Sequence",
    "LtlUntil",
    "Complement",
    "Star",
    "LtlNext",
    "TestNegation",
    "IfThenElse",
    "Let",
    "LetBitRange",
    "Var",
    "VarAssign",
    "VarTest",
    "BitRangeAssign",
    "BitRangeTest",
    "BitRangeMatch",
    "VarMatch",
];
