use std::borrow::Cow;
use std::error::Error;
use std::fmt;

use crate::limits::{
    MAX_CIDR_PREFIX, MAX_CORE_RECORDS, MAX_LEVELS, MAX_LITERAL_BITS, MAX_PACKETS, MAX_RANGE_PATTERN_FIELDS, MAX_RECORDS,
};
use crate::literal::grouped;

/// Why there is no answer: a number of the requirement, and a place.
///
/// Numbers are 1 to 28, 31 to 38, 41, 42 and 48 to 50. The place of 1 to 7, 11 to 25, 41 and 42 is the index of a record in the term, or in
/// the core that is read, from 0 in written order; that of 8 is the number of records; that of 31 to 38 counts in the replacement; that of 50
/// is the index of a packet; that of 9, 10, 26 to 28, 48 and 49 is 0, and so is each of [`cost()`](crate::cost()). A record has the same index
/// in [`Expr::nodes`](crate::Expr::nodes), so that the part of the policy can be shown:
///
/// ```
/// use netkat::{Expr, RefusalKind};
///
/// let policy = Expr::union(Expr::one(), Expr::var(7));
/// let refusal = policy.check().unwrap_err();
///
/// assert_eq!((refusal.number, refusal.place), (12, 2));
/// assert_eq!(refusal.kind(), RefusalKind::UnboundVariable);
/// assert_eq!(policy.nodes().nth(refusal.place as usize), Some(&Expr::Var(7)));
/// assert_eq!(refusal.to_string(), "no let around this use defines the variable (record 2, refusal 12)");
/// ```
///
/// [`Refusal::explain`] says it with the names, the widths and the part of the policy. A refusal is these two numbers and will stay so: a
/// test may write one out.
#[derive(Clone, Copy, Debug, PartialEq, Eq, Hash)]
pub struct Refusal {
    /// The refusal's number; [`Refusal::kind`] says what it is about.
    pub number: u32,
    /// The record's index, from 0 in written order; the number of records for bytes left over; the packet's index for a packet that is too
    /// short; 0 where none of these is meant.
    pub place: u32,
}

/// What a [`Refusal`] is about: one case for each number. There will be more.
#[derive(Clone, Copy, Debug, PartialEq, Eq, Hash)]
#[non_exhaustive]
pub enum RefusalKind {
    /// 1 to 8: the term is not of good form; 1 to 5 and 8, the core that is read is not.
    Form(FormFault),
    /// 9: the allowance is not 1 to 65,535.
    Allowance,
    /// 10: too little work memory, or a list that is too short for the records of a core. The functions of this crate always lend enough.
    WorkMemory,
    /// 11: an unknown alias in an assignment, a test or a match.
    UnknownAlias,
    /// 12: an unbound variable.
    UnboundVariable,
    /// 13: a variable of a name that only an alias has.
    AliasAsVariable,
    /// 14: a range that ends below its start.
    RangeEndBelowStart,
    /// 15: a literal that is longer than the alias, or an Exact pattern that is longer than its field.
    LiteralTooLong,
    /// 16: a literal that does not have exactly the width of its direct range.
    LiteralWidth,
    /// 17: a CIDR prefix above the width.
    CidrPrefix,
    /// 18: a CIDR address whose length is not the width.
    CidrAddress,
    /// 19: a wildcard address or mask whose length is not the width.
    WildcardWidth,
    /// 20: a range pattern on a field over 128 bits, or with a bound that is longer than the field.
    IpRangeWidth,
    /// 21: a range pattern that starts above its end.
    IpRangeOrder,
    /// 22: the negation of a non-test.
    NegatedNonTest,
    /// 23: the condition of an if is not a test.
    ConditionNotTest,
    /// 24: the steps of desugaring make more core nodes than the allowance. The core itself can be smaller.
    AllowanceSpent,
    /// 25: an Assign or Test of field 4,294,967,295, which no field count can include.
    FieldCount,
    /// 26: the answer buffer is too short. The functions of this crate always lend a buffer that is long enough.
    BufferTooShort,
    /// 27: the result of a substitution has more than 4,096 records or 256 levels.
    ResultTooLarge,
    /// 28: a subrange that is not inside its alias.
    SubrangeOutside,
    /// 31 to 38: the replacement of a substitution is not of good form. The place counts in the replacement.
    Replacement(FormFault),
    /// 41: a kind that only a term has, in what is to be a core.
    TermKind,
    /// 42: a core of more than 65,535 nodes.
    CoreTooLarge,
    /// 48: the core that packets are to be run through is not a test.
    CoreNotTest,
    /// 49: no packet, or more than 64.
    PacketCount,
    /// 50: a packet that has fewer bits than the field count of the core. The place is its index.
    PacketTooShort,
    /// Any other number. The library gives none.
    Unknown,
}

/// How a form is broken: numbers 1 to 8 for a term, of which 6 and 7 do not apply to a core, 31 to 38 for a replacement. There may be more.
#[derive(Clone, Copy, Debug, PartialEq, Eq, Hash)]
#[non_exhaustive]
pub enum FormFault {
    /// 1: the bytes end too early.
    EndsEarly,
    /// 2: no such kind.
    UnknownKind,
    /// 3: a field that the kind, or the pattern, does not have.
    ForeignField,
    /// 4: a zero or empty field that is written out, or spare bits that are not zero.
    ZeroWritten,
    /// 5: a value out of range.
    OutOfRange,
    /// 6: more than 4,096 records.
    TooManyRecords,
    /// 7: more than 256 levels.
    TooDeep,
    /// 8: bytes left over.
    LeftOver,
}

impl FormFault {
    fn from_number(number: u32) -> Option<Self> {
        Some(match number {
            1 => Self::EndsEarly,
            2 => Self::UnknownKind,
            3 => Self::ForeignField,
            4 => Self::ZeroWritten,
            5 => Self::OutOfRange,
            6 => Self::TooManyRecords,
            7 => Self::TooDeep,
            8 => Self::LeftOver,
            _ => return None,
        })
    }

    fn sentence(self) -> Cow<'static, str> {
        let sentence = match self {
            Self::EndsEarly => "the bytes end before the policy or core is complete",
            Self::UnknownKind => "the bytes name a kind of expression that does not exist here",
            Self::ForeignField => "the bytes give this kind of expression a part that it does not have",
            Self::ZeroWritten => "the bytes write out a part that is zero or empty, or set bits beyond the end of a value",
            Self::OutOfRange => {
                return Cow::from(format!(
                    "a value is out of range: a literal may have at most {MAX_LITERAL_BITS} bits, a CIDR prefix may be at most \
                     {MAX_CIDR_PREFIX}, a one-bit value is 0 or 1, and there are four patterns"
                ))
            }
            Self::TooManyRecords => {
                return Cow::from(format!("the policy has more than {} expressions", grouped(MAX_RECORDS as u64)))
            }
            Self::TooDeep => return Cow::from(format!("the policy is nested more than {MAX_LEVELS} levels deep")),
            Self::LeftOver => "there are bytes left over behind the end of the policy or core",
        };
        Cow::from(sentence)
    }
}

impl RefusalKind {
    fn from_number(number: u32) -> Self {
        if let Some(fault) = FormFault::from_number(number) {
            return Self::Form(fault);
        }
        if let Some(fault) = number.checked_sub(30).and_then(FormFault::from_number) {
            return Self::Replacement(fault);
        }
        match number {
            9 => Self::Allowance,
            10 => Self::WorkMemory,
            11 => Self::UnknownAlias,
            12 => Self::UnboundVariable,
            13 => Self::AliasAsVariable,
            14 => Self::RangeEndBelowStart,
            15 => Self::LiteralTooLong,
            16 => Self::LiteralWidth,
            17 => Self::CidrPrefix,
            18 => Self::CidrAddress,
            19 => Self::WildcardWidth,
            20 => Self::IpRangeWidth,
            21 => Self::IpRangeOrder,
            22 => Self::NegatedNonTest,
            23 => Self::ConditionNotTest,
            24 => Self::AllowanceSpent,
            25 => Self::FieldCount,
            26 => Self::BufferTooShort,
            27 => Self::ResultTooLarge,
            28 => Self::SubrangeOutside,
            41 => Self::TermKind,
            42 => Self::CoreTooLarge,
            48 => Self::CoreNotTest,
            49 => Self::PacketCount,
            50 => Self::PacketTooShort,
            _ => Self::Unknown,
        }
    }

    fn sentence(self) -> Cow<'static, str> {
        let sentence = match self {
            Self::Form(fault) | Self::Replacement(fault) => return fault.sentence(),
            Self::Allowance => "the allowance must be from 1 to 65,535 nodes",
            Self::WorkMemory => "the work memory is too small for the allowance, or the list for the records of the core",
            Self::UnknownAlias => "no let around this use gives the alias a range of fields",
            Self::UnboundVariable => "no let around this use defines the variable",
            Self::AliasAsVariable => {
                "this name is an alias of a range of fields: it can be assigned, tested or matched, but is not a policy by itself"
            }
            Self::RangeEndBelowStart => "the range of fields ends below its start",
            Self::LiteralTooLong => "the value has more bits than the range of fields has room for",
            Self::LiteralWidth => "the value must have exactly as many bits as the range has fields",
            Self::CidrPrefix => "the CIDR prefix is longer than the range of fields",
            Self::CidrAddress => "the CIDR address must have exactly as many bits as the range has fields",
            Self::WildcardWidth => "the wildcard's address and mask must each have exactly as many bits as the range has fields",
            Self::IpRangeWidth => {
                return Cow::from(format!(
                    "an address range needs a range of at most {MAX_RANGE_PATTERN_FIELDS} fields, and neither bound may have more bits \
                     than that range"
                ))
            }
            Self::IpRangeOrder => "the address range starts above its end",
            Self::NegatedNonTest => "only a test can be negated, and this operand is not a test",
            Self::ConditionNotTest => "the condition of an if must be a test",
            Self::AllowanceSpent => "desugaring makes more core nodes than the allowance, which is spent here",
            Self::FieldCount => "field 4,294,967,295 is used, and the count of fields would be too large a number",
            Self::BufferTooShort => "the answer does not fit in its buffer",
            Self::ResultTooLarge => {
                let records = grouped(MAX_RECORDS as u64);
                return Cow::from(format!("with the replacement, the policy has more than {records} expressions or {MAX_LEVELS} levels"));
            }
            Self::SubrangeOutside => "the part that is asked for does not lie inside the alias's range",
            Self::TermKind => "a core has no expression of this kind: desugaring replaces it",
            Self::CoreTooLarge => return Cow::from(format!("the core has more than {} nodes", grouped(MAX_CORE_RECORDS as u64))),
            Self::CoreNotTest => "packets can be run through a test only, and this core is not one",
            Self::PacketCount => return Cow::from(format!("there must be from 1 to {MAX_PACKETS} packets")),
            Self::PacketTooShort => "the packet is too short for the fields that the core tests",
            Self::Unknown => "the library gave a refusal that is not known here",
        };
        Cow::from(sentence)
    }

    /// What the refusal's place is the index of. That of bytes left over is the number of records.
    fn placed(self) -> Option<&'static str> {
        match self {
            Self::Form(FormFault::LeftOver) | Self::Replacement(FormFault::LeftOver) => None,
            Self::Allowance | Self::WorkMemory | Self::BufferTooShort | Self::ResultTooLarge | Self::SubrangeOutside => None,
            Self::CoreNotTest | Self::PacketCount => None,
            Self::PacketTooShort => Some("packet"),
            _ => Some("record"),
        }
    }
}

impl Refusal {
    /// What the refusal is about.
    pub fn kind(&self) -> RefusalKind {
        RefusalKind::from_number(self.number)
    }

    /// The place, where there is one, and the number.
    pub(crate) fn numbers(&self) -> String {
        match self.kind().placed() {
            Some(what) => format!("({what} {}, refusal {})", self.place, self.number),
            None => format!("(refusal {})", self.number),
        }
    }

    /// The same fault of form, in a replacement.
    pub(crate) fn in_replacement(self) -> Self {
        Refusal { number: self.number + 30, ..self }
    }
}

/// A sentence for the policy's author, then the record or packet and the number.
impl fmt::Display for Refusal {
    fn fmt(&self, f: &mut fmt::Formatter<'_>) -> fmt::Result {
        let kind = self.kind();
        if matches!(kind, RefusalKind::Replacement(_)) {
            f.write_str("in the replacement: ")?;
        }
        write!(f, "{} {}", kind.sentence(), self.numbers())
    }
}

impl Error for Refusal {}
