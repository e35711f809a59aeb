/// The kinds of a core's nodes. [`Kind::number`] is the kind's number in the byte form.
#[derive(Clone, Copy, Debug, PartialEq, Eq, PartialOrd, Ord, Hash)]
#[repr(u8)]
pub enum Kind {
    /// `0`
    Zero = 0,
    /// `1`
    One = 1,
    /// `T`
    Top = 2,
    /// `dup`
    Dup = 3,
    /// `end`
    End = 4,
    /// `field := value`
    Assign = 5,
    /// `field == value`
    Test = 6,
    /// `a + b`
    Union = 7,
    /// `a & b`
    Intersect = 8,
    /// `a ^ b`
    Xor = 9,
    /// `a - b`
    Difference = 10,
    /// `a ; b`
    Sequence = 11,
    /// `a U b`
    LtlUntil = 12,
    /// `~a`
    Complement = 13,
    /// `a*`
    Star = 14,
    /// `X a`
    LtlNext = 15,
}

impl Kind {
    /// The kind's number in the byte form, 0 to 15.
    ///
    /// ```
    /// assert_eq!(netkat::Kind::Test.number(), 6);
    /// ```
    pub fn number(self) -> u8 {
        self as u8
    }

    /// How many children a node of the kind has, 0 to 2.
    pub fn arity(self) -> usize {
        match self {
            Kind::Zero | Kind::One | Kind::Top | Kind::Dup | Kind::End | Kind::Assign | Kind::Test => 0,
            Kind::Complement | Kind::Star | Kind::LtlNext => 1,
            _ => 2,
        }
    }

    pub(crate) fn from_number(number: u8) -> Option<Self> {
        Some(match number {
            0 => Kind::Zero,
            1 => Kind::One,
            2 => Kind::Top,
            3 => Kind::Dup,
            4 => Kind::End,
            5 => Kind::Assign,
            6 => Kind::Test,
            7 => Kind::Union,
            8 => Kind::Intersect,
            9 => Kind::Xor,
            10 => Kind::Difference,
            11 => Kind::Sequence,
            12 => Kind::LtlUntil,
            13 => Kind::Complement,
            14 => Kind::Star,
            15 => Kind::LtlNext,
            _ => return None,
        })
    }
}
