use crate::record::{kind, Record};
use crate::tree;
use crate::{bytes, desugar, Core, Field, Refusal, Value};

/// What the value of a range of fields is matched against. Bits are least significant first. [`cost()`](crate::cost()) says how many nodes
/// the core of a match will have.
///
/// ```
/// use netkat::{bits, Expr, Pattern, View};
///
/// // x[0..8] ~ 160/1 looks at the highest bit alone.
/// let upper_half = Pattern::Cidr { address: bits(160, 8), prefix_len: 1 };
/// let core = Expr::bit_range_match(0, 8, upper_half).desugar().unwrap();
/// assert_eq!(core.root().view(), View::Test(7, true));
///
/// // A true bit of the mask says that any bit will do.
/// let third_bit = Pattern::Wildcard { address: bits(0, 8), mask: bits(0b1111_1011, 8) };
/// let core = Expr::bit_range_match(0, 8, third_bit).desugar().unwrap();
/// assert_eq!(core.root().view(), View::Test(2, false));
/// ```
#[derive(Clone, Debug, PartialEq, Eq)]
pub enum Pattern {
    /// The highest `prefix_len` bits are those of the address.
    Cidr {
        /// The address, as wide as the range.
        address: Vec<bool>,
        /// How many of its highest bits are tested.
        prefix_len: usize,
    },
    /// The value lies between the bounds, both included. Bounds shorter than the range get false high bits. The range has at most 128
    /// fields, although literals can be longer.
    IpRange {
        /// The lowest value.
        start: Vec<bool>,
        /// The highest value.
        end: Vec<bool>,
    },
    /// The bits are those of the address where the mask is false.
    Wildcard {
        /// The address, as wide as the range.
        address: Vec<bool>,
        /// The mask, as wide as the range; true is "any bit".
        mask: Vec<bool>,
    },
    /// The value itself. One shorter than the range gets false high bits.
    Exact(Vec<bool>),
}

/// A boxed expression.
pub type Exp = Box<Expr>;

/// An expression of a written policy, a "term".
///
/// Kinds and constructors are the original's, but names are 16-bit numbers ([`Names`](crate::Names) gives them for words). Ranges
/// are half open, literals least significant bit first.
///
/// A tree can be built at any size and depth; the operations refuse one of more than 4,096 nodes or 256 levels. Nothing in this
/// crate recurses over all its levels, its drop included. The library recurses over its bytes, within those 256.
///
/// Because of the drop, children cannot be moved out by a pattern. Match on a reference, or take a child and leave `Zero` in its
/// place:
///
/// ```
/// use netkat::Expr;
///
/// let mut policy = Expr::Star(Expr::test(0, true));
/// if let Expr::Star(body) = &mut policy {
///     let body = std::mem::take(&mut **body);
///     assert_eq!(body, Expr::Test(0, true));
/// }
/// ```
#[derive(Default)]
pub enum Expr {
    /// `0`
    #[default]
    Zero,
    /// `1`
    One,
    /// `T`
    Top,
    /// `field := value`
    Assign(Field, Value),
    /// `field == value`
    Test(Field, Value),
    /// `alias := value`
    VarAssign(u16, Vec<bool>),
    /// `alias == value`
    VarTest(u16, Vec<bool>),
    /// `x[start..end] := value`
    BitRangeAssign(Field, Field, Vec<bool>),
    /// `x[start..end] == value`
    BitRangeTest(Field, Field, Vec<bool>),
    /// `x[start..end] ~ pattern`
    BitRangeMatch(Field, Field, Box<Pattern>),
    /// `alias ~ pattern`
    VarMatch(u16, Box<Pattern>),
    /// `a + b`
    Union(Exp, Exp),
    /// `a & b`
    Intersect(Exp, Exp),
    /// `a ^ b`
    Xor(Exp, Exp),
    /// `a - b`
    Difference(Exp, Exp),
    /// `~a`
    Complement(Exp),
    /// `!a`, of a test only
    TestNegation(Exp),
    /// `if a then b else c`, where a is a test
    IfThenElse(Exp, Exp, Exp),
    /// A variable.
    Var(u16),
    /// `let variable = a in b`
    Let(u16, Exp, Exp),
    /// `let alias = x[start..end] in a`
    LetBitRange(u16, Field, Field, Exp),
    /// `a ; b`
    Sequence(Exp, Exp),
    /// `a*`
    Star(Exp),
    /// `dup`
    Dup,
    /// `X a`
    LtlNext(Exp),
    /// `a U b`
    LtlUntil(Exp, Exp),
    /// `end`
    End,
}

/// Constructors, as in the original.
///
/// ```
/// use netkat::Expr;
///
/// let policy = Expr::union(Expr::test(0, true), Expr::sequence(Expr::test(1, true), Expr::assign(0, true)));
/// assert_eq!(format!("{policy:?}"), "Union(Test(0, true), Sequence(Test(1, true), Assign(0, true)))");
/// ```
impl Expr {
    /// `0`
    pub fn zero() -> Exp {
        Box::new(Expr::Zero)
    }

    /// `1`
    pub fn one() -> Exp {
        Box::new(Expr::One)
    }

    /// `T`
    pub fn top() -> Exp {
        Box::new(Expr::Top)
    }

    /// `field := value`
    pub fn assign(field: Field, value: Value) -> Exp {
        Box::new(Expr::Assign(field, value))
    }

    /// `field == value`
    pub fn test(field: Field, value: Value) -> Exp {
        Box::new(Expr::Test(field, value))
    }

    /// `alias := value`
    pub fn var_assign(alias: u16, bits: Vec<bool>) -> Exp {
        Box::new(Expr::VarAssign(alias, bits))
    }

    /// `alias == value`
    pub fn var_test(alias: u16, bits: Vec<bool>) -> Exp {
        Box::new(Expr::VarTest(alias, bits))
    }

    /// `x[start..end] := value`
    pub fn bit_range_assign(start: Field, end: Field, bits: Vec<bool>) -> Exp {
        Box::new(Expr::BitRangeAssign(start, end, bits))
    }

    /// `x[start..end] == value`
    pub fn bit_range_test(start: Field, end: Field, bits: Vec<bool>) -> Exp {
        Box::new(Expr::BitRangeTest(start, end, bits))
    }

    /// `x[start..end] ~ pattern`
    pub fn bit_range_match(start: Field, end: Field, pattern: Pattern) -> Exp {
        Box::new(Expr::BitRangeMatch(start, end, Box::new(pattern)))
    }

    /// `alias ~ pattern`
    pub fn var_match(alias: u16, pattern: Pattern) -> Exp {
        Box::new(Expr::VarMatch(alias, Box::new(pattern)))
    }

    /// `a + b`
    pub fn union(a: Exp, b: Exp) -> Exp {
        Box::new(Expr::Union(a, b))
    }

    /// `a & b`
    pub fn intersect(a: Exp, b: Exp) -> Exp {
        Box::new(Expr::Intersect(a, b))
    }

    /// `a ^ b`
    pub fn xor(a: Exp, b: Exp) -> Exp {
        Box::new(Expr::Xor(a, b))
    }

    /// `a - b`
    pub fn difference(a: Exp, b: Exp) -> Exp {
        Box::new(Expr::Difference(a, b))
    }

    /// `~a`
    pub fn complement(a: Exp) -> Exp {
        Box::new(Expr::Complement(a))
    }

    /// `!a`
    pub fn test_negation(a: Exp) -> Exp {
        Box::new(Expr::TestNegation(a))
    }

    /// `if condition then a else b`
    pub fn if_then_else(condition: Exp, a: Exp, b: Exp) -> Exp {
        Box::new(Expr::IfThenElse(condition, a, b))
    }

    /// A variable.
    pub fn var(name: u16) -> Exp {
        Box::new(Expr::Var(name))
    }

    /// `let name = definition in body`
    pub fn let_in(name: u16, definition: Exp, body: Exp) -> Exp {
        Box::new(Expr::Let(name, definition, body))
    }

    /// `let alias = x[start..end] in body`
    pub fn let_bit_range(alias: u16, start: Field, end: Field, body: Exp) -> Exp {
        Box::new(Expr::LetBitRange(alias, start, end, body))
    }

    /// `a ; b`
    pub fn sequence(a: Exp, b: Exp) -> Exp {
        Box::new(Expr::Sequence(a, b))
    }

    /// `a*`
    pub fn star(a: Exp) -> Exp {
        Box::new(Expr::Star(a))
    }

    /// `dup`
    pub fn dup() -> Exp {
        Box::new(Expr::Dup)
    }

    /// `end`
    pub fn end() -> Exp {
        Box::new(Expr::End)
    }

    /// `X a`
    pub fn ltl_next(a: Exp) -> Exp {
        Box::new(Expr::LtlNext(a))
    }

    /// `X a + end`: weak next.
    pub fn ltl_weak_next(a: Exp) -> Exp {
        Expr::union(Expr::ltl_next(a), Expr::end())
    }

    /// `a U b`
    pub fn ltl_until(a: Exp, b: Exp) -> Exp {
        Box::new(Expr::LtlUntil(a, b))
    }

    /// `a U b + G a`: weak until.
    pub fn ltl_weak_until(a: Exp, b: Exp) -> Exp {
        Expr::union(Expr::ltl_until(a.clone(), b), Expr::ltl_globally(a))
    }

    /// `T U a`: finally.
    pub fn ltl_finally(a: Exp) -> Exp {
        Expr::ltl_until(Expr::top(), a)
    }

    /// `~(T U ~a)`: globally.
    pub fn ltl_globally(a: Exp) -> Exp {
        Expr::complement(Expr::ltl_until(Expr::top(), Expr::complement(a)))
    }

    /// `~(~a U ~b)`: release.
    pub fn ltl_release(a: Exp, b: Exp) -> Exp {
        Expr::complement(Expr::ltl_until(Expr::complement(a), Expr::complement(b)))
    }

    /// `(a R b) & F a`: strong release.
    pub fn ltl_strong_release(a: Exp, b: Exp) -> Exp {
        Expr::intersect(Expr::ltl_release(a.clone(), b), Expr::ltl_finally(a))
    }
}

/// The byte form, and the operations.
impl Expr {
    /// The term of the bytes. Refused by 1 to 8, with the number and place that the library gives.
    ///
    /// ```
    /// use netkat::Expr;
    ///
    /// let test = Expr::from_bytes(&[0x49, 0x18, 2, 0, 0, 0, 2, 1]).unwrap();
    /// assert_eq!(test, Expr::bit_range_test(0, 2, vec![true, false]));
    /// ```
    pub fn from_bytes(bytes: &[u8]) -> Result<Exp, Refusal> {
        tree::decode(bytes)
    }

    /// The bytes of the term. Refused by 5 for a literal or a CIDR prefix, by 6 for a number of nodes and by 7 for a number of levels that
    /// is beyond the [`limits`](crate::limits).
    ///
    /// ```
    /// use netkat::Expr;
    ///
    /// assert_eq!(Expr::star(Expr::one()).to_bytes().unwrap(), [1, 14, 1, 1]);
    /// ```
    pub fn to_bytes(&self) -> Result<Vec<u8>, Refusal> {
        let mut bytes = Vec::new();
        tree::encode(self, &mut bytes)?;
        Ok(bytes)
    }

    /// All nodes in prefix order, the order of the records: where a refusal's place is a record of the term, its node is
    /// `nodes().nth(place)`.
    ///
    /// ```
    /// use netkat::Expr;
    ///
    /// let policy = Expr::sequence(Expr::test(0, true), Expr::dup());
    /// assert_eq!(policy.nodes().nth(2), Some(&Expr::Dup));
    /// ```
    pub fn nodes(&self) -> impl Iterator<Item = &Expr> {
        tree::nodes(self)
    }

    /// Whether the policy keeps all rules (11 to 23), and if so whether it is a test. Makes no core.
    ///
    /// ```
    /// use netkat::Expr;
    ///
    /// assert_eq!(Expr::test(0, true).check(), Ok(true));
    /// assert_eq!(Expr::assign(0, true).check(), Ok(false));
    /// assert_eq!(Expr::test_negation(Expr::dup()).check().unwrap_err().number, 22);
    /// ```
    pub fn check(&self) -> Result<bool, Refusal> {
        bytes::check(&self.to_bytes()?)
    }

    /// The core, as [`desugar()`] gives it.
    ///
    /// ```
    /// use netkat::Expr;
    ///
    /// let policy = Expr::let_in(1, Expr::dup(), Expr::star(Expr::var(1)));
    /// assert_eq!(policy.desugar().unwrap().to_expr(), Expr::star(Expr::dup()));
    /// ```
    pub fn desugar(&self) -> Result<Core, Refusal> {
        desugar(self)
    }

    /// The term with each occurrence of the variable replaced that does not lie in the body of a Let or LetBitRange of that name:
    /// as in the original, an alias of the name keeps its body too.
    ///
    /// ```
    /// use netkat::Expr;
    ///
    /// let term = Expr::let_in(1, Expr::var(1), Expr::var(1));
    /// let replaced = term.substitute(1, &Expr::Dup).unwrap();
    /// assert_eq!(replaced, Expr::let_in(1, Expr::dup(), Expr::var(1)));
    ///
    /// let hidden = Expr::let_bit_range(1, 0, 4, Expr::var(1));
    /// assert_eq!(hidden.substitute(1, &Expr::Dup).unwrap(), hidden);
    /// ```
    pub fn substitute(&self, name: u16, replacement: &Expr) -> Result<Exp, Refusal> {
        let term = self.to_bytes()?;
        let replacement = replacement.to_bytes().map_err(Refusal::in_replacement)?;
        let result = bytes::substitute(&term, name, &replacement)?;
        Ok(Expr::from_bytes(&result).expect("the library writes terms of good form"))
    }

    /// Whether the term is in the original's test fragment. Looks at the term as it is written: a variable is not in it.
    ///
    /// ```
    /// use netkat::Expr;
    ///
    /// assert_eq!(Expr::test(0, true).is_test_fragment(), Ok(true));
    /// assert_eq!(Expr::dup().is_test_fragment(), Ok(false));
    /// ```
    pub fn is_test_fragment(&self) -> Result<bool, Refusal> {
        bytes::is_test_fragment(&self.to_bytes()?)
    }

    /// The field count: the greatest of field + 1 of an Assign or Test and the end of a direct range or of a LetBitRange; 0 where
    /// there is none. 25 for an Assign or Test of field 4,294,967,295, where the original panics.
    ///
    /// ```
    /// use netkat::Expr;
    ///
    /// assert_eq!(Expr::test(7, true).num_fields(), Ok(8));
    /// assert_eq!(Expr::bit_range_assign(3, 3, vec![]).num_fields(), Ok(3));
    /// assert_eq!(Expr::dup().num_fields(), Ok(0));
    /// assert_eq!(Expr::test(u32::MAX, true).num_fields().unwrap_err().number, 25);
    /// ```
    pub fn num_fields(&self) -> Result<u32, Refusal> {
        bytes::num_fields(&self.to_bytes()?)
    }
}

// The children, borrowed as the node is.
macro_rules! children {
    ($node:expr) => {
        match $node {
            Expr::Union(a, b)
            | Expr::Intersect(a, b)
            | Expr::Xor(a, b)
            | Expr::Difference(a, b)
            | Expr::Sequence(a, b)
            | Expr::LtlUntil(a, b)
            | Expr::Let(_, a, b) => [Some(a), Some(b), None],
            Expr::Complement(a) | Expr::Star(a) | Expr::LtlNext(a) | Expr::TestNegation(a) | Expr::LetBitRange(_, _, _, a) => {
                [Some(a), None, None]
            }
            Expr::IfThenElse(a, b, c) => [Some(a), Some(b), Some(c)],
            _ => [None, None, None],
        }
    };
}

impl Expr {
    /// The children, left to right.
    #[inline]
    pub(crate) fn children(&self) -> [Option<&Expr>; 3] {
        children!(self)
    }

    #[inline]
    pub(crate) fn children_mut(&mut self) -> [Option<&mut Exp>; 3] {
        children!(self)
    }

    /// Whether the node has no children; a test of one bit, where [`Expr::children`] is a jump.
    #[inline]
    pub(crate) fn is_leaf(&self) -> bool {
        !matches!(
            self,
            Expr::Union(..)
                | Expr::Intersect(..)
                | Expr::Xor(..)
                | Expr::Difference(..)
                | Expr::Sequence(..)
                | Expr::LtlUntil(..)
                | Expr::Let(..)
                | Expr::Complement(_)
                | Expr::Star(_)
                | Expr::LtlNext(_)
                | Expr::TestNegation(_)
                | Expr::LetBitRange(..)
                | Expr::IfThenElse(..)
        )
    }

    /// The node without its children.
    #[inline]
    pub(crate) fn record(&self) -> Record<&[bool]> {
        match self {
            Expr::Zero => Record::new(kind::ZERO),
            Expr::One => Record::new(kind::ONE),
            Expr::Top => Record::new(kind::TOP),
            Expr::Dup => Record::new(kind::DUP),
            Expr::End => Record::new(kind::END),
            &Expr::Assign(start, value) => Record { start, number: value.into(), ..Record::new(kind::ASSIGN) },
            &Expr::Test(start, value) => Record { start, number: value.into(), ..Record::new(kind::TEST) },
            Expr::Union(..) => Record::new(kind::UNION),
            Expr::Intersect(..) => Record::new(kind::INTERSECT),
            Expr::Xor(..) => Record::new(kind::XOR),
            Expr::Difference(..) => Record::new(kind::DIFFERENCE),
            Expr::Sequence(..) => Record::new(kind::SEQUENCE),
            Expr::LtlUntil(..) => Record::new(kind::LTL_UNTIL),
            Expr::Complement(_) => Record::new(kind::COMPLEMENT),
            Expr::Star(_) => Record::new(kind::STAR),
            Expr::LtlNext(_) => Record::new(kind::LTL_NEXT),
            Expr::TestNegation(_) => Record::new(kind::TEST_NEGATION),
            Expr::IfThenElse(..) => Record::new(kind::IF_THEN_ELSE),
            &Expr::Let(name, ..) => Record { name, ..Record::new(kind::LET) },
            &Expr::LetBitRange(name, start, end, _) => Record { name, start, end, ..Record::new(kind::LET_BIT_RANGE) },
            &Expr::Var(name) => Record { name, ..Record::new(kind::VAR) },
            Expr::VarAssign(name, bits) => Record { name: *name, a: bits, ..Record::new(kind::VAR_ASSIGN) },
            Expr::VarTest(name, bits) => Record { name: *name, a: bits, ..Record::new(kind::VAR_TEST) },
            Expr::BitRangeAssign(start, end, bits) => {
                Record { start: *start, end: *end, a: bits, ..Record::new(kind::BIT_RANGE_ASSIGN) }
            }
            Expr::BitRangeTest(start, end, bits) => {
                Record { start: *start, end: *end, a: bits, ..Record::new(kind::BIT_RANGE_TEST) }
            }
            Expr::BitRangeMatch(start, end, pattern) => {
                Record { start: *start, end: *end, ..Record::new(kind::BIT_RANGE_MATCH) }.with_pattern(pattern)
            }
            Expr::VarMatch(name, pattern) => Record { name: *name, ..Record::new(kind::VAR_MATCH) }.with_pattern(pattern),
        }
    }

    /// The node of a record. `child` gives its children, left to right.
    pub(crate) fn from_record(record: Record<Vec<bool>>, mut child: impl FnMut() -> Exp) -> Self {
        match record.kind {
            kind::ZERO => Expr::Zero,
            kind::ONE => Expr::One,
            kind::TOP => Expr::Top,
            kind::DUP => Expr::Dup,
            kind::END => Expr::End,
            kind::ASSIGN => Expr::Assign(record.start, record.number == 1),
            kind::TEST => Expr::Test(record.start, record.number == 1),
            kind::UNION => Expr::Union(child(), child()),
            kind::INTERSECT => Expr::Intersect(child(), child()),
            kind::XOR => Expr::Xor(child(), child()),
            kind::DIFFERENCE => Expr::Difference(child(), child()),
            kind::SEQUENCE => Expr::Sequence(child(), child()),
            kind::LTL_UNTIL => Expr::LtlUntil(child(), child()),
            kind::COMPLEMENT => Expr::Complement(child()),
            kind::STAR => Expr::Star(child()),
            kind::LTL_NEXT => Expr::LtlNext(child()),
            kind::TEST_NEGATION => Expr::TestNegation(child()),
            kind::IF_THEN_ELSE => Expr::IfThenElse(child(), child(), child()),
            kind::LET => Expr::Let(record.name, child(), child()),
            kind::LET_BIT_RANGE => Expr::LetBitRange(record.name, record.start, record.end, child()),
            kind::VAR => Expr::Var(record.name),
            kind::VAR_ASSIGN => Expr::VarAssign(record.name, record.a),
            kind::VAR_TEST => Expr::VarTest(record.name, record.a),
            kind::BIT_RANGE_ASSIGN => Expr::BitRangeAssign(record.start, record.end, record.a),
            kind::BIT_RANGE_TEST => Expr::BitRangeTest(record.start, record.end, record.a),
            kind::BIT_RANGE_MATCH => Expr::BitRangeMatch(record.start, record.end, Box::new(record.into_pattern())),
            kind::VAR_MATCH => Expr::VarMatch(record.name, Box::new(record.into_pattern())),
            other => unreachable!("kind {other} in a term"),
        }
    }
}
