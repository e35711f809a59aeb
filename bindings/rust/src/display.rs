//! Policies as text, in the written syntax of the original.
//!
//! Nothing here recurses: the pieces that are still to be written are on a stack.

use std::fmt;

use crate::literal::{shortest, Literal, ValueAndWidth};
use crate::{Core, Expr, Field, Names, Node, Pattern, Value, View};

/// The policy in the original's written syntax, with every name as `n` and its number. With words for names: [`Expr::display`], which
/// also says what the original's parser makes of the text.
///
/// ```
/// use netkat::Expr;
///
/// let policy = Expr::sequence(Expr::union(Expr::test(0, true), Expr::var(7)), Expr::star(Expr::assign(1, false)));
/// assert_eq!(policy.to_string(), "(x0 == 1 + n7) ; (x1 := 0)*");
/// ```
impl fmt::Display for Expr {
    fn fmt(&self, f: &mut fmt::Formatter<'_>) -> fmt::Result {
        write(self, None, f)
    }
}

/// As it stands behind `alias ~`; see [`Expr::display`].
///
/// ```
/// use netkat::{bits, Pattern};
///
/// assert_eq!(Pattern::Cidr { address: bits(10 << 24, 32), prefix_len: 8 }.to_string(), "10.0.0.0/8");
/// assert_eq!(Pattern::Exact(bits(80, 16)).to_string(), "0x0050");
/// ```
impl fmt::Display for Pattern {
    fn fmt(&self, f: &mut fmt::Formatter<'_>) -> fmt::Result {
        write!(f, "{}", PatternText(Target::Alias(0), self))
    }
}

/// The core in the original's written syntax, which can say every core: the original's parser reads the text as [`Core::to_expr`]. A chain
/// leans right and so has a pair of parentheses for each link.
///
/// ```
/// use netkat::{desugar, Expr};
///
/// let core = desugar(&Expr::bit_range_test(0, 3, vec![true, false, true])).unwrap();
/// assert_eq!(core.to_string(), "x0 == 1 & (x1 == 0 & x2 == 1)");
/// ```
impl fmt::Display for Core {
    fn fmt(&self, f: &mut fmt::Formatter<'_>) -> fmt::Result {
        write(self.root(), None, f)
    }
}

/// The tree below the node, as [`Core`] is written.
impl fmt::Display for Node<'_> {
    fn fmt(&self, f: &mut fmt::Formatter<'_>) -> fmt::Result {
        write(*self, None, f)
    }
}

/// A policy with the words for its names, to be formatted: what [`Expr::display`] gives.
#[derive(Clone, Copy, Debug)]
pub struct ExprDisplay<'a> {
    policy: &'a Expr,
    names: &'a Names,
}

impl fmt::Display for ExprDisplay<'_> {
    fn fmt(&self, f: &mut fmt::Formatter<'_>) -> fmt::Result {
        write(self.policy, Some(self.names), f)
    }
}

impl Expr {
    /// The policy in the original's written syntax.
    ///
    /// ```
    /// use netkat::{Expr, Names, Pattern};
    ///
    /// let mut names = Names::new();
    /// let dst = names.intern("dst");
    /// let guests = Expr::var_match(dst, "10.1.0.0/16".parse::<Pattern>()?);
    /// let policy = Expr::let_bit_range(dst, 0, 32, Expr::if_then_else(guests, Expr::assign(32, true), Expr::zero()));
    ///
    /// let text = policy.display(&names).to_string();
    /// assert_eq!(text, "let dst = &x[0..32] in if dst ~ 10.1.0.0/16 then x32 := 1 else 0");
    /// # Ok::<(), netkat::ParsePatternError>(())
    /// ```
    ///
    /// Parentheses stand where the original's precedence needs them, around a negated, complemented or repeated assignment, test or
    /// match, and around a let or if that is an operand.
    ///
    /// # Reading it back
    ///
    /// A text that the original's parser reads gives this tree again, names aside, with one exception: the syntax has no test of
    /// an alias or of a direct range. `dst == 5` is written `dst ~ 5`, the match of that value, which has the same core and the same
    /// refusals. Where no match has them, or the syntax cannot say a part at all, the text is one that the parser refuses:
    ///
    /// | part | is written |
    /// |---|---|
    /// | a value for a direct range that has not the range's width | value and width, `x[4..8] := 5/3` |
    /// | an empty literal, except in `x[3..3] := 0` | `0b` |
    /// | the test of an empty range | `x[3..3] == 0` |
    /// | a CIDR address that has not 32 bits, or a prefix above 32 | `160/3`, `0x0a/3` |
    /// | a wildcard with an address of more than 32 bits | `0x0a00000000 mask 0x00000000ff` |
    /// | another wildcard whose address or mask has not 32 bits | `160 mask 0b00011111` |
    /// | a range pattern whose bounds have widths that the syntax cannot say | `0b01-0x3` |
    /// | a literal of more than 128 bits | `0x00000001_00000000_00000000_00000000_00000002` |
    ///
    /// Other literals are written in decimal where that is read with their width, as an address if they have 32 bits, else in hexadecimal or
    /// binary digits, as many as they have bits.
    ///
    /// A literal of 128 bits is written for a reader: a debug build of the original's parser panics there, a release build refuses all but zero.
    /// One of more bits, which a release build may take for another, has `_` between the digits of 32 bits each, so that the parser
    /// refuses it.
    ///
    /// The parser may want gigabytes for a value of a direct range that ends below its start. And it recurses: about 1,600 parentheses one in
    /// another are too many for a stack of 8 MB.
    ///
    /// # Names
    ///
    /// A word is written as it is if the parser reads it as a name: a letter, then letters, digits and `_`, and neither a keyword (`T X U
    /// F G R dup end if then else let in`) nor `x`, nor a field such as `x7`. For any other word, and for a number that `names` does not have,
    /// `n` and the number are written, and behind them as many `_` as it takes not to be a word of `names`. So different names
    /// have different texts.
    pub fn display<'a>(&'a self, names: &'a Names) -> ExprDisplay<'a> {
        ExprDisplay { policy: self, names }
    }
}

/// How tightly a text holds together, loosest first. An operand that holds less tightly than its place asks is put in parentheses.
///
/// To the original's parser, `!x0 == 1`, `x0 := 1*` and `a + let b = 1 in b` need none. They have them here for the reader.
#[derive(Clone, Copy, PartialEq, Eq, PartialOrd, Ord)]
pub(crate) enum Level {
    Open,
    Until,
    Add,
    Sequence,
    Intersect,
    Relation,
    Prefix,
    Star,
    Word,
}

/// A node as it is written.
pub(crate) enum Shape<'a, N> {
    Word(&'static str),
    Name(u16),
    Relation(Relation<'a>),
    Prefix(&'static str, N),
    Star(N),
    Infix(Infix, N, N),
    If(N, N, N),
    Let(u16, N, N),
    LetBitRange(u16, Field, Field, N),
}

/// An operator between two operands.
#[derive(Clone, Copy, PartialEq, Eq)]
pub(crate) enum Infix {
    Until,
    Union,
    Xor,
    Difference,
    Sequence,
    Intersect,
}

/// An assignment, a test or a match.
pub(crate) enum Relation<'a> {
    Field(Field, &'static str, Value),
    Assign(Target, &'a [bool]),
    Test(Target, &'a [bool]),
    Match(Target, &'a Pattern),
}

/// What a relation is about.
#[derive(Clone, Copy)]
pub(crate) enum Target {
    Alias(u16),
    Range(Field, Field),
}

/// A node that can be written.
pub(crate) trait Written<'a>: Sized {
    fn shape(self) -> Shape<'a, Self>;
}

impl<'a> Written<'a> for &'a Expr {
    fn shape(self) -> Shape<'a, Self> {
        match self {
            Expr::Zero => Shape::Word("0"),
            Expr::One => Shape::Word("1"),
            Expr::Top => Shape::Word("T"),
            Expr::Dup => Shape::Word("dup"),
            Expr::End => Shape::Word("end"),
            Expr::Var(name) => Shape::Name(*name),
            &Expr::Assign(field, value) => Shape::Relation(Relation::Field(field, ":=", value)),
            &Expr::Test(field, value) => Shape::Relation(Relation::Field(field, "==", value)),
            Expr::VarAssign(name, bits) => Shape::Relation(Relation::Assign(Target::Alias(*name), bits)),
            Expr::VarTest(name, bits) => Shape::Relation(Relation::Test(Target::Alias(*name), bits)),
            Expr::VarMatch(name, pattern) => Shape::Relation(Relation::Match(Target::Alias(*name), pattern)),
            Expr::BitRangeAssign(start, end, bits) => Shape::Relation(Relation::Assign(Target::Range(*start, *end), bits)),
            Expr::BitRangeTest(start, end, bits) => Shape::Relation(Relation::Test(Target::Range(*start, *end), bits)),
            Expr::BitRangeMatch(start, end, pattern) => Shape::Relation(Relation::Match(Target::Range(*start, *end), pattern)),
            Expr::Complement(a) => Shape::Prefix("~", a),
            Expr::TestNegation(a) => Shape::Prefix("!", a),
            Expr::LtlNext(a) => Shape::Prefix("X ", a),
            Expr::Star(a) => Shape::Star(a),
            Expr::Union(a, b) => Shape::Infix(Infix::Union, a, b),
            Expr::Intersect(a, b) => Shape::Infix(Infix::Intersect, a, b),
            Expr::Xor(a, b) => Shape::Infix(Infix::Xor, a, b),
            Expr::Difference(a, b) => Shape::Infix(Infix::Difference, a, b),
            Expr::Sequence(a, b) => Shape::Infix(Infix::Sequence, a, b),
            Expr::LtlUntil(a, b) => Shape::Infix(Infix::Until, a, b),
            Expr::IfThenElse(condition, a, b) => Shape::If(condition, a, b),
            Expr::Let(name, definition, body) => Shape::Let(*name, definition, body),
            Expr::LetBitRange(name, start, end, body) => Shape::LetBitRange(*name, *start, *end, body),
        }
    }
}

impl<'a> Written<'a> for Node<'a> {
    fn shape(self) -> Shape<'a, Self> {
        match self.view() {
            View::Zero => Shape::Word("0"),
            View::One => Shape::Word("1"),
            View::Top => Shape::Word("T"),
            View::Dup => Shape::Word("dup"),
            View::End => Shape::Word("end"),
            View::Assign(field, value) => Shape::Relation(Relation::Field(field, ":=", value)),
            View::Test(field, value) => Shape::Relation(Relation::Field(field, "==", value)),
            View::Complement(a) => Shape::Prefix("~", a),
            View::LtlNext(a) => Shape::Prefix("X ", a),
            View::Star(a) => Shape::Star(a),
            View::Union(a, b) => Shape::Infix(Infix::Union, a, b),
            View::Intersect(a, b) => Shape::Infix(Infix::Intersect, a, b),
            View::Xor(a, b) => Shape::Infix(Infix::Xor, a, b),
            View::Difference(a, b) => Shape::Infix(Infix::Difference, a, b),
            View::Sequence(a, b) => Shape::Infix(Infix::Sequence, a, b),
            View::LtlUntil(a, b) => Shape::Infix(Infix::Until, a, b),
        }
    }
}

impl<N> Shape<'_, N> {
    fn level(&self) -> Level {
        match self {
            Shape::Word(_) | Shape::Name(_) => Level::Word,
            Shape::Relation(_) => Level::Relation,
            Shape::Prefix(..) => Level::Prefix,
            Shape::Star(_) => Level::Star,
            Shape::Infix(operator, ..) => operator.level(),
            Shape::If(..) | Shape::Let(..) | Shape::LetBitRange(..) => Level::Open,
        }
    }
}

impl Infix {
    fn text(self) -> &'static str {
        match self {
            Infix::Until => " U ",
            Infix::Union => " + ",
            Infix::Xor => " ^ ",
            Infix::Difference => " - ",
            Infix::Sequence => " ; ",
            Infix::Intersect => " & ",
        }
    }

    fn level(self) -> Level {
        match self {
            Infix::Until => Level::Until,
            Infix::Union | Infix::Xor | Infix::Difference => Level::Add,
            Infix::Sequence => Level::Sequence,
            Infix::Intersect => Level::Intersect,
        }
    }

    /// The levels that the operands must have: `U` groups to the right, the others to the left.
    fn operands(self) -> (Level, Level) {
        match self {
            Infix::Until => (Level::Add, Level::Until),
            Infix::Union | Infix::Xor | Infix::Difference => (Level::Add, Level::Sequence),
            Infix::Sequence => (Level::Sequence, Level::Intersect),
            Infix::Intersect => (Level::Intersect, Level::Relation),
        }
    }
}

/// What is still to be written.
enum Piece<N> {
    Text(&'static str),
    Node {
        node: N,
        level: Level,
        /// A `-` follows, which a decimal pattern would take for its own: `a ~ 5 - b` is read as a range.
        before_minus: bool,
    },
}

impl<N> Piece<N> {
    fn operand(node: N, level: Level) -> Self {
        Piece::Node { node, level, before_minus: false }
    }
}

/// Writes a policy. Stops where `out` fails.
pub(crate) fn write<'a, N: Written<'a>>(root: N, names: Option<&Names>, out: &mut dyn fmt::Write) -> fmt::Result {
    let mut pending = vec![Piece::operand(root, Level::Open)];
    while let Some(piece) = pending.pop() {
        let (node, level, before_minus) = match piece {
            Piece::Text(text) => {
                out.write_str(text)?;
                continue;
            }
            Piece::Node { node, level, before_minus } => (node, level, before_minus),
        };
        let shape = node.shape();
        let number_last = matches!(&shape, Shape::Relation(relation) if relation.ends_in_number());
        let parentheses = shape.level() < level || before_minus && number_last;
        if parentheses {
            out.write_str("(")?;
            pending.push(Piece::Text(")"));
        }
        write_front(&shape, names, out)?;
        push_rest(shape, before_minus && !parentheses, &mut pending);
    }
    Ok(())
}

/// Writes what stands before the first operand.
fn write_front<N>(shape: &Shape<'_, N>, names: Option<&Names>, out: &mut dyn fmt::Write) -> fmt::Result {
    match shape {
        Shape::Word(text) | Shape::Prefix(text, _) => out.write_str(text),
        Shape::Name(name) => write!(out, "{}", NameText(names, *name)),
        Shape::Relation(relation) => write!(out, "{}", RelationText(names, relation)),
        Shape::Star(_) | Shape::Infix(..) => Ok(()),
        Shape::If(..) => out.write_str("if "),
        Shape::Let(name, ..) => write!(out, "let {} = ", NameText(names, *name)),
        Shape::LetBitRange(name, start, end, _) => write!(out, "let {} = &x[{start}..{end}] in ", NameText(names, *name)),
    }
}

/// Puts the first operand and all behind it on the stack, the last piece first.
fn push_rest<N>(shape: Shape<'_, N>, before_minus: bool, pending: &mut Vec<Piece<N>>) {
    let open = |node| Piece::operand(node, Level::Open);
    match shape {
        Shape::Word(_) | Shape::Name(_) | Shape::Relation(_) => {}
        Shape::Prefix(_, operand) => pending.push(Piece::operand(operand, Level::Prefix)),
        Shape::Star(operand) => pending.extend([Piece::Text("*"), Piece::operand(operand, Level::Star)]),
        Shape::Infix(operator, a, b) => {
            let (left, right) = operator.operands();
            pending.extend([
                Piece::Node { node: b, level: right, before_minus },
                Piece::Text(operator.text()),
                Piece::Node { node: a, level: left, before_minus: operator == Infix::Difference },
            ]);
        }
        Shape::If(condition, a, b) => {
            pending.extend([open(b), Piece::Text(" else "), open(a), Piece::Text(" then "), open(condition)])
        }
        Shape::Let(_, definition, body) => pending.extend([open(body), Piece::Text(" in "), open(definition)]),
        Shape::LetBitRange(_, _, _, body) => pending.push(open(body)),
    }
}

/// A name's word if the written syntax has it as a name, else `n` and the number.
pub(crate) struct NameText<'a>(pub Option<&'a Names>, pub u16);

impl fmt::Display for NameText<'_> {
    fn fmt(&self, f: &mut fmt::Formatter<'_>) -> fmt::Result {
        let NameText(names, number) = self;
        if let Some(word) = names.and_then(|names| names.text(*number)).filter(|word| is_name(word)) {
            return f.write_str(word);
        }
        let mut text = format!("n{number}");
        while names.is_some_and(|names| names.number(&text).is_some()) {
            text.push('_');
        }
        f.write_str(&text)
    }
}

/// Whether the original reads a word as a name, wherever a name may stand. `x` is one in some places and begins a range in others.
pub(crate) fn is_name(word: &str) -> bool {
    const KEYWORDS: [&str; 14] = ["T", "X", "U", "F", "G", "R", "dup", "end", "if", "then", "else", "let", "in", "x"];
    let letters = word.starts_with(char::is_alphabetic) && word.chars().all(|c| c.is_alphanumeric() || c == '_');
    let is_field = |digits: &str| digits.bytes().all(|byte| byte.is_ascii_digit()) && digits.parse::<Field>().is_ok();
    letters && !KEYWORDS.contains(&word) && !word.strip_prefix('x').is_some_and(is_field)
}

impl Target {
    /// The width that the original gives a decimal literal here, if that is longer than the value needs. An alias gives none, and a range
    /// that ends below its start wraps.
    fn decimal_width(self) -> usize {
        match self {
            Target::Alias(_) => 0,
            Target::Range(start, end) => end.wrapping_sub(start) as usize,
        }
    }

    /// A literal of a pattern for this target.
    fn pattern_literal(self, bits: &[bool]) -> Literal<'_> {
        Literal::at(bits, shortest(bits).max(self.decimal_width()))
    }

    /// Whether a match of the same literal can be written and has the core that the test has.
    fn has_match_for(self, bits: &[bool]) -> bool {
        match self {
            Target::Alias(_) => !bits.is_empty(),
            Target::Range(..) => !bits.is_empty() && bits.len() == self.decimal_width(),
        }
    }
}

impl Relation<'_> {
    fn ends_in_number(&self) -> bool {
        match self {
            Relation::Test(target, bits) => target.has_match_for(bits) && target.pattern_literal(bits).is_decimal(),
            Relation::Match(target, Pattern::Exact(bits)) => target.pattern_literal(bits).is_decimal(),
            _ => false,
        }
    }
}

pub(crate) struct TargetText<'a>(pub Option<&'a Names>, pub Target);

impl fmt::Display for TargetText<'_> {
    fn fmt(&self, f: &mut fmt::Formatter<'_>) -> fmt::Result {
        match self.1 {
            Target::Alias(name) => write!(f, "{}", NameText(self.0, name)),
            Target::Range(start, end) => write!(f, "x[{start}..{end}]"),
        }
    }
}

struct RelationText<'a>(Option<&'a Names>, &'a Relation<'a>);

impl fmt::Display for RelationText<'_> {
    fn fmt(&self, f: &mut fmt::Formatter<'_>) -> fmt::Result {
        let target = |target: &Target| TargetText(self.0, *target);
        match self.1 {
            Relation::Field(field, operator, value) => write!(f, "x{field} {operator} {}", u8::from(*value)),
            Relation::Assign(t @ Target::Alias(_), bits) => write!(f, "{} := {}", target(t), Literal::at(bits, shortest(bits))),
            Relation::Assign(t, bits) => write!(f, "{} := {}", target(t), RangeLiteral(*t, bits)),
            Relation::Test(t, bits) if t.has_match_for(bits) => write!(f, "{} ~ {}", target(t), t.pattern_literal(bits)),
            Relation::Test(t @ Target::Alias(_), bits) => write!(f, "{} == {}", target(t), Literal::with_own_width(bits)),
            Relation::Test(t, bits) => write!(f, "{} == {}", target(t), RangeLiteral(*t, bits)),
            Relation::Match(t, pattern) => write!(f, "{} ~ {}", target(t), PatternText(*t, pattern)),
        }
    }
}

/// The value of a direct range, which the original reads with the range's width.
struct RangeLiteral<'a>(Target, &'a [bool]);

impl fmt::Display for RangeLiteral<'_> {
    fn fmt(&self, f: &mut fmt::Formatter<'_>) -> fmt::Result {
        let RangeLiteral(target, bits) = self;
        if bits.len() == target.decimal_width() {
            write!(f, "{}", Literal::at(bits, bits.len()))
        } else {
            write!(f, "{}", ValueAndWidth(bits))
        }
    }
}

pub(crate) struct PatternText<'a>(pub Target, pub &'a Pattern);

impl fmt::Display for PatternText<'_> {
    fn fmt(&self, f: &mut fmt::Formatter<'_>) -> fmt::Result {
        let PatternText(target, pattern) = self;
        match pattern {
            Pattern::Exact(bits) => write!(f, "{}", target.pattern_literal(bits)),
            Pattern::Cidr { address, prefix_len } => write!(f, "{}/{prefix_len}", target.pattern_literal(address)),
            // The original refuses an address of more than 32 bits whatever the mask's digits: a long mask has those that are read best.
            Pattern::Wildcard { address, mask } if mask.len() == 32 || address.len() > 32 => {
                write!(f, "{} mask {}", target.pattern_literal(address), Literal::with_own_width(mask))
            }
            // The original reads a mask of other digits with 32 bits, but none of binary digits.
            Pattern::Wildcard { address, mask } => write!(f, "{} mask {}", target.pattern_literal(address), Binary(mask)),
            Pattern::IpRange { start, end } => {
                let width = target.decimal_width().max(shortest(start)).max(shortest(end));
                let decimal = start.len() == width && end.len() == width;
                if decimal || starts_below_an_address(*target, start, end) {
                    write!(f, "{}-{}", Literal::at(start, start.len()), Literal::at(end, end.len()))
                } else {
                    write!(f, "{}-{}", Literal::with_own_width(start), Literal::with_own_width(end))
                }
            }
        }
    }
}

/// Whether the original reads a decimal start and a dotted end with these widths. It gives the start as many bits as the end has down to
/// its lowest true bit.
fn starts_below_an_address(target: Target, start: &[bool], end: &[bool]) -> bool {
    let significant = end.iter().position(|bit| *bit).map_or(0, |lowest| 32usize.saturating_sub(lowest));
    end.len() == 32 && start.len() == target.decimal_width().max(shortest(start)).max(significant)
}

struct Binary<'a>(&'a [bool]);

impl fmt::Display for Binary<'_> {
    fn fmt(&self, f: &mut fmt::Formatter<'_>) -> fmt::Result {
        f.write_str("0b")?;
        self.0.iter().rev().try_for_each(|bit| write!(f, "{}", u8::from(*bit)))
    }
}
