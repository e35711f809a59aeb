//! Refusals with the facts behind them.

use std::fmt::{self, Write};

use crate::display::{self, NameText};
use crate::limits::{MAX_CIDR_PREFIX, MAX_LEVELS, MAX_LITERAL_BITS, MAX_RANGE_PATTERN_FIELDS, MAX_RECORDS};
use crate::literal::{grouped, value, Literal};
use crate::outline::Outline;
use crate::record::NAMES;
use crate::{Desugarer, Expr, Field, FormFault, Kind, Names, Pattern, Refusal, RefusalKind};

/// How many characters of a part of the policy are shown: room for a match of two literals of 192 bits.
const SHOWN: usize = 144;

/// How many names in scope are listed.
const LISTED: usize = 5;

impl Refusal {
    /// What is refused and why, in sentences for the policy's author: the names, the widths and the values that do not go together, then the
    /// part of the policy at the refusal's place, shortened.
    ///
    /// `policy` is the one that was refused; for 31 to 38, give the replacement; for 48 the policy whose core it was, or that core as an
    /// expression. It is shown as by [`Expr::display`]. An allowance that was spent (24) can hide a rule that is broken further on: the
    /// policy is checked, and the text says the broken rule too, or how large an allowance is enough.
    ///
    /// ```
    /// use netkat::{Expr, Names, Pattern};
    ///
    /// let mut names = Names::new();
    /// let dst = names.intern("dst");
    /// let guests = Expr::var_match(dst, "10.1.0.0/16".parse::<Pattern>()?);
    /// let policy = Expr::let_bit_range(dst, 0, 24, Expr::sequence(guests, Expr::assign(32, true)));
    ///
    /// let refusal = policy.check().unwrap_err();
    /// assert_eq!(
    ///     refusal.explain(&policy, &names),
    ///     "the CIDR address 10.1.0.0 has 32 bits, but alias `dst`, x[0..24], has 24 fields (record 2, refusal 18)\n  \
    ///      in: dst ~ 10.1.0.0/16"
    /// );
    /// # Ok::<(), netkat::ParsePatternError>(())
    /// ```
    ///
    /// Numbers that are not about a part of a policy (1 to 4 and 8 about bytes, 9, 10, 26 to 28, 42, 49, 50) give the sentence that the
    /// refusal's `Display` gives. So does a policy that is not the refused one, and then the text says so.
    pub fn explain(&self, policy: &Expr, names: &Names) -> String {
        if !self.is_about_a_tree() {
            return self.to_string();
        }
        let outline = Outline::of(policy);
        let place = self.place as usize;
        // A tree beyond the limits is refused by them and by nothing else; 25 and 41 may be of a core, which has other limits.
        let too_large = matches!(self.number, 11..=24) && outline.spots.len() > MAX_RECORDS;
        let Some(spot) = outline.spots.get(place).filter(|_| !too_large) else {
            return format!("{self}\n  the policy given here has no record {place}, or is beyond the limits: it is not the one that was refused");
        };
        let at = At { outline: &outline, names, place, node: spot.node };
        let part = at.part(spot.node);
        match at.facts(self.kind()) {
            Some(facts) => format!("{facts} {}\n  in: {part}{}", self.numbers(), at.advice(self.kind(), policy)),
            None => format!("{self}\n  in: {part}\n  the policy given here does not break this rule there: it is not the one that was refused"),
        }
    }

    /// Whether a tree can cause the refusal: at one of its records, or as a whole, whose place is 0.
    fn is_about_a_tree(&self) -> bool {
        matches!(self.number, 5..=7 | 11..=25 | 35..=37 | 41 | 48)
    }
}

/// A record of the policy.
struct At<'a> {
    outline: &'a Outline<'a>,
    names: &'a Names,
    place: usize,
    node: &'a Expr,
}

/// The fields that an assignment, a test or a match is about.
struct Fields {
    alias: Option<u16>,
    start: Field,
    end: Field,
}

impl Fields {
    /// `None` if the range ends below its start.
    fn width(&self) -> Option<usize> {
        self.end.checked_sub(self.start).map(|width| width as usize)
    }
}

impl At<'_> {
    /// What breaks the rule; `None` if nothing here does.
    fn facts(&self, kind: RefusalKind) -> Option<String> {
        match kind {
            RefusalKind::Form(fault) => self.form(fault),
            RefusalKind::Replacement(fault) => self.form(fault).map(|facts| format!("in the replacement, {facts}")),
            RefusalKind::UnknownAlias => self.unknown_alias(),
            RefusalKind::UnboundVariable => self.unbound_variable(),
            RefusalKind::AliasAsVariable => self.alias_as_variable(),
            RefusalKind::RangeEndBelowStart => {
                let fields = self.fields().filter(|fields| fields.width().is_none())?;
                Some(format!("the range of {} ends below its start", self.range(&fields)))
            }
            RefusalKind::NegatedNonTest => match self.node {
                Expr::TestNegation(_) => self.not_a_test("only a test can be negated"),
                _ => None,
            },
            RefusalKind::ConditionNotTest => match self.node {
                Expr::IfThenElse(..) => self.not_a_test("the condition of an if must be a test"),
                _ => None,
            },
            RefusalKind::AllowanceSpent => Some(self.allowance_spent()),
            RefusalKind::FieldCount => match self.node {
                Expr::Assign(Field::MAX, _) | Expr::Test(Field::MAX, _) => Some(format!(
                    "field {} is used here, and a count of fields that includes it is too large",
                    grouped(Field::MAX)
                )),
                _ => None,
            },
            RefusalKind::TermKind => self.term_kind(),
            RefusalKind::CoreNotTest => self.core_not_test(),
            _ => self.widths(kind),
        }
    }

    fn form(&self, fault: FormFault) -> Option<String> {
        let spots = &self.outline.spots;
        match fault {
            FormFault::OutOfRange => self.out_of_range(),
            FormFault::TooManyRecords if spots.len() > MAX_RECORDS => {
                Some(format!("the policy has {} expressions, and {} are the limit", count(spots.len()), count(MAX_RECORDS)))
            }
            FormFault::TooDeep => {
                let levels = spots.iter().map(|spot| spot.level).max().filter(|levels| *levels > MAX_LEVELS)?;
                Some(format!("the policy is nested {} levels deep, and {} are the limit", count(levels), count(MAX_LEVELS)))
            }
            _ => None,
        }
    }

    fn out_of_range(&self) -> Option<String> {
        let (Expr::VarMatch(_, pattern) | Expr::BitRangeMatch(_, _, pattern)) = self.node else {
            return too_long("the value", self.literal()?);
        };
        match &**pattern {
            Pattern::Exact(bits) => too_long("the value", bits),
            // The address first: `cost` has no limit on the prefix.
            Pattern::Cidr { address, prefix_len } => too_long("the CIDR address", address).or_else(|| {
                (*prefix_len > MAX_CIDR_PREFIX)
                    .then(|| format!("the CIDR prefix is {}, and {MAX_CIDR_PREFIX} is the limit", count(*prefix_len)))
            }),
            Pattern::Wildcard { address, mask } => {
                too_long("the wildcard's address", address).or_else(|| too_long("the wildcard's mask", mask))
            }
            Pattern::IpRange { start, end } => {
                too_long("the start of the range pattern", start).or_else(|| too_long("the end of the range pattern", end))
            }
        }
    }

    /// The literal of an assignment or a test.
    fn literal(&self) -> Option<&[bool]> {
        match self.node {
            Expr::VarAssign(_, bits) | Expr::VarTest(_, bits) => Some(bits),
            Expr::BitRangeAssign(_, _, bits) | Expr::BitRangeTest(_, _, bits) => Some(bits),
            _ => None,
        }
    }

    fn unknown_alias(&self) -> Option<String> {
        let (name, use_of_it) = match self.node {
            Expr::VarAssign(name, _) => (*name, "assignment"),
            Expr::VarTest(name, _) => (*name, "test"),
            Expr::VarMatch(name, _) => (*name, "match"),
            _ => return None,
        };
        if self.outline.alias(name, self.place).is_some() {
            return None;
        }
        let shown = self.name(name);
        let variable = self.outline.definition(name, self.place).map_or("", |_| " (a variable of that name does not count)");
        let in_scope = self.list("aliases", self.outline.aliases(self.place).map(|alias| alias.0));
        Some(format!(
            "this {use_of_it} needs an alias {shown}, and no let around it gives {shown} a range of fields{variable}; {in_scope}"
        ))
    }

    fn unbound_variable(&self) -> Option<String> {
        let name = self.variable()?;
        let (variable, alias) = (self.outline.definition(name, self.place), self.outline.alias(name, self.place));
        if variable.is_some() || alias.is_some() {
            return None;
        }
        let shown = self.name(name);
        let own =
            if self.outline.in_definition_of(name, self.place) { "; a let does not reach into its own definition" } else { "" };
        let in_scope = self.list("variables", self.outline.variables(self.place).map(|variable| variable.0));
        Some(format!("no let around this use defines the variable {shown}{own}; {in_scope}"))
    }

    fn alias_as_variable(&self) -> Option<String> {
        let name = self.variable()?;
        let (start, end) = self.outline.alias(name, self.place)?;
        if self.outline.definition(name, self.place).is_some() {
            return None;
        }
        Some(format!(
            "{} is an alias of x[{start}..{end}] and no variable: it can be assigned, tested or matched, but is not a policy by itself",
            self.name(name)
        ))
    }

    fn variable(&self) -> Option<u16> {
        match self.node {
            Expr::Var(name) => Some(*name),
            _ => None,
        }
    }

    /// The operand of a negation or the condition of an if, and what in it is not a test.
    fn not_a_test(&self, rule: &str) -> Option<String> {
        let operand = self.outline.child(self.place, 0);
        let culprit = self.outline.non_test(operand)?;
        let shown = |place: usize| self.part(self.outline.spots[place].node);
        if culprit == operand {
            Some(format!("{rule}, and `{}` is not one", shown(operand)))
        } else {
            Some(format!("{rule}, and `{}` is not one because of `{}` at record {culprit}", shown(operand), shown(culprit)))
        }
    }

    /// What keeps the policy from being a test. Its core is one exactly if it is one itself.
    fn core_not_test(&self) -> Option<String> {
        let culprit = self.outline.non_test(self.place)?;
        let because = match culprit == self.place {
            true => String::new(),
            false => format!(" because of `{}` at record {culprit}", self.part(self.outline.spots[culprit].node)),
        };
        Some(format!("packets can be run through a test only, and this is not one{because}"))
    }

    fn term_kind(&self) -> Option<String> {
        let kind = self.node.record().kind;
        let of_core = Kind::from_number(kind).is_some();
        (!of_core).then(|| format!("a core has no {}: desugaring replaces it", NAMES[usize::from(kind)]))
    }

    /// The rules on the widths of values and patterns, 15 to 21.
    fn widths(&self, kind: RefusalKind) -> Option<String> {
        let fields = self.fields()?;
        let width = fields.width()?;
        if let Some(bits) = self.literal() {
            return self.literal_width(kind, bits, &fields, width);
        }
        let (Expr::VarMatch(_, pattern) | Expr::BitRangeMatch(_, _, pattern)) = self.node else { return None };
        match (kind, &**pattern) {
            (RefusalKind::LiteralTooLong, Pattern::Exact(bits)) => self.literal_width(kind, bits, &fields, width),
            (RefusalKind::CidrPrefix, Pattern::Cidr { prefix_len, .. }) if *prefix_len > width => {
                Some(format!("the CIDR prefix is {}, but {}", count(*prefix_len), self.has_fields(&fields, width)))
            }
            (RefusalKind::CidrAddress, Pattern::Cidr { address, .. }) if address.len() != width => {
                Some(format!("the CIDR address {}, but {}", has_bits(address), self.has_fields(&fields, width)))
            }
            (RefusalKind::WildcardWidth, Pattern::Wildcard { address, mask })
                if address.len() != width || mask.len() != width =>
            {
                let (address, mask) = (has_bits(address), has_bits(mask));
                Some(format!("the wildcard's address {address} and its mask {mask}, but {}", self.has_fields(&fields, width)))
            }
            (RefusalKind::IpRangeWidth, Pattern::IpRange { start, end }) => self.range_width(start, end, &fields, width),
            (RefusalKind::IpRangeOrder, Pattern::IpRange { start, end }) => {
                // 20 comes before 21: a bound has at most 128 bits here.
                let (from, to) = (value(start)?, value(end)?);
                let own = |bits| Literal::with_own_width(bits).to_string();
                let shown = if start.len() == 32 && end.len() == 32 {
                    (own(start), own(end))
                } else {
                    (from.to_string(), to.to_string())
                };
                (from > to).then(|| format!("the range pattern starts at {}, above its end {}", shown.0, shown.1))
            }
            _ => None,
        }
    }

    fn literal_width(&self, kind: RefusalKind, bits: &[bool], fields: &Fields, width: usize) -> Option<String> {
        let direct_value = fields.alias.is_none() && self.literal().is_some();
        let rule = match kind {
            RefusalKind::LiteralTooLong if !direct_value && bits.len() > width => "",
            RefusalKind::LiteralWidth if direct_value && bits.len() != width => ", and a direct range takes exactly as many bits",
            _ => return None,
        };
        Some(format!("the value {}, but {}{rule}", has_bits(bits), self.has_fields(fields, width)))
    }

    fn range_width(&self, start: &[bool], end: &[bool], fields: &Fields, width: usize) -> Option<String> {
        if width > MAX_RANGE_PATTERN_FIELDS {
            return Some(format!(
                "{}, and a range pattern, here with bounds of {} and {}, can be matched against {MAX_RANGE_PATTERN_FIELDS} at most",
                self.has_fields(fields, width),
                count(start.len()),
                plural(end.len(), "bit")
            ));
        }
        if start.len().max(end.len()) <= width {
            return None;
        }
        let (start, end) = (has_bits(start), has_bits(end));
        Some(format!("the start of the range pattern {start} and its end {end}, but {}", self.has_fields(fields, width)))
    }

    fn allowance_spent(&self) -> String {
        let wide = self.fields().and_then(|fields| Some(format!(" ({})", self.has_fields(&fields, fields.width()?))));
        format!("desugaring makes more core nodes than the allowance, which is spent here{}", wide.unwrap_or_default())
    }

    /// For a spent allowance, whether a rule is broken as well, and what would be enough.
    fn advice(&self, kind: RefusalKind, policy: &Expr) -> String {
        if kind != RefusalKind::AllowanceSpent {
            return String::new();
        }
        if let Err(rule) = policy.check() {
            return format!("\n  no allowance is enough, as a rule is broken too: {}", rule.explain(policy, self.names));
        }
        match Desugarer::new().desugar(policy) {
            Ok(desugared) => format!("\n  the policy keeps all rules: an allowance of {} is enough", grouped(desugared.drawn)),
            Err(_) => format!(
                "\n  the policy keeps all rules, but the greatest allowance, {}, is not enough: make its ranges narrower, or desugar it in parts",
                grouped(Desugarer::MAX_ALLOWANCE)
            ),
        }
    }

    /// The fields of an assignment, a test or a match; `None` for an unknown alias.
    fn fields(&self) -> Option<Fields> {
        match *self.node {
            Expr::VarAssign(name, _) | Expr::VarTest(name, _) | Expr::VarMatch(name, _) => {
                let (start, end) = self.outline.alias(name, self.place)?;
                Some(Fields { alias: Some(name), start, end })
            }
            Expr::BitRangeAssign(start, end, _) | Expr::BitRangeTest(start, end, _) | Expr::BitRangeMatch(start, end, _) => {
                Some(Fields { alias: None, start, end })
            }
            _ => None,
        }
    }

    fn range(&self, fields: &Fields) -> String {
        let range = format!("x[{}..{}]", fields.start, fields.end);
        match fields.alias {
            Some(alias) => format!("alias {}, {range},", self.name(alias)),
            None => range,
        }
    }

    fn has_fields(&self, fields: &Fields, width: usize) -> String {
        format!("{} has {}", self.range(fields), plural(width, "field"))
    }

    /// A name in backquotes, and the word behind it if that cannot be written as a name.
    fn name(&self, name: u16) -> String {
        let shown = format!("`{}`", NameText(Some(self.names), name));
        match self.names.text(name) {
            Some(word) if !display::is_name(word) => format!("{shown} ({word:?})"),
            _ => shown,
        }
    }

    /// The names in scope, innermost first, each once.
    fn list(&self, what: &str, names: impl Iterator<Item = u16>) -> String {
        let mut distinct = Vec::new();
        for name in names {
            if !distinct.contains(&name) {
                distinct.push(name);
            }
        }
        if distinct.is_empty() {
            return format!("there are no {what} here");
        }
        let more = if distinct.len() > LISTED { ", …" } else { "" };
        let listed: Vec<String> = distinct.iter().take(LISTED).map(|name| self.name(*name)).collect();
        format!("the {what} here are {}{more}", listed.join(", "))
    }

    /// The front of a part of the policy.
    fn part(&self, node: &Expr) -> String {
        let mut front = Front { text: String::new(), room: SHOWN };
        if display::write(node, Some(self.names), &mut front).is_err() {
            front.text.push('…');
        }
        front.text
    }
}

fn too_long(what: &str, bits: &[bool]) -> Option<String> {
    (bits.len() > MAX_LITERAL_BITS)
        .then(|| format!("{what} has {} bits, and {MAX_LITERAL_BITS} are the limit", count(bits.len())))
}

/// The literal, if it is not too long to be read, and its length.
fn has_bits(bits: &[bool]) -> String {
    let length = plural(bits.len(), "bit");
    if (1..=32).contains(&bits.len()) {
        format!("{} has {length}", Literal::with_own_width(bits))
    } else {
        format!("has {length}")
    }
}

fn plural(number: usize, what: &str) -> String {
    match number {
        1 => format!("1 {what}"),
        _ => format!("{} {what}s", count(number)),
    }
}

fn count(number: usize) -> String {
    grouped(number as u64)
}

/// Takes so many characters and fails at the next.
struct Front {
    text: String,
    room: usize,
}

impl Write for Front {
    fn write_str(&mut self, text: &str) -> fmt::Result {
        for character in text.chars() {
            self.room = self.room.checked_sub(1).ok_or(fmt::Error)?;
            self.text.push(character);
        }
        Ok(())
    }
}
