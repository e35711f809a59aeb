//! The limits of one policy, and what to do with thousands of rules.
//!
//! | what | limit | beyond it |
//! |---|---|---|
//! | expressions of a policy | [`MAX_RECORDS`] | 6 |
//! | levels of a policy | [`MAX_LEVELS`] | 7 |
//! | bits of a literal | [`MAX_LITERAL_BITS`] | 5 |
//! | a CIDR prefix | [`MAX_CIDR_PREFIX`], and the fields that it is matched against | 5, 17 |
//! | fields that a range pattern is matched against | [`MAX_RANGE_PATTERN_FIELDS`] | 20 |
//! | names | 65,536 | [`Names::try_intern`](crate::Names::try_intern) gives none |
//! | core nodes that the steps of a desugaring make | [`Desugarer::MAX_ALLOWANCE`](crate::Desugarer::MAX_ALLOWANCE), or less as the caller likes | 24 |
//! | nodes of a core that is read from bytes, or that packets are run through | [`MAX_CORE_RECORDS`] | 42 |
//! | packets of one [`Core::run`](crate::Core::run) | [`MAX_PACKETS`]; of [`Core::run_all`](crate::Core::run_all) any number | 49 |
//!
//! A core that is made has no limit of its own: not more nodes than the steps made, and any depth.
//! [`Refusal::explain`](crate::Refusal::explain) says which limit a policy is beyond, and by how much.
//!
//! # Long lists
//!
//! A union of rules that is built one by one gets a level for each, and 256 levels are soon used up.
//! [`Expr::union_all`](crate::Expr::union_all) builds it balanced, and the limit on expressions is the next to be met: a rule `dst ~ 10.1.0.0/16 ;
//! x32 := 1` has three, the union one more, so that a policy has room for about a thousand; one with source, destination and port has seven. Where rules
//! have ranges, the allowance may be spent before: [`cost()`](crate::cost()) says what a pattern will draw.
//!
//! # Thousands of rules
//!
//! More rules are desugared in slices, and the cores are joined. Nothing is lost by that, because desugaring goes child by child:
//!
//! - The core of `a + b` is the union of the core of `a` and the core of `b`.
//! - A let leaves nothing in the core but what its body becomes. So the core of `let .. in a + b` is the union of the cores of `let .. in a`
//!   and `let .. in b`: repeat the lets and aliases that stand around the list around each slice.
//! - An expression that breaks a rule in the whole breaks it in its slice, and the other way round; the place then counts in the slice. Of several
//!   faults another one may be answered first, as the form of each slice comes before its rules.
//! - Each slice has an allowance of its own. A definition that is repeated is drawn in each slice anew.
//!
//! ```
//! use std::net::Ipv4Addr;
//! use netkat::{desugar, Core, Desugarer, Exp, Expr, Names, Pattern, Refusal};
//!
//! /// The cores of slices of the rules, with the bindings around each. A slice that is too large is halved.
//! fn desugar_slices(
//!     desugarer: &mut Desugarer,
//!     rules: &[Exp],
//!     bind: &impl Fn(Exp) -> Exp,
//!     cores: &mut Vec<Core>,
//! ) -> Result<(), Refusal> {
//!     match desugarer.desugar(&bind(Expr::union_all(rules.iter().cloned()))) {
//!         Ok(desugared) => cores.push(desugared.core),
//!         Err(refusal) if matches!(refusal.number, 6 | 24) && rules.len() > 1 => {
//!             let (front, back) = rules.split_at(rules.len().next_power_of_two() / 2);
//!             desugar_slices(desugarer, front, bind, cores)?;
//!             desugar_slices(desugarer, back, bind, cores)?;
//!         }
//!         Err(refusal) => return Err(refusal),
//!     }
//!     Ok(())
//! }
//!
//! /// The core of the union of all rules.
//! fn desugar_rules(rules: &[Exp], bind: impl Fn(Exp) -> Exp) -> Result<Core, Refusal> {
//!     let mut cores = Vec::new();
//!     desugar_slices(&mut Desugarer::new(), rules, &bind, &mut cores)?;
//!     Ok(Core::union_all(cores))
//! }
//!
//! let mut names = Names::new();
//! let dst = names.intern("dst");
//! let bind = |rules| Expr::let_bit_range(dst, 0, 32, rules);
//! let rules: Vec<Exp> = (0..5_000u32)
//!     .map(|i| {
//!         let net = Pattern::ipv4_prefix(Ipv4Addr::from(i << 16), 16);
//!         Expr::sequence(Expr::var_match(dst, net), Expr::assign(32 + i % 8, true))
//!     })
//!     .collect();
//!
//! // All at once they are too many.
//! assert_eq!(desugar(&bind(Expr::union_all(rules.clone()))).unwrap_err().number, 6);
//! let core = desugar_rules(&rules, bind).unwrap();
//! assert_eq!(core.len(), 5_000 * (31 + 2) + 4_999);
//!
//! // Slices of a list that fits make the same core as the whole, node by node: their size is a power of two, and both unions join neighbours.
//! let whole = desugar(&bind(Expr::union_all(rules[..1_000].to_vec()))).unwrap();
//! let slices = rules[..1_000].chunks(256).map(|slice| desugar(&bind(Expr::union_all(slice.to_vec()))).unwrap());
//! assert_eq!(Core::union_all(slices), whole);
//! ```
//!
//! With slices of other sizes the unions are grouped in another way, and the meaning is the same. A refusal by a rule has its place in the slice: keep count of
//! the rules before it to say which one it is.
//!
//! Joined cores may have more nodes than can be read from bytes. To store them, store the core of each slice, and join what is read. To run
//! packets through them, run them through the core of each slice: a packet passes the union if it passes one of them.
//!
//! What holds of `+` holds of `&`, `^`, `-`, `U`, `~`, `*` and `X` as well. Of `;` it holds but for a `1`, which is left out. It does not hold below `!`, which
//! changes the core that it is given.
//!
//! # First match
//!
//! A list `if a then x else if b then y else ..` has a level for each rule. The core of `if c then t else e` is `c' ; t' + d' ; e'`, where `c'`, `t'` and `e'` are the
//! cores of its parts, `d'` is that of `!c`, and no `1` is left out. So it can be cut at an else: desugar the rest by itself, and join by
//! [`Core::sequence`](crate::Core::sequence) and [`Core::union`](crate::Core::union).

/// The most expressions of a policy: its records.
pub const MAX_RECORDS: usize = 4_096;

/// The most levels of a policy; the root is at level 1.
pub const MAX_LEVELS: usize = 256;

/// The most bits of a literal: a label stack of six 32-bit words is one ([`bits_of_words`](crate::bits_of_words)).
pub const MAX_LITERAL_BITS: usize = 192;

/// The longest prefix that can be written. The number of fields that it is matched against limits it further.
pub const MAX_CIDR_PREFIX: usize = 255;

/// The most fields that a range pattern can be matched against, fewer than a literal may have bits. Of a longer field a part can be
/// matched: where the fields 0 to 191 hold six words, the first word is x[160..192].
pub const MAX_RANGE_PATTERN_FIELDS: usize = 128;

/// The most core nodes of a match with a range pattern, as [`cost()`](crate::cost()) counts them: about half of the greatest allowance.
pub const MAX_RANGE_PATTERN_COST: u64 = 33_529;

/// The most nodes of a core that [`Core::from_bytes`](crate::Core::from_bytes) reads: its records. No desugaring makes more.
pub const MAX_CORE_RECORDS: usize = 65_535;

/// The most packets of one [`Core::run`](crate::Core::run): the answer has a bit for each.
pub const MAX_PACKETS: usize = 64;
