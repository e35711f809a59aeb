//! From a written NetKAT policy to its one-bit core.
//!
//! Rust binding of `libnetkat.a`, whose functions are proved to answer as their requirement says, for every input. This crate
//! turns trees into the library's bytes and its bytes into cores; it is tested, not proved.
//!
//! ```
//! use netkat::{desugar, Expr, Names, Pattern};
//!
//! let mut names = Names::new();
//! let dst = names.intern("dst");
//! let guests = Expr::var_match(dst, "10.1.0.0/16".parse::<Pattern>()?);
//! let allow = Expr::if_then_else(guests, Expr::assign(32, true), Expr::zero());
//! let policy = Expr::let_bit_range(dst, 0, 32, allow);
//! assert_eq!(
//!     policy.display(&names).to_string(),
//!     "let dst = &x[0..32] in if dst ~ 10.1.0.0/16 then x32 := 1 else 0"
//! );
//!
//! match desugar(&policy) {
//!     Ok(core) => assert_eq!(core.len(), 67),
//!     Err(refusal) => println!("{}", refusal.explain(&policy, &names)),
//! }
//! # Ok::<(), netkat::ParsePatternError>(())
//! ```
//!
//! | for | see |
//! |---|---|
//! | building terms | [`Expr`], [`Expr::union_all`], [`Pattern`], [`Names`], [`bits`], [`bits_of_words`] |
//! | addresses, prefixes and wildcards | [`Pattern::ipv4_prefix`], [`ParsePatternError`] |
//! | terms and cores as text | [`Expr::display`] |
//! | judging a term without making its core | [`Expr::check`] |
//! | making the core of a term | [`desugar()`]; with an allowance, [`Desugarer`]; as a boxed tree, [`desugar_to_expr`] |
//! | what a pattern will draw on the allowance | [`cost()`] |
//! | what the core is | [`Core`], [`Node`], [`View`] |
//! | storing a core and reading it back | [`Core::to_bytes`], [`Core::from_bytes`] |
//! | which packets pass a test | [`Core::run`]; of a capture of any length, [`Core::run_all`] |
//! | why there is no answer | [`Refusal`], [`Refusal::explain`] |
//! | how large a policy can be, and what to do with more | [`limits`] |
//! | terms, cores and packets that are bytes already | [`bytes`] |
//! | the memory that a thread keeps | [`release_memory`] |
//!
//! The origin of the library, and of the names here, is KATch2 (<https://github.com/julesjacobs/KATch2>, MIT), called "the original" on
//! these pages.

#![deny(unsafe_code, missing_docs)]

mod addresses;
pub mod bytes;
mod combine;
mod cores;
mod cost;
mod debug;
mod desugarer;
mod display;
mod explain;
mod expr;
mod ffi;
mod kinds;
pub mod limits;
mod literal;
mod names;
mod node;
mod outline;
mod packets;
mod record;
mod refusal;
mod slots;
mod tree;

/// The examples of the README, as tests.
#[cfg(doctest)]
#[doc = include_str!("../README.md")]
struct Readme;

use std::ops::Range;

pub use addresses::{bits_of_ipv4, bits_of_ipv6, ParsePatternError};
pub use cores::{Core, CoreRecord};
pub use cost::cost;
pub use desugarer::{desugar, desugar_to_expr, release_memory, Desugared, DesugaredBytes, Desugarer};
pub use display::ExprDisplay;
pub use expr::{Exp, Expr, Pattern};
pub use kinds::Kind;
pub use names::Names;
pub use node::{Node, View};
pub use refusal::{FormFault, Refusal, RefusalKind};

/// The number of a one-bit field.
pub type Field = u32;

/// The value of a one-bit field.
pub type Value = bool;

/// The fields of `alias[sub]`, where `alias` is the alias's range. 28 exactly where the original gives `None` for a known alias.
///
/// ```
/// use netkat::compute_subrange;
///
/// assert_eq!(compute_subrange(8..16, 2..4), Ok(10..12));
/// assert_eq!(compute_subrange(8..16, 2..9).unwrap_err().number, 28);
/// ```
pub fn compute_subrange(alias: Range<Field>, sub: Range<Field>) -> Result<Range<Field>, Refusal> {
    ffi::compute_subrange(alias.start, alias.end, sub.start, sub.end).map(|(from, to)| from..to)
}

/// The version of the library that is linked: major, minor, patch. It is the crate's own, unless NETKAT_LIB_DIR names another archive.
///
/// ```
/// let (major, minor, patch) = netkat::library_version();
/// assert_eq!(format!("{major}.{minor}.{patch}"), env!("CARGO_PKG_VERSION"));
/// ```
pub fn library_version() -> (u32, u32, u32) {
    let version = ffi::version();
    (version >> 16, version >> 8 & 0xff, version & 0xff)
}

/// The lowest `width` bits of a value, least significant first. Bits from 128 on are false; for longer values see [`bits_of_words`].
///
/// ```
/// assert_eq!(netkat::bits(5, 4), [true, false, true, false]);
/// ```
pub fn bits(value: u128, width: usize) -> Vec<bool> {
    (0..width).map(|i| i < 128 && value >> i & 1 == 1).collect()
}

/// The bits of 32-bit words, least significant first: the first word is in the highest 32, as the first octet of an address is in the highest
/// eight. Six words, as of a label stack, are the longest literal: seven are refused. For a width that is no multiple of 32,
/// [`Vec::truncate`] cuts off the highest bits, those of the first word.
///
/// ```
/// use netkat::{bits_of_words, desugar, Expr, Pattern};
///
/// // Labels 16 to 21 with a TTL of 64, the top of the stack first. The last entry has the bottom-of-stack bit.
/// let stack = [0x10040, 0x11040, 0x12040, 0x13040, 0x14040, 0x15140];
/// let whole = Expr::bit_range_test(0, 192, bits_of_words(&stack));
/// assert_eq!(desugar(&whole).unwrap().len(), 192 + 191);
///
/// // A prefix of 96 looks at the first three words, which are the fields 96 to 191.
/// let prefix = Pattern::Cidr { address: bits_of_words(&stack), prefix_len: 96 };
/// let first_three = Expr::bit_range_test(96, 192, bits_of_words(&stack[..3]));
/// assert_eq!(desugar(&Expr::bit_range_match(0, 192, prefix)), desugar(&first_three));
/// ```
pub fn bits_of_words(words: &[u32]) -> Vec<bool> {
    words.iter().rev().flat_map(|word| bits((*word).into(), 32)).collect()
}
