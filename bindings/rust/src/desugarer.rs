use std::cell::RefCell;
use std::fmt;

use crate::ffi::Memory;
use crate::slots::{self, Slot};
use crate::{tree, Core, Exp, Expr, Refusal};

thread_local! {
    /// What the free functions work with. To lend a small allowance first and the full one on refusal 24 was tried: it saves 1 KiB of
    /// resident memory and no time on small policies, and on others costs a second pass of form, a third of the time at 3,500 nodes.
    static KEPT: RefCell<Option<Desugarer>> = const { RefCell::new(None) };
}

/// Calls with the thread's desugarer of the greatest allowance, or with a new one while the thread ends.
pub(crate) fn with_kept<T>(mut call: impl FnMut(&mut Desugarer) -> T) -> T {
    let kept = KEPT.try_with(|kept| Some(call(kept.try_borrow_mut().ok()?.get_or_insert_with(Desugarer::new))));
    kept.ok().flatten().unwrap_or_else(|| call(&mut Desugarer::new()))
}

/// Frees the memory that [`desugar()`], [`desugar_to_expr`], [`Core::from_bytes`], [`Core::run`] and, in [`bytes`](crate::bytes), `desugar`,
/// `read_core` and `run_packets` keep for this thread. The next call allocates it anew; a thread that ends frees it by itself.
///
/// It is lent to the library without being cleared, so that pages which no policy needed take no memory: on Linux 4 to
/// 8 KiB are resident after a policy of some nodes, some 70 KiB after one of 3,500, 0.7 to 0.8 MB after one of 43,000. To read a core
/// takes 12 bytes for each of its nodes, in the same memory; to run packets through it, 12 for each operator that is open at once.
///
/// ```
/// use netkat::{desugar, release_memory, Expr};
///
/// assert!(desugar(&Expr::One).is_ok());
/// release_memory();
/// assert!(desugar(&Expr::One).is_ok());
/// ```
pub fn release_memory() {
    // Where the thread's memory is gone, there is nothing to free.
    let _ = KEPT.try_with(|kept| kept.take());
}

/// The core of a term, at the greatest allowance.
///
/// The memory it works with is kept for the thread's next call, 2.6 MB of which only what was once needed is resident; see
/// [`release_memory`]. For another allowance see [`Desugarer`]; for a boxed tree, as the original's `desugar` gives, see
/// [`desugar_to_expr`].
///
/// ```
/// use netkat::{desugar, Expr, View};
///
/// let policy = Expr::test_negation(Expr::test(0, true));
/// let core = desugar(&policy).unwrap();
/// assert_eq!(core.root().view(), View::Test(0, false));
/// ```
pub fn desugar(term: &Expr) -> Result<Core, Refusal> {
    let mut core = Core::default();
    with_kept(|desugarer| desugarer.desugar_into(term, &mut core))?;
    Ok(core)
}

/// The core of a term as an expression: what the original's `desugar` gives, and faster than `desugar(term)?.to_expr()`, as no
/// [`Core`] is allocated on the way.
///
/// ```
/// use netkat::{desugar, desugar_to_expr, Expr};
///
/// let policy = Expr::bit_range_test(0, 2, vec![true, false]);
/// let core = desugar_to_expr(&policy).unwrap();
/// assert_eq!(core, Expr::intersect(Expr::test(0, true), Expr::test(1, false)));
/// assert_eq!(core, desugar(&policy).unwrap().to_expr());
/// ```
pub fn desugar_to_expr(term: &Expr) -> Result<Exp, Refusal> {
    with_kept(|desugarer| desugarer.desugar_to_expr(term))
}

/// Desugars terms one after another in the same memory.
///
/// The allowance limits how many core nodes the steps of a desugaring may make, 65,535 if nothing else is said. With it goes the
/// memory, which is allocated once and not cleared: 39 bytes for each node of the allowance and 32 KiB, 2.6 MB at the greatest.
///
/// ```
/// use netkat::{Desugarer, Expr};
///
/// let mut desugarer = Desugarer::with_allowance(1_000);
/// let policy = Expr::bit_range_test(0, 2, vec![true, false]);
///
/// let desugared = desugarer.desugar(&policy).unwrap();
/// assert_eq!(desugared.drawn, 3);
/// assert_eq!(desugared.core.len(), 3);
///
/// // An alias of a billion fields is refused by 24, at once.
/// let wide = Expr::let_bit_range(1, 0, 1_000_000_000, Expr::var_test(1, vec![true]));
/// assert_eq!(desugarer.desugar(&wide).unwrap_err().number, 24);
/// ```
pub struct Desugarer {
    allowance: u32,
    memory: Memory,
    /// The bytes of the term.
    term: Vec<u8>,
    /// The core on the way to an expression.
    slots: Vec<Slot>,
    /// Parts of that expression.
    complete: Vec<Exp>,
}

/// A core, and what it took to make it.
#[derive(Clone, Debug, PartialEq, Eq)]
#[non_exhaustive]
pub struct Desugared {
    /// The core.
    pub core: Core,
    /// The drawn total: how many core nodes all steps together made. The core has at most so many.
    pub drawn: u32,
}

/// The bytes of a core, and what it took to make it.
#[derive(Clone, Copy, Debug, PartialEq, Eq)]
#[non_exhaustive]
pub struct DesugaredBytes<'a> {
    /// The core's bytes, in the memory of the [`Desugarer`].
    pub core: &'a [u8],
    /// The drawn total: how many core nodes all steps together made. The core has at most so many.
    pub drawn: u32,
}

impl Desugarer {
    /// The greatest allowance, which is the default.
    pub const MAX_ALLOWANCE: u32 = 65_535;

    /// A desugarer with the greatest allowance.
    pub fn new() -> Self {
        Self::with_allowance(Self::MAX_ALLOWANCE)
    }

    /// A desugarer with this allowance. If it is not 1 to 65,535, each call is refused by 9.
    pub fn with_allowance(allowance: u32) -> Self {
        let nodes = allowance.min(Self::MAX_ALLOWANCE) as usize;
        Desugarer { allowance, memory: Memory::for_nodes(nodes), term: Vec::new(), slots: Vec::new(), complete: Vec::new() }
    }

    /// The allowance.
    pub fn allowance(&self) -> u32 {
        self.allowance
    }

    /// The core of a term. Refused by 5 to 7 if the term is beyond the limits, by 9, by a rule (11 to 23), or by 24.
    pub fn desugar(&mut self, term: &Expr) -> Result<Desugared, Refusal> {
        let mut core = Core::default();
        let drawn = self.desugar_into(term, &mut core)?;
        Ok(Desugared { core, drawn })
    }

    /// Replaces `core` by that of the term. Gives the drawn total.
    #[inline]
    fn desugar_into(&mut self, term: &Expr, core: &mut Core) -> Result<u32, Refusal> {
        self.encode(term)?;
        let (bytes, drawn) = self.memory.desugar(&self.term, self.allowance)?;
        *core = match drawn {
            1 => Core::of_slot(leaf(bytes)),
            _ => Core::of_library(bytes, drawn),
        };
        Ok(drawn)
    }

    /// The bytes of the term, unless the allowance is refused: that comes before the form.
    #[inline]
    fn encode(&mut self, term: &Expr) -> Result<(), Refusal> {
        if !(1..=Self::MAX_ALLOWANCE).contains(&self.allowance) {
            return Err(Refusal { number: 9, place: 0 });
        }
        self.term.clear();
        tree::encode(term, &mut self.term)
    }

    /// The core of a term as an expression, as [`desugar_to_expr`] gives it. Refused as [`Desugarer::desugar`] is.
    pub fn desugar_to_expr(&mut self, term: &Expr) -> Result<Exp, Refusal> {
        self.encode(term)?;
        let (bytes, drawn) = self.memory.desugar(&self.term, self.allowance)?;
        if drawn == 1 {
            return Ok(leaf(bytes).to_expr());
        }
        slots::decode(bytes, &mut self.slots);
        Ok(slots::to_expr(&self.slots, &mut self.complete))
    }

    /// The bytes of the core of a term in bytes. Refused by 9, by form (1 to 8), by a rule (11 to 23), or by 24.
    ///
    /// ```
    /// use netkat::Desugarer;
    ///
    /// let mut desugarer = Desugarer::new();
    /// let desugared = desugarer.desugar_bytes(&[0x49, 0x18, 2, 0, 0, 0, 2, 1]).unwrap();
    /// assert_eq!(desugared.core, [1, 8, 0x21, 6, 1, 5, 6, 1, 0, 0, 0]);
    /// assert_eq!(desugared.drawn, 3);
    /// ```
    pub fn desugar_bytes(&mut self, term: &[u8]) -> Result<DesugaredBytes<'_>, Refusal> {
        let (core, drawn) = self.memory.desugar(term, self.allowance)?;
        Ok(DesugaredBytes { core, drawn })
    }

    /// The records of a core in bytes, three numbers each, and its field count. The allowance has no part in it.
    pub(crate) fn read_core(&mut self, core: &[u8]) -> Result<(&[u32], u32), Refusal> {
        self.memory.read_core(core)
    }

    /// Which packets pass a core in bytes, a bit for each. The allowance has no part in it.
    pub(crate) fn run_packets(&mut self, core: &[u8], packets: &[u8], lengths: &[u32]) -> Result<u64, Refusal> {
        self.memory.run_packets(core, packets, lengths)
    }
}

/// The only node of a core for which one node was drawn.
#[inline]
fn leaf(bytes: &[u8]) -> Slot {
    slots::leaf_of_bytes(bytes).expect(slots::GOOD_FORM)
}

impl Default for Desugarer {
    fn default() -> Self {
        Self::new()
    }
}

/// Shows the allowance and not the memory.
impl fmt::Debug for Desugarer {
    fn fmt(&self, f: &mut fmt::Formatter<'_>) -> fmt::Result {
        f.debug_struct("Desugarer").field("allowance", &self.allowance).finish_non_exhaustive()
    }
}
