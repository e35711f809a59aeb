use std::fmt;

use crate::debug;
use crate::desugarer::with_kept;
use crate::node::Node;
use crate::record::refusal;
use crate::slots::{self, Slot};
use crate::{Exp, Expr, Field, Kind, Refusal, Value};

/// A core: what desugaring makes of a term. It has one-bit tests and assignments, and no names, ranges, negation or if.
///
/// The nodes lie one behind the other in one piece of memory, eight bytes each, in prefix order: a node, then its first child with
/// all below it, then its second child with all below it. Start at [`Core::root`] and match on [`Node::view`], or go through all
/// nodes by [`Core::nodes`] or [`Core::records`].
///
/// ```
/// use netkat::{desugar, Core, Expr, Node, View};
///
/// /// Whether the first leaf is a test.
/// fn begins_with_a_test(core: &Core) -> bool {
///     let mut node = core.root();
///     loop {
///         match node.view() {
///             View::Union(a, _) | View::Intersect(a, _) | View::Sequence(a, _) => node = a,
///             View::Star(a) => node = a,
///             View::Test(_, _) => return true,
///             _ => return false,
///         }
///     }
/// }
/// let policy = Expr::star(Expr::sequence(Expr::test(0, true), Expr::assign(1, true)));
/// assert!(begins_with_a_test(&desugar(&policy).unwrap()));
/// ```
///
/// A core can be as deep as it is large, some ten thousand levels, so a function that calls itself on the children needs a stack to
/// match. A child stands behind its parent: from the last node to the first, the children's results are there before they are
/// needed. Nothing in this crate recurses over a core.
///
/// ```
/// use netkat::{desugar, Core, Expr};
///
/// fn depth(core: &Core) -> usize {
///     let mut depths = vec![0; core.len()];
///     for node in core.nodes().rev() {
///         let below = node.children().map(|child| depths[child.index()]).max();
///         depths[node.index()] = 1 + below.unwrap_or(0);
///     }
///     depths[0]
/// }
/// let core = desugar(&Expr::bit_range_test(0, 100, vec![true; 100])).unwrap();
/// assert_eq!(depth(&core), 100);
/// ```
///
/// A core is stored as its bytes. Equal cores have equal bytes, whoever wrote them.
///
/// ```
/// use netkat::{desugar, Core, Expr};
///
/// # let path = std::env::temp_dir().join(format!("netkat-core-{}", std::process::id()));
/// let core = desugar(&Expr::bit_range_test(0, 2, vec![true, false]))?;
/// std::fs::write(&path, core.to_bytes())?;
///
/// // Days later:
/// let again = Core::from_bytes(&std::fs::read(&path)?)?;
/// assert_eq!(again, core);
/// assert_eq!((again.len(), again.num_fields()?), (3, 2));
/// # std::fs::remove_file(&path)?;
/// # Ok::<(), Box<dyn std::error::Error>>(())
/// ```
#[derive(Clone, PartialEq, Eq, Hash)]
pub struct Core {
    slots: Slots,
}

/// A core of one node needs no memory of its own.
#[derive(Clone, PartialEq, Eq, Hash)]
enum Slots {
    One(Slot),
    /// More than one.
    More(Vec<Slot>),
}

/// A node of a [`Core`] without its children.
#[derive(Clone, Copy, Debug, PartialEq, Eq, Hash)]
#[non_exhaustive]
pub struct CoreRecord {
    /// The kind, which says how many children there are.
    pub kind: Kind,
    /// The field of Assign and Test, else 0.
    pub field: Field,
    /// The value of Assign and Test, else false.
    pub value: Value,
}

impl CoreRecord {
    pub(crate) fn of(slot: &Slot) -> Self {
        let field = if slot.kind.arity() == 0 { slot.number } else { 0 };
        CoreRecord { kind: slot.kind, field, value: slot.value }
    }
}

impl Core {
    pub(crate) fn of_slots(slots: Vec<Slot>) -> Self {
        match slots[..] {
            [slot] => Self::of_slot(slot),
            _ => Core { slots: Slots::More(slots) },
        }
    }

    #[inline]
    pub(crate) fn of_slot(slot: Slot) -> Self {
        Core { slots: Slots::One(slot) }
    }

    #[inline]
    fn slots(&self) -> &[Slot] {
        match &self.slots {
            Slots::One(slot) => std::slice::from_ref(slot),
            Slots::More(slots) => slots,
        }
    }

    /// The core of the bytes, which may come from anywhere: the library reads them, and judges their form. What
    /// [`desugar()`](crate::desugar()) makes and [`Core::to_bytes`] writes comes back as it was, or is refused by 25.
    ///
    /// ```
    /// use netkat::{Core, View};
    ///
    /// let core = Core::from_bytes(&[1, 14, 0x25, 6, 3, 0, 0, 0, 1]).unwrap();
    /// let View::Star(body) = core.root().view() else { panic!() };
    /// assert_eq!(body.view(), View::Test(3, true));
    /// ```
    ///
    /// Refused by 1 to 5 and 8 as terms are, by 41 for a kind that only a term has, and by 42 for more than
    /// [`MAX_CORE_RECORDS`](crate::limits::MAX_CORE_RECORDS) nodes; there is no limit on depth. Then by 25 for an Assign or Test of field
    /// 4,294,967,295, which desugaring leaves in a core: the field count of such a core is beyond 32 bits.
    ///
    /// ```
    /// use netkat::Core;
    ///
    /// let cut_off = Core::from_bytes(&[1, 14, 0x25, 6, 3, 0]).unwrap_err();
    /// assert_eq!(cut_off.to_string(), "the bytes end before the policy or core is complete (record 1, refusal 1)");
    /// let variable = Core::from_bytes(&[1, 14, 1, 20]).unwrap_err();
    /// assert_eq!(variable.to_string(), "a core has no expression of this kind: desugaring replaces it (record 1, refusal 41)");
    /// ```
    pub fn from_bytes(bytes: &[u8]) -> Result<Self, Refusal> {
        with_kept(|desugarer| desugarer.read_core(bytes).map(|(records, _)| Self::of_slots(slots::of_records(records))))
    }

    /// The core that the library wrote, whose steps drew so many nodes.
    pub(crate) fn of_library(bytes: &[u8], drawn: u32) -> Self {
        // A core has no more nodes than were drawn. An operator of two bytes with two Zeros of one is the shortest tree.
        Self::of_good_form(bytes, (drawn as usize).min(bytes.len() * 2 / 3 + 1))
    }

    /// The core of bytes that the library or this crate wrote, which has about so many nodes.
    pub(crate) fn of_good_form(bytes: &[u8], nodes: usize) -> Self {
        let mut slots = Vec::with_capacity(nodes);
        slots::decode(bytes, &mut slots);
        slots.shrink_to_fit();
        Self::of_slots(slots)
    }

    /// The bytes of the core, as the library writes them.
    ///
    /// ```
    /// use netkat::{Core, Expr};
    ///
    /// let core = Core::from_expr(&Expr::Test(3, true)).unwrap();
    /// assert_eq!(core.to_bytes(), [0x25, 6, 3, 0, 0, 0, 1]);
    /// ```
    pub fn to_bytes(&self) -> Vec<u8> {
        slots::encode(self.slots())
    }

    /// The core that an expression is, if it has only kinds of a core. Refused by 41 at the first node of another kind, for which
    /// there is [`desugar()`](crate::desugar()), and by 42 for more than 4,294,967,295 nodes.
    ///
    /// ```
    /// use netkat::{Core, Expr};
    ///
    /// let written = Expr::union(Expr::test(0, true), Expr::dup());
    /// assert_eq!(Core::from_expr(&written).unwrap().to_expr(), written);
    ///
    /// let refusal = Core::from_expr(&Expr::star(Expr::var(1))).unwrap_err();
    /// assert_eq!((refusal.number, refusal.place), (41, 1));
    /// ```
    pub fn from_expr(expr: &Expr) -> Result<Self, Refusal> {
        slots::of_expr(expr).map(Self::of_slots)
    }

    /// The same tree as an expression, for code that takes what the original's `desugar` gives.
    ///
    /// ```
    /// use netkat::{desugar, Expr};
    ///
    /// let policy = Expr::test_negation(Expr::test(0, true));
    /// assert_eq!(desugar(&policy).unwrap().to_expr(), Expr::test(0, false));
    /// ```
    pub fn to_expr(&self) -> Exp {
        slots::to_expr(self.slots(), &mut Vec::new())
    }

    /// The root.
    pub fn root(&self) -> Node<'_> {
        Node::new(self.slots(), 0)
    }

    /// The node of an index in prefix order, if there is one.
    pub fn node(&self, index: usize) -> Option<Node<'_>> {
        (index < self.len()).then(|| Node::new(self.slots(), index))
    }

    /// All nodes in prefix order, the order of the records.
    ///
    /// ```
    /// use netkat::{desugar, Expr, View};
    ///
    /// let core = desugar(&Expr::bit_range_test(0, 2, vec![true, false])).unwrap();
    /// let tests = core.nodes().filter(|node| matches!(node.view(), View::Test(..)));
    /// assert_eq!(tests.count(), 2);
    /// ```
    pub fn nodes(&self) -> impl ExactSizeIterator<Item = Node<'_>> + DoubleEndedIterator {
        let slots = self.slots();
        (0..slots.len()).map(move |index| Node::new(slots, index))
    }

    /// Kind, field and value of all nodes in prefix order, as a solver would store them. This is the whole core: a kind says how many
    /// children there are.
    ///
    /// ```
    /// use netkat::{desugar, Expr, Kind};
    ///
    /// let core = desugar(&Expr::bit_range_test(0, 2, vec![true, false])).unwrap();
    /// let records: Vec<_> = core.records().map(|r| (r.kind, r.field, r.value)).collect();
    /// assert_eq!(records, [(Kind::Intersect, 0, false), (Kind::Test, 0, true), (Kind::Test, 1, false)]);
    /// ```
    pub fn records(&self) -> impl ExactSizeIterator<Item = CoreRecord> + DoubleEndedIterator + '_ {
        self.slots().iter().map(CoreRecord::of)
    }

    /// The number of nodes, at least 1.
    #[allow(clippy::len_without_is_empty)] // A core is never empty.
    pub fn len(&self) -> usize {
        self.slots().len()
    }

    /// The field count: one more than the greatest field of an Assign or Test, 0 where there is none. Refused by 25 at the first of field
    /// 4,294,967,295; a core that was read by [`Core::from_bytes`] has none.
    ///
    /// ```
    /// use netkat::{desugar, Expr};
    ///
    /// assert_eq!(desugar(&Expr::bit_range_test(4, 6, vec![true, false])).unwrap().num_fields(), Ok(6));
    /// assert_eq!(desugar(&Expr::dup()).unwrap().num_fields(), Ok(0));
    /// ```
    pub fn num_fields(&self) -> Result<u32, Refusal> {
        let mut count = 0;
        for (place, slot) in self.slots().iter().enumerate() {
            if matches!(slot.kind, Kind::Assign | Kind::Test) {
                count = count.max(slot.number.checked_add(1).ok_or_else(|| refusal(25, place))?);
            }
        }
        Ok(count)
    }
}

/// `Zero`
impl Default for Core {
    fn default() -> Self {
        Core::of_slot(Slot::new(Kind::Zero))
    }
}

/// As [`Core::from_expr`].
impl TryFrom<&Expr> for Core {
    type Error = Refusal;

    fn try_from(expr: &Expr) -> Result<Self, Refusal> {
        Self::from_expr(expr)
    }
}

/// As [`Core::to_expr`].
impl From<&Core> for Exp {
    fn from(core: &Core) -> Exp {
        core.to_expr()
    }
}

/// Writes the tree on one line, as `derive(Debug)` would for an enum with the cases of [`View`](crate::View); with `{:#?}` a line for
/// each node, indented down to level 40.
impl fmt::Debug for Core {
    fn fmt(&self, f: &mut fmt::Formatter<'_>) -> fmt::Result {
        debug::tree(self.root(), f)
    }
}
