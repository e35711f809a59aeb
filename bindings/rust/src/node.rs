use std::fmt;
use std::hash::{Hash, Hasher};

use crate::debug::{self, Shown};
use crate::record::NAMES;
use crate::slots::{self, Slot};
use crate::{Core, CoreRecord, Exp, Field, Kind, Value};

/// A node of a [`Core`]. It is a handle of two words and an index, to be copied freely.
///
/// Two nodes are equal if the trees below them are, wherever they stand, and then have the same hash. To compare, to hash and to copy a tree, and to find its
/// end ([`Node::nodes`], [`Node::to_core`]), costs as much as the tree is large: who needs it of every node of a chain goes from the
/// last node to the first and keeps what is below, as shown for [`Core`].
///
/// ```
/// use netkat::{desugar, Expr, View};
///
/// let core = desugar(&Expr::bit_range_test(0, 2, vec![true, false])).unwrap();
/// let View::Intersect(first, second) = core.root().view() else { panic!() };
/// assert_eq!(first.view(), View::Test(0, true));
/// assert_eq!(second.view(), View::Test(1, false));
/// assert_eq!(second.index(), 2);
/// ```
#[derive(Clone, Copy)]
pub struct Node<'a> {
    slots: &'a [Slot],
    index: usize,
}

/// What a [`Node`] is, to be matched: one case for each kind, with the children as nodes.
#[derive(Clone, Copy, Debug, PartialEq, Eq)]
pub enum View<'a> {
    /// Drops every packet.
    Zero,
    /// Passes every packet.
    One,
    /// Everything.
    Top,
    /// Records the packet.
    Dup,
    /// The end of a trace.
    End,
    /// `field := value`
    Assign(Field, Value),
    /// `field == value`
    Test(Field, Value),
    /// `a + b`
    Union(Node<'a>, Node<'a>),
    /// `a & b`
    Intersect(Node<'a>, Node<'a>),
    /// `a ^ b`
    Xor(Node<'a>, Node<'a>),
    /// `a - b`
    Difference(Node<'a>, Node<'a>),
    /// `a ; b`
    Sequence(Node<'a>, Node<'a>),
    /// `a U b`
    LtlUntil(Node<'a>, Node<'a>),
    /// `~a`
    Complement(Node<'a>),
    /// `a*`
    Star(Node<'a>),
    /// `X a`
    LtlNext(Node<'a>),
}

impl<'a> Node<'a> {
    /// The node of an index that has a slot.
    pub(crate) fn new(slots: &'a [Slot], index: usize) -> Self {
        Node { slots, index }
    }

    /// The node's index in prefix order, which is the order of [`Core::nodes`] and [`Core::records`]; 0 is the root.
    pub fn index(self) -> usize {
        self.index
    }

    /// The node's kind.
    pub fn kind(self) -> Kind {
        self.slot().kind
    }

    /// The node's kind, field and value.
    pub fn record(self) -> CoreRecord {
        CoreRecord::of(self.slot())
    }

    /// The node, to be matched.
    #[inline]
    pub fn view(self) -> View<'a> {
        let Slot { kind, value, number } = *self.slot();
        let first = || Node { index: self.index + 1, ..self };
        let second = || Node { index: number as usize, ..self };
        match kind {
            Kind::Zero => View::Zero,
            Kind::One => View::One,
            Kind::Top => View::Top,
            Kind::Dup => View::Dup,
            Kind::End => View::End,
            Kind::Assign => View::Assign(number, value),
            Kind::Test => View::Test(number, value),
            Kind::Union => View::Union(first(), second()),
            Kind::Intersect => View::Intersect(first(), second()),
            Kind::Xor => View::Xor(first(), second()),
            Kind::Difference => View::Difference(first(), second()),
            Kind::Sequence => View::Sequence(first(), second()),
            Kind::LtlUntil => View::LtlUntil(first(), second()),
            Kind::Complement => View::Complement(first()),
            Kind::Star => View::Star(first()),
            Kind::LtlNext => View::LtlNext(first()),
        }
    }

    /// The children, left to right.
    ///
    /// ```
    /// use netkat::{Core, Expr};
    ///
    /// let core = Core::from_expr(&Expr::union(Expr::star(Expr::dup()), Expr::one())).unwrap();
    /// let children: Vec<usize> = core.root().children().map(|child| child.index()).collect();
    /// assert_eq!(children, [1, 3]);
    /// ```
    pub fn children(self) -> impl DoubleEndedIterator<Item = Node<'a>> {
        self.child_nodes().into_iter().flatten()
    }

    /// This node and all below it, in prefix order.
    pub fn nodes(self) -> impl ExactSizeIterator<Item = Node<'a>> + DoubleEndedIterator {
        (self.index..self.end()).map(move |index| Node { index, ..self })
    }

    /// The tree below the node as a core of its own.
    pub fn to_core(self) -> Core {
        let moved = |slot: &Slot| match slot.kind.arity() {
            2 => Slot { number: slot.number - self.index as u32, ..*slot },
            _ => *slot,
        };
        Core::of_slots(self.below().iter().map(moved).collect())
    }

    /// The tree below the node as an expression.
    pub fn to_expr(self) -> Exp {
        slots::to_expr(self.below(), &mut Vec::new())
    }

    fn child_nodes(self) -> [Option<Self>; 2] {
        let slot = self.slot();
        let first = Node { index: self.index + 1, ..self };
        match slot.kind.arity() {
            0 => [None, None],
            1 => [Some(first), None],
            _ => [Some(first), Some(Node { index: slot.number as usize, ..self })],
        }
    }

    fn slot(self) -> &'a Slot {
        &self.slots[self.index]
    }

    /// The slots of this node and all below it.
    fn below(self) -> &'a [Slot] {
        &self.slots[self.index..self.end()]
    }

    /// The index behind the tree below this node: behind the leaf that its last children lead to.
    fn end(self) -> usize {
        let mut last = self;
        while let Some(child) = last.children().next_back() {
            last = child;
        }
        last.index + 1
    }
}

impl PartialEq for Node<'_> {
    fn eq(&self, other: &Self) -> bool {
        // A kind says how many children there are, so equal heads in prefix order are equal trees.
        let (left, right) = (self.below(), other.below());
        left.len() == right.len() && left.iter().zip(right).all(|(a, b)| a.same_head(b))
    }
}

impl Eq for Node<'_> {}

impl Hash for Node<'_> {
    fn hash<H: Hasher>(&self, state: &mut H) {
        for node in self.nodes() {
            node.record().hash(state);
        }
    }
}

/// Writes the tree below the node, as for [`Core`].
impl fmt::Debug for Node<'_> {
    fn fmt(&self, f: &mut fmt::Formatter<'_>) -> fmt::Result {
        debug::tree(*self, f)
    }
}

impl Shown for Node<'_> {
    fn name(self) -> &'static str {
        NAMES[usize::from(self.kind().number())]
    }

    fn children(self) -> [Option<Self>; 3] {
        let [first, second] = self.child_nodes();
        [first, second, None]
    }

    fn write_parts(self, f: &mut fmt::Formatter<'_>) -> Result<bool, fmt::Error> {
        if let View::Assign(field, value) | View::Test(field, value) = self.view() {
            write!(f, "({field}, {value}")?;
            return Ok(true);
        }
        Ok(false)
    }
}
