//! The memory of a core: a slot of eight bytes for each node, in prefix order. Nothing here recurses: a core can be as deep as it is
//! large.

use crate::record::{kind, refusal, Record};
use crate::{Exp, Expr, Kind, Refusal, Value};

/// A node. Its first child, if it has one, is the next slot.
#[derive(Clone, Copy, Debug, PartialEq, Eq, Hash)]
pub(crate) struct Slot {
    pub kind: Kind,
    /// Of Assign and Test, else false.
    pub value: Value,
    /// The field of Assign and Test, the index of a binary operator's second child, else 0.
    pub number: u32,
}

impl Slot {
    pub fn new(kind: Kind) -> Self {
        Slot { kind, value: false, number: 0 }
    }

    /// The expression that a leaf is.
    #[inline]
    pub fn to_expr(self) -> Exp {
        match self.kind {
            Kind::Test => Expr::test(self.number, self.value),
            Kind::Assign => Expr::assign(self.number, self.value),
            Kind::One => Expr::one(),
            Kind::Top => Expr::top(),
            Kind::Dup => Expr::dup(),
            Kind::End => Expr::end(),
            _ => Expr::zero(),
        }
    }

    /// Whether the nodes are equal, children aside.
    pub fn same_head(&self, other: &Slot) -> bool {
        self.kind == other.kind && self.value == other.value && (self.kind.arity() == 2 || self.number == other.number)
    }
}

/// Takes nodes in prefix order and finds the second children.
struct Builder<'a> {
    slots: &'a mut Vec<Slot>,
    /// The innermost operator whose first child is not complete. Until it is, the operator's slot holds the next such operator
    /// further out.
    pending: u32,
    complete: bool,
}

/// Why bytes that were just written are not refused.
pub(crate) const GOOD_FORM: &str = "the library and this crate write cores of good form";

/// Ends the list of pending operators; no index.
const NONE: u32 = u32::MAX;

impl<'a> Builder<'a> {
    /// Builds in `slots`, which are replaced.
    fn new(slots: &'a mut Vec<Slot>) -> Self {
        slots.clear();
        Builder { slots, pending: NONE, complete: false }
    }

    /// Appends a node. Refused by 42 if its index does not fit in a slot.
    fn push(&mut self, slot: Slot) -> Result<(), u32> {
        let index = u32::try_from(self.slots.len()).ok().filter(|index| *index < NONE).ok_or(42u32)?;
        self.slots.push(slot);
        match slot.kind.arity() {
            0 => match self.slots.get_mut(self.pending as usize) {
                // A leaf ends the first child of the innermost pending operator, whose second child is next.
                Some(operator) => {
                    self.pending = operator.number;
                    operator.number = index + 1;
                }
                None => self.complete = true,
            },
            1 => {}
            _ => {
                self.slots[index as usize].number = self.pending;
                self.pending = index;
            }
        }
        Ok(())
    }

    /// Reads what a core mostly consists of, operators and their tests, away from the end of the bytes and of the tree. Gives the
    /// bytes that are not read.
    fn read_common<'b>(&mut self, mut bytes: &'b [u8]) -> &'b [u8] {
        let slots = &mut *self.slots;
        let mut pending = self.pending;
        while let Some(window) = bytes.first_chunk::<16>() {
            let (first, second) = (word_at::<0>(window), word_at::<2>(window));
            let index = slots.len();
            if index >= NONE as usize - 2 {
                break;
            }
            if is_binary(first) && is_atom(second) {
                // The first child is this leaf.
                slots.extend_from_slice(&[Slot { number: index as u32 + 2, ..operator(first) }, atom(second)]);
                bytes = &bytes[2 + atom_length(second)..];
            } else if is_binary(first) {
                slots.push(Slot { number: pending, ..operator(first) });
                pending = index as u32;
                bytes = &bytes[2..];
            } else if is_atom(first) && (pending as usize) < index {
                slots.push(atom(first));
                let operator = &mut slots[pending as usize];
                pending = operator.number;
                operator.number = index as u32 + 1;
                bytes = &bytes[atom_length(first)..];
            } else {
                break;
            }
        }
        self.pending = pending;
        bytes
    }

    /// Reads a record of good form. Gives the bytes behind it.
    fn read<'b>(&mut self, bytes: &'b [u8]) -> Option<&'b [u8]> {
        let (slot, length) = slot_of_bytes(bytes)?;
        let rest = bytes.get(length..)?;
        self.push(slot).ok()?;
        Some(rest)
    }
}

/// Replaces `slots` by those of the bytes of a core that the library or this crate wrote. Others are read by the library: see
/// [`of_records`].
///
/// # Panics
///
/// If they are not of good form, or more than slots can be.
pub(crate) fn decode(bytes: &[u8], slots: &mut Vec<Slot>) {
    let mut builder = Builder::new(slots);
    let mut rest = bytes;
    while !builder.complete {
        rest = builder.read_common(rest);
        rest = builder.read(rest).expect(GOOD_FORM);
    }
    assert!(rest.is_empty(), "{GOOD_FORM}");
}

/// The slots of a core's records as the library reads them, three numbers each.
pub(crate) fn of_records(numbers: &[u32]) -> Vec<Slot> {
    let mut slots = Vec::with_capacity(numbers.len() / 3);
    let mut builder = Builder::new(&mut slots);
    for slot in slots_of_records(numbers) {
        builder.push(slot).expect("the library reads at most 65,535 records");
    }
    slots
}

/// The slots of the records, before second children are known.
pub(crate) fn slots_of_records(numbers: &[u32]) -> impl Iterator<Item = Slot> + '_ {
    numbers.chunks_exact(3).map(|record| {
        let kind = u8::try_from(record[0]).ok().and_then(Kind::from_number).expect("the library reads kinds of a core");
        Slot { kind, value: record[2] == 1, number: record[1] }
    })
}

/// The slot of bytes that are one leaf of good form. Bytes that were just written are read in the pieces that they were written in: the
/// processor waits for others.
#[inline]
pub(crate) fn leaf_of_bytes(bytes: &[u8]) -> Option<Slot> {
    let (kind, value, number) = match *bytes {
        [0x25, kind, a, b, c, d, 1] => (kind, true, u32::from_le_bytes([a, b, c, d])),
        [0x05, kind, a, b, c, d] => (kind, false, u32::from_le_bytes([a, b, c, d])),
        [0x21, kind, 1] => (kind, true, 0),
        [0x01, kind] => (kind, false, 0),
        [0x00] => (kind::ZERO, false, 0),
        _ => return None,
    };
    let slot = Slot { kind: Kind::from_number(kind)?, value, number };
    (slot.kind.arity() == 0).then_some(slot)
}

/// The slot and the length of the record of good form that the bytes begin with.
fn slot_of_bytes(bytes: &[u8]) -> Option<(Slot, usize)> {
    let word = first_word(bytes);
    let [map, number, value, ..] = word.to_le_bytes();
    if map == 0 {
        return Some((Slot::new(Kind::Zero), 1));
    }
    let kind = Kind::from_number(number)?;
    match map {
        1 if kind != Kind::Zero => Some((Slot::new(kind), 2)),
        0x21 if matches!(kind, Kind::Assign | Kind::Test) && value == 1 => Some((Slot { value: true, ..Slot::new(kind) }, 3)),
        _ => is_atom(word).then(|| (atom(word), atom_length(word))),
    }
}

/// The first eight bytes as a number, the first one lowest; where there are fewer, zeros.
#[inline]
fn first_word(bytes: &[u8]) -> u64 {
    match (bytes.first_chunk(), bytes.first_chunk(), bytes.last_chunk()) {
        (Some(word), ..) => u64::from_le_bytes(*word),
        // Four bytes from either end; where they overlap they are the same.
        (None, Some(front), Some(back)) => {
            u64::from(u32::from_le_bytes(*front)) | u64::from(u32::from_le_bytes(*back)) << (8 * (bytes.len() - 4))
        }
        _ => bytes.iter().rev().fold(0, |word, byte| word << 8 | u64::from(*byte)),
    }
}

/// Eight bytes of the window as a number, the first one lowest.
#[inline(always)]
fn word_at<const AT: usize>(window: &[u8; 16]) -> u64 {
    u64::from_le_bytes(window[AT..AT + 8].try_into().expect("eight bytes"))
}

/// Whether the word begins with the record of a binary operator.
#[inline(always)]
fn is_binary(word: u64) -> bool {
    let [map, number, ..] = word.to_le_bytes();
    map == 1 && (kind::UNION..=kind::LTL_UNTIL).contains(&number)
}

/// The slot of the operator that the word begins with.
#[inline(always)]
fn operator(word: u64) -> Slot {
    Slot::new(Kind::from_number((word >> 8) as u8).unwrap_or(Kind::Zero))
}

/// Whether the word begins with the record, of good form, of an Assign or Test of a field but 0. There is no branch on the value,
/// here and below: it would be mispredicted on every other test.
#[inline(always)]
fn is_atom(word: u64) -> bool {
    const NUMBER: u16 = 1 << 5;
    // The map has a kind and a start, and perhaps a number, which can only be 1. The kind follows.
    let head = (word as u16 & !NUMBER).wrapping_sub(0x0505);
    let written = (word >> 48) as u8;
    (head & !0x0100 == 0) & (word >> 16 & 0xffff_ffff != 0) & ((word >> 5 & 1) & u64::from(written != 1) == 0)
}

#[inline(always)]
fn atom(word: u64) -> Slot {
    let kind = if word & 0x0100 != 0 { Kind::Assign } else { Kind::Test };
    Slot { kind, value: word & 1 << 5 != 0, number: (word >> 16) as u32 }
}

#[inline(always)]
fn atom_length(word: u64) -> usize {
    6 + (word >> 5 & 1) as usize
}

/// The slot of a record of the core, before its second child is known.
pub(crate) fn slot_of<L>(record: &Record<L>) -> Option<Slot> {
    let kind = Kind::from_number(record.kind)?;
    Some(Slot { kind, value: record.number == 1, number: record.start })
}

/// The bytes of a core.
pub(crate) fn encode(slots: &[Slot]) -> Vec<u8> {
    let mut bytes = Vec::with_capacity(slots.len() * 5);
    for slot in slots {
        let number = slot.kind.number();
        let has_start = matches!(slot.kind, Kind::Assign | Kind::Test) && slot.number != 0;
        bytes.push(u8::from(number != 0) | u8::from(has_start) << 2 | u8::from(slot.value) << 5);
        if number != 0 {
            bytes.push(number);
        }
        if has_start {
            bytes.extend(slot.number.to_le_bytes());
        }
        if slot.value {
            bytes.push(1);
        }
    }
    bytes
}

/// The boxed tree of the slots of a whole tree. `complete` is empty before and after.
pub(crate) fn to_expr(slots: &[Slot], complete: &mut Vec<Exp>) -> Exp {
    // From the last node, which is a leaf, to the first: a node's children are made before it. `tree` is what was made last.
    let (last, mut rest) = slots.split_last().expect("a core has a node");
    let mut tree = last.to_expr();
    while let Some((slot, front)) = rest.split_last() {
        rest = front;
        match (slot.kind.arity(), front.split_last()) {
            // The operator before a leaf has it as its first child, and as its second what was made before. Most of a core is such
            // pairs.
            (0, Some((operator, front))) if operator.kind.arity() == 2 => {
                tree = binary(operator, slot.to_expr(), tree);
                rest = front;
            }
            (0, _) => complete.push(std::mem::replace(&mut tree, slot.to_expr())),
            (1, _) => tree = unary(slot, tree),
            _ => tree = binary(slot, tree, complete.pop().expect("the nodes of a whole tree")),
        }
    }
    tree
}

#[inline]
fn unary(slot: &Slot, child: Exp) -> Exp {
    match slot.kind {
        Kind::Complement => Expr::complement(child),
        Kind::Star => Expr::star(child),
        _ => Expr::ltl_next(child),
    }
}

#[inline]
fn binary(slot: &Slot, first: Exp, second: Exp) -> Exp {
    match slot.kind {
        Kind::Union => Expr::union(first, second),
        Kind::Intersect => Expr::intersect(first, second),
        Kind::Xor => Expr::xor(first, second),
        Kind::Difference => Expr::difference(first, second),
        Kind::Sequence => Expr::sequence(first, second),
        _ => Expr::ltl_until(first, second),
    }
}

/// The slots of an expression that has only kinds of the core, else 41 at the first node of another kind.
pub(crate) fn of_expr(expr: &Expr) -> Result<Vec<Slot>, Refusal> {
    let mut slots = Vec::new();
    let mut builder = Builder::new(&mut slots);
    for (place, node) in expr.nodes().enumerate() {
        let pushed = slot_of(&node.record()).ok_or(41).and_then(|slot| builder.push(slot));
        pushed.map_err(|number| refusal(number, place))?;
    }
    slots.shrink_to_fit();
    Ok(slots)
}
