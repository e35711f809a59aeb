//! Terms, which can be built at any depth: no stack grows with it.

use std::fmt;

use crate::debug::{self, Shown};
use crate::limits::{MAX_LEVELS, MAX_RECORDS};
use crate::record::{kind, refusal, Input, Record, NAMES};
use crate::{Exp, Expr, Field, Pattern, Refusal, Value};

/// Refuses a record by its index and its level, as form does before it reads the record.
fn admit(place: usize, level: usize) -> Result<(), u32> {
    if place >= MAX_RECORDS {
        Err(6)
    } else if level > MAX_LEVELS {
        Err(7)
    } else {
        Ok(())
    }
}

/// All nodes in prefix order, which is the order of the records.
pub(crate) fn nodes(root: &Expr) -> impl Iterator<Item = &Expr> {
    let mut next = Some(root);
    let mut pending = Vec::new();
    std::iter::from_fn(move || {
        let node = next?;
        let [first, second, third] = node.children();
        pending.extend(third);
        pending.extend(second);
        next = first.or_else(|| pending.pop());
        Some(node)
    })
}

/// The tree of the nodes' records, the last one first.
fn build(records: impl Iterator<Item = Record<Vec<bool>>>) -> Exp {
    // A node's children are complete before it, its first child on top.
    let mut complete: Vec<Exp> = Vec::new();
    for record in records {
        let node = Expr::from_record(record, || complete.pop().expect("the records of a whole tree"));
        complete.push(Box::new(node));
    }
    complete.pop().expect("the records of a whole tree")
}

/// The tree of the bytes, or the refusal of their form.
pub(crate) fn decode(bytes: &[u8]) -> Result<Exp, Refusal> {
    let mut input = Input(bytes);
    let mut records = Vec::new();
    // For each open level, how many of its records are still to come.
    let mut open = vec![1];
    while let Some(left) = open.last_mut() {
        if *left == 0 {
            open.pop();
            continue;
        }
        *left -= 1;
        let place = records.len();
        let record = admit(place, open.len()).and_then(|()| Record::read(&mut input)).map_err(|number| refusal(number, place))?;
        open.push(record.children());
        records.push(record);
    }
    if !input.0.is_empty() {
        return Err(refusal(8, records.len()));
    }
    Ok(build(records.into_iter().rev()))
}

/// Appends the bytes of the tree, or gives the refusal that form would give if they could be written.
pub(crate) fn encode(root: &Expr, bytes: &mut Vec<u8>) -> Result<(), Refusal> {
    if root.is_leaf() {
        return write(root, bytes).map_err(|number| refusal(number, 0));
    }
    // Room at once for the siblings of most trees: glibc joins all freed boxes where a vector that grew is freed.
    let mut pending = Vec::with_capacity(32);
    let (mut next, mut level, mut place) = (root, 1, 0);
    loop {
        admit(place, level).and_then(|()| write(next, bytes)).map_err(|number| refusal(number, place))?;
        place += 1;
        let [first, second, third] = next.children();
        match first {
            Some(first) => {
                level += 1;
                pending.extend(third.map(|third| (third, level)));
                pending.extend(second.map(|second| (second, level)));
                next = first;
            }
            None => match pending.pop() {
                Some((node, of_level)) => (next, level) = (node, of_level),
                None => return Ok(()),
            },
        }
    }
}

/// Appends the record of a node. Each kind has an arm of its own, so that the fields it does not have cost nothing.
#[inline]
fn write(node: &Expr, out: &mut Vec<u8>) -> Result<(), u32> {
    match node {
        Expr::VarMatch(name, pattern) => match &**pattern {
            Pattern::Exact(a) => Record { name: *name, a: a.as_slice(), ..Record::new(kind::VAR_MATCH) }.write(out),
            _ => Record { name: *name, ..Record::new(kind::VAR_MATCH) }.with_pattern(pattern).write(out),
        },
        Expr::BitRangeMatch(start, end, pattern) => {
            Record { start: *start, end: *end, ..Record::new(kind::BIT_RANGE_MATCH) }.with_pattern(pattern).write(out)
        }
        Expr::VarAssign(name, bits) => Record { name: *name, a: bits.as_slice(), ..Record::new(kind::VAR_ASSIGN) }.write(out),
        Expr::VarTest(name, bits) => Record { name: *name, a: bits.as_slice(), ..Record::new(kind::VAR_TEST) }.write(out),
        Expr::Assign(field, value) => write_atom(kind::ASSIGN, *field, *value, out),
        Expr::Test(field, value) => write_atom(kind::TEST, *field, *value, out),
        Expr::Let(..) | Expr::LetBitRange(..) | Expr::Var(_) => node.record().write(out),
        Expr::BitRangeAssign(..) | Expr::BitRangeTest(..) => node.record().write(out),
        Expr::Zero => {
            out.push(0);
            Ok(())
        }
        _ => {
            out.extend_from_slice(&[1, node.record().kind]);
            Ok(())
        }
    }
}

/// The record of an Assign or Test, in one store: the processor waits where a load goes over two.
#[inline]
fn write_atom(kind: u8, field: Field, value: Value, out: &mut Vec<u8>) -> Result<(), u32> {
    let map = 1 | u8::from(field != 0) << 2 | u8::from(value) << 5;
    let length = out.len() + usize::from(value);
    let [a, b, c, d] = field.to_le_bytes();
    if field == 0 {
        out.extend_from_slice(&[map, kind, 1, 0]);
        out.truncate(length + 2);
    } else {
        out.extend_from_slice(&[map, kind, a, b, c, d, 1, 0]);
        out.truncate(length + 6);
    }
    Ok(())
}

/// How many levels a drop recurses over. Most trees have fewer, and recursion is the quickest way to free them.
const RECURSION: u32 = 64;

/// Makes the children leaves, and frees all that is below them.
#[inline(always)]
fn clear_children(node: &mut Expr, levels: u32) {
    for child in node.children_mut().into_iter().flatten() {
        if !child.is_leaf() {
            clear(child, levels);
        }
    }
}

/// Makes the node a leaf, and frees all that is below it.
fn clear(node: &mut Expr, levels: u32) {
    match levels {
        0 => clear_deep(node),
        _ => clear_children(node, levels - 1),
    }
    *node = Expr::Zero;
}

/// The same without recursion: children with children are moved out of their boxes before the node is dropped.
#[cold]
fn clear_deep(node: &mut Expr) {
    let mut pending = vec![std::mem::take(node)];
    while let Some(mut node) = pending.pop() {
        let inner = node.children_mut().into_iter().flatten().filter(|child| !child.is_leaf());
        pending.extend(inner.map(|child| std::mem::take(&mut **child)));
    }
}

/// Most nodes are leaves, or have none but leaves below them: these cost no call.
#[inline]
fn has_inner_child(node: &Expr) -> bool {
    let [first, second, third] = node.children();
    let inner = |child: &Expr| !child.is_leaf();
    first.is_some_and(inner) || second.is_some_and(inner) || third.is_some_and(inner)
}

#[inline(never)]
fn drop_below(node: &mut Expr) {
    clear_children(node, RECURSION);
}

impl Drop for Expr {
    #[inline]
    fn drop(&mut self) {
        if !self.is_leaf() && has_inner_child(self) {
            drop_below(self);
        }
    }
}

impl Clone for Expr {
    fn clone(&self) -> Self {
        let nodes: Vec<&Expr> = nodes(self).collect();
        *build(nodes.into_iter().rev().map(|node| node.record().to_owned()))
    }
}

impl PartialEq for Expr {
    fn eq(&self, other: &Self) -> bool {
        // A record says how many children it has, so equal records in prefix order are equal trees.
        nodes(self).map(Expr::record).eq(nodes(other).map(Expr::record))
    }
}

impl Eq for Expr {}

/// Writes the tree on one line, as `derive(Debug)` would; with `{:#?}` a line for each node, indented down to level 40.
impl fmt::Debug for Expr {
    fn fmt(&self, f: &mut fmt::Formatter<'_>) -> fmt::Result {
        debug::tree(self, f)
    }
}

impl Shown for &Expr {
    fn name(self) -> &'static str {
        NAMES[usize::from(self.record().kind)]
    }

    fn children(self) -> [Option<Self>; 3] {
        Expr::children(self)
    }

    fn write_parts(self, f: &mut fmt::Formatter<'_>) -> Result<bool, fmt::Error> {
        match self {
            Expr::Assign(field, value) | Expr::Test(field, value) => write!(f, "({field}, {value}")?,
            Expr::Let(name, ..) | Expr::Var(name) => write!(f, "({name}")?,
            Expr::LetBitRange(name, start, end, _) => write!(f, "({name}, {start}, {end}")?,
            Expr::VarAssign(name, bits) | Expr::VarTest(name, bits) => write!(f, "({name}, {bits:?}")?,
            Expr::BitRangeAssign(start, end, bits) | Expr::BitRangeTest(start, end, bits) => {
                write!(f, "({start}, {end}, {bits:?}")?
            }
            Expr::BitRangeMatch(start, end, pattern) => write!(f, "({start}, {end}, {pattern:?}")?,
            Expr::VarMatch(name, pattern) => write!(f, "({name}, {pattern:?}")?,
            _ => return Ok(false),
        }
        Ok(true)
    }
}
