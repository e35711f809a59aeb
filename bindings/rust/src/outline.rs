//! A policy's records in written order, with what stands around each.

use std::collections::HashSet;

use crate::{Expr, Field};

/// Where a node stands.
pub(crate) struct Spot<'a> {
    pub node: &'a Expr,
    /// 1 for the root.
    pub level: usize,
    /// The parent's place, and which of its children this is.
    parent: Option<(usize, usize)>,
    /// The children's places.
    children: [usize; 3],
}

pub(crate) struct Outline<'a> {
    pub spots: Vec<Spot<'a>>,
}

impl<'a> Outline<'a> {
    pub fn of(policy: &'a Expr) -> Self {
        let mut spots: Vec<Spot> = Vec::new();
        let mut pending = vec![(policy, 1, None)];
        while let Some((node, level, parent)) = pending.pop() {
            let place = spots.len();
            if let Some((parent, child)) = parent {
                let parent: &mut Spot = &mut spots[parent];
                parent.children[child] = place;
            }
            spots.push(Spot { node, level, parent, children: [0; 3] });
            let children = node.children().into_iter().enumerate().rev();
            pending.extend(children.filter_map(|(i, child)| Some((child?, level + 1, Some((place, i))))));
        }
        Outline { spots }
    }

    /// What stands around a record, innermost first: each node's place, and in which of its children the record lies.
    fn around(&self, place: usize) -> impl Iterator<Item = (usize, usize)> + '_ {
        let parent = |place: usize| self.spots[place].parent;
        std::iter::successors(parent(place), move |(above, _)| parent(*above))
    }

    /// The aliases in scope at a record, innermost first, hidden ones included.
    pub fn aliases(&self, place: usize) -> impl Iterator<Item = (u16, Field, Field)> + '_ {
        self.around(place).filter_map(|(above, _)| match *self.spots[above].node {
            Expr::LetBitRange(name, start, end, _) => Some((name, start, end)),
            _ => None,
        })
    }

    /// The variables in scope at a record with the places of their definitions, innermost first, hidden ones included. A Let is not around
    /// its own definition.
    pub fn variables(&self, place: usize) -> impl Iterator<Item = (u16, usize)> + '_ {
        self.around(place).filter_map(|(above, child)| match *self.spots[above].node {
            Expr::Let(name, ..) if child == 1 => Some((name, self.spots[above].children[0])),
            _ => None,
        })
    }

    /// Whether a record lies in the definition of a variable of this name.
    pub fn in_definition_of(&self, name: u16, place: usize) -> bool {
        self.around(place).any(|(above, child)| child == 0 && matches!(self.spots[above].node, Expr::Let(n, ..) if *n == name))
    }

    pub fn alias(&self, name: u16, place: usize) -> Option<(Field, Field)> {
        self.aliases(place).find(|alias| alias.0 == name).map(|(_, start, end)| (start, end))
    }

    pub fn definition(&self, name: u16, place: usize) -> Option<usize> {
        self.variables(place).find(|variable| variable.0 == name).map(|(_, definition)| definition)
    }

    pub fn child(&self, place: usize, child: usize) -> usize {
        self.spots[place].children[child]
    }

    /// The first record that keeps the term at a place from being a test, by the requirement's test sort.
    pub fn non_test(&self, place: usize) -> Option<usize> {
        let mut seen = HashSet::new();
        let mut pending = vec![place];
        while let Some(place) = pending.pop() {
            if !seen.insert(place) {
                continue;
            }
            let Spot { node, children: [a, b, c], .. } = self.spots[place];
            match *node {
                Expr::Zero | Expr::One | Expr::TestNegation(_) => {}
                Expr::Test(..) | Expr::VarTest(..) | Expr::BitRangeTest(..) => {}
                Expr::BitRangeMatch(..) | Expr::VarMatch(..) => {}
                Expr::Union(..) | Expr::Intersect(..) | Expr::Xor(..) | Expr::Difference(..) | Expr::Sequence(..) => {
                    pending.extend([b, a])
                }
                Expr::IfThenElse(..) => pending.extend([c, b]),
                Expr::Let(..) => pending.push(b),
                Expr::LetBitRange(..) => pending.push(a),
                Expr::Var(name) => pending.extend(self.definition(name, place)),
                Expr::BitRangeAssign(start, end, _) if start == end => {}
                Expr::VarAssign(name, _) if self.alias(name, place).is_some_and(|(start, end)| start == end) => {}
                _ => return Some(place),
            }
        }
        None
    }
}
