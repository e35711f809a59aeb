//! Debug output of trees, without recursion.

use std::fmt;

/// The node of a tree, by reference.
pub(crate) trait Shown: Copy {
    fn name(self) -> &'static str;

    /// The children, left to right, in front.
    fn children(self) -> [Option<Self>; 3];

    /// Writes an opening parenthesis and what stands before the children, and gives true; or gives false if nothing does.
    fn write_parts(self, f: &mut fmt::Formatter<'_>) -> Result<bool, fmt::Error>;
}

/// A deep tree would be as wide as it is deep, so beyond this level the lines are indented no further.
const DEEPEST_INDENT: usize = 40;

enum Piece<T> {
    /// A node of a level.
    Node(T, usize),
    /// What stands before a child of a level.
    Before { level: usize, first: bool },
    /// What stands behind the children of a node of a level.
    Behind(usize),
}

/// Writes the tree as `derive(Debug)` would, on one line; with `{:#?}` each child on a line of its own.
pub(crate) fn tree<T: Shown>(root: T, f: &mut fmt::Formatter<'_>) -> fmt::Result {
    let mut pending = vec![Piece::Node(root, 0)];
    while let Some(piece) = pending.pop() {
        match piece {
            Piece::Node(node, level) => write_head(node, level, &mut pending, f)?,
            Piece::Before { level, first } => {
                let comma = if first { "" } else { "," };
                f.write_str(comma)?;
                if f.alternate() {
                    new_line(level, f)?;
                } else if !first {
                    f.write_str(" ")?;
                }
            }
            Piece::Behind(level) => {
                if f.alternate() {
                    f.write_str(",")?;
                    new_line(level, f)?;
                }
                f.write_str(")")?;
            }
        }
    }
    Ok(())
}

/// Writes a node up to its children, which are left pending.
fn write_head<T: Shown>(node: T, level: usize, pending: &mut Vec<Piece<T>>, f: &mut fmt::Formatter<'_>) -> fmt::Result {
    f.write_str(node.name())?;
    let has_parts = node.write_parts(f)?;
    let children = node.children();
    if children[0].is_none() {
        return f.write_str(if has_parts { ")" } else { "" });
    }
    if !has_parts {
        f.write_str("(")?;
    }
    pending.push(Piece::Behind(level));
    for i in (0..children.len()).rev() {
        if let Some(child) = children[i] {
            pending.push(Piece::Node(child, level + 1));
            pending.push(Piece::Before { level: level + 1, first: i == 0 && !has_parts });
        }
    }
    Ok(())
}

fn new_line(level: usize, f: &mut fmt::Formatter<'_>) -> fmt::Result {
    write!(f, "\n{:1$}", "", 4 * level.min(DEEPEST_INDENT))
}
