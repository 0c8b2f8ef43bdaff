//! Which lower-numbered table is the parent of a table, and which of its rows the parent of a row.

use super::Random;
use crate::simple::NO_PARENT;

#[derive(Clone, Copy)]
pub enum Tree {
    Line,
    Star,
    Any,
}

impl Tree {
    /// One of the three.
    pub fn any(random: &mut Random) -> Tree {
        random.pick(&[Tree::Line, Tree::Star, Tree::Any])
    }

    /// The parent of table i.
    pub fn parent(self, random: &mut Random, i: usize) -> usize {
        match self {
            _ if i == 0 => NO_PARENT,
            Tree::Line => i - 1,
            Tree::Star => 0,
            Tree::Any => random.below(i),
        }
    }
}

/// So many rows under any rows of a parent table with rows, or of none.
pub fn anywhere(random: &mut Random, above: Option<usize>, count: usize) -> Vec<usize> {
    (0..count).map(|_| above.map_or(NO_PARENT, |above| random.below(above))).collect()
}
