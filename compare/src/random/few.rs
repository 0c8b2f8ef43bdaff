//! Catalogues of few rows and columns: tables without rows or with one, tables without columns, and tables under empty
//! ones, anywhere in the tree.

use super::trees::{anywhere, Tree};
use super::{Draft, DraftTable, Random};
use crate::simple::{MISSING, TABLES};

/// The most visible columns, and the most that one table has.
const VISIBLE: usize = 5;
const COLUMNS: usize = 2;

pub fn draft(random: &mut Random) -> Draft {
    let (tree, tables) = (Tree::any(random), random.from_to(1, TABLES));
    let (empty, bare) = (random.pick(&[2, 4, 8, 16]), random.pick(&[2, 3, 8]));
    let mut draft = Draft::default();
    for i in 0..tables {
        let parent = tree.parent(random, i);
        let room = COLUMNS.min(VISIBLE - draft.visible(parent));
        let columns = if random.once_in(bare) { 0 } else { random.from_to(room.min(1), room) };
        let above = draft.rows(parent);
        let rows = if above == Some(0) || random.once_in(empty) { 0 } else { random.pick(&[1, 1, 1, 2, 2, 3]) };
        let parent_rows = anywhere(random, above, rows);
        let mut column = || (0..rows).map(|_| random.pick(&[0, 0, 0, 1, 2, MISSING])).collect();
        let codes: Vec<Vec<u32>> = (0..columns).map(|_| column()).collect();
        draft.tables.push(DraftTable::of_columns(parent, &parent_rows, &codes));
    }
    draft
}
