//! When two rows agree, and what is said of the rows of a target by it: that a dependency holds, or is minimal, that a
//! left side is backed, or a key, and that the two sides are listed.

use super::{Catalogue, MISSING, ROW};

// ---- Agreement ----

/// The row of `table`, the target or an ancestor of it, to which the parent numbers lead from a row of the target.
pub fn reached(catalogue: &Catalogue, target: usize, row: usize, table: usize) -> usize {
    let mut at_table = target;
    let mut at_row = row;
    while at_table != table {
        at_row = catalogue.tables[at_table].rows[at_row].parent;
        at_table = catalogue.tables[at_table].parent;
    }
    at_row
}

/// "Two rows agree on a visible column if they reach the same row of that column's table,
/// or if both cells are present with equal codes."
pub fn agree_on_column(catalogue: &Catalogue, target: usize, x: usize, y: usize, k: usize) -> bool {
    let column = catalogue.tables[target].visible[k];
    let row_x = reached(catalogue, target, x, column.table);
    let row_y = reached(catalogue, target, y, column.table);
    let cell_x = catalogue.tables[column.table].rows[row_x].codes[column.own];
    let cell_y = catalogue.tables[column.table].rows[row_y].codes[column.own];
    row_x == row_y || (cell_x != MISSING && cell_y != MISSING && cell_x == cell_y)
}

pub(crate) fn member(set: u32, k: usize) -> bool {
    set & (1 << k) != 0
}

/// Whether the right is in the set; the row is in none.
pub fn right_in(set: u32, right: u32) -> bool {
    right != ROW && member(set, right as usize)
}

/// "They agree on a set if they agree on each member."
pub fn agree_on_set(catalogue: &Catalogue, target: usize, x: usize, y: usize, set: u32) -> bool {
    let n = catalogue.tables[target].visible.len();
    (0..n).all(|k| !member(set, k) || agree_on_column(catalogue, target, x, y, k))
}

/// "Two rows agree on the row only if they are one row."
pub fn agree_on_right(catalogue: &Catalogue, target: usize, x: usize, y: usize, right: u32) -> bool {
    if right == ROW {
        x == y
    } else {
        agree_on_column(catalogue, target, x, y, right as usize)
    }
}

// ---- Dependencies ----

/// Two rows, the lower first, that agree on the left and disagree on the right.
pub fn breaks(catalogue: &Catalogue, target: usize, left: u32, right: u32, x: usize, y: usize) -> bool {
    x < y
        && y < catalogue.tables[target].rows.len()
        && agree_on_set(catalogue, target, x, y, left)
        && !agree_on_right(catalogue, target, x, y, right)
}

/// The first breaking pair, if there is one: the lowest first row, then the lowest second row.
pub fn first_pair(catalogue: &Catalogue, target: usize, left: u32, right: u32) -> Option<(usize, usize)> {
    let rows = catalogue.tables[target].rows.len();
    for x in 0..rows {
        for y in x + 1..rows {
            if breaks(catalogue, target, left, right, x, y) {
                return Some((x, y));
            }
        }
    }
    None
}

/// "A dependency holds if all pairs of rows that agree on the left agree on the right."
pub fn holds(catalogue: &Catalogue, target: usize, left: u32, right: u32) -> bool {
    first_pair(catalogue, target, left, right).is_none()
}

/// "It is minimal if the right isn't in the left and no left with a column less holds."
pub fn minimal(catalogue: &Catalogue, target: usize, left: u32, right: u32) -> bool {
    let n = catalogue.tables[target].visible.len();
    !right_in(left, right)
        && holds(catalogue, target, left, right)
        && (0..n).all(|k| !member(left, k) || !holds(catalogue, target, left & !(1 << k), right))
}

/// Whether a row of the target has a cell in a visible column: the cell is that of the row reached in the column's
/// table.
fn present(catalogue: &Catalogue, target: usize, row: usize, k: usize) -> bool {
    let column = catalogue.tables[target].visible[k];
    let row = reached(catalogue, target, row, column.table);
    catalogue.tables[column.table].rows[row].codes[column.own] != MISSING
}

/// "A left side is backed if in some row of the target all cells of that left side are present" (02 d).
pub fn backed(catalogue: &Catalogue, target: usize, left: u32) -> bool {
    let n = catalogue.tables[target].visible.len();
    for row in 0..catalogue.tables[target].rows.len() {
        if (0..n).all(|k| !member(left, k) || present(catalogue, target, row, k)) {
            return true;
        }
    }
    false
}

/// "With right 255 the left is a key": any key, minimal or not.
pub fn key(catalogue: &Catalogue, target: usize, left: u32) -> bool {
    holds(catalogue, target, left, ROW)
}

/// "Where a left side is a key, entries for single columns repeat it" (02 e).
pub fn repeats_key(catalogue: &Catalogue, target: usize, left: u32, right: u32) -> bool {
    right != ROW && key(catalogue, target, left)
}

/// Whether the left and right stand in the full listing: of the minimal ones "only backed ones are listed" (02 d), and
/// "an entry with a column on the right is dropped if its left is a key" (02 e).
pub fn listed(catalogue: &Catalogue, target: usize, left: u32, right: u32) -> bool {
    backed(catalogue, target, left)
        && minimal(catalogue, target, left, right)
        && !repeats_key(catalogue, target, left, right)
}

/// The rights of a target: its own columns by visible number, then the row.
pub fn rights(catalogue: &Catalogue, target: usize) -> Vec<u32> {
    let table = &catalogue.tables[target];
    let n = table.visible.len();
    let mut rights: Vec<u32> = (n - table.own..n).map(|k| k as u32).collect();
    rights.push(ROW);
    rights
}
