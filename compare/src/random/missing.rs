//! Catalogues in which half of each table's cells are missing, or more: any cells, those of whole rows, or those of
//! whole columns. More are missing in the upper tables, in the lower ones, or in all.

use super::trees::{anywhere, Tree};
use super::{Draft, DraftTable, Random};
use crate::simple::MISSING;

/// The most visible columns and rows.
const VISIBLE: usize = 6;
const ROWS: usize = 9;

/// Which tables lack more cells than half.
#[derive(Clone, Copy)]
enum Where {
    Above,
    Below,
    Everywhere,
}

pub fn draft(random: &mut Random) -> Draft {
    let (tree, tables) = (Tree::any(random), random.from_to(1, 4));
    let most = random.pick(&[Where::Above, Where::Below, Where::Everywhere]);
    let mut draft = Draft::default();
    for i in 0..tables {
        let parent = tree.parent(random, i);
        let room = VISIBLE - draft.visible(parent);
        let (columns, rows) = (random.from_to(room.min(1), room.min(4)), random.from_to(2, ROWS));
        let parent_rows = anywhere(random, draft.rows(parent), rows);
        let mut codes: Vec<Vec<u32>> = (0..columns).map(|_| column(random, rows)).collect();
        let more = match most {
            Where::Above => 2 * i < tables,
            Where::Below => 2 * i + 1 >= tables,
            Where::Everywhere => true,
        };
        let eighths = if more { random.from_to(5, 8) } else { 4 };
        leave_out(random, eighths, &mut codes);
        draft.tables.push(DraftTable::of_columns(parent, &parent_rows, &codes));
    }
    draft
}

/// Few values, or another in each row.
fn column(random: &mut Random, rows: usize) -> Vec<u32> {
    let values = random.pick(&[1, 2, 2, 3, 3, 1_000]);
    (0..rows).map(|k| if values > rows { k as u32 } else { random.below(values) as u32 }).collect()
}

/// Leaves out so many eighths of all cells, rounded up: any of them, or those of whole rows or columns.
fn leave_out(random: &mut Random, eighths: usize, codes: &mut [Vec<u32>]) {
    let (columns, rows) = (codes.len(), codes.first().map_or(0, Vec::len));
    let cells = (0..columns).flat_map(|column| (0..rows).map(move |row| (column, row)));
    let place = |(column, row): (usize, usize), way: usize| [column * rows + row, row, column][way];
    let way = random.below(3);
    let all = [columns * rows, rows, columns][way];
    let left_out = some(random, (all * eighths).div_ceil(8), all);
    cells.filter(|cell| left_out[place(*cell, way)]).for_each(|(column, row)| codes[column][row] = MISSING);
}

/// Which so many of all are taken.
fn some(random: &mut Random, count: usize, all: usize) -> Vec<bool> {
    let mut taken = vec![false; all];
    for _ in 0..count {
        let rest: Vec<usize> = (0..all).filter(|i| !taken[*i]).collect();
        taken[random.pick(&rest)] = true;
    }
    taken
}
