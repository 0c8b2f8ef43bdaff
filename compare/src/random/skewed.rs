//! Skewed catalogues: columns with one value in most rows, columns that tell all rows apart but two, functions that
//! fail in one row, and most rows of a table under one parent row. So what holds is decided by a few pairs of rows, or
//! by one.

use super::trees::Tree;
use super::{Draft, DraftTable, Random};
use crate::simple::{MISSING, NO_PARENT};

/// The most visible columns and rows.
const VISIBLE: usize = 5;
const ROWS: usize = 28;

pub fn draft(random: &mut Random) -> Draft {
    let (tree, tables) = (Tree::any(random), random.from_to(1, 3));
    let mut draft = Draft::default();
    for i in 0..tables {
        let parent = tree.parent(random, i);
        let room = VISIBLE - draft.visible(parent);
        let (columns, rows) = (random.from_to(room.min(1), room.min(4)), random.from_to(4, ROWS));
        let parent_rows = parent_rows(random, draft.rows(parent), rows);
        let mut codes: Vec<Vec<u32>> = Vec::new();
        for _ in 0..columns {
            let column = column(random, rows, codes.last());
            codes.push(column);
        }
        draft.tables.push(DraftTable::of_columns(parent, &parent_rows, &codes));
    }
    draft
}

/// Most rows under one parent row; or under as many as there are, in turn.
fn parent_rows(random: &mut Random, above: Option<usize>, rows: usize) -> Vec<usize> {
    let Some(above) = above else { return vec![NO_PARENT; rows] };
    let (in_turn, one) = (random.once_in(3), random.below(above));
    let mut parent_row = |k: usize| match k % above {
        next if in_turn => next,
        _ if random.once_in(8) => random.below(above),
        _ => one,
    };
    (0..rows).map(&mut parent_row).collect()
}

/// A column, by itself or by the one before it; one in six has a missing cell.
fn column(random: &mut Random, rows: usize, before: Option<&Vec<u32>>) -> Vec<u32> {
    let mut codes = match (random.below(8), before) {
        (0, Some(before)) => near_function(random, before),
        (1 | 2, Some(before)) => near_key_with(random, before),
        (3 | 4, _) => near_key(random, rows),
        _ => one_value(random, rows),
    };
    if random.once_in(6) {
        codes[random.below(rows)] = MISSING;
    }
    codes
}

/// One value in most rows, and a few others in the rest.
fn one_value(random: &mut Random, rows: usize) -> Vec<u32> {
    let (rest, others) = (random.pick(&[4, 8, 16]), random.from_to(1, 3));
    let mut code = || if random.once_in(rest) { random.from_to(1, others) as u32 } else { 0 };
    (0..rows).map(|_| code()).collect()
}

/// All rows apart but two.
fn near_key(random: &mut Random, rows: usize) -> Vec<u32> {
    let mut codes: Vec<u32> = (0..rows as u32).collect();
    let first = random.below(rows);
    let second = (first + random.from_to(1, rows - 1)) % rows;
    codes[second] = codes[first];
    codes
}

/// With the column before it all rows apart but two: a row's number among those of its value there, but for one row.
fn near_key_with(random: &mut Random, before: &[u32]) -> Vec<u32> {
    let earlier = |k: usize| before[..k].iter().filter(|code| **code == before[k]).count() as u32;
    let mut codes: Vec<u32> = (0..before.len()).map(earlier).collect();
    let others: Vec<usize> = (0..before.len()).filter(|k| codes[*k] > 0).collect();
    if !others.is_empty() {
        let k = random.pick(&others);
        codes[k] = random.below(codes[k] as usize) as u32;
    }
    codes
}

/// A function of the column before it, but for one row.
fn near_function(random: &mut Random, before: &[u32]) -> Vec<u32> {
    let mut codes: Vec<u32> = before.iter().map(|code| code % 3).collect();
    codes[random.below(before.len())] = 3;
    codes
}
