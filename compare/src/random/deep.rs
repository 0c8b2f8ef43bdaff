//! Deep catalogues: chains of 8 to 16 tables, some with a table or two beside the chain. Few columns are spread over
//! all of it, and codes are given by columns any number of tables up, so that rights hang on these. Rows fan in and
//! out: several stand under one parent row, and many rows have none under them.

use super::trees::anywhere;
use super::{Draft, DraftTable, Random};
use crate::simple::{MISSING, NO_PARENT, TABLES};

/// The shortest chain, and the most visible columns.
const CHAIN: usize = 8;
const VISIBLE: usize = 7;

pub fn draft(random: &mut Random) -> Draft {
    let chain = random.from_to(CHAIN, TABLES);
    let beside = random.from_to(0, 2).min(TABLES - chain);
    let own = spread(random, chain);
    let mut draft = Draft::default();
    for i in 0..chain + beside {
        let parent = match i {
            0 => NO_PARENT,
            i if i < chain => i - 1,
            _ => random.below(chain),
        };
        let columns = if i < chain { own[i] } else { 1.min(VISIBLE - draft.visible(parent)) };
        let table = table(random, &draft, parent, columns);
        draft.tables.push(table);
    }
    draft
}

/// How many columns each table of a chain has: many have none, one of the upper quarter and the last have some.
fn spread(random: &mut Random, chain: usize) -> Vec<usize> {
    let mut own = vec![0; chain];
    own[random.below(chain / 4)] = 1;
    own[chain - 1] = 1;
    for _ in 0..random.from_to(2, VISIBLE - 2) {
        own[random.below(chain)] += 1;
    }
    own
}

fn table(random: &mut Random, draft: &Draft, parent: usize, columns: usize) -> DraftTable {
    let rows = if random.once_in(60) { 1 } else { random.pick(&[3, 4, 5, 5, 6, 8, 9]) };
    let parent_rows = parent_rows(random, draft.rows(parent), rows);
    let codes: Vec<Vec<u32>> = (0..columns).map(|_| column(random, draft, parent, &parent_rows)).collect();
    DraftTable::of_columns(parent, &parent_rows, &codes)
}

/// Mostly in the order of the parent rows, or against it, as many apart as can be; else under a few of them, or any.
fn parent_rows(random: &mut Random, above: Option<usize>, rows: usize) -> Vec<usize> {
    let Some(above) = above else { return vec![NO_PARENT; rows] };
    let few = random.from_to(above.min(2), above.min(3));
    match random.below(16) {
        0 => anywhere(random, Some(above), rows),
        1 => (0..rows).map(|k| k % few * above / few).collect(),
        2 | 3 => (0..rows).map(|k| above - 1 - k * above / rows).collect(),
        _ => (0..rows).map(|k| k * above / rows).collect(),
    }
}

/// The codes of a column: given by a column of the upper ones and any other above, or few values, or all different.
/// Every sixth has missing cells.
fn column(random: &mut Random, draft: &Draft, parent: usize, parent_rows: &[usize]) -> Vec<u32> {
    let columns_of = |table: &usize| (0..draft.tables[*table].columns).map(|own| (*table, own)).collect();
    let above: Vec<(usize, usize)> = draft.above(parent).iter().flat_map::<Vec<_>, _>(columns_of).collect();
    let (values, missing) = (random.from_to(2, 4), random.once_in(6));
    let mut codes: Vec<u32> = match random.below(12) {
        0 => (0..parent_rows.len() as u32).collect(),
        1..=7 if !above.is_empty() => {
            let (first, second) = (random.pick(&above[..above.len().div_ceil(2)]), random.pick(&above));
            let given = |row: &usize| [first, second].map(|column| reached(draft, parent, *row, column));
            parent_rows.iter().map(given).map(|[first, second]| (first % 5 + second % 7) % 4).collect()
        }
        _ => parent_rows.iter().map(|_| random.below(values) as u32).collect(),
    };
    codes.iter_mut().filter(|_| missing && random.once_in(3)).for_each(|code| *code = MISSING);
    codes
}

/// The code of a column above in the row that is reached there; its own for each such row, if it is missing.
fn reached(draft: &Draft, mut table: usize, mut row: usize, (above, own): (usize, usize)) -> u32 {
    while table != above {
        row = draft.tables[table].rows[row].0;
        table = draft.tables[table].parent;
    }
    match draft.tables[table].rows[row].1[own] {
        MISSING => row as u32,
        code => code,
    }
}
