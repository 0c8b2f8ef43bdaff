//! Catalogues by name whose keys stand for what they give (document 02 e), or do not.
//!
//! A key gives every column. So where a left side is a key and minimal for a column, no left side with a column less is
//! a key: it is a minimal key, and listed as such if a row backs it. A key with a column to spare is minimal for
//! nothing.

use crate::named::{root, under, Named};
use crate::random::DraftTable;
use crate::simple::{MISSING, NO_PARENT};

const M: u32 = MISSING;
const ROW: u8 = 255;

/// All small ones.
pub fn small() -> Vec<Named> {
    [in_one_table(), some_unbacked(), of_one_row(), of_tables_above(), of_other_tables()]
        .into_iter()
        .flatten()
        .collect()
}

fn in_one_table() -> Vec<Named> {
    vec![
        // {0} and {1, 2} are keys; {0, 1}, {0, 2} and the full set are keys with a column to spare
        Named::new("two keys that alone give the columns", vec![root(3, &[&[1, 5, 7], &[2, 5, 8], &[3, 6, 8]])])
            .lists(&[(0, 1, ROW), (0, 6, ROW)])
            .drops(&[(0, 1, 1), (0, 1, 2), (0, 6, 0)]),
        // {1} gives 2 and is no key
        Named::new(
            "a column that a key and another left side give",
            vec![root(3, &[&[1, 5, 7], &[2, 5, 7], &[3, 6, 8], &[4, 9, 8]])],
        )
        .lists(&[(0, 1, ROW), (0, 2, 2)])
        .drops(&[(0, 1, 1), (0, 1, 2)]),
        // {0} and {1} give each other and are no keys; with column 2 or 3 each is one, and so are these two
        Named::new(
            "left sides inside keys",
            vec![root(4, &[&[1, 5, 1, 7], &[1, 5, 2, 8], &[2, 6, 1, 8], &[2, 6, 2, 9]])],
        )
        .lists(&[(0, 1, 1), (0, 2, 0), (0, 5, ROW), (0, 6, ROW), (0, 9, ROW), (0, 10, ROW), (0, 12, ROW)])
        .drops(&[(0, 5, 3), (0, 6, 3), (0, 9, 2), (0, 10, 2), (0, 12, 0), (0, 12, 1)]),
        // the empty set gives columns 1 and 2 and is no key; {0} is one
        Named::new("columns of one value beside a key", vec![root(3, &[&[1, 5, 7], &[2, 5, 7]])])
            .lists(&[(0, 0, 1), (0, 0, 2), (0, 1, ROW)])
            .drops(&[]),
        Named::new("each column a key", vec![root(3, &[&[1, 5, 7], &[2, 6, 8]])])
            .lists(&[(0, 1, ROW), (0, 2, ROW), (0, 4, ROW)])
            .drops(&[(0, 1, 1), (0, 1, 2), (0, 2, 0), (0, 2, 2), (0, 4, 0), (0, 4, 1)]),
        // the same but for one row more: no left side is a key
        Named::new("a row that stands twice", vec![root(3, &[&[1, 5, 7], &[1, 5, 7], &[2, 6, 8]])])
            .lists(&[(0, 1, 1), (0, 1, 2), (0, 2, 0), (0, 2, 2), (0, 4, 0), (0, 4, 1)])
            .drops(&[]),
        Named::new("a key of all columns but one", vec![one_each(3, false)])
            .lists(&[(0, 3, ROW), (0, 5, ROW), (0, 6, ROW)])
            .drops(&[(0, 3, 2), (0, 5, 1), (0, 6, 0)]),
        Named::new("all columns but one, and rows that stand twice", vec![one_each(3, true)])
            .lists(&[(0, 3, 2), (0, 5, 1), (0, 6, 0)])
            .drops(&[]),
    ]
}

/// Where no row backs a key, none backs its columns' entries either: they are withheld, not dropped.
fn some_unbacked() -> Vec<Named> {
    vec![
        // {2} is a key; so is {0, 1}, of which each row lacks a cell
        Named::new(
            "a key that no row backs beside one that is backed",
            vec![root(3, &[&[1, M, 7], &[1, M, 8], &[M, 2, 9], &[M, 2, 10]])],
        )
        .lists(&[(0, 4, ROW)])
        .withholds(&[(0, 3, 2), (0, 3, ROW)])
        .drops(&[(0, 4, 0), (0, 4, 1)]),
        Named::new("a key by a missing cell", vec![root(2, &[&[1, 5], &[M, 5], &[2, 6]])])
            .lists(&[(0, 1, ROW)])
            .drops(&[(0, 1, 1)]),
        // {0} is a key of both tables; in table 1 each row lacks its cell
        Named::new(
            "a key backed above, by rows that are not reached",
            vec![root(1, &[&[M], &[M], &[3]]), under(0, 1, &[(0, &[5]), (1, &[6])])],
        )
        .lists(&[(0, 1, ROW), (1, 2, ROW)])
        .withholds(&[(1, 1, 1), (1, 1, ROW)]),
    ]
}

/// In a table of one row the empty set is a key.
fn of_one_row() -> Vec<Named> {
    vec![
        Named::new("one row", vec![root(3, &[&[1, 2, M]])]).lists(&[(0, 0, ROW)]).drops(&[
            (0, 0, 0),
            (0, 0, 1),
            (0, 0, 2),
        ]),
        Named::new("one row in each table", vec![root(1, &[&[1]]), under(0, 2, &[(0, &[3, M])])])
            .lists(&[(0, 0, ROW), (1, 0, ROW)])
            .drops(&[(0, 0, 0), (1, 0, 1), (1, 0, 2)]),
        Named::new("one row under several", vec![root(1, &[&[1], &[2]]), under(0, 1, &[(1, &[5])])])
            .lists(&[(0, 1, ROW), (1, 0, ROW)])
            .drops(&[(1, 0, 1)]),
        Named::new("several rows under one", vec![root(1, &[&[1]]), under(0, 1, &[(0, &[5]), (0, &[6])])])
            .lists(&[(0, 0, ROW), (1, 2, ROW)])
            .drops(&[(0, 0, 0)]),
        Named::new("no row under one", vec![root(1, &[&[1]]), under(0, 1, &[])])
            .lists(&[(0, 0, ROW)])
            .withholds(&[(1, 0, 1), (1, 0, ROW)])
            .drops(&[(0, 0, 0)]),
        Named::new("one row under one without columns", vec![root(0, &[&[]]), under(0, 1, &[(0, &[5])])])
            .lists(&[(0, 0, ROW), (1, 0, ROW)])
            .drops(&[(1, 0, 0)]),
    ]
}

fn of_tables_above() -> Vec<Named> {
    vec![
        // {1, 2} is a key too, and column 0 no right of table 1
        Named::new(
            "a key of a column above",
            vec![root(1, &[&[1], &[2], &[3]]), under(0, 2, &[(0, &[5, 7]), (1, &[5, 8]), (2, &[6, 8])])],
        )
        .lists(&[(0, 1, ROW), (1, 1, ROW), (1, 6, ROW)])
        .drops(&[(1, 1, 1), (1, 1, 2)]),
        // rows of table 2: 1 1 5, 1 2 6, 2 1 6, 2 2 7
        Named::new(
            "a key of columns of two tables above",
            vec![
                root(1, &[&[1], &[2]]),
                under(0, 1, &[(0, &[1]), (0, &[2]), (1, &[1]), (1, &[2])]),
                under(1, 1, &[(0, &[5]), (1, &[6]), (2, &[6]), (3, &[7])]),
            ],
        )
        .lists(&[(0, 1, ROW), (1, 3, ROW), (2, 3, ROW), (2, 5, ROW), (2, 6, ROW)])
        .drops(&[(2, 3, 2)]),
        // {0} gives 1 and is a key of table 0 alone
        Named::new(
            "a column above that gives one of rows that share it",
            vec![root(1, &[&[1], &[2]]), under(0, 2, &[(0, &[5, 1]), (0, &[5, 2]), (1, &[6, 1]), (1, &[6, 2])])],
        )
        .lists(&[(0, 1, ROW), (1, 1, 1), (1, 5, ROW), (1, 6, ROW)])
        .drops(&[]),
        // tables 1, 3 and 4 have no columns of their own; rows 0 and 1 of table 3 share all that they see
        Named::new(
            "tables without own columns",
            vec![
                root(1, &[&[1], &[2]]),
                under(0, 0, &[(0, &[]), (1, &[])]),
                under(1, 1, &[(0, &[5]), (1, &[6])]),
                under(0, 0, &[(0, &[]), (0, &[])]),
                under(0, 0, &[(1, &[])]),
            ],
        )
        .lists(&[(0, 1, ROW), (1, 1, ROW), (2, 1, ROW), (2, 2, ROW), (4, 0, ROW)])
        .drops(&[(2, 1, 1)]),
    ]
}

/// A key of one table does not stand for the columns of another.
fn of_other_tables() -> Vec<Named> {
    vec![
        // {0} gives column 1 in tables 1 and 2, and is a key of tables 0 and 1 alone
        Named::new(
            "a key of a table beside",
            vec![
                root(1, &[&[1], &[2]]),
                under(0, 1, &[(0, &[5]), (1, &[6])]),
                under(0, 1, &[(0, &[5]), (0, &[5]), (1, &[6]), (1, &[6])]),
            ],
        )
        .lists(&[(0, 1, ROW), (1, 1, ROW), (1, 2, ROW), (2, 1, 1)])
        .drops(&[(1, 1, 1)]),
        // {0} and {1} give each other in table 0, and are keys of table 1 alone
        Named::new(
            "keys of the table below",
            vec![root(2, &[&[5, 7], &[5, 7], &[6, 8]]), under(0, 1, &[(0, &[3]), (2, &[4])])],
        )
        .lists(&[(0, 1, 1), (0, 2, 0), (1, 1, ROW), (1, 2, ROW), (1, 4, ROW)])
        .drops(&[(1, 1, 2), (1, 2, 2)]),
        // the empty set is a key of table 0 and lies inside every left side
        Named::new(
            "two tables alike under one row",
            vec![
                root(0, &[&[]]),
                under(0, 3, &[(0, &[1, 5, 7]), (0, &[2, 5, 7]), (0, &[3, 6, 8])]),
                under(0, 3, &[(0, &[1, 5, 7]), (0, &[2, 5, 7]), (0, &[3, 6, 8])]),
            ],
        )
        .lists(&[(0, 0, ROW), (1, 1, ROW), (1, 2, 2), (1, 4, 1), (2, 1, ROW), (2, 2, 2), (2, 4, 1)])
        .drops(&[(1, 1, 1), (1, 1, 2), (2, 1, 1), (2, 1, 2)]),
    ]
}

/// A row for each column, with 1 there and 0 elsewhere; with `twice` each row stands twice. Two different rows agree on
/// all columns but two. So all columns but one give that one, and no smaller left side does; they are a key exactly if
/// no row stands twice.
pub fn one_each(columns: usize, twice: bool) -> DraftTable {
    let row = |k: usize| (NO_PARENT, (0..columns).map(|column| (column == k) as u32).collect());
    let times = if twice { 2 } else { 1 };
    DraftTable { columns, parent: NO_PARENT, rows: (0..columns * times).map(|k| row(k / times)).collect() }
}
