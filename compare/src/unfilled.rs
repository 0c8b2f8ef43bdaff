//! Catalogues by name with cells that nobody filled, or without rows: what is listed there depends on what a row backs
//! (document 02 d).

use crate::named::{root, under, Named};
use crate::random::{Draft, DraftTable, Random};
use crate::simple::{MISSING, NO_PARENT};

const M: u32 = MISSING;
const ROW: u8 = 255;

/// All small ones.
pub fn small() -> Vec<Named> {
    [without_rows(), in_one_table(), in_a_table_above()].into_iter().flatten().collect()
}

fn without_rows() -> Vec<Named> {
    vec![
        Named::new("no rows and no columns", vec![root(0, &[])]).withholds(&[(0, 0, ROW)]),
        // K6
        Named::new("no rows", vec![root(2, &[])]).withholds(&[(0, 0, 0), (0, 0, 1), (0, 0, ROW)]),
        Named::new("a root without rows, and a table under it", vec![root(1, &[]), under(0, 1, &[])]).withholds(&[
            (0, 0, 0),
            (0, 0, ROW),
            (1, 0, 1),
            (1, 0, ROW),
        ]),
        // table 3 has rows, tables 1 and 2 have none
        Named::new(
            "no rows under a table with rows",
            vec![root(1, &[&[1], &[2]]), under(0, 1, &[]), under(1, 1, &[]), under(0, 1, &[(0, &[3]), (1, &[3])])],
        )
        .lists(&[(0, 1, ROW), (3, 0, 1), (3, 1, ROW)])
        .withholds(&[(1, 0, 1), (1, 0, ROW), (2, 0, 2), (2, 0, ROW)]),
    ]
}

fn in_one_table() -> Vec<Named> {
    vec![
        // K7: the row backs the empty set, which is a key
        Named::new("one row, its cell missing", vec![root(1, &[&[M]])]).lists(&[(0, 0, ROW)]).drops(&[(0, 0, 0)]),
        // K8
        Named::new("two rows, both cells missing", vec![root(1, &[&[M], &[M]])]).withholds(&[(0, 1, ROW)]),
        Named::new("a column without cells", vec![root(3, &[&[1, M, 5], &[2, M, 5], &[3, M, 6]])])
            .lists(&[(0, 1, ROW)])
            .withholds(&[(0, 2, 0), (0, 2, 2), (0, 2, ROW)])
            .drops(&[(0, 1, 1), (0, 1, 2)]),
        // a row backs {0} and another {1}, none both
        Named::new("cells of two columns in different rows", vec![root(2, &[&[1, M], &[1, M], &[M, 2], &[M, 2]])])
            .withholds(&[(0, 3, ROW)]),
        // the same beside a column that all rows have
        Named::new(
            "cells of two of three columns in different rows",
            vec![root(3, &[&[1, M, 5], &[1, M, 6], &[M, 2, 5], &[M, 2, 7]])],
        )
        .lists(&[(0, 5, ROW), (0, 6, ROW)])
        .withholds(&[(0, 3, 2), (0, 3, ROW)])
        .drops(&[(0, 5, 1), (0, 6, 0)]),
        Named::new("all cells but one", vec![but_one(3, false)]).withholds(&[(0, 7, ROW)]),
        Named::new("all cells but one, and a whole row", vec![but_one(3, true)]).lists(&[(0, 7, ROW)]),
    ]
}

fn in_a_table_above() -> Vec<Named> {
    vec![
        Named::new(
            "cells missing in the table above only",
            vec![root(1, &[&[M], &[M]]), under(0, 1, &[(0, &[1]), (0, &[2]), (1, &[1]), (1, &[2])])],
        )
        .withholds(&[(0, 1, ROW), (1, 3, ROW)]),
        // in table 1 three rows have their own cell and one has that above, none both
        Named::new(
            "own cells under missing ones, and missing ones under a cell",
            vec![root(1, &[&[M], &[5], &[M]]), under(0, 1, &[(0, &[1]), (0, &[2]), (1, &[M]), (2, &[1])])],
        )
        .lists(&[(0, 1, ROW)])
        .withholds(&[(1, 3, ROW)]),
        // row 2 above does no harm
        Named::new(
            "a missing cell in a row that is not reached",
            vec![root(1, &[&[5], &[6], &[M]]), under(0, 1, &[(0, &[1]), (1, &[1])])],
        )
        .lists(&[(0, 1, ROW), (1, 0, 1), (1, 1, ROW)]),
        // row 2 above backs {0} in its own table alone
        Named::new(
            "a cell in a row that is not reached",
            vec![root(1, &[&[M], &[M], &[5]]), under(0, 1, &[(0, &[1]), (1, &[1])])],
        )
        .lists(&[(0, 1, ROW), (1, 0, 1)])
        .withholds(&[(1, 1, ROW)]),
        // table 2 reaches rows 2 and 3 of the root and table 4 rows 0 and 1, neither by their own numbers all the way
        Named::new(
            "cells two tables up",
            vec![
                root(1, &[&[7], &[8], &[M], &[M]]),
                under(0, 0, &[(2, &[]), (3, &[])]),
                under(1, 0, &[(0, &[]), (1, &[])]),
                under(0, 0, &[(3, &[]), (3, &[]), (0, &[]), (1, &[])]),
                under(3, 0, &[(2, &[]), (3, &[])]),
            ],
        )
        .lists(&[(0, 1, ROW), (4, 1, ROW)])
        .withholds(&[(1, 1, ROW), (2, 1, ROW)]),
    ]
}

/// Two rows for each column, with cells in all the others, in which they agree; with `whole` a row with all cells too.
/// No other two rows agree. So every set but the full one fails and is backed, and the full one is a key.
pub fn but_one(columns: usize, whole: bool) -> DraftTable {
    let row = |k: usize| (0..columns).map(|column| if column == k { M } else { k as u32 }).collect();
    let mut rows: Vec<Vec<u32>> = (0..2 * columns).map(|k| row(k / 2)).collect();
    if whole {
        rows.push(vec![columns as u32; columns]);
    }
    DraftTable { columns, parent: NO_PARENT, rows: rows.into_iter().map(|codes| (NO_PARENT, codes)).collect() }
}

/// One table whose rows have the cells of the columns below a half, or of the others, with small values.
pub fn halves(columns: usize, rows: usize) -> Draft {
    let mut random = Random::new(columns as u64);
    let mut row = |k: usize| {
        let filled = |column: usize| (column < columns / 2) != (k % 2 == 1);
        let mut code = |column: usize| if filled(column) { random.below(2 + column % 3) as u32 } else { M };
        (NO_PARENT, (0..columns).map(&mut code).collect())
    };
    let rows = (0..rows).map(&mut row).collect();
    Draft { tables: vec![DraftTable { columns, parent: NO_PARENT, rows }] }
}

/// A line of tables of so many columns and rows each, with small values. A row has all its cells or none: in the last
/// table all, in the last but one all only if a row above it has none, and higher up by chance. So each row of the last
/// table has its own cells and lacks those of a table above.
pub fn rows_above(sizes: &[(usize, usize)]) -> Draft {
    let mut random = Random::new(sizes.len() as u64);
    let mut draft = Draft::default();
    // for each row of the table above, whether it and all rows above it have their cells
    let mut whole = Vec::new();
    for (i, (columns, rows)) in sizes.iter().enumerate() {
        let mut table =
            DraftTable { columns: *columns, parent: if i == 0 { NO_PARENT } else { i - 1 }, rows: Vec::new() };
        let mut whole_here = Vec::new();
        for _ in 0..*rows {
            let parent = if i == 0 { NO_PARENT } else { random.below(whole.len()) };
            let above = i == 0 || whole[parent];
            let filled = match sizes.len() - i {
                1 => true,
                2 => !above,
                _ => random.once_in(2),
            };
            let mut code = |column: usize| if filled { random.below(2 + column % 3) as u32 } else { M };
            table.rows.push((parent, (0..*columns).map(&mut code).collect()));
            whole_here.push(above && filled);
        }
        draft.tables.push(table);
        whole = whole_here;
    }
    draft
}
