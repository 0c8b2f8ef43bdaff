//! Inputs of the listing program besides the random catalogues: of a given size, and with a given number of
//! entries.

use compare::random::{Draft, DraftTable, Random};
use compare::simple::{COLUMNS, NO_PARENT, TABLES};

/// A sound catalogue of so many bytes, an even number from about 100 to 40,000: a root without columns and below it
/// a table of so many columns, from 2 to 16. Every sound catalogue has an even number of bytes.
pub fn sized(random: &mut Random, bytes: usize, columns: usize) -> Vec<u8> {
    let tables = 2 * 6 + 2 * 4 + 6;
    let rows = (bytes - tables - 2) / (2 + 4 * columns);
    let parents = (bytes - tables - rows * (2 + 4 * columns)) / 2;
    let root = DraftTable { columns: 0, parent: NO_PARENT, rows: vec![(NO_PARENT, Vec::new()); parents] };
    let mut below = DraftTable { columns, parent: 0, rows: Vec::new() };
    for _ in 0..rows {
        let codes = (0..columns).map(|column| random.below(2 + 3 * column) as u32).collect();
        below.rows.push((random.below(parents), codes));
    }
    let file = Draft { tables: vec![root, below] }.file();
    assert_eq!(file.len(), bytes);
    file
}

/// A root without columns, and below it so many tables of 16 columns with this many rows and codes below 3.
fn crowded(random: &mut Random, tables: usize, rows: usize) -> Draft {
    let root = DraftTable { columns: 0, parent: NO_PARENT, rows: vec![(NO_PARENT, Vec::new())] };
    let mut draft = Draft { tables: vec![root] };
    for _ in 0..tables {
        let mut row = || (0, (0..COLUMNS).map(|_| random.below(3) as u32).collect());
        let rows = (0..rows).map(|_| row()).collect();
        draft.tables.push(DraftTable { columns: COLUMNS, parent: 0, rows });
    }
    draft
}

/// A catalogue with 177,637 entries. In each crowded table the first row stands at the end again: no left side is a
/// key, so that none stands for a column.
pub fn most() -> Vec<u8> {
    let mut draft = crowded(&mut Random::new(1), TABLES - 1, 31);
    for table in &mut draft.tables[1..] {
        table.rows.push(table.rows[0].clone());
    }
    draft.file()
}

/// A catalogue with so many entries, from 65,438 to 65,566: 65,438 of seven tables, among them their keys, and the
/// root, and the rest of eight tables of two equal rows, each of which lists its own columns with the empty left side
/// and has no key.
pub fn with_entries(entries: usize) -> Vec<u8> {
    let mut draft = crowded(&mut Random::new(8), 7, 52);
    let mut left = entries - 65_438;
    for _ in 0..8 {
        let columns = left.min(COLUMNS);
        left -= columns;
        draft.tables.push(DraftTable { columns, parent: 0, rows: vec![(0, vec![7; columns]); 2] });
    }
    draft.file()
}

pub fn noise(random: &mut Random, bytes: usize) -> Vec<u8> {
    (0..bytes).map(|_| random.number() as u8).collect()
}
