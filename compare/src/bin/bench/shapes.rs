//! The named shapes of catalogues.
//!
//! Codes are drawn evenly from a range of values, by column 2 to 64, or 2 to 8 in the shapes named `-few` and 300 to
//! 1,500 in those named `-many`, where no column has so few classes of rows that a byte tells them apart. One cell in a
//! hundred is missing in two columns. In `flat-4096x16-missing` each row also lacks four of the first twelve columns
//! side by side, row by row the next four, and one in sixteen of its other cells: no row backs a left side with a
//! column of each four. In a flat shape the last column is a function of two others and the one before it of three; in
//! a line the last column is a function of its table's first and the root's first. So most dependencies with small left
//! sides break, some hold, and keys are larger in the `-few` shapes. That matters to TANE, which ends at the keys and
//! whose work grows with their size; the table's does not. Rows stand in document order: parent rows ascend.
//! `nested-16` is a line of 16 tables with one column and 4,096 rows each, whose last column is a function of the
//! root's. In `one-chain` all codes of a column fall into one chain of the library's grouping of rows, the worst that
//! can happen to it in one table, and in `one-chain-nested` in each of 16 nested tables, whose keys a listing lays for
//! every target. `fork-15` has many wide targets: under a root of 15 columns, made as a flat shape is, 15 tables of one
//! column each, all of 480 rows.

use compare::random::{Draft, DraftTable, Random};
use compare::simple::{MISSING, NO_PARENT};

pub struct Shape {
    pub name: &'static str,
    pub file: Vec<u8>,
    /// A dependency of the last table that holds: its left side and its right.
    pub holds: (u32, u32),
    /// The same with a left side of eight columns, and eight columns that are meant as a key.
    pub wide: (u32, u32),
    pub key: u32,
}

/// The number of values of each column.
type Ranges = [usize; 16];
const MODERATE: Ranges = [2, 3, 4, 5, 6, 8, 10, 12, 16, 20, 24, 32, 48, 64, 40, 56];
const FEW: Ranges = [2, 3, 2, 3, 4, 5, 4, 5, 6, 5, 6, 7, 8, 8, 6, 8];
const MANY: Ranges = [300, 320, 350, 380, 400, 450, 500, 550, 600, 650, 700, 800, 900, 1_000, 1_200, 1_500];

fn code(random: &mut Random, ranges: &Ranges, column: usize) -> u32 {
    if (column == 8 || column == 11) && random.once_in(100) {
        return MISSING;
    }
    random.below(ranges[column]) as u32
}

/// A number below `bound`, the same for the same codes.
fn mixed(codes: &[u32], bound: usize) -> u32 {
    let sum = codes.iter().fold(17u32, |sum, code| sum.wrapping_mul(31).wrapping_add(*code));
    (sum.wrapping_mul(2_654_435_761) >> 8) % bound as u32
}

/// A root. The last column is given by columns 0 and 1, the one before it by columns 2, 3 and 4.
fn root(random: &mut Random, rows: usize, columns: usize, ranges: &Ranges) -> DraftTable {
    let mut row = || {
        let mut codes: Vec<u32> = (0..columns).map(|column| code(random, ranges, column)).collect();
        codes[columns - 2] = mixed(&codes[2..5], ranges[14]);
        codes[columns - 1] = mixed(&codes[0..2], ranges[15]);
        (NO_PARENT, codes)
    };
    let rows = (0..rows).map(|_| row()).collect();
    DraftTable { columns, parent: NO_PARENT, rows }
}

/// One table.
fn flat(name: &'static str, rows: usize, columns: usize, ranges: &Ranges) -> Shape {
    let draft = Draft { tables: vec![root(&mut Random::new(rows as u64), rows, columns, ranges)] };
    let last = columns as u32 - 1;
    let key = if columns == 16 { 0b0011_1111_1100_0000 } else { 0b1111_1111 };
    Shape { name, file: draft.file(), holds: (0b11, last), wide: (0xFF & !(1 << last), last), key }
}

/// One table like that, less the cells of four columns in each row, and one in sixteen of the others. The last two
/// columns are left as they are, and still given by the same columns.
fn flat_missing(name: &'static str, rows: usize) -> Shape {
    let mut random = Random::new(16);
    let mut table = root(&mut Random::new(rows as u64), rows, 16, &MODERATE);
    for (k, (_, codes)) in table.rows.iter_mut().enumerate() {
        for (column, code) in codes[..14].iter_mut().enumerate() {
            if column / 4 == k % 3 || random.once_in(16) {
                *code = MISSING;
            }
        }
    }
    let key = 0b0011_1111_1100_0000;
    Shape { name, file: Draft { tables: vec![table] }.file(), holds: (0b11, 15), wide: (0xFF, 15), key }
}

/// A root of 15 columns and 15 tables of one column under it, with a row under each of its rows.
pub fn fork() -> Vec<u8> {
    let mut random = Random::new(15);
    let mut tables = vec![root(&mut random, FORK_ROWS, 15, &MODERATE)];
    for _ in 0..15 {
        let rows = (0..FORK_ROWS).map(|k| (k, vec![code(&mut random, &MODERATE, 15)])).collect();
        tables.push(DraftTable { columns: 1, parent: 0, rows });
    }
    Draft { tables }.file()
}

/// One table in which only the last two rows break a dependency: of column 0, which tells all other rows apart, and
/// column 15.
pub fn last_two() -> Vec<u8> {
    let mut random = Random::new(2);
    let mut row = |k: usize| {
        let mut codes: Vec<u32> = (0..16).map(|column| code(&mut random, &MODERATE, column)).collect();
        codes[0] = k.min(4_094) as u32;
        codes[15] = k as u32 % 2;
        (NO_PARENT, codes)
    };
    let rows = (0..4_096).map(&mut row).collect();
    Draft { tables: vec![DraftTable { columns: 16, parent: NO_PARENT, rows }] }.file()
}

/// Codes that differ and stand in one chain of the library's grouping of rows (`chain` of `crates/grouping`).
fn codes_of_one_chain() -> Vec<u32> {
    let chain = |code: u64| (code * 2_246_822_519) >> 19 & 0x1FFF;
    (0..).filter(|code| chain(*code) == 0).take(4_096).map(|code| code as u32).collect()
}

/// One table with such codes in every column: the worst that its hash can meet.
fn one_chain(name: &'static str) -> Shape {
    let rows = codes_of_one_chain().iter().map(|code| (NO_PARENT, vec![*code; 16])).collect();
    let draft = Draft { tables: vec![DraftTable { columns: 16, parent: NO_PARENT, rows }] };
    Shape { name, file: draft.file(), holds: (1, 15), wide: (0xFF, 15), key: 0b0011_1111_1100_0000 }
}

/// The same in each of 16 nested tables of one column.
fn one_chain_nested(name: &'static str) -> Shape {
    let table = |i: usize| {
        let above = |k: usize| if i == 0 { NO_PARENT } else { k };
        let rows = codes_of_one_chain().into_iter().enumerate().map(|(k, code)| (above(k), vec![code])).collect();
        DraftTable { columns: 1, parent: if i == 0 { NO_PARENT } else { i - 1 }, rows }
    };
    let draft = Draft { tables: (0..16).map(table).collect() };
    Shape { name, file: draft.file(), holds: (1, 15), wide: (0xFF, 15), key: 0b0011_1111_1100_0000 }
}

/// The columns and rows of lines of tables.
const LINE: [(usize, usize); 4] = [(3, 40), (4, 200), (4, 1_000), (5, 4_096)];
const SHORT_LINE: [(usize, usize); 4] = [(3, 8), (4, 40), (4, 200), (5, 800)];
const NESTED: [(usize, usize); 16] = [(1, 4_096); 16];

/// A line of tables. The last column of the last table is given by its first and the root's first, or where it is
/// the only one by the root's and the next.
fn line(name: &'static str, sizes: &[(usize, usize)], ranges: &Ranges) -> Shape {
    let mut random = Random::new(sizes.len() as u64);
    let mut draft = Draft::default();
    let mut inherited = 0;
    for (i, (columns, rows)) in sizes.iter().enumerate() {
        let mut table =
            DraftTable { columns: *columns, parent: if i == 0 { NO_PARENT } else { i - 1 }, rows: Vec::new() };
        for k in 0..*rows {
            let parent = if i == 0 { NO_PARENT } else { k * sizes[i - 1].1 / rows };
            let visible = inherited..inherited + columns;
            let mut codes: Vec<u32> = visible.map(|column| code(&mut random, ranges, column)).collect();
            if i + 1 == sizes.len() && *columns > 1 {
                codes[columns - 1] = mixed(&[root_code(&draft, i - 1, parent), codes[0]], ranges[15]);
            } else if i + 1 == sizes.len() {
                codes[0] = mixed(&[root_code(&draft, i - 1, parent)], ranges[15]);
            }
            table.rows.push((parent, codes));
        }
        inherited += columns;
        draft.tables.push(table);
    }
    let (last, first_own) = (inherited as u32 - 1, inherited - sizes[sizes.len() - 1].0);
    let left = (1 | 1 << first_own) & !(1 << last);
    let wide = (left | 0b1111_1110) & !(1 << (if left == 1 { 8 } else { 7 }));
    Shape { name, file: draft.file(), holds: (left, last), wide: (wide, last), key: 0b0011_1111_1100_0000 }
}

/// The root's first code above a row of a table in a line.
fn root_code(draft: &Draft, table: usize, row: usize) -> u32 {
    let (parent, codes) = &draft.tables[table].rows[row];
    if table == 0 {
        codes[0]
    } else {
        root_code(draft, table - 1, *parent)
    }
}

pub const FORK: &str = "fork-15";
const FORK_ROWS: usize = 480;
pub const ALBUM: &str = "album";
pub const SHAPES: [&str; 14] = [
    "flat-4096x16",
    "flat-4096x16-few",
    "flat-4096x16-many",
    "flat-4096x16-missing",
    "line-4",
    "line-4-few",
    "nested-16",
    "flat-480x16",
    "line-4-800",
    "flat-60x8",
    "one-chain",
    "one-chain-nested",
    FORK,
    ALBUM,
];

pub fn shape(name: &str) -> Option<Shape> {
    match name {
        "flat-4096x16" => Some(flat("flat-4096x16", 4_096, 16, &MODERATE)),
        "flat-4096x16-few" => Some(flat("flat-4096x16-few", 4_096, 16, &FEW)),
        "flat-4096x16-many" => Some(flat("flat-4096x16-many", 4_096, 16, &MANY)),
        "flat-4096x16-missing" => Some(flat_missing("flat-4096x16-missing", 4_096)),
        "line-4" => Some(line("line-4", &LINE, &MODERATE)),
        "line-4-few" => Some(line("line-4-few", &LINE, &FEW)),
        "nested-16" => Some(line("nested-16", &NESTED, &MODERATE)),
        "one-chain" => Some(one_chain("one-chain")),
        "one-chain-nested" => Some(one_chain_nested("one-chain-nested")),
        "line-4-800" => Some(line("line-4-800", &SHORT_LINE, &MODERATE)),
        "flat-480x16" => Some(flat("flat-480x16", 480, 16, &MODERATE)),
        "flat-60x8" => Some(flat("flat-60x8", 60, 8, &MODERATE)),
        _ => None,
    }
}
