//! The full listing by a table with one word per left side.
//!
//! For two rows, their agree set is the set of visible columns on which they agree. `scan` stores at each agree
//! set that occurs the rights that it breaks (bit k column k, bit n the row), and `mark` a further bit at the set of
//! columns in which a row has cells; `close` ORs the words of all supersets into each word. Then bit a of word X is 1
//! exactly if X does not give a, so bit n exactly if X is no key, and the further bit exactly if X is backed; and the
//! minimal rights of X are read off directly, where X is a key the row alone. So are the largest sets that do not give
//! a right: each lies inside the agree set of two rows, which are the evidence for it.

use crate::evidence::{Failing, Record};
use crate::simple::{Catalogue, Entry, Row, MISSING, ROW};

/// The bit of a left side that is backed.
const BACKED: u32 = 1 << 31;

/// The full listing of a catalogue.
pub fn listing(catalogue: &Catalogue) -> Vec<Entry> {
    minimal(catalogue, Which::Listed)
}

/// The minimal dependencies and keys that are left out of it, since no row backs them.
pub fn withheld(catalogue: &Catalogue) -> Vec<Entry> {
    minimal(catalogue, Which::Withheld)
}

/// The minimal dependencies that are left out of it, since their left side is a key, and that a row backs.
pub fn dropped(catalogue: &Catalogue) -> Vec<Entry> {
    minimal(catalogue, Which::Dropped)
}

/// Each minimal dependency or key is one of these.
#[derive(Clone, Copy)]
enum Which {
    Listed,
    Withheld,
    Dropped,
}

/// The minimal ones of a kind.
fn minimal(catalogue: &Catalogue, which: Which) -> Vec<Entry> {
    let codes: Vec<Vec<Vec<u32>>> = (0..catalogue.tables.len()).map(|table| columns_of(catalogue, table)).collect();
    let mut entries = Vec::new();
    for target in 0..catalogue.tables.len() {
        let n = catalogue.tables[target].visible.len();
        let mut broken = vec![0u32; 1 << n];
        scan(catalogue, &codes, target, &mut broken);
        mark(catalogue, target, &mut broken);
        close(n, &mut broken);
        read_off(catalogue, target, which, &broken, &mut entries);
    }
    entries
}

/// What evidence is read off: the words before they are closed and after, and two rows for each agree set.
struct Scanned {
    seeds: Vec<u32>,
    broken: Vec<u32>,
    rows: Vec<[u16; 2]>,
}

/// Evidence for the full listing: a record for each target and right and each largest set without the right that fails,
/// of the backed ones or of all.
pub fn evidence(catalogue: &Catalogue, of: Failing) -> Vec<Record> {
    let codes: Vec<Vec<Vec<u32>>> = (0..catalogue.tables.len()).map(|table| columns_of(catalogue, table)).collect();
    let mut records = Vec::new();
    for target in 0..catalogue.tables.len() {
        let n = catalogue.tables[target].visible.len();
        let mut seeds = vec![0u32; 1 << n];
        let mut rows = vec![[0; 2]; 1 << n];
        let all = 2 * seeds.len() as u32 - 1;
        each_line(catalogue, &codes, target, |x, line| {
            for (between, agree) in line.iter().enumerate() {
                seeds[*agree as usize] = all - agree;
                rows[*agree as usize] = [x as u16, (x + 1 + between) as u16];
            }
        });
        mark(catalogue, target, &mut seeds);
        let mut broken = seeds.clone();
        close(n, &mut broken);
        read_off_largest(catalogue, target, of, &Scanned { seeds, broken, rows }, &mut records);
    }
    records
}

/// The rights that a set breaks and no set with a column more does, of the backed sets or of all.
fn read_off_largest(catalogue: &Catalogue, target: usize, of: Failing, scanned: &Scanned, records: &mut Vec<Record>) {
    let table = &catalogue.tables[target];
    let n = table.visible.len();
    let broken = &scanned.broken;
    let taken = |set: &usize| of == Failing::All || broken[*set] & BACKED != 0;
    for set in (0..1usize << n).filter(taken) {
        let more = (0..n).filter(|k| set & 1 << k == 0).map(|k| set | 1 << k);
        let largest = more.filter(taken).fold(broken[set], |largest, above| largest & !broken[above]);
        for k in (n - table.own..=n).filter(|k| largest & 1 << k != 0) {
            let right = if k == n { ROW as u8 } else { k as u8 };
            let rows = scanned.rows[agree_set(n, set, 1 << k, scanned)];
            records.push(Record { target: target as u8, right, set: set as u16, rows });
        }
    }
}

/// An agree set that breaks the right, at or above a set that does: the way up goes by one column at a time.
fn agree_set(n: usize, mut set: usize, right: u32, scanned: &Scanned) -> usize {
    while scanned.seeds[set] & right == 0 {
        let mut more = (0..n).filter(|k| set & 1 << k == 0).map(|k| set | 1 << k);
        set = more.find(|above| scanned.broken[*above] & right != 0).expect("a larger set that breaks the right");
    }
    set
}

/// The codes of a table's own columns, column by column.
fn columns_of(catalogue: &Catalogue, table: usize) -> Vec<Vec<u32>> {
    let table = &catalogue.tables[table];
    (0..table.own).map(|own| table.rows.iter().map(|row| row.codes[own]).collect()).collect()
}

/// Stores the broken rights at the agree set of each pair of rows.
fn scan(catalogue: &Catalogue, codes: &[Vec<Vec<u32>>], target: usize, broken: &mut [u32]) {
    let all = 2 * broken.len() as u32 - 1;
    each_line(catalogue, codes, target, |_, line| {
        for agree in line {
            broken[*agree as usize] = all - agree;
        }
    });
}

/// Marks the set of columns in which a row of the target has cells, for each row.
fn mark(catalogue: &Catalogue, target: usize, broken: &mut [u32]) {
    present(catalogue, target).into_iter().for_each(|set| broken[set as usize] |= BACKED);
}

/// For each row of a table the set of visible columns in which it has cells.
pub fn present(catalogue: &Catalogue, table: usize) -> Vec<u32> {
    let this = &catalogue.tables[table];
    let inherited = this.visible.len() - this.own;
    let up = if inherited > 0 { present(catalogue, this.parent) } else { Vec::new() };
    let set = |row: &Row| {
        let own = (0..this.own).filter(|own| row.codes[*own] != MISSING);
        let above = if inherited > 0 { up[row.parent] } else { 0 };
        own.fold(above, |set, own| set | 1 << (inherited + own))
    };
    this.rows.iter().map(set).collect()
}

/// Hands on each row of the target with the agree sets of it and each row behind it.
fn each_line(catalogue: &Catalogue, codes: &[Vec<Vec<u32>>], target: usize, mut take: impl FnMut(usize, &[u32])) {
    let mut lines = vec![Vec::new(); catalogue.tables.len()];
    for x in 0..catalogue.tables[target].rows.len() {
        fill_line(catalogue, codes, target, x, x + 1, &mut lines);
        take(x, &lines[target]);
    }
}

/// Fills the table's line with the agree sets of row x and each row from `from` on, over the table's visible
/// columns.
fn fill_line(
    catalogue: &Catalogue,
    codes: &[Vec<Vec<u32>>],
    table: usize,
    x: usize,
    from: usize,
    lines: &mut [Vec<u32>],
) {
    let this = &catalogue.tables[table];
    let inherited = this.visible.len() - this.own;
    let mut line = std::mem::take(&mut lines[table]);
    line.clear();
    line.resize(this.rows.len() - from, 0);
    for (own, column) in codes[table].iter().enumerate() {
        let code = column[x];
        if code != MISSING {
            let bit = 1 << (inherited + own);
            for (agree, other) in line.iter_mut().zip(&column[from..]) {
                *agree |= if *other == code { bit } else { 0 };
            }
        }
    }
    if inherited > 0 {
        fill_line(catalogue, codes, this.parent, this.rows[x].parent, 0, lines);
        let up = &lines[this.parent];
        for (agree, row) in line.iter_mut().zip(&this.rows[from..]) {
            *agree |= up[row.parent];
        }
    }
    if x >= from {
        line[x - from] = (1 << this.visible.len()) - 1;
    }
    lines[table] = line;
}

/// ORs into each word the words of all supersets, one column at a time.
fn close(n: usize, broken: &mut [u32]) {
    for k in 0..n {
        for block in broken.chunks_exact_mut(2 << k) {
            let (without, with) = block.split_at_mut(1 << k);
            for (word, above) in without.iter_mut().zip(with) {
                *word |= *above;
            }
        }
    }
}

/// The sets of n columns by size, then by number: a counting sort.
fn in_listing_order(n: usize) -> Vec<u32> {
    let mut start = [0usize; 18];
    (0..1u32 << n).for_each(|set| start[set.count_ones() as usize + 1] += 1);
    (0..17).for_each(|size| start[size + 1] += start[size]);
    let mut sets = vec![0; 1 << n];
    for set in 0..1u32 << n {
        let next = &mut start[set.count_ones() as usize];
        sets[*next] = set;
        *next += 1;
    }
    sets
}

/// The minimal rights of a kind: not in the left, given by it, and by none of the lefts with a column less.
fn read_off(catalogue: &Catalogue, target: usize, which: Which, broken: &[u32], entries: &mut Vec<Entry>) {
    let table = &catalogue.tables[target];
    let n = table.visible.len();
    let inherited = n - table.own;
    let (row, columns) = (1u32 << n, (1u32 << n) - (1 << inherited));
    for left in in_listing_order(n) {
        let word = broken[left as usize];
        let (backed, key) = (word & BACKED != 0, word & row == 0);
        let rights = match which {
            Which::Listed if backed && key => row,
            Which::Listed if backed => columns,
            Which::Withheld if !backed => columns | row,
            Which::Dropped if backed && key => columns,
            _ => continue,
        };
        let mut minimal = rights & !left & !word;
        let mut members = left;
        while members != 0 && minimal != 0 {
            minimal &= broken[(left & !(members & members.wrapping_neg())) as usize];
            members &= members - 1;
        }
        for k in inherited..=n {
            if minimal & (1 << k) != 0 {
                let right = if k == n { ROW as u8 } else { k as u8 };
                entries.push(Entry { target: target as u8, right, left: left as u16 });
            }
        }
    }
}
