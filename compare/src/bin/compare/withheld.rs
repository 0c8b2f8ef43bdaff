//! Minimal dependencies and keys that no row backs: they hold by the question, and no call lists them.

use crate::seen::{ABOVE, APART, HARMLESS, NOT_REACHED, NO_CELL, NO_ROWS, NO_ROWS_UNDER_ROWS};
use crate::trial::{expect, Outcome, Trial};
use crate::{listings, questions};
use compare::lent::Placed;
use compare::simple::{self, Catalogue, Entry, MISSING};
use compare::table;

/// Up to so many entries of a catalogue are looked at for their kind.
const LOOKED_AT: usize = 500;

/// Some of a catalogue's, asked for and listed around.
pub fn run(trial: &mut Trial, placed: &Placed, catalogue: &Catalogue, listing: &[Vec<Entry>], count: usize) -> Outcome {
    let withheld = table::withheld(catalogue);
    kinds(catalogue, &withheld, listing).into_iter().for_each(|kind| trial.seen.kind(kind));
    if withheld.is_empty() {
        return Ok(());
    }
    for _ in 0..count {
        let entry = trial.random.pick(&withheld);
        let (target, left, right) = (entry.target as usize, entry.left as u32, entry.right as u32);
        let unbacked = simple::minimal(catalogue, target, left, right) && !simple::backed(catalogue, target, left);
        expect(unbacked, || format!("the table: {entry:?}"), "it is not minimal, or backed")?;
        questions::one(trial, placed, catalogue, target as u32, left, right)?;
        listings::near(trial, placed, listing, listings::place(catalogue, target, left))?;
    }
    Ok(())
}

/// Which kinds of left sides a catalogue has, by what backs them or would.
fn kinds(catalogue: &Catalogue, withheld: &[Entry], listing: &[Vec<Entry>]) -> Vec<&'static str> {
    let some = withheld.iter().take(LOOKED_AT);
    let mut kinds: Vec<&'static str> = some.flat_map(|entry| withheld_kinds(catalogue, entry)).collect();
    if listing.iter().flatten().take(LOOKED_AT).any(|entry| is_harmless(catalogue, entry)) {
        kinds.push(HARMLESS);
    }
    let empty = |table: usize| catalogue.tables[table].rows.is_empty();
    let tables = catalogue.tables.len();
    if (0..tables).any(empty) {
        kinds.push(NO_ROWS);
    }
    if (1..tables).any(|table| empty(table) && !empty(catalogue.tables[table].parent)) {
        kinds.push(NO_ROWS_UNDER_ROWS);
    }
    kinds.sort();
    kinds.dedup();
    kinds
}

/// The kinds of a withheld one whose target has rows: a column of its left side has no cell at all, or each has one;
/// its own columns are backed together; or a table above backs the whole left side, by a row that is not reached.
fn withheld_kinds(catalogue: &Catalogue, entry: &Entry) -> Vec<&'static str> {
    let (target, left) = (entry.target as usize, entry.left as u32);
    let table = &catalogue.tables[target];
    let n = table.visible.len();
    if table.rows.is_empty() {
        return Vec::new();
    }
    let mut singles = (0..n).map(|k| left & 1 << k);
    let mut kinds = vec![if singles.all(|single| simple::backed(catalogue, target, single)) { APART } else { NO_CELL }];
    let own = left >> (n - table.own) << (n - table.own);
    if own != 0 && own != left && simple::backed(catalogue, target, own) {
        kinds.push(ABOVE);
    }
    let sees = |above: &usize| left >> catalogue.tables[*above].visible.len() == 0;
    if ancestors(catalogue, target)
        .iter()
        .filter(|above| sees(above))
        .any(|above| simple::backed(catalogue, *above, left))
    {
        kinds.push(NOT_REACHED);
    }
    kinds
}

/// The tables above a table.
fn ancestors(catalogue: &Catalogue, mut table: usize) -> Vec<usize> {
    let mut above = Vec::new();
    while table != 0 {
        table = catalogue.tables[table].parent;
        above.push(table);
    }
    above
}

/// Whether a column of the left side lacks its cell in a row that no row of the target reaches.
fn is_harmless(catalogue: &Catalogue, entry: &Entry) -> bool {
    let (target, left) = (entry.target as usize, entry.left as u32);
    let rows = catalogue.tables[target].rows.len();
    let members = catalogue.tables[target].visible.iter().enumerate().filter(|(k, _)| left & 1 << k != 0);
    members.map(|(_, column)| column).any(|column| {
        let missing = |row: &usize| catalogue.tables[column.table].rows[*row].codes[column.own] == MISSING;
        let reached = |row: usize| (0..rows).any(|x| simple::reached(catalogue, target, x, column.table) == row);
        (0..catalogue.tables[column.table].rows.len()).filter(missing).any(|row| !reached(row))
    })
}
