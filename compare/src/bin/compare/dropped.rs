//! Minimal dependencies of a column whose left side is a key: they hold by the question, as the key does, and no call
//! lists them.

use crate::seen::{
    ALL_ABOVE, ANOTHER_LEFT, INSIDE_KEY, KEY_ELSEWHERE, NO_OWN_COLUMNS, OF_EMPTY, REACHES_UP, SEVERAL, UNBACKED_KEY,
};
use crate::trial::{expect, Outcome, Trial};
use crate::{listings, questions};
use compare::lent::Placed;
use compare::simple::{self, Catalogue, Entry, ROW};
use compare::table;

/// Up to so many entries of a catalogue are looked at for their kind.
const LOOKED_AT: usize = 500;

/// Some of a catalogue's, asked for and listed around; so is the key, which is listed.
pub fn run(trial: &mut Trial, placed: &Placed, catalogue: &Catalogue, listing: &[Vec<Entry>], count: usize) -> Outcome {
    let dropped = table::dropped(catalogue);
    kinds(catalogue, &dropped, &listing.concat()).into_iter().for_each(|kind| trial.seen.kind(kind));
    if dropped.is_empty() {
        return Ok(());
    }
    for _ in 0..count {
        let entry = trial.random.pick(&dropped);
        let (target, left, right) = (entry.target as usize, entry.left as u32, entry.right as u32);
        let repeats = simple::minimal(catalogue, target, left, right)
            && simple::backed(catalogue, target, left)
            && simple::repeats_key(catalogue, target, left, right);
        expect(repeats, || format!("the table: {entry:?}"), "it is not minimal and backed, or repeats no key")?;
        let place = listings::place(catalogue, target, left);
        let listed = listing[place as usize] == [Entry { right: ROW as u8, ..entry }];
        expect(listed, || format!("the listing: {entry:?}"), "its key is not listed, or a column with it")?;
        for right in [right, ROW] {
            questions::one(trial, placed, catalogue, target as u32, left, right)?;
        }
        listings::near(trial, placed, listing, place)?;
    }
    Ok(())
}

/// Which kinds of entries a catalogue has, by what is a key.
fn kinds(catalogue: &Catalogue, dropped: &[Entry], listing: &[Entry]) -> Vec<&'static str> {
    let some = dropped.iter().take(LOOKED_AT);
    let mut kinds: Vec<&'static str> = some.flat_map(|entry| dropped_kinds(catalogue, entry, listing)).collect();
    let side = |entry: &Entry| (entry.target, entry.left);
    if dropped.windows(2).any(|two| side(&two[0]) == side(&two[1])) {
        kinds.push(SEVERAL);
    }
    kinds.extend(listing.iter().take(LOOKED_AT).flat_map(|entry| listed_kinds(catalogue, entry, listing)));
    let has_rows = |entry: &Entry| !catalogue.tables[entry.target as usize].rows.is_empty();
    let of_a_key = |two: &[Entry]| side(&two[0]) == side(&two[1]) && two[1].right as u32 == ROW && has_rows(&two[1]);
    if table::withheld(catalogue).windows(2).any(of_a_key) {
        kinds.push(UNBACKED_KEY);
    }
    kinds.sort();
    kinds.dedup();
    kinds
}

/// The kinds of a dropped one: where the columns of its key are, and whether its column is listed too.
fn dropped_kinds(catalogue: &Catalogue, entry: &Entry, listing: &[Entry]) -> Vec<&'static str> {
    let table = &catalogue.tables[entry.target as usize];
    let inherited = table.visible.len() - table.own;
    let (own, above) = (entry.left as u32 >> inherited != 0, entry.left as u32 & ((1 << inherited) - 1) != 0);
    let mut kinds = match (own, above) {
        (false, false) => vec![OF_EMPTY],
        (false, true) => vec![ALL_ABOVE],
        (true, true) => vec![REACHES_UP],
        (true, false) => vec![],
    };
    if listing.iter().any(|other| (other.target, other.right) == (entry.target, entry.right)) {
        kinds.push(ANOTHER_LEFT);
    }
    kinds
}

/// The kinds of a listed one: a column's, whose left side is inside a listed key or is one of another table; or a key.
fn listed_kinds(catalogue: &Catalogue, entry: &Entry, listing: &[Entry]) -> Vec<&'static str> {
    let mut kinds = Vec::new();
    if entry.right as u32 == ROW {
        if catalogue.tables[entry.target as usize].own == 0 {
            kinds.push(NO_OWN_COLUMNS);
        }
        return kinds;
    }
    for key in listing.iter().filter(|key| key.right as u32 == ROW) {
        if key.target == entry.target && entry.left & !key.left == 0 {
            kinds.push(INSIDE_KEY);
        }
        if key.target != entry.target && entry.left == key.left {
            kinds.push(KEY_ELSEWHERE);
        }
    }
    kinds
}
