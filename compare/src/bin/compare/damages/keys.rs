//! Damages to the keys of a list, and with what is dropped for them.

use super::sets::{any, full, less, member};
use super::Supply;
use compare::random::Random;
use compare::simple::{Entry, ROW};

/// An entry that is dropped for its key: minimal and backed.
pub fn add_dropped(random: &mut Random, supply: &mut Supply, _: &Supply) {
    let Some(i) = any(random, &supply.dropped) else { return };
    *supply = supply.with_entry(supply.dropped[i]);
}

/// All of them: then every minimal one is listed that a row backs.
pub fn add_all_dropped(_: &mut Random, supply: &mut Supply, _: &Supply) {
    supply.entries.extend(&supply.dropped);
    supply.put_in_order();
}

/// One of them with a column to spare.
pub fn add_above_dropped(random: &mut Random, supply: &mut Supply, _: &Supply) {
    let Some(i) = any(random, &supply.dropped) else { return };
    *supply = supply.with_above(random, supply.dropped[i]);
}

/// Any key, or one of which a key of another table lies inside.
pub fn drop_key(random: &mut Random, supply: &mut Supply, _: &Supply) {
    let around = supply.keys_around_others();
    let keys = if random.once_in(2) && !around.is_empty() { around } else { supply.keys() };
    let Some(i) = any(random, &keys) else { return };
    *supply = supply.without_key(keys[i], false);
}

/// All keys of a table, or of all.
pub fn drop_all_keys(random: &mut Random, supply: &mut Supply, _: &Supply) {
    let (target, all) = (random.below(supply.catalogue.tables.len()) as u8, random.once_in(4));
    supply.entries.retain(|entry| entry.right as u32 != ROW || !(all || entry.target == target));
}

/// The entries dropped for a key in its place.
pub fn columns_for_key(random: &mut Random, supply: &mut Supply, _: &Supply) {
    let of_columns =
        |key: &Entry| supply.dropped.iter().any(|entry| (entry.target, entry.left) == (key.target, key.left));
    let keys: Vec<Entry> = supply.keys().into_iter().filter(of_columns).collect();
    let Some(i) = any(random, &keys) else { return };
    *supply = supply.without_key(keys[i], true);
}

/// The left side of a column's entry as a key, by itself or with a column less or more.
pub fn column_as_key(random: &mut Random, supply: &mut Supply, _: &Supply) {
    let columns: Vec<usize> = (0..supply.entries.len()).filter(|i| supply.entries[*i].right as u32 != ROW).collect();
    let Some(i) = any(random, &columns) else { return };
    let entry = supply.entries[columns[i]];
    let left = match random.below(3) {
        0 => less(random, entry.left),
        1 => entry.left,
        _ => entry.left | member(random, full(supply.columns(entry.target)) & !entry.left),
    };
    supply.place(random, columns[i], Entry { right: ROW as u8, left, ..entry });
}

/// A key as one of another table.
pub fn key_of_another_target(random: &mut Random, supply: &mut Supply, _: &Supply) {
    let keys: Vec<usize> = (0..supply.entries.len()).filter(|i| supply.entries[*i].right as u32 == ROW).collect();
    let Some(i) = any(random, &keys) else { return };
    let target = random.below(supply.catalogue.tables.len()) as u8;
    supply.place(random, keys[i], Entry { target, ..supply.entries[keys[i]] });
}

/// One small key in the place of all entries of a table, and none of its records.
pub fn key_for_all(random: &mut Random, supply: &mut Supply, _: &Supply) {
    let target = random.below(supply.catalogue.tables.len()) as u8;
    let left = random.pick(&[0, 0, 1, 2]) & full(supply.columns(target));
    supply.entries.retain(|entry| entry.target != target);
    supply.records.retain(|record| record.target != target);
    *supply = supply.with_entry(Entry { target, right: ROW as u8, left });
}
