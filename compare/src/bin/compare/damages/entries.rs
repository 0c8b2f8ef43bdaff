//! Damages to the entries of a list.

use super::sets::{any, less, outside};
use super::Supply;
use compare::random::{self, Random};
use compare::simple::{self, COLUMNS, TABLES};

pub fn drop_entry(random: &mut Random, supply: &mut Supply, _: &Supply) {
    let Some(i) = any(random, &supply.entries) else { return };
    supply.entries.remove(i);
}

pub fn drop_all_entries(_: &mut Random, supply: &mut Supply, _: &Supply) {
    supply.entries.clear();
}

/// An entry of the catalogue, or any.
pub fn add_entry(random: &mut Random, supply: &mut Supply, _: &Supply) {
    let mut entry = random::entry(random);
    if !random.once_in(4) {
        let target = random.below(supply.catalogue.tables.len());
        entry.target = target as u8;
        entry.right = random.pick(&simple::rights(&supply.catalogue, target)) as u8;
        entry.left = random.below(1 << supply.columns(entry.target)) as u16 & outside(entry.right);
    }
    supply.entries.push(entry);
    supply.put_in_order();
}

/// An entry that holds, is minimal and has a left side that no row backs.
pub fn add_withheld(random: &mut Random, supply: &mut Supply, _: &Supply) {
    let Some(i) = any(random, &supply.withheld) else { return };
    *supply = supply.with_entry(supply.withheld[i]);
}

/// The same in the place of one that is listed.
pub fn exchange_withheld(random: &mut Random, supply: &mut Supply, other: &Supply) {
    drop_entry(random, supply, other);
    add_withheld(random, supply, other);
}

pub fn double_entry(random: &mut Random, supply: &mut Supply, _: &Supply) {
    let Some(i) = any(random, &supply.entries) else { return };
    supply.entries.insert(i, supply.entries[i]);
}

pub fn exchange_entries(random: &mut Random, supply: &mut Supply, _: &Supply) {
    let Some(i) = any(random, &supply.entries) else { return };
    let neighbour = (i + 1) % supply.entries.len();
    supply.entries.swap(i, neighbour);
}

pub fn spare_column(random: &mut Random, supply: &mut Supply, _: &Supply) {
    let Some(i) = any(random, &supply.entries) else { return };
    let mut entry = supply.entries[i];
    let columns = supply.columns(entry.target).max(1);
    entry.left |= (1 << random.below(columns)) & outside(entry.right);
    supply.place(random, i, entry);
}

pub fn column_less(random: &mut Random, supply: &mut Supply, _: &Supply) {
    let Some(i) = any(random, &supply.entries) else { return };
    let mut entry = supply.entries[i];
    entry.left = less(random, entry.left);
    supply.place(random, i, entry);
}

/// These three pass 15.
pub fn unknown_target(random: &mut Random, supply: &mut Supply, _: &Supply) {
    let Some(i) = any(random, &supply.entries) else { return };
    let (tables, mut entry) = (supply.catalogue.tables.len(), supply.entries[i]);
    if tables < TABLES {
        entry.target = random.pick(&[tables, TABLES - 1]) as u8;
    }
    supply.place(random, i, entry);
}

pub fn unknown_column(random: &mut Random, supply: &mut Supply, _: &Supply) {
    let Some(i) = any(random, &supply.entries) else { return };
    let mut entry = supply.entries[i];
    let columns = supply.columns(entry.target);
    if columns < COLUMNS {
        entry.left |= (1 << random.pick(&[columns, COLUMNS - 1])) & outside(entry.right);
    }
    supply.place(random, i, entry);
}

pub fn unknown_right(random: &mut Random, supply: &mut Supply, _: &Supply) {
    let Some(i) = any(random, &supply.entries) else { return };
    let mut entry = supply.entries[i];
    entry.right = supply.inherited_or_past(random, entry.target).min(COLUMNS as u8 - 1);
    entry.left &= outside(entry.right);
    supply.place(random, i, entry);
}

pub fn other_list(_: &mut Random, supply: &mut Supply, other: &Supply) {
    supply.entries = other.entries.clone();
}

pub fn other_list_beside(_: &mut Random, supply: &mut Supply, other: &Supply) {
    supply.entries.extend(&other.entries);
    supply.put_in_order();
}
