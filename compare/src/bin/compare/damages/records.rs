//! Damages to the records of the evidence.

use super::sets::{any, less, outside};
use super::Supply;
use compare::evidence::Record;
use compare::random::Random;
use compare::simple::{self, COLUMNS, ROW, ROWS, TABLES};

pub fn drop_record(random: &mut Random, supply: &mut Supply, _: &Supply) {
    let Some(i) = any(random, &supply.records) else { return };
    supply.records.remove(i);
}

/// All records of sets that no row backs. Of the sets inside them some may be backed.
pub fn drop_unbacked_records(_: &mut Random, supply: &mut Supply, _: &Supply) {
    let Supply { catalogue, records, .. } = supply;
    let known = |target: usize| target < catalogue.tables.len();
    records.retain(|Record { target, set, .. }| {
        !known(*target as usize) || simple::backed(catalogue, *target as usize, *set as u32)
    });
}

/// All records of a target and right.
pub fn drop_records_of_right(random: &mut Random, supply: &mut Supply, _: &Supply) {
    let Some(i) = any(random, &supply.records) else { return };
    let Record { target, right, .. } = supply.records[i];
    supply.records.retain(|record| (record.target, record.right) != (target, right));
}

pub fn repeat_record(random: &mut Random, supply: &mut Supply, _: &Supply) {
    let Some(i) = any(random, &supply.records) else { return };
    let place = random.below(supply.records.len() + 1);
    supply.records.insert(place, supply.records[i]);
}

pub fn shuffle_records(random: &mut Random, supply: &mut Supply, _: &Supply) {
    for i in 1..supply.records.len() {
        supply.records.swap(i, random.below(i + 1));
    }
}

pub fn reverse_rows(random: &mut Random, supply: &mut Supply, _: &Supply) {
    let Some(i) = any(random, &supply.records) else { return };
    supply.records[i].rows.reverse();
}

pub fn wrong_rows(random: &mut Random, supply: &mut Supply, _: &Supply) {
    let Some(i) = any(random, &supply.records) else { return };
    let rows = supply.rows(supply.records[i].target).max(1);
    supply.records[i].rows[random.below(2)] = random.below(rows) as u16;
}

pub fn one_row_twice(random: &mut Random, supply: &mut Supply, _: &Supply) {
    let Some(i) = any(random, &supply.records) else { return };
    let record = &mut supply.records[i];
    record.rows[1] = record.rows[0];
}

/// With rows that agree on it too, or with those of the record.
pub fn right_inside(random: &mut Random, supply: &mut Supply, _: &Supply) {
    let columns: Vec<usize> = (0..supply.records.len()).filter(|i| supply.records[*i].right as u32 != ROW).collect();
    let Some(i) = any(random, &columns) else { return };
    let record = &mut supply.records[columns[i]];
    record.set |= !outside(record.right);
    if random.once_in(2) {
        record.rows[1] = record.rows[0];
    }
}

pub fn row_out_of_range(random: &mut Random, supply: &mut Supply, _: &Supply) {
    let Some(i) = any(random, &supply.records) else { return };
    let rows = supply.rows(supply.records[i].target);
    let row = random.pick(&[rows, rows, rows + 1, ROWS, 256, 65_535]) as u16;
    supply.records[i].rows[random.below(2)] = row;
}

pub fn unknown_target(random: &mut Random, supply: &mut Supply, _: &Supply) {
    let Some(i) = any(random, &supply.records) else { return };
    let tables = supply.catalogue.tables.len() as u8;
    supply.records[i].target = random.pick(&[tables, tables, tables + 1, TABLES as u8, 255]);
}

pub fn unknown_column(random: &mut Random, supply: &mut Supply, _: &Supply) {
    let Some(i) = any(random, &supply.records) else { return };
    let columns = supply.columns(supply.records[i].target);
    if columns < COLUMNS {
        supply.records[i].set |= 1 << random.pick(&[columns, columns, COLUMNS - 1]);
    }
}

pub fn unknown_right(random: &mut Random, supply: &mut Supply, _: &Supply) {
    let Some(i) = any(random, &supply.records) else { return };
    let near = supply.inherited_or_past(random, supply.records[i].target);
    supply.records[i].right = random.pick(&[near, near, near, COLUMNS as u8, 254]);
}

pub fn another_right(random: &mut Random, supply: &mut Supply, _: &Supply) {
    let Some(i) = any(random, &supply.records) else { return };
    let target = supply.records[i].target as usize;
    if target < supply.catalogue.tables.len() {
        supply.records[i].right = random.pick(&simple::rights(&supply.catalogue, target)) as u8;
    }
}

pub fn another_target(random: &mut Random, supply: &mut Supply, _: &Supply) {
    let Some(i) = any(random, &supply.records) else { return };
    supply.records[i].target = random.below(supply.catalogue.tables.len()) as u8;
}

/// A record that stays true but lies above fewer sets, in the place of one or beside it.
pub fn smaller_set(random: &mut Random, supply: &mut Supply, _: &Supply) {
    let Some(i) = any(random, &supply.records) else { return };
    let mut record = supply.records[i];
    record.set = less(random, record.set);
    if random.once_in(2) {
        supply.records[i] = record;
    } else {
        supply.records.push(record);
    }
}

pub fn larger_set(random: &mut Random, supply: &mut Supply, _: &Supply) {
    let Some(i) = any(random, &supply.records) else { return };
    let columns = supply.columns(supply.records[i].target).max(1);
    supply.records[i].set |= 1 << random.below(columns);
}

pub fn other_evidence(_: &mut Random, supply: &mut Supply, other: &Supply) {
    supply.records = other.records.clone();
}

pub fn other_evidence_beside(random: &mut Random, supply: &mut Supply, other: &Supply) {
    supply.records.extend(&other.records);
    shuffle_records(random, supply, other);
}
