//! Damages to the bytes of the three files; bytes in front of the list, and another catalogue.

use super::sets::any;
use super::{Files, Supply};
use crate::packed;
use compare::evidence::{self, Record, RECORD_BYTES};
use compare::random::{self, Random};
use compare::simple::Entry;

// ---- The list's front, the catalogue ----

/// The catalogue, the list itself, or any bytes in front of the list.
pub fn bytes_in_front(random: &mut Random, supply: &mut Supply, _: &Supply) {
    supply.front = match random.below(3) {
        0 => supply.layout.file.clone(),
        1 => packed::written(&supply.entries, &[]),
        _ => (0..random.from_to(1, 9)).map(|_| random.number() as u8).collect(),
    };
}

pub fn other_catalogue(_: &mut Random, supply: &mut Supply, other: &Supply) {
    supply.layout = other.layout.clone();
    supply.catalogue = other.catalogue.clone();
}

// ---- Bytes ----

pub fn damage_catalogue(random: &mut Random, files: &mut Files, supply: &Supply) {
    files.cat = random::damaged(random, &supply.layout);
}

pub fn damage_list(random: &mut Random, files: &mut Files, _: &Supply) {
    files.list = packed::damaged_file(random, std::mem::take(&mut files.list));
}

pub fn byte_less(_: &mut Random, files: &mut Files, _: &Supply) {
    files.evidence.pop();
}

pub fn byte_more(random: &mut Random, files: &mut Files, _: &Supply) {
    files.evidence.push(random.number() as u8);
}

/// A byte set to any, or one bit of it altered; or cut between two bytes.
pub fn altered_evidence(random: &mut Random, files: &mut Files, _: &Supply) {
    let Some(at) = any(random, &files.evidence) else { return };
    match random.below(3) {
        0 => files.evidence[at] = random.number() as u8,
        1 => files.evidence[at] ^= 1 << random.below(8),
        _ => files.evidence.truncate(at),
    }
}

/// Any bytes, or any entries that pass 14.
pub fn any_list(random: &mut Random, files: &mut Files, _: &Supply) {
    files.list = (0..random.below(30)).map(|_| random.number() as u8).collect();
    if random.once_in(2) {
        let entries: Vec<Entry> = (0..random.below(3)).map(|_| random::entry(random)).collect();
        files.list = packed::written(&entries, &files.list);
    }
}

/// Any bytes, or records with small numbers.
pub fn any_evidence(random: &mut Random, files: &mut Files, supply: &Supply) {
    let small = random.once_in(2);
    let bound = if small { 4 } else { 256 };
    let len = random.below(3 * RECORD_BYTES + 1);
    files.evidence = (0..len).map(|_| random.below(bound) as u8).collect();
    if small {
        files.evidence.truncate(len / RECORD_BYTES * RECORD_BYTES);
        let (records, _) = evidence::read(&files.evidence);
        let small = |record: &Record| Record {
            target: record.target % supply.catalogue.tables.len() as u8,
            set: record.set & 3,
            rows: record.rows.map(|row| row & 3),
            ..*record
        };
        files.evidence = evidence::written(&records.iter().map(small).collect::<Vec<Record>>());
    }
}

pub fn no_evidence(_: &mut Random, files: &mut Files, _: &Supply) {
    files.evidence.clear();
}
