//! A supplier's list with evidence, before it is bytes.

use super::sets::{full, member, outside};
use crate::packed;
use compare::evidence::{self, Failing, Record};
use compare::random::{Layout, Random};
use compare::simple::{self, Catalogue, Entry, Table, COLUMNS, ROW};
use compare::table;

/// A catalogue, a list behind bytes of the caller, and evidence; and the minimal ones that the list lacks, since no row
/// backs them or since their left side is a key.
#[derive(Clone)]
pub struct Supply {
    pub layout: Layout,
    pub catalogue: Catalogue,
    pub front: Vec<u8>,
    pub entries: Vec<Entry>,
    pub records: Vec<Record>,
    pub withheld: Vec<Entry>,
    pub dropped: Vec<Entry>,
}

/// The three files that the check is lent.
#[derive(Clone)]
pub struct Files {
    pub cat: Vec<u8>,
    pub list: Vec<u8>,
    pub evidence: Vec<u8>,
}

impl Supply {
    /// The full listing of a sound catalogue with its evidence, for the backed sets.
    pub fn of(layout: Layout) -> Supply {
        let catalogue = simple::check(&layout.file).expect("a sound catalogue");
        let (entries, records) = (table::listing(&catalogue), table::evidence(&catalogue, Failing::Backed));
        let (withheld, dropped) = (table::withheld(&catalogue), table::dropped(&catalogue));
        Supply { layout, catalogue, front: Vec::new(), entries, records, withheld, dropped }
    }

    pub fn files(&self) -> Files {
        let list = packed::written(&self.entries, &self.front);
        Files { cat: self.layout.file.clone(), list, evidence: evidence::written(&self.records) }
    }

    pub fn table(&self, target: u8) -> Option<&Table> {
        self.catalogue.tables.get(target as usize)
    }

    /// The number of visible columns; 0 of an unknown table.
    pub fn columns(&self, target: u8) -> usize {
        self.table(target).map_or(0, |table| table.visible.len())
    }

    /// The number of rows; 0 of an unknown table.
    pub fn rows(&self, target: u8) -> usize {
        self.table(target).map_or(0, |table| table.rows.len())
    }

    /// Puts the entries in listing order, each once.
    pub fn put_in_order(&mut self) {
        self.entries.sort_by_key(|entry| simple::position(*entry));
        self.entries.dedup();
    }

    /// The same with an entry more, in listing order.
    pub fn with_entry(&self, entry: Entry) -> Supply {
        let mut supply = self.clone();
        supply.entries.push(entry);
        supply.put_in_order();
        supply
    }

    /// The keys that are listed.
    pub fn keys(&self) -> Vec<Entry> {
        self.entries.iter().filter(|entry| entry.right as u32 == ROW).copied().collect()
    }

    /// The keys of which another table's lies inside.
    pub fn keys_around_others(&self) -> Vec<Entry> {
        let keys = self.keys();
        let inside = |key: &Entry, other: &Entry| other.target != key.target && other.left & !key.left == 0;
        keys.iter().filter(|key| keys.iter().any(|other| inside(key, other))).copied().collect()
    }

    /// The same without a key, the entries dropped for it in its place or not.
    pub fn without_key(&self, key: Entry, columns: bool) -> Supply {
        let mut supply = self.clone();
        supply.entries.retain(|entry| *entry != key);
        let for_key = |entry: &&Entry| columns && (entry.target, entry.left) == (key.target, key.left);
        supply.entries.extend(self.dropped.iter().filter(for_key));
        supply.put_in_order();
        supply
    }

    /// The same with an entry more: one that is dropped for its key, with a column to spare if there is one. It holds,
    /// and its left is the key or contains it.
    pub fn with_above(&self, random: &mut Random, dropped: Entry) -> Supply {
        let more = full(self.columns(dropped.target)) & outside(dropped.right) & !dropped.left;
        self.with_entry(Entry { left: dropped.left | member(random, more), ..dropped })
    }

    /// The same with a record of each set with a column less in the place of a record: its set alone lies inside none
    /// any more, if it lay inside that record alone.
    pub fn lowered(&self, i: usize) -> Supply {
        let mut supply = self.clone();
        let record = supply.records.remove(i);
        let members = (0..COLUMNS).filter(|k| record.set & 1 << k != 0);
        supply.records.extend(members.map(|k| Record { set: record.set & !(1 << k), ..record }));
        supply
    }

    /// Whether a row backs the set of a record.
    pub fn is_backed(&self, i: usize) -> bool {
        let Record { target, set, .. } = self.records[i];
        simple::backed(&self.catalogue, target as usize, set as u32)
    }

    /// A column of a table above, or one past the last.
    pub fn inherited_or_past(&self, random: &mut Random, target: u8) -> u8 {
        let n = self.columns(target);
        let own = self.table(target).map_or(0, |table| table.own);
        let inherited = random.below((n - own).max(1));
        if n > own && random.once_in(2) {
            inherited as u8
        } else {
            n as u8
        }
    }

    /// An entry in the place of another, or beside it, in listing order.
    pub fn place(&mut self, random: &mut Random, i: usize, entry: Entry) {
        if random.once_in(2) {
            self.entries[i] = entry;
        } else {
            self.entries.push(entry);
        }
        self.put_in_order();
    }
}
