//! The full listing by a level-wise search over partitions (TANE, Huhtala and others 1999).
//!
//! Rows are grouped by their agreement on a set of visible columns; groups of one row are dropped. A set's
//! error is the number of rows kept less the number of groups: 0 exactly for a key, and X gives a exactly if X
//! and X with a have the same error. All visible columns are right sides of the search, since each prunes; only
//! own columns are listed. Minimal keys are listed too; the search ends at them, so that it finds no dependency whose
//! left side is a key. Of what it finds, that is listed which a row backs.

use crate::simple::{position, Catalogue, Entry, MISSING, ROW};
use crate::table;
use std::cmp::Reverse;
use std::collections::HashMap;

/// The groups of two rows or more, one after the other.
struct Partition {
    rows: Vec<u16>,
    /// Where each group ends.
    ends: Vec<u32>,
}

impl Partition {
    fn error(&self) -> u32 {
        (self.rows.len() - self.ends.len()) as u32
    }

    fn groups(&self) -> impl Iterator<Item = &[u16]> {
        let mut start = 0;
        self.ends.iter().map(move |end| {
            let group = &self.rows[start..*end as usize];
            start = *end as usize;
            group
        })
    }
}

/// Room for products: for each row its group in the first factor, and for each of these groups a count and a place.
struct Scratch {
    group_of: Vec<u32>,
    count: Vec<u32>,
    place: Vec<u32>,
}

/// The rows grouped by both partitions. Within its caller it would be compiled to slower code.
#[inline(never)]
fn product(a: &Partition, b: &Partition, scratch: &mut Scratch) -> Partition {
    for (g, group) in a.groups().enumerate() {
        group.iter().for_each(|row| scratch.group_of[*row as usize] = g as u32 + 1);
    }
    let mut result = Partition { rows: Vec::new(), ends: Vec::new() };
    for group in b.groups() {
        for row in group {
            scratch.count[scratch.group_of[*row as usize] as usize] += 1;
        }
        scratch.count[0] = 0;
        for row in group {
            let g = scratch.group_of[*row as usize] as usize;
            let count = scratch.count[g];
            if count >= 2 {
                scratch.place[g] = result.rows.len() as u32;
                result.rows.resize(result.rows.len() + count as usize, 0);
                result.ends.push(result.rows.len() as u32);
            }
            if count >= 1 {
                scratch.count[g] = 0;
            }
            if scratch.place[g] != u32::MAX {
                result.rows[scratch.place[g] as usize] = *row;
                scratch.place[g] += 1;
            }
        }
        group.iter().for_each(|row| scratch.place[scratch.group_of[*row as usize] as usize] = u32::MAX);
    }
    a.rows.iter().for_each(|row| scratch.group_of[*row as usize] = 0);
    result
}

/// The rows of the target grouped by agreement on visible column k: by code, or where the cell is missing by
/// reached row.
fn column_partition(catalogue: &Catalogue, target: usize, k: usize) -> Partition {
    let column = catalogue.tables[target].visible[k];
    let mut groups: HashMap<(bool, u32), Vec<u16>> = HashMap::new();
    for x in 0..catalogue.tables[target].rows.len() {
        let (mut table, mut row) = (target, x);
        while table != column.table {
            row = catalogue.tables[table].rows[row].parent;
            table = catalogue.tables[table].parent;
        }
        let code = catalogue.tables[table].rows[row].codes[column.own];
        let class = if code == MISSING { (true, row as u32) } else { (false, code) };
        groups.entry(class).or_default().push(x as u16);
    }
    let mut partition = Partition { rows: Vec::new(), ends: Vec::new() };
    let mut groups: Vec<Vec<u16>> = groups.into_values().filter(|group| group.len() >= 2).collect();
    groups.sort();
    for group in groups {
        partition.rows.extend(group);
        partition.ends.push(partition.rows.len() as u32);
    }
    partition
}

/// A set of columns with its partition.
struct Node {
    set: u32,
    partition: Partition,
}

struct Search {
    n: usize,
    scratch: Scratch,
    /// For each set of a level its error.
    error: Vec<u32>,
    /// For each set of a level the right sides that may still be minimal at it or above it.
    candidates: Vec<u32>,
    found: Vec<(u32, u32)>,
}

/// The full listing of a catalogue.
pub fn listing(catalogue: &Catalogue) -> Vec<Entry> {
    let mut entries = Vec::new();
    for target in 0..catalogue.tables.len() {
        let table = &catalogue.tables[target];
        let inherited = (table.visible.len() - table.own) as u32;
        let present = distinct_present(catalogue, target);
        let backed = |left: u32| present.iter().any(|set| left & !set == 0);
        for (left, right) in minimal(catalogue, target) {
            if (right == ROW || right >= inherited) && backed(left) {
                entries.push(Entry { target: target as u8, right: right as u8, left: left as u16 });
            }
        }
    }
    entries.sort_by_key(|entry| position(*entry));
    entries
}

/// The sets of columns in which rows of the target have cells, each once, the largest first.
fn distinct_present(catalogue: &Catalogue, target: usize) -> Vec<u32> {
    let mut present = table::present(catalogue, target);
    present.sort_by_key(|set| (Reverse(set.count_ones()), *set));
    present.dedup();
    present
}

/// The minimal dependencies (left, right) of a target over all its visible columns whose left side is no key, and its
/// minimal keys.
fn minimal(catalogue: &Catalogue, target: usize) -> Vec<(u32, u32)> {
    let rows = catalogue.tables[target].rows.len();
    let n = catalogue.tables[target].visible.len();
    if rows < 2 {
        return vec![(0, ROW)];
    }
    let scratch = Scratch { group_of: vec![0; rows], count: vec![0; rows + 1], place: vec![u32::MAX; rows + 1] };
    let (error, candidates) = (vec![0; 1 << n], vec![0; 1 << n]);
    let mut search = Search { n, scratch, error, candidates, found: Vec::new() };
    search.error[0] = rows as u32 - 1;
    search.candidates[0] = (1 << n) - 1;
    let mut level: Vec<Node> = (0..n).map(|k| search.node(1 << k, column_partition(catalogue, target, k))).collect();
    while !level.is_empty() {
        level.iter().for_each(|node| search.dependencies(node.set));
        level.retain(|node| search.keep(node.set));
        level = search.next_level(&level);
    }
    search.found
}

fn members(set: u32) -> impl Iterator<Item = usize> {
    (0..32).filter(move |k| set & (1 << k) != 0)
}

impl Search {
    fn node(&mut self, set: u32, partition: Partition) -> Node {
        self.error[set as usize] = partition.error();
        Node { set, partition }
    }

    /// Finds the dependencies from the set less one column to that column.
    fn dependencies(&mut self, set: u32) {
        let mut candidates = (1 << self.n) - 1;
        for k in members(set) {
            candidates &= self.candidates[(set & !(1 << k)) as usize];
        }
        for k in members(set & candidates) {
            let left = set & !(1 << k);
            if self.error[left as usize] == self.error[set as usize] {
                self.found.push((left, k as u32));
                candidates &= set & !(1 << k);
            }
        }
        self.candidates[set as usize] = candidates;
    }

    /// Whether the search goes on above the set. A key is listed here: all sets one smaller were kept and are no keys,
    /// so it is a minimal one. None of a minimal key's right sides has been given up.
    fn keep(&mut self, set: u32) -> bool {
        if self.candidates[set as usize] == 0 {
            return false;
        }
        let key = self.error[set as usize] == 0;
        if key {
            self.found.push((set, ROW));
        }
        !key
    }

    /// The sets one larger, all of whose sets one smaller were kept.
    fn next_level(&mut self, level: &[Node]) -> Vec<Node> {
        let mut kept = vec![None; 1 << self.n];
        level.iter().for_each(|node| kept[node.set as usize] = Some(node));
        let mut next = Vec::new();
        for a in level {
            let top = 31 - a.set.leading_zeros() as usize;
            for k in top + 1..self.n {
                let set = a.set | 1 << k;
                if members(set).all(|k| kept[(set & !(1 << k)) as usize].is_some()) {
                    let b = kept[(set & !(1 << top)) as usize].unwrap();
                    let partition = product(&a.partition, &b.partition, &mut self.scratch);
                    next.push(self.node(set, partition));
                }
            }
        }
        next
    }
}
