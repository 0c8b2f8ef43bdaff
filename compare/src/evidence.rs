//! Document 02 b in plain loops, as d and e alter it: the check of a supplier's list by evidence, and evidence for a
//! full listing.
//!
//! Nothing here is fast. Each function renders one sentence of the request.

use crate::simple::{self, Catalogue, Entry, Refusal, ROW};

// ---- Records ----

/// "Evidence records: target (1 byte), right (1), a column set (2), two rows (2 each)."
#[derive(Clone, Copy, PartialEq, Eq, Debug)]
pub struct Record {
    pub target: u8,
    pub right: u8,
    pub set: u16,
    pub rows: [u16; 2],
}

/// The bytes of a record.
pub const RECORD_BYTES: usize = 8;

impl Record {
    fn read(bytes: &[u8]) -> Record {
        let number = |at| simple::u16_at(bytes, at) as u16;
        Record { target: bytes[0], right: bytes[1], set: number(2), rows: [number(4), number(6)] }
    }

    fn bytes(&self) -> [u8; RECORD_BYTES] {
        let [set, first, second] = [self.set, self.rows[0], self.rows[1]].map(u16::to_le_bytes);
        [self.target, self.right, set[0], set[1], first[0], first[1], second[0], second[1]]
    }
}

/// The whole records of some bytes, and whether a broken one is behind them.
pub fn read(evidence: &[u8]) -> (Vec<Record>, bool) {
    let whole = evidence.chunks_exact(RECORD_BYTES);
    let broken = !whole.remainder().is_empty();
    (whole.map(Record::read).collect(), broken)
}

/// The bytes of some records.
pub fn written(records: &[Record]) -> Vec<u8> {
    records.iter().flat_map(Record::bytes).collect()
}

// ---- The check ----

/// The number of entries of an accepted list. "The catalogue is checked first, then the list"; then 17 over all
/// records, 18 over all entries, and 19.
pub fn verify(cat: &[u8], list: &[u8], evidence: &[u8]) -> Result<u64, Refusal> {
    let catalogue = simple::check(cat)?;
    let entries = simple::open(list)?.entries;
    if first_fault(&catalogue, evidence).is_some() {
        return Err(Refusal::FalseRecord);
    }
    if first_flaw(&catalogue, &entries).is_some() {
        return Err(Refusal::UnsoundEntry);
    }
    if first_gap(&catalogue, &entries, &read(evidence).0).is_some() {
        return Err(Refusal::UncoveredSet);
    }
    Ok(entries.len() as u64)
}

/// Why the first record that is not true is not; a broken one is the last.
pub fn first_fault(catalogue: &Catalogue, evidence: &[u8]) -> Option<&'static str> {
    let (records, broken) = read(evidence);
    let first = records.iter().find_map(|record| fault(catalogue, record));
    first.or(if broken { Some("broken") } else { None })
}

/// Why a record is not true. "A record is true if 8 to 10 allow its target, set and right, both rows exist, its right
/// is not in its set, and its rows agree on the set and disagree on the right."
pub fn fault(catalogue: &Catalogue, record: &Record) -> Option<&'static str> {
    let (set, right) = (record.set as u32, record.right as u32);
    if let Err(refusal) = simple::refused_sides(catalogue, record.target as u32, set, right) {
        return Some(not_allowed(refusal));
    }
    let target = record.target as usize;
    let [x, y] = record.rows.map(usize::from);
    let rows = catalogue.tables[target].rows.len();
    if x >= rows || y >= rows {
        return Some("no such row");
    }
    if simple::right_in(set, right) {
        return Some("right in the set");
    }
    if !simple::agree_on_set(catalogue, target, x, y, set) {
        return Some("rows disagree on the set");
    }
    if simple::agree_on_right(catalogue, target, x, y, right) {
        return Some("rows agree on the right");
    }
    None
}

/// Why the first entry that is refused is.
pub fn first_flaw(catalogue: &Catalogue, entries: &[Entry]) -> Option<&'static str> {
    entries.iter().find_map(|entry| flaw(catalogue, entries, entry))
}

/// Why an entry is refused: it "falls under 8 to 10, fails, or contains another", that is "another listed left for its
/// target and right"; or "besides the earlier grounds, an entry is unbacked" (02 d), or "a column entry's left contains
/// a listed key" (02 e) of its target: its own left, or a smaller one.
pub fn flaw(catalogue: &Catalogue, entries: &[Entry], entry: &Entry) -> Option<&'static str> {
    let (target, left, right) = (entry.target as u32, entry.left as u32, entry.right as u32);
    if let Err(refusal) = simple::refused_sides(catalogue, target, left, right) {
        return Some(not_allowed(refusal));
    }
    if !simple::holds(catalogue, target as usize, left, right) {
        return Some("fails");
    }
    let for_the_two = |other: &&Entry| other.target == entry.target && other.right == entry.right;
    let mut others = entries.iter().filter(for_the_two).filter(|other| other.left != entry.left);
    if others.any(|other| inside(other.left as u32, left)) {
        return Some("contains another");
    }
    if !simple::backed(catalogue, target as usize, left) {
        return Some("unbacked");
    }
    let keys = listed_keys(entries, target as usize);
    if right != ROW && keys.contains(&left) {
        return Some("its left is a listed key");
    }
    if right != ROW && keys.iter().any(|key| inside(*key, left)) {
        return Some("contains a listed key");
    }
    None
}

/// The keys that a list has for a target: the lefts of its entries with the row on the right.
fn listed_keys(entries: &[Entry], target: usize) -> Vec<u32> {
    let keys = entries.iter().filter(|entry| entry.target as usize == target && entry.right as u32 == ROW);
    keys.map(|entry| entry.left as u32).collect()
}

fn not_allowed(refusal: Refusal) -> &'static str {
    match refusal {
        Refusal::UnknownTable => "8",
        Refusal::UnknownColumn => "9",
        _ => "10",
    }
}

/// Whether each member of a set is in another.
fn inside(set: u32, other: u32) -> bool {
    set & !other == 0
}

/// What the first uncovered set lacks, of those that must be covered: "backed sets only" (02 d).
pub fn first_gap(catalogue: &Catalogue, entries: &[Entry], records: &[Record]) -> Option<&'static str> {
    let (target, right, set) = first_uncovered(catalogue, entries, records, true)?;
    if !simple::holds(catalogue, target, set, right) {
        Some("a set that fails lies inside no record")
    } else if simple::repeats_key(catalogue, target, set, right) {
        Some("a key contains neither a left listed for a column nor a listed key")
    } else {
        Some("a set that holds contains no listed left")
    }
}

/// The first uncovered set among the backed ones, or among the others, with its target and right. "For every target and
/// every right of it, each set without that right contains a left listed for the two or lies inside the set of a record
/// for the two." "A set also counts as covered if it contains a listed key of that target" (02 e).
pub fn first_uncovered(
    catalogue: &Catalogue,
    entries: &[Entry],
    records: &[Record],
    backed: bool,
) -> Option<(usize, u32, u32)> {
    for target in 0..catalogue.tables.len() {
        let keys = listed_keys(entries, target);
        for right in simple::rights(catalogue, target) {
            let for_the_two = |of: u8, to: u8| of as usize == target && to as u32 == right;
            let lefts = entries.iter().filter(|entry| for_the_two(entry.target, entry.right));
            let lefts: Vec<u32> = lefts.map(|entry| entry.left as u32).collect();
            let sets = records.iter().filter(|record| for_the_two(record.target, record.right));
            let sets: Vec<u32> = sets.map(|record| record.set as u32).collect();
            for set in sets_without(catalogue, target, right) {
                if simple::backed(catalogue, target, set) != backed {
                    continue;
                }
                let covered = lefts.iter().any(|left| inside(*left, set))
                    || keys.iter().any(|key| inside(*key, set))
                    || sets.iter().any(|above| inside(set, *above));
                if !covered {
                    return Some((target, right, set));
                }
            }
        }
    }
    None
}

/// The sets of the target's columns that the right is not in.
fn sets_without(catalogue: &Catalogue, target: usize, right: u32) -> impl Iterator<Item = u32> {
    let n = catalogue.tables[target].visible.len();
    (0..1 << n).filter(move |set| !simple::right_in(*set, right))
}

// ---- Evidence for the full listing ----

/// The failing sets that evidence is made for: "a full listing is accepted if all records are true and each failing set
/// has one above it", by 02 d each backed one.
#[derive(Clone, Copy, PartialEq, Eq, Debug)]
pub enum Failing {
    Backed,
    All,
}

/// For each target and right, and each largest such set without the right: a record with its first breaking pair.
pub fn records(catalogue: &Catalogue, of: Failing) -> Vec<Record> {
    let mut records = Vec::new();
    for target in 0..catalogue.tables.len() {
        for right in simple::rights(catalogue, target) {
            for set in sets_without(catalogue, target, right) {
                let Some((x, y)) = simple::first_pair(catalogue, target, set, right) else { continue };
                if taken(catalogue, target, set, of) && largest(catalogue, target, set, right, of) {
                    let rows = [x as u16, y as u16];
                    records.push(Record { target: target as u8, right: right as u8, set: set as u16, rows });
                }
            }
        }
    }
    records
}

/// Whether evidence is made for a set, if it fails.
fn taken(catalogue: &Catalogue, target: usize, set: u32, of: Failing) -> bool {
    of == Failing::All || simple::backed(catalogue, target, set)
}

/// Whether no such set with a column more, still without the right, fails.
fn largest(catalogue: &Catalogue, target: usize, set: u32, right: u32, of: Failing) -> bool {
    let n = catalogue.tables[target].visible.len();
    let more = (0..n).filter(|k| !simple::member(set, *k) && *k as u32 != right);
    let mut above = more.map(|k| set | 1 << k).filter(|above| taken(catalogue, target, *above, of));
    above.all(|above| simple::holds(catalogue, target, above, right))
}
