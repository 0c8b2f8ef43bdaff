//! Entries in their order, the full listing, and one listing call.

use super::Refusal::{self, *};
use super::{listed, rights, Catalogue, WORK_WORDS};

// ---- Order, places, the full listing ----

/// An entry record, as it is lent and as it is packed.
#[repr(C)]
#[derive(Clone, Copy, PartialEq, Eq, Debug, Default)]
pub struct Entry {
    pub target: u8,
    pub right: u8,
    pub left: u16,
}

/// The sets of n columns in listing order: by size, then by number.
pub fn left_sides(n: usize) -> Vec<u32> {
    let mut sides = Vec::new();
    for size in 0..=n as u32 {
        for left in 0..1u32 << n {
            if left.count_ones() == size {
                sides.push(left);
            }
        }
    }
    sides
}

/// The full listing, set by set: element p has the entries of the set that follows place p.
pub fn full_listing(catalogue: &Catalogue) -> Vec<Vec<Entry>> {
    let mut listing = Vec::new();
    for target in 0..catalogue.tables.len() {
        for left in left_sides(catalogue.tables[target].visible.len()) {
            let mut entries = Vec::new();
            for right in rights(catalogue, target) {
                if listed(catalogue, target, left, right) {
                    entries.push(Entry { target: target as u8, right: right as u8, left: left as u16 });
                }
            }
            listing.push(entries);
        }
    }
    listing
}

// ---- One listing call ----

#[derive(Clone, Copy, PartialEq, Eq, Debug)]
pub struct Answer {
    pub next_place: u32,
    pub passed: u32,
    pub entries: u32,
}

/// One listing call on an accepted catalogue with this full listing: refusals 11, 12, 13, then the stop rule.
pub fn list(
    listing: &[Vec<Entry>],
    place: u32,
    budget: u32,
    run: &mut [Entry],
    work: &mut [u32],
) -> Result<Answer, Refusal> {
    let last = listing.len();
    let first = place as usize;
    if work.len() < WORK_WORDS {
        return Err(SmallBench);
    }
    if first > last {
        return Err(PastTheEnd);
    }
    if budget > 0 && first < last && listing[first].len() > run.len() {
        work.fill(0);
        return Err(TrayFull);
    }
    let mut next = first;
    let mut count = 0;
    while next - first < budget as usize && next < last && count + listing[next].len() <= run.len() {
        for entry in &listing[next] {
            run[count] = *entry;
            count += 1;
        }
        next += 1;
    }
    work.fill(0);
    Ok(Answer { next_place: next as u32, passed: (next - first) as u32, entries: count as u32 })
}
