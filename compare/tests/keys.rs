//! What a key stands for (document 02 e), by the simple implementation alone. On random small catalogues: nothing is
//! lost, and what is dropped is told by its key. On tiny ones: of all lists, the full listing alone is accepted.

use compare::evidence::{self, Failing};
use compare::random::{self, Draft, Random};
use compare::simple::{self, Catalogue, Entry, ROW};
use compare::table;

/// Random catalogues of up to so many columns and rows, one for each seed.
fn catalogues(seeds: u64, visible: &'static [usize], rows: &'static [usize]) -> impl Iterator<Item = (u64, Draft)> {
    (0..seeds).map(|seed| {
        let mut random = Random::new(seed);
        let (visible, rows) = (random.pick(visible), random.pick(rows));
        (seed, random::small_draft(&mut random, visible, rows))
    })
}

/// Each target, left side and right of a catalogue, the right not in the left.
fn sides(catalogue: &Catalogue) -> Vec<(usize, u32, u32)> {
    let mut sides = Vec::new();
    for target in 0..catalogue.tables.len() {
        for left in simple::left_sides(catalogue.tables[target].visible.len()) {
            let rights = simple::rights(catalogue, target).into_iter().filter(|right| !simple::right_in(left, *right));
            sides.extend(rights.map(|right| (target, left, right)));
        }
    }
    sides
}

fn entry(target: usize, left: u32, right: u32) -> Entry {
    Entry { target: target as u8, right: right as u8, left: left as u16 }
}

/// Whether a left side contains one that is listed for the target and right.
fn contains_listed(listing: &[Entry], target: usize, left: u32, right: u32) -> bool {
    let mut listed = listing.iter().filter(|entry| entry.target as usize == target && entry.right as u32 == right);
    listed.any(|entry| entry.left as u32 & !left == 0)
}

/// A backed left side gives a right that is not in it exactly if it contains a left listed for that right, or a listed
/// key.
#[test]
fn nothing_is_lost() {
    let (mut by_left, mut by_key_alone, mut not_at_all) = (0, 0, 0);
    for (seed, draft) in catalogues(1_000, &[2, 4, 5, 6], &[3, 6, 12]) {
        let catalogue = simple::check(&draft.file()).unwrap();
        let listing = simple::full_listing(&catalogue).concat();
        for (target, left, right) in sides(&catalogue) {
            if !simple::backed(&catalogue, target, left) {
                continue;
            }
            let of_right = contains_listed(&listing, target, left, right);
            let of_key = contains_listed(&listing, target, left, ROW);
            let holds = simple::holds(&catalogue, target, left, right);
            assert_eq!(holds, of_right || of_key, "seed {seed}, target {target}, left {left}, right {right}");
            match (of_right, of_key) {
                (true, _) => by_left += 1,
                (false, true) => by_key_alone += 1,
                (false, false) => not_at_all += 1,
            }
        }
    }
    assert!(by_left.min(by_key_alone).min(not_at_all) > 1_000, "{by_left}, {by_key_alone}, {not_at_all}");
}

/// What is minimal and backed is listed, save entries with a column on the right and a key on the left; each such left
/// side is listed as a key.
#[test]
fn what_is_dropped_has_its_key_listed() {
    let mut count = 0;
    for (seed, draft) in catalogues(1_000, &[2, 4, 5, 6], &[3, 6, 12]) {
        let catalogue = simple::check(&draft.file()).unwrap();
        let listing = simple::full_listing(&catalogue).concat();
        let mut dropped = Vec::new();
        for (target, left, right) in sides(&catalogue) {
            let stands = simple::minimal(&catalogue, target, left, right) && simple::backed(&catalogue, target, left);
            let key = simple::holds(&catalogue, target, left, ROW);
            let listed = listing.contains(&entry(target, left, right));
            assert_eq!(listed, stands && (right == ROW || !key), "seed {seed}, {target} {left} {right}");
            if stands && !listed {
                assert!(listing.contains(&entry(target, left, ROW)), "seed {seed}, {target} {left} {right}");
                dropped.push(entry(target, left, right));
            }
        }
        assert_eq!(table::dropped(&catalogue), dropped, "seed {seed}");
        count += dropped.len();
    }
    assert!(count > 1_000, "{count}");
}

/// A left side that is a key and minimal for a column is a minimal key, whether a row backs it or not; so a key with a
/// column to spare is minimal for no column.
#[test]
fn a_key_that_is_minimal_for_a_column_is_a_minimal_key() {
    let (mut minimal_keys, mut with_a_spare) = (0, 0);
    for (seed, draft) in catalogues(1_000, &[2, 4, 5, 6], &[3, 6, 12]) {
        let catalogue = simple::check(&draft.file()).unwrap();
        for (target, left, right) in sides(&catalogue) {
            if right == ROW || !simple::key(&catalogue, target, left) {
                continue;
            }
            if simple::minimal(&catalogue, target, left, ROW) {
                minimal_keys += 1;
            } else {
                assert!(!simple::minimal(&catalogue, target, left, right), "seed {seed}, {target} {left} {right}");
                with_a_spare += 1;
            }
        }
    }
    assert!(minimal_keys > 1_000 && with_a_spare > 1_000, "{minimal_keys}, {with_a_spare}");
}

/// At most so many entries that a catalogue allows make a list of each of their subsets.
const ENTRIES: usize = 11;

/// The answer to each list of entries that 8 to 10 allow, with some evidence: the accepted lists.
fn accepted(file: &[u8], allowed: &[Entry], records: &[evidence::Record]) -> Vec<Vec<Entry>> {
    let records = evidence::written(records);
    let mut accepted = Vec::new();
    for chosen in 0..1u32 << allowed.len() {
        let chosen = |i: &usize| chosen & 1 << i != 0;
        let entries: Vec<Entry> = (0..allowed.len()).filter(chosen).map(|i| allowed[i]).collect();
        let mut list = vec![0; 4 * entries.len() + 8];
        simple::pack(&entries, &mut list).unwrap();
        if evidence::verify(file, &list, &records).is_ok() {
            accepted.push(entries);
        }
    }
    accepted
}

/// "What we accept is then the full listing, whoever made it": with evidence for each backed set that fails, of all
/// lists the full listing alone; with a record less, no list.
#[test]
fn of_all_lists_the_full_listing_alone_is_accepted() {
    let (mut tried, mut with_dropped) = (0, 0);
    for (seed, draft) in catalogues(600, &[1, 2, 3], &[1, 2, 3, 4]) {
        let file = draft.file();
        let catalogue = simple::check(&file).unwrap();
        let allowed: Vec<Entry> = sides(&catalogue).iter().map(|side| entry(side.0, side.1, side.2)).collect();
        if allowed.len() > ENTRIES {
            continue;
        }
        let listing = simple::full_listing(&catalogue).concat();
        let mut records = evidence::records(&catalogue, Failing::Backed);
        assert_eq!(accepted(&file, &allowed, &records), [listing], "seed {seed}");
        if !records.is_empty() {
            records.remove(seed as usize % records.len());
            assert!(accepted(&file, &allowed, &records).is_empty(), "seed {seed}");
        }
        tried += 1;
        with_dropped += !table::dropped(&catalogue).is_empty() as usize;
    }
    assert!(tried > 100 && with_dropped > 20, "{tried}, {with_dropped}");
}
