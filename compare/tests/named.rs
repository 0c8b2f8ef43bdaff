//! The named catalogues: the full listing and what is left out of it, since no row backs it (document 02 d) or since
//! its left side is a key (02 e). All is worked out by hand, and held against the simple implementation, the peers and
//! the library.

use compare::evidence::{self, Failing};
use compare::named::{self, Line};
use compare::random::Draft;
use compare::simple::{self, Catalogue, Entry, ROW, WORK_WORDS};
use compare::{ffi, keyed, table, tane, unfilled};

fn lines(entries: &[Entry]) -> Vec<Line> {
    entries.iter().map(|entry| (entry.target, entry.left, entry.right)).collect()
}

/// The minimal dependencies and keys, in listing order: those that no row backs, and of the others those with a column
/// on the right and a key on the left.
fn unlisted(catalogue: &Catalogue) -> [Vec<Line>; 2] {
    let [mut withheld, mut dropped] = [Vec::new(), Vec::new()];
    for target in 0..catalogue.tables.len() {
        for left in simple::left_sides(catalogue.tables[target].visible.len()) {
            for right in simple::rights(catalogue, target) {
                let line = (target as u8, left as u16, right as u8);
                if !simple::minimal(catalogue, target, left, right) {
                    continue;
                }
                if !simple::backed(catalogue, target, left) {
                    withheld.push(line);
                } else if right != ROW && simple::key(catalogue, target, left) {
                    dropped.push(line);
                }
            }
        }
    }
    [withheld, dropped]
}

/// The library's full listing by calls of a budget, with so many words.
fn library(file: &[u8], budget: u32, words: usize) -> Vec<Line> {
    let mut work = vec![7; words];
    let mut run = vec![Entry::default(); 100];
    let (mut place, mut passed) = (0, 1);
    let mut joined = Vec::new();
    while passed > 0 {
        let reply = ffi::list(file, place, budget, &mut run, &mut work, &mut place, &mut passed);
        joined.extend(lines(&run[..usize::try_from(reply).expect("an answer")]));
    }
    joined
}

#[test]
fn the_simple_implementation_and_the_peers_list_what_is_told() {
    for shape in named::all() {
        let catalogue = simple::check(&shape.draft.file()).unwrap();
        let [withheld, dropped] = unlisted(&catalogue);
        assert_eq!(lines(&simple::full_listing(&catalogue).concat()), shape.listed, "{}", shape.name);
        assert_eq!(withheld, shape.withheld, "{}", shape.name);
        assert_eq!(dropped, shape.dropped, "{}", shape.name);
        assert_eq!(lines(&table::listing(&catalogue)), shape.listed, "table, {}", shape.name);
        assert_eq!(lines(&table::withheld(&catalogue)), shape.withheld, "table, {}", shape.name);
        assert_eq!(lines(&table::dropped(&catalogue)), shape.dropped, "table, {}", shape.name);
        assert_eq!(lines(&tane::listing(&catalogue)), shape.listed, "TANE, {}", shape.name);
    }
}

/// What is left out holds by the question.
#[test]
fn the_library_lists_what_is_told() {
    for shape in named::all() {
        let file = shape.draft.file();
        for (budget, words) in [(1, WORK_WORDS), (2, WORK_WORDS), (u32::MAX, WORK_WORDS), (u32::MAX, 65_536)] {
            assert_eq!(library(&file, budget, words), shape.listed, "budget {budget}, {words} words, {}", shape.name);
        }
        let mut work = vec![7; WORK_WORDS];
        for (target, left, right) in [shape.withheld, shape.dropped].concat() {
            let reply = ffi::ask(&file, target as u32, left as u32, right as u32, &mut work);
            assert_eq!(reply, 1, "target {target}, left {left}, right {right}, {}", shape.name);
        }
    }
}

/// Of the two wide ones with all cells but one the full set alone is a key; a whole row backs it.
#[test]
fn the_library_lists_the_full_set_with_a_whole_row_only() {
    for columns in [14, 15, 16] {
        let full = ((1u32 << columns) - 1) as u16;
        for (whole, listed) in [(false, vec![]), (true, vec![(0, full, 255)])] {
            let file = Draft { tables: vec![unfilled::but_one(columns, whole)] }.file();
            let told = format!("{columns} columns, a whole row: {whole}");
            wide(&file, &listed, &told);
            let (mut next, mut passed) = (0, 0);
            let (mut run, mut work) = ([Entry::default(); 1], vec![7; WORK_WORDS]);
            let reply = ffi::list(&file, full as u32, 1, &mut run, &mut work, &mut next, &mut passed);
            assert_eq!((reply, passed), (listed.len() as i64, 1), "{told}, budget 1");
        }
    }
}

/// All columns but one give that one, and are a key unless rows stand twice: then the column is listed, else the key.
#[test]
fn the_library_lists_a_key_or_the_column_that_it_gives() {
    for columns in [14, 15, 16u8] {
        let full = ((1u32 << columns) - 1) as u16;
        for twice in [false, true] {
            let line = |column: u8| (0, full & !(1 << column), if twice { column } else { 255 });
            let listed: Vec<Line> = (0..columns).rev().map(line).collect();
            let file = Draft { tables: vec![keyed::one_each(columns as usize, twice)] }.file();
            let told = format!("{columns} columns, rows twice: {twice}");
            wide(&file, &listed, &told);
            let (mut next, mut passed) = (0, 0);
            let (mut run, mut work) = ([Entry::default(); 1], vec![7; WORK_WORDS]);
            let place = full as u32 - columns as u32;
            let reply = ffi::list(&file, place, 1, &mut run, &mut work, &mut next, &mut passed);
            assert_eq!((reply, passed, lines(&run)), (1, 1, listed[..1].to_vec()), "{told}, budget 1");
        }
    }
}

/// The listing of a wide one, by the peers and by the library with few words and with many.
fn wide(file: &[u8], listed: &[Line], told: &str) {
    let catalogue = simple::check(file).unwrap();
    assert_eq!(lines(&table::listing(&catalogue)), listed, "table, {told}");
    assert_eq!(lines(&tane::listing(&catalogue)), listed, "TANE, {told}");
    for words in [WORK_WORDS, 65_536] {
        assert_eq!(library(file, u32::MAX, words), listed, "{words} words, {told}");
    }
}

#[test]
fn the_wide_ones_have_entries_that_no_row_backs_and_entries_that_repeat_a_key() {
    for columns in [14, 15, 16] {
        let above = unfilled::rows_above(&[(3, 6), (4, 8), (4, 12), (columns - 11, 24)]);
        for draft in [unfilled::halves(columns, 24), above] {
            let catalogue = simple::check(&draft.file()).unwrap();
            let [listed, withheld, dropped] =
                [table::listing, table::withheld, table::dropped].map(|of| of(&catalogue));
            assert!(!listed.is_empty() && !withheld.is_empty() && !dropped.is_empty());
        }
    }
}

/// A catalogue with evidence for its backed sets or for all, and its full listing.
struct Supply {
    file: Vec<u8>,
    records: Vec<u8>,
    entries: Vec<Entry>,
}

/// Each named one with each evidence.
fn supplies() -> Vec<(String, Supply)> {
    let mut supplies = Vec::new();
    for shape in named::all() {
        for of in [Failing::Backed, Failing::All] {
            let file = shape.draft.file();
            let catalogue = simple::check(&file).unwrap();
            let records = evidence::written(&evidence::records(&catalogue, of));
            let entries = simple::full_listing(&catalogue).concat();
            supplies.push((format!("{}, {of:?}", shape.name), Supply { file, records, entries }));
        }
    }
    supplies
}

impl Supply {
    /// The replies of the simple implementation and of the library to the full listing less some entries and with
    /// others.
    fn replies(&self, less: &[Entry], more: &[Entry]) -> [i64; 2] {
        let kept = self.entries.iter().filter(|entry| !less.contains(entry));
        let mut entries: Vec<Entry> = kept.chain(more).copied().collect();
        entries.sort_by_key(|entry| simple::position(*entry));
        let mut list = vec![0; 4 * entries.len() + 8];
        simple::pack(&entries, &mut list).unwrap();
        let simple = evidence::verify(&self.file, &list, &self.records);
        let simple = simple.map_or_else(|no| -(no as i64), |count| count as i64);
        [simple, ffi::verify(&self.file, &list, &self.records)]
    }
}

/// Each list is accepted; with an entry that it lacks it is refused by 18.
#[test]
fn full_listings_are_accepted_and_no_entry_more() {
    for (told, supply) in supplies() {
        let catalogue = simple::check(&supply.file).unwrap();
        assert_eq!(supply.replies(&[], &[]), [supply.entries.len() as i64; 2], "{told}");
        let dropped = table::dropped(&catalogue);
        for entry in [table::withheld(&catalogue), dropped.clone()].concat() {
            assert_eq!(supply.replies(&[], &[entry]), [-18; 2], "{told}, {entry:?}");
        }
        if !dropped.is_empty() {
            assert_eq!(supply.replies(&[], &dropped), [-18; 2], "{told}");
        }
    }
}

/// Without any of its entries a list is refused by 19. So it is without a key and with the columns in its place: they
/// stand for no key.
#[test]
fn an_entry_less_leaves_a_set_uncovered() {
    for (told, supply) in supplies() {
        let dropped = table::dropped(&simple::check(&supply.file).unwrap());
        for entry in &supply.entries {
            assert_eq!(supply.replies(&[*entry], &[]), [-19; 2], "{told}, {entry:?}");
            let repeats = |other: &&Entry| (other.target, other.left) == (entry.target, entry.left);
            let columns: Vec<Entry> = dropped.iter().filter(repeats).copied().collect();
            if entry.right as u32 == ROW {
                assert_eq!(supply.replies(&[*entry], &columns), [-19; 2], "{told}, {entry:?}");
            }
        }
    }
}

/// With a column entry's left side listed as a key too, by itself or with a column less, a list is refused by 18: such
/// a left side is no key.
#[test]
fn a_key_at_or_below_the_left_of_a_column() {
    for (told, supply) in supplies() {
        for entry in supply.entries.iter().filter(|entry| entry.right as u32 != ROW) {
            let members = (0..16).filter(|k| entry.left & 1 << k != 0);
            for left in members.map(|k| entry.left & !(1 << k)).chain([entry.left]) {
                let key = Entry { right: 255, left, ..*entry };
                assert_eq!(supply.replies(&[], &[key]), [-18; 2], "{told}, {key:?}");
                assert_eq!(supply.replies(&[*entry], &[key]), [-18; 2], "{told}, {key:?} alone");
            }
        }
    }
}
