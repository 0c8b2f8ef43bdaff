//! The table of times: questions, pairs, single calls and full listings, beside the peers.
//!
//! Questions are asked of the last table: with a small left side and with one of eight columns (where it has eight,
//! the other seven for a column), of a column and of the row. A call of budget 1 is timed beside one of budget 2, at
//! three places of the last table.

use crate::process::{digest, library_listing, GIVE_UP};
use crate::shapes::{last_two, Shape};
use crate::timing::{least, ratio, seconds, shown, with_words};
use crate::MANY_WORDS;
use compare::simple::{self, Catalogue, Entry, ROW, WORK_WORDS};
use compare::{ffi, table, tane};

/// A peer's listing that would take longer is skipped.
const SKIP: f64 = 30.0;

pub fn line_of(call: &str, library: &str, simple: &str, tane: &str, table: &str) {
    println!("  {call:<34} {library:>14}  {simple:>24}  {tane:>22}  {table:>20}");
}

/// The time of the simple implementation for a question, and whether it holds.
fn simple_question(file: &[u8], target: u32, left: u32, right: u32) -> (f64, bool) {
    let mut work = vec![0; WORK_WORDS];
    let mut holds = false;
    let time = least(|| {
        seconds(|| {
            let catalogue = simple::check(file).unwrap();
            holds = simple::ask(&catalogue, target, left, right, &mut work).unwrap();
        })
    });
    (time, holds)
}

pub fn questions(shape: &Shape, catalogue: &Catalogue) {
    let file = &shape.file;
    let target = catalogue.tables.len() as u32 - 1;
    let library = least(|| seconds(|| ffi::check(file, &mut 0, &mut 0)));
    let simple = least(|| seconds(|| simple::check(file)));
    line_of("check", &shown(library), &ratio(simple, Some(library)), "", "");
    let (holds, wide, key) = (shape.holds, shape.wide, shape.key);
    for (call, left, right) in [
        ("small", holds.0, holds.1),
        ("8 columns", wide.0, wide.1),
        ("8 columns, the row", key, ROW),
        ("small, the row", holds.0, ROW),
    ] {
        let (simple, holds) = simple_question(file, target, left, right);
        let told = if holds { "holds" } else { "breaks" };
        let mut reply = 0;
        let library = with_words(WORK_WORDS, |work| reply = ffi::ask(file, target, left, right, work));
        assert_eq!(reply, holds as i32);
        line_of(&format!("ask, {call}: {told}"), &shown(library), &ratio(simple, Some(library)), "", "");
        let library = with_words(WORK_WORDS, |work| reply = ffi::pair(file, target, left, right, work, &mut 0, &mut 0));
        assert_eq!(reply, !holds as i32);
        line_of(&format!("pair, {call}"), &shown(library), &ratio(simple, Some(library)), "", "");
    }
}

/// The pair of a dependency that only the last two rows break.
pub fn last_pair() {
    let file = last_two();
    let (mut first, mut second) = (0, 0);
    let library = with_words(WORK_WORDS, |work| {
        assert_eq!(ffi::pair(&file, 0, 1, 15, work, &mut first, &mut second), 1);
    });
    assert_eq!((first, second), (4_094, 4_095));
    let (simple, _) = simple_question(&file, 0, 1, 15);
    line_of("pair, only the last two rows", &shown(library), &ratio(simple, Some(library)), "", "");
}

/// One call of budget 1 and one of budget 2, at places early, in the middle and late among the last table's sets.
pub fn single_calls(shape: &Shape, catalogue: &Catalogue) {
    let mut run = vec![Entry { target: 9, right: 9, left: 9 }; 64];
    let (end, here) = (catalogue.sets(), 1u32 << catalogue.tables[catalogue.tables.len() - 1].visible.len());
    for words in [MANY_WORDS, WORK_WORDS] {
        for (name, place) in [("early", end - here + 1), ("middle", end - here / 2), ("late", end - 2)] {
            let mut times = [0.0; 2];
            for (time, budget) in times.iter_mut().zip([1, 2]) {
                *time = with_words(words, |work| {
                    let (mut next, mut passed) = (0, 0);
                    let reply = ffi::list(&shape.file, place, budget, &mut run, work, &mut next, &mut passed);
                    assert!(reply >= 0 && passed == budget);
                });
            }
            let call = format!("a call of budget 1, {name}, {words}");
            line_of(&call, &shown(times[0]), &format!("budget 2: {}", shown(times[1])), "", "");
        }
    }
}

/// The full listing by the simple implementation, unless it would take too long.
fn simple_listing(shape: &Shape, catalogue: &Catalogue) -> Result<f64, String> {
    let target = catalogue.tables.len() as u32 - 1;
    let (left, right) = shape.holds;
    let question = seconds(|| simple::holds(catalogue, target as usize, left, right));
    let estimate = question * catalogue.sets() as f64;
    if estimate > SKIP {
        return Err(format!("skipped, over {estimate:.0} s"));
    }
    Ok(least(|| seconds(|| simple::full_listing(catalogue))))
}

pub fn listings(shape: &Shape, catalogue: &Catalogue) {
    let read = || simple::check(&shape.file).unwrap();
    let entries = table::listing(catalogue);
    let digest = digest(&entries);
    let table = least(|| seconds(|| table::listing(&read())));
    let mut tane_entries = Vec::new();
    let tane = least(|| seconds(|| tane_entries = tane::listing(&read())));
    assert!(tane_entries == entries, "TANE and the table list differently");
    let simple = simple_listing(shape, catalogue);
    for (call, words) in [("full listing, 65,536 words", MANY_WORDS), ("full listing, 16,384 words", WORK_WORDS)] {
        let library = library_listing(shape, words, u32::MAX);
        if let Some((_, count, found)) = library {
            assert!((count, found) == (entries.len(), digest), "the library and the table list differently");
        }
        let time = library.map(|(time, _, _)| time);
        let simple = match &simple {
            Ok(simple) => ratio(*simple, time),
            Err(note) => note.clone(),
        };
        let library = time.map_or(format!("over {} s", GIVE_UP.as_secs()), shown);
        line_of(call, &library, &simple, &ratio(tane, time), &ratio(table, time));
    }
    if shape.name == "flat-480x16" {
        for words in [MANY_WORDS, WORK_WORDS] {
            let time = library_listing(shape, words, 1).map(|(time, _, _)| time);
            let shown = time.map_or(format!("over {} s", GIVE_UP.as_secs()), shown);
            line_of(&format!("{} calls of budget 1, {words} words", catalogue.sets()), &shown, "", "", "");
        }
    }
}
