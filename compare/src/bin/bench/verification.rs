//! The check by evidence, of the library's own full listing, packed, with a record for each largest backed set that
//! fails.
//!
//! Its time is shown beside that of making the listing with 65,536 words, with their ratio and the stack that it uses.
//! Of the album the time is a mean over many checks.

use crate::process::{listed, RECORDS};
use crate::shapes::{fork, ALBUM, FORK};
use crate::timing::{least, seconds, shown, with_words};
use crate::MANY_WORDS;
use compare::evidence::{self, Failing};
use compare::random;
use compare::simple::{self, Entry};
use compare::{ffi, stack, table};

/// A check by evidence takes at most so many times as long as the listing, and at most so much stack.
const VERIFY_TIMES: f64 = 3.0;
const VERIFY_STACK: usize = 409_600;
/// Checks of the album's list for a mean.
const ALBUM_CHECKS: u32 = 20_000;

/// A catalogue's full listing as the library makes it, packed, with evidence.
struct Supply {
    entries: usize,
    records: usize,
    list: Vec<u8>,
    evidence: Vec<u8>,
    /// The time of making the listing with 65,536 words.
    listing: f64,
}

fn supply(file: &[u8]) -> Supply {
    let mut run = vec![Entry { target: 9, right: 9, left: 9 }; RECORDS];
    let mut entries = 0;
    let listing = with_words(MANY_WORDS, |work| entries = listed(file, u32::MAX, &mut run, work));
    let mut list = vec![0; 4 * entries + 8];
    assert_eq!(ffi::pack(&run[..entries], &mut list), list.len() as i64);
    let records = table::evidence(&simple::check(file).unwrap(), Failing::Backed);
    Supply { entries, records: records.len(), list, evidence: evidence::written(&records), listing }
}

fn verified(file: &[u8], supply: &Supply) {
    assert_eq!(ffi::verify(file, &supply.list, &supply.evidence), supply.entries as i64);
}

/// Prints the time of a check beside that of the listing, and its stack.
fn verification_line(file: &[u8], supply: &Supply, time: f64) {
    let times = time / supply.listing;
    let stack = stack::used(|| verified(file, supply));
    let over = |over: bool| if over { ", over the bar" } else { "" };
    println!(
        "  verify, {} entries, {} records: {}; listing, 65,536 words: {}; {times:.2} times (at most {VERIFY_TIMES}{}); \
         stack {stack} bytes (at most {VERIFY_STACK}{})",
        supply.entries,
        supply.records,
        shown(time),
        shown(supply.listing),
        over(times > VERIFY_TIMES),
        over(stack > VERIFY_STACK),
    );
}

pub fn of(file: &[u8]) {
    let supply = supply(file);
    let time = least(|| seconds(|| verified(file, &supply)));
    verification_line(file, &supply, time);
}

pub fn many_wide_targets() {
    let file = fork();
    println!("{FORK}: {} bytes, {} sets", file.len(), simple::check(&file).unwrap().sets());
    of(&file);
}

pub fn album() {
    let file = random::album().file();
    let supply = supply(&file);
    let time = seconds(|| (0..ALBUM_CHECKS).for_each(|_| verified(&file, &supply)));
    println!("{ALBUM}: {} bytes, a mean over {ALBUM_CHECKS} checks", file.len());
    verification_line(&file, &supply, time / ALBUM_CHECKS as f64);
}
