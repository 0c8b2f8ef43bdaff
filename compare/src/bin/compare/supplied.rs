//! A supplier's list with evidence: true ones, and ones with one damage or several. `damages` makes them.

use crate::damages::{self, Files, Supply};
use crate::seen::{
    COLUMNS_FOR_KEY, ENTRY_AND_SET, KEY_ALONE, LIST_AND_RECORD, OTHER_KEY_COVERS, OTHER_KEY_INSIDE, RECORD_AND_ENTRY,
    REFUSED_CATALOGUE, UNBACKED_OPEN,
};
use crate::trial::{expect, hex, negative, same, Outcome, Trial};
use compare::evidence::{Failing, Record};
use compare::lent::Placed;
use compare::random::{self, Layout};
use compare::simple::{self, Catalogue, Entry, Refusal, ROW};
use compare::{evidence, ffi, table};

/// How many lists with one damage, and with several, are made from each catalogue.
const SINGLE: usize = 16;
const SEVERAL: usize = 8;
/// The evidence for the backed sets of a catalogue with more sets is made by the table, as that for all sets always is;
/// one with many more sets is left to the fixed cases.
const PLAIN_SETS: u32 = 300;
const SETS: u32 = 2_100;

/// The full listing of a catalogue with its evidence, for the backed sets and for all, as they are and damaged.
pub fn run(trial: &mut Trial, layout: &Layout, listing: Vec<Entry>) -> Outcome {
    let catalogue = simple::check(&layout.file).map_err(|refusal| format!("the catalogue is refused: {refusal:?}"))?;
    if catalogue.sets() > SETS {
        return Ok(());
    }
    let plain = catalogue.sets() <= PLAIN_SETS;
    let of = Failing::Backed;
    let records = if plain { evidence::records(&catalogue, of) } else { table::evidence(&catalogue, of) };
    let (withheld, dropped) = (table::withheld(&catalogue), table::dropped(&catalogue));
    let (layout, front) = (layout.clone(), Vec::new());
    let supply = Supply { layout, catalogue, front, entries: listing, records, withheld, dropped };
    let more = of_all_sets(&supply);
    let other = Supply::of(random::small_draft(&mut trial.random, 5, 6).layout());
    exact(trial, &supply, &more)?;
    for k in 0..SINGLE + SEVERAL {
        let supply = trial.random.pick(&[&supply, &more]);
        let files = if k < SINGLE {
            damages::one(&mut trial.random, supply, &other)
        } else {
            damages::several(&mut trial.random, supply, &other)
        };
        compare(trial, &files)?;
    }
    Ok(())
}

/// Lists of which it is known whether they are accepted: the full listing with records for the backed sets and with
/// those for all, if they are others; an entry more that no row backs, or that repeats a key, also with a column to
/// spare; a key less, the entries that repeat it in its place or not; a record lowered.
fn exact(trial: &mut Trial, supply: &Supply, more: &Supply) -> Outcome {
    for unlisted in [&supply.withheld, &supply.dropped] {
        if !unlisted.is_empty() {
            let entry = trial.random.pick(unlisted);
            refused(trial, &supply.with_entry(entry), Refusal::UnsoundEntry)?;
        }
    }
    if !supply.dropped.is_empty() {
        let entry = trial.random.pick(&supply.dropped);
        let above = supply.with_above(&mut trial.random, entry);
        refused(trial, &above, Refusal::UnsoundEntry)?;
    }
    for (keys, columns) in [(supply.keys(), true), (supply.keys_around_others(), false)] {
        if !keys.is_empty() {
            let key = trial.random.pick(&keys);
            refused(trial, &supply.without_key(key, columns), Refusal::UncoveredSet)?;
        }
    }
    let others = (0..more.records.len()).any(|i| !more.is_backed(i));
    for supply in [supply, more].into_iter().take(1 + others as usize) {
        accepted(trial, supply)?;
        if !supply.records.is_empty() {
            let i = trial.random.below(supply.records.len());
            lowered(trial, supply, i)?;
        }
    }
    Ok(())
}

/// The same list with a record for each largest failing set, backed or not.
fn of_all_sets(supply: &Supply) -> Supply {
    Supply { records: table::evidence(&supply.catalogue, Failing::All), ..supply.clone() }
}

/// With records of the sets below in the place of one, its set alone is uncovered: the list is refused if the set is
/// backed, and accepted if not.
fn lowered(trial: &mut Trial, supply: &Supply, i: usize) -> Outcome {
    if supply.is_backed(i) {
        refused(trial, &supply.lowered(i), Refusal::UncoveredSet)
    } else {
        accepted(trial, &supply.lowered(i))
    }
}

/// A list is refused with this number.
fn refused(trial: &mut Trial, supply: &Supply, refusal: Refusal) -> Outcome {
    let answer = answered(trial, &supply.files())?;
    same(|| "a list with one thing wrong".into(), answer, Err(refusal))
}

/// A true list with true evidence is accepted, and the number of its entries comes back.
fn accepted(trial: &mut Trial, supply: &Supply) -> Outcome {
    let answer = answered(trial, &supply.files())?;
    same(|| "a full listing with its evidence".into(), answer, Ok(supply.entries.len() as u64))
}

/// One check, by the library and by the document: the reply, and that the files are left as they were.
fn compare(trial: &mut Trial, files: &Files) -> Outcome {
    answered(trial, files).map(|_| ())
}

/// The same, with the answer.
fn answered(trial: &mut Trial, files: &Files) -> Result<Result<u64, Refusal>, String> {
    trial.file = files.cat.clone();
    let lent = [&files.cat, &files.list, &files.evidence];
    let placed = lent.map(|file| Placed::new(file, &mut trial.random));
    let [cat, list, records] = [0, 1, 2].map(|i| placed[i].file());
    let reply = ffi::verify(cat, list, records);
    let answer = evidence::verify(&files.cat, &files.list, &files.evidence);
    let expected = match answer {
        Ok(entries) => entries as i64,
        Err(refusal) => negative(refusal),
    };
    let call = || format!("verify, list {}, evidence {}", hex(&files.list), hex(&files.evidence));
    trial.reply(call, reply, expected)?;
    expect([cat, list, records] == lent.map(Vec::as_slice), call, "a file was altered")?;
    match answer {
        Ok(_) => {
            trial.seen.verified(0, if has_unbacked_open(files) { UNBACKED_OPEN } else { "" });
            if has_other_key_inside(files) {
                trial.seen.also(OTHER_KEY_INSIDE);
            }
        }
        Err(refusal) => {
            let (ground, also) = grounds(files);
            trial.seen.refusal(refusal);
            trial.seen.verified(refusal as u8, ground);
            also.into_iter().for_each(|also| trial.seen.also(also));
        }
    }
    Ok(answer)
}

/// Whether some set that no row backs is uncovered.
fn has_unbacked_open(files: &Files) -> bool {
    let (Ok(catalogue), Ok(list)) = (simple::check(&files.cat), simple::open(&files.list)) else { return false };
    evidence::first_uncovered(&catalogue, &list.entries, &evidence::read(&files.evidence).0, false).is_some()
}

/// Whether a column entry's left contains a key that is listed for another table.
fn has_other_key_inside(files: &Files) -> bool {
    let Ok(list) = simple::open(&files.list) else { return false };
    let (keys, columns): (Vec<Entry>, Vec<Entry>) = list.entries.iter().partition(|entry| entry.right as u32 == ROW);
    let contains = |entry: &Entry, key: &Entry| key.target != entry.target && key.left & !entry.left == 0;
    columns.iter().any(|entry| keys.iter().any(|key| contains(entry, key)))
}

/// The ground of 17, 18 or 19 that the first such record, entry or set has; and that the catalogue is refused, or that
/// the files have a ground of the next kind too, or what a listed key has to do with it.
fn grounds(files: &Files) -> (&'static str, Option<&'static str>) {
    let Ok(catalogue) = simple::check(&files.cat) else { return ("", Some(REFUSED_CATALOGUE)) };
    let fault = evidence::first_fault(&catalogue, &files.evidence);
    let Ok(list) = simple::open(&files.list) else { return ("", fault.map(|_| LIST_AND_RECORD)) };
    let flaw = || evidence::first_flaw(&catalogue, &list.entries);
    if let Some(fault) = fault {
        return (fault, flaw().map(|_| RECORD_AND_ENTRY));
    }
    let (records, _) = evidence::read(&files.evidence);
    let gap = evidence::first_gap(&catalogue, &list.entries, &records);
    match (flaw(), gap) {
        (Some(flaw), Some(_)) => (flaw, Some(ENTRY_AND_SET)),
        (Some(flaw), None) => (flaw, key_alone(&catalogue, &list.entries)),
        (None, Some(gap)) => (gap, key_lacking(&catalogue, &list.entries, &records)),
        (None, None) => ("", None),
    }
}

/// Whether each entry that is refused is so for a listed key.
fn key_alone(catalogue: &Catalogue, entries: &[Entry]) -> Option<&'static str> {
    let mut flaws = entries.iter().filter_map(|entry| evidence::flaw(catalogue, entries, entry));
    let for_key = |flaw: &str| ["its left is a listed key", "contains a listed key"].contains(&flaw);
    flaws.all(for_key).then_some(KEY_ALONE)
}

/// Whether the first set is uncovered for the row while it is listed for a column; or none were uncovered if each key
/// stood for all tables.
fn key_lacking(catalogue: &Catalogue, entries: &[Entry], records: &[Record]) -> Option<&'static str> {
    let (target, right, set) = evidence::first_uncovered(catalogue, entries, records, true)?;
    let listed = |entry: &Entry| (entry.target as usize, entry.left as u32) == (target, set);
    if right == ROW && simple::key(catalogue, target, set) && entries.iter().any(listed) {
        return Some(COLUMNS_FOR_KEY);
    }
    let mut everywhere = entries.to_vec();
    for key in entries.iter().filter(|entry| entry.right as u32 == ROW) {
        everywhere.extend((0..catalogue.tables.len() as u8).map(|target| Entry { target, ..*key }));
    }
    let uncovered = evidence::first_uncovered(catalogue, &everywhere, records, true);
    uncovered.is_none().then_some(OTHER_KEY_COVERS)
}

// ---- Fixed cases ----

/// A small catalogue throughout: with each record and each entry taken out and repeated, each record lowered, each
/// withheld and each dropped entry added, and the entries dropped for each key in its place; with each of the three
/// files cut at every length, lengthened, and with each of its bytes altered.
pub fn every(trial: &mut Trial, layout: Layout) -> Outcome {
    let supply = Supply::of(layout);
    let more = of_all_sets(&supply);
    accepted(trial, &supply)?;
    accepted(trial, &more)?;
    every_record(trial, &supply, &more)?;
    every_entry(trial, &supply, &more)?;
    every_byte(trial, &supply.files())
}

fn every_record(trial: &mut Trial, supply: &Supply, more: &Supply) -> Outcome {
    for i in 0..supply.records.len() {
        let mut less = supply.clone();
        let record = less.records.remove(i);
        refused(trial, &less, Refusal::UncoveredSet)?;
        less.records.extend([record, record]);
        accepted(trial, &less)?;
        lowered(trial, supply, i)?;
    }
    for i in 0..more.records.len() {
        lowered(trial, more, i)?;
    }
    Ok(())
}

fn every_entry(trial: &mut Trial, supply: &Supply, more: &Supply) -> Outcome {
    for i in 0..supply.entries.len() {
        let mut other = supply.clone();
        let entry = other.entries.remove(i);
        refused(trial, &other, Refusal::UncoveredSet)?;
        other.entries.extend([entry, entry]);
        compare(trial, &other.files())?;
    }
    for entry in supply.withheld.iter().chain(&supply.dropped) {
        refused(trial, &supply.with_entry(*entry), Refusal::UnsoundEntry)?;
        refused(trial, &more.with_entry(*entry), Refusal::UnsoundEntry)?;
    }
    for key in supply.keys() {
        refused(trial, &supply.without_key(key, true), Refusal::UncoveredSet)?;
        refused(trial, &more.without_key(key, true), Refusal::UncoveredSet)?;
    }
    Ok(())
}

fn every_byte(trial: &mut Trial, files: &Files) -> Outcome {
    for list in damages::every(&files.list) {
        compare(trial, &Files { list, ..files.clone() })?;
    }
    for evidence in damages::every(&files.evidence) {
        compare(trial, &Files { evidence, ..files.clone() })?;
    }
    for cat in damages::every(&files.cat) {
        compare(trial, &Files { cat, ..files.clone() })?;
    }
    Ok(())
}

/// A large catalogue: the full listing with its evidence, for the backed sets and for all; with a withheld or a dropped
/// entry, without a key, with a record lowered, and so many with a damage.
pub fn large(trial: &mut Trial, layout: Layout, damaged: usize) -> Outcome {
    let supply = Supply::of(layout);
    let more = of_all_sets(&supply);
    let other = Supply::of(random::small_draft(&mut trial.random, 5, 6).layout());
    exact(trial, &supply, &more)?;
    for _ in 0..damaged {
        let files = damages::one(&mut trial.random, &supply, &other);
        compare(trial, &files)?;
    }
    Ok(())
}
