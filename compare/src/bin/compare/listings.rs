//! Listing calls: at one go, in random steps, and from any place.

use crate::trial::{expect, negative, same, Outcome, Trial};
use compare::ffi;
use compare::lent::{Numbers, Placed};
use compare::simple::{self, Answer, Catalogue, Entry, Refusal, COLUMNS, WORK_WORDS};

/// After so many steps a listing is ended by larger ones.
const STEPS: usize = 40;

#[derive(Clone, Copy, Debug)]
pub struct Call {
    pub place: u32,
    pub budget: u32,
    pub records: usize,
    pub words: usize,
}

/// One call, by the library and by the document: reply, numbers, run and work words. Gives the answer, or the
/// refusal.
pub fn compare(
    trial: &mut Trial,
    placed: &Placed,
    listing: Result<&[Vec<Entry>], Refusal>,
    call: Call,
) -> Result<Result<Answer, Refusal>, String> {
    let Call { place, budget, records, words } = call;
    let mut numbers: Numbers<u32> = Numbers::new(&mut trial.random);
    let before = numbers.values();
    let [next_place, passed, _] = numbers.lend();
    let (library_run, document_run) = trial.run.lend(records, &mut trial.random);
    let (library_work, document_work) = trial.words.lend(words, &mut trial.random);
    let reply = ffi::list(placed.file(), place, budget, library_run, library_work, next_place, passed);
    let answer = listing.and_then(|listing| simple::list(listing, place, budget, document_run, document_work));
    let (expected, values) = match answer {
        Ok(answer) => (answer.entries as i64, [answer.next_place, answer.passed, before[2]]),
        Err(refusal) => (negative(refusal), before),
    };
    let what = || format!("list {call:?}: reply, next place and passed");
    trial.reply(what, (reply, numbers.values()), (expected, values))?;
    expect(numbers.untouched_but_first(2), what, "memory beside the numbers was altered")?;
    expect(trial.run.alike(), what, "the run of records or its guards were left otherwise than stated")?;
    expect(trial.words.alike(), what, "the work words or their guards were left otherwise than stated")?;
    match answer {
        Ok(_) => trial.seen.answer("list"),
        Err(refusal) => trial.seen.refusal(refusal),
    }
    Ok(answer)
}

/// The whole listing in one call, with few words and with many, and with a run that just suffices or is longer.
pub fn one_go(trial: &mut Trial, placed: &Placed, listing: &[Vec<Entry>]) -> Outcome {
    let last = listing.len() as u32;
    let entries: usize = listing.iter().map(Vec::len).sum();
    for words in [trial.few_words(), trial.many_words()] {
        let budget = trial.random.pick(&[last, last + 1, u32::MAX]);
        let records = (entries + trial.random.pick(&[0, 0, 1, 9])).min(trial.run.most());
        let call = Call { place: 0, budget, records, words };
        let answer = compare(trial, placed, Ok(listing), call)?;
        let whole = Answer { next_place: last, passed: last, entries: entries as u32 };
        same(|| format!("list {call:?}, at one go"), answer, Ok(whole))?;
    }
    Ok(())
}

/// A listing in steps with any budgets, runs and work words, each from the place last returned; then demand 3's
/// sums. With `many` no call has few words, save those refused.
pub fn steps(trial: &mut Trial, placed: &Placed, listing: &[Vec<Entry>], many: bool) -> Outcome {
    let last = listing.len() as u32;
    let mut place = 0;
    let mut passed = 0;
    let mut joined: Vec<Entry> = Vec::new();
    let mut counted = 0;
    let mut step = 0;
    while place < last {
        step += 1;
        let rest = last - place;
        let mut call = any_call(trial, place, rest);
        if step > STEPS {
            call =
                Call { place, budget: u32::MAX, records: trial.run.most().min(1_000 * step), words: trial.few_words() };
        }
        if many && call.words >= WORK_WORDS {
            call.words = trial.many_words();
        }
        if let Ok(answer) = compare(trial, placed, Ok(listing), call)? {
            joined.extend(&trial.run.left()[..answer.entries as usize]);
            place = answer.next_place;
            passed += answer.passed;
            counted += answer.entries as usize;
        }
    }
    let what = || "a listing in steps: sets passed, counts, joined entries".to_string();
    same(what, (passed, counted), (last, joined.len()))?;
    same(what, joined, listing.concat())
}

/// A call from a place, of any size up to what is left and past it.
fn any_call(trial: &mut Trial, place: u32, rest: u32) -> Call {
    let random = &mut trial.random;
    let share = random.from_to(0, rest as usize / 4 + 1) as u32;
    let budget = random.pick(&[0, 1, 1, 2, 3, share, share, rest, rest + 1, u32::MAX]);
    let records = random.pick(&[0, 1, 1, 2, 3, 5, 17, 17, 100, share.min(2_000) as usize]);
    Call { place, budget, records, words: trial.any_words() }
}

/// Calls from any place, the last and past it included.
pub fn any_calls(trial: &mut Trial, placed: &Placed, listing: &[Vec<Entry>]) -> Outcome {
    let last = listing.len() as u32;
    for _ in 0..4 {
        let inside = trial.random.below(listing.len()) as u32;
        let place = trial.random.pick(&[inside, inside, inside, last - 1, last, last + 1, 1 << 31, u32::MAX]);
        let mut call = any_call(trial, place, last.saturating_sub(place));
        call.records = trial.random.pick(&[call.records, 0, 1, 2, 3]);
        let _ = compare(trial, placed, Ok(listing), call)?;
    }
    Ok(())
}

/// How many sets stand before a left side.
pub fn place(catalogue: &Catalogue, target: usize, left: u32) -> u32 {
    let before: u32 = catalogue.tables[..target].iter().map(|table| 1 << table.visible.len()).sum();
    let sides = simple::left_sides(catalogue.tables[target].visible.len());
    before + sides.iter().take_while(|side| **side != left).count() as u32
}

/// A call of budget 1 from a place, and of a few sets from it and from the one before, with few words and with many: by
/// every way of the library. The run has no record, one, or enough of them.
pub fn near(trial: &mut Trial, placed: &Placed, listing: &[Vec<Entry>], place: u32) -> Outcome {
    let before = place.saturating_sub(1);
    for (place, budget, many) in [(place, 1, false), (place, 2, false), (before, 3, true)] {
        let words = if many { trial.many_words() } else { trial.few_words() };
        let records = trial.random.pick(&[0, 1, 3 * (COLUMNS + 1)]);
        let _ = compare(trial, placed, Ok(listing), Call { place, budget, records, words })?;
    }
    Ok(())
}

/// A call on a refused file.
pub fn refused(trial: &mut Trial, placed: &Placed, refusal: Refusal) -> Outcome {
    let place = trial.random.pick(&[0, 0, 1, u32::MAX]);
    let call = any_call(trial, place, 2);
    compare(trial, placed, Err(refusal), call).map(|_| ())
}

/// Every place to past the last, with many budgets, all runs up to the given, and each number of words.
pub fn every(trial: &mut Trial, placed: &Placed, listing: &[Vec<Entry>], records: usize, words: &[usize]) -> Outcome {
    let last = listing.len() as u32;
    for place in 0..last + 3 {
        for budget in [0, 1, 2, 3, 5, last - 1, last, last + 1, u32::MAX] {
            for records in 0..=records {
                for words in words {
                    let _ = compare(trial, placed, Ok(listing), Call { place, budget, records, words: *words })?;
                }
            }
        }
    }
    Ok(())
}
