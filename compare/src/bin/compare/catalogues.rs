//! One random catalogue with all its comparisons: sound, then damaged in several ways; and one that is made to break a
//! dependency.

use crate::trial::{negative, same, Outcome, Trial};
use crate::{dropped, listings, packed, pairs, questions, supplied, withheld};
use compare::ffi;
use compare::lent::{Numbers, Placed};
use compare::random::{self, Kind};
use compare::simple::{self, Catalogue, Entry, Refusal};

/// How many damaged files are made from each catalogue.
const DAMAGED: usize = 8;

/// All comparisons on one catalogue of a kind.
pub fn run(trial: &mut Trial, kind: Kind) -> Outcome {
    let layout = (kind.draft)(&mut trial.random).layout();
    let listing = sound(trial, &layout.file)?;
    for _ in 0..DAMAGED {
        let file = random::damaged(&mut trial.random, &layout);
        damaged(trial, &file)?;
    }
    if trial.random.once_in(20) {
        let layout = random::draft_at_bound(&mut trial.random).layout();
        damaged(trial, &layout.file)?;
        let file = random::damaged(&mut trial.random, &layout);
        damaged(trial, &file)?;
    }
    pairs::run(trial)?;
    packed::run(trial, &layout.file)?;
    supplied::run(trial, &layout, listing)
}

/// All calls on a sound catalogue, save the check by evidence. Gives its full listing.
fn sound(trial: &mut Trial, file: &[u8]) -> Result<Vec<Entry>, String> {
    trial.file = file.to_vec();
    let placed = Placed::new(file, &mut trial.random);
    let catalogue =
        check(trial, &placed)?.map_err(|refusal| format!("the generator made a refused file: {refusal:?}"))?;
    questions::many(trial, &placed, &catalogue)?;
    let listing = simple::full_listing(&catalogue);
    listings::one_go(trial, &placed, &listing)?;
    listings::steps(trial, &placed, &listing, false)?;
    listings::steps(trial, &placed, &listing, true)?;
    listings::any_calls(trial, &placed, &listing)?;
    withheld::run(trial, &placed, &catalogue, &listing, 1)?;
    dropped::run(trial, &placed, &catalogue, &listing, 1)?;
    let entries = listing.concat();
    packed::listing(trial, file, &entries)?;
    same(|| "the catalogue after all calls".into(), placed.file(), file)?;
    Ok(entries)
}

/// The calls on a file that may be refused: each must be refused alike. If it is sound after all, a few calls
/// on it.
pub fn damaged(trial: &mut Trial, file: &[u8]) -> Outcome {
    trial.file = file.to_vec();
    let placed = Placed::new(file, &mut trial.random);
    match check(trial, &placed)? {
        Err(refusal) => {
            questions::refused(trial, &placed, refusal)?;
            listings::refused(trial, &placed, refusal)?;
        }
        Ok(catalogue) => {
            questions::few(trial, &placed, &catalogue)?;
            if catalogue.sets() <= 300 {
                let listing = simple::full_listing(&catalogue);
                listings::any_calls(trial, &placed, &listing)?;
            }
        }
    }
    same(|| "the file after all calls".into(), placed.file(), file)
}

/// The check alone.
pub fn check(trial: &mut Trial, placed: &Placed) -> Result<Result<Catalogue, Refusal>, String> {
    let mut numbers: Numbers<u32> = Numbers::new(&mut trial.random);
    let before = numbers.values();
    let [tables, sets, _] = numbers.lend();
    let reply = ffi::check(placed.file(), tables, sets);
    let answer = simple::check(placed.file());
    let (expected, values) = match &answer {
        Ok(catalogue) => (0, [catalogue.tables.len() as u32, catalogue.sets(), before[2]]),
        Err(refusal) => (negative(*refusal) as i32, before),
    };
    let call = || "check: reply, tables and sets".to_string();
    trial.reply(call, (reply, numbers.values()), (expected, values))?;
    same(call, numbers.untouched_but_first(2), true)?;
    match &answer {
        Ok(_) => trial.seen.answer("check, sound"),
        Err(refusal) => trial.seen.refusal(*refusal),
    }
    Ok(answer)
}
