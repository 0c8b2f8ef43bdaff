//! The question and the first breaking pair.

use crate::trial::{expect, negative, Outcome, Trial};
use compare::ffi;
use compare::lent::{Numbers, Placed};
use compare::simple::{self, Catalogue, Refusal, ROW};

/// Up to so many questions are all asked of a catalogue; of one with more, so many are drawn.
const QUESTIONS: usize = 60;

#[derive(Clone, Copy, Debug)]
struct Question {
    target: u32,
    left: u32,
    right: u32,
    words: usize,
}

/// Every target, left and right of a small catalogue, or a draw from them; and some that are refused.
pub fn many(trial: &mut Trial, placed: &Placed, catalogue: &Catalogue) -> Outcome {
    let total: usize = catalogue.tables.iter().map(|table| (1 << table.visible.len()) * (table.own + 1)).sum();
    if total > QUESTIONS {
        return draw(trial, placed, catalogue, QUESTIONS);
    }
    for target in 0..catalogue.tables.len() {
        for left in 0..1 << catalogue.tables[target].visible.len() {
            for right in simple::rights(catalogue, target) {
                let words = trial.any_words();
                compare(trial, placed, Ok(catalogue), Question { target: target as u32, left, right, words })?;
            }
        }
    }
    draw(trial, placed, catalogue, 10)
}

/// A few questions.
pub fn few(trial: &mut Trial, placed: &Placed, catalogue: &Catalogue) -> Outcome {
    draw(trial, placed, catalogue, 4)
}

/// One question of a refused file.
pub fn refused(trial: &mut Trial, placed: &Placed, refusal: Refusal) -> Outcome {
    let words = trial.any_words();
    let target = trial.random.below(3) as u32;
    let left = trial.random.below(4) as u32;
    let right = trial.random.pick(&[0, 1, ROW]);
    compare(trial, placed, Err(refusal), Question { target, left, right, words })
}

/// A question in order, with words enough.
pub fn one(trial: &mut Trial, placed: &Placed, catalogue: &Catalogue, target: u32, left: u32, right: u32) -> Outcome {
    let words = trial.few_words();
    compare(trial, placed, Ok(catalogue), Question { target, left, right, words })
}

fn draw(trial: &mut Trial, placed: &Placed, catalogue: &Catalogue, count: usize) -> Outcome {
    for _ in 0..count {
        let question = any_question(trial, catalogue);
        compare(trial, placed, Ok(catalogue), question)?;
    }
    Ok(())
}

/// A question, mostly in order: about one in four has an unknown table, column or right, or too few words.
fn any_question(trial: &mut Trial, catalogue: &Catalogue) -> Question {
    let tables = catalogue.tables.len() as u32;
    let mut target = trial.random.below(tables as usize) as u32;
    let n = catalogue.tables[target as usize].visible.len();
    let mut left = trial.random.below(1 << n) as u32;
    let mut right = trial.random.pick(&simple::rights(catalogue, target as usize));
    if trial.random.once_in(12) {
        target = trial.random.pick(&[tables, tables + 1, 16, 255, 65_535, 65_536, u32::MAX]);
    }
    if trial.random.once_in(12) {
        let high = 1 << n;
        left = trial.random.pick(&[high, left | high, high << 1, left | 65_536, left | 1 << 31, u32::MAX]);
    }
    if trial.random.once_in(8) {
        let n = n as u32;
        right =
            trial.random.pick(&[0, 1, 2, n, n + 1, n.wrapping_sub(1), 15, 16, 254, 255, 256, 511, 65_535, u32::MAX]);
    }
    Question { target, left, right, words: trial.any_words() }
}

/// The question and the pair, by the library and by the document.
fn compare(trial: &mut Trial, placed: &Placed, catalogue: Result<&Catalogue, Refusal>, question: Question) -> Outcome {
    ask(trial, placed, catalogue, question)?;
    pair(trial, placed, catalogue, question)
}

fn ask(trial: &mut Trial, placed: &Placed, catalogue: Result<&Catalogue, Refusal>, question: Question) -> Outcome {
    let Question { target, left, right, words } = question;
    let (library, document) = trial.words.lend(words, &mut trial.random);
    let reply = ffi::ask(placed.file(), target, left, right, library);
    let answer = catalogue.and_then(|catalogue| simple::ask(catalogue, target, left, right, document));
    let expected = match answer {
        Ok(holds) => holds as i32,
        Err(refusal) => negative(refusal) as i32,
    };
    let call = || format!("ask {question:?}");
    trial.reply(call, reply, expected)?;
    expect(trial.words.alike(), call, "the work words or their guards were left otherwise than stated")?;
    match answer {
        Ok(true) => trial.seen.answer("ask, holds"),
        Ok(false) => trial.seen.answer("ask, breaks"),
        Err(refusal) => trial.seen.refusal(refusal),
    }
    Ok(())
}

fn pair(trial: &mut Trial, placed: &Placed, catalogue: Result<&Catalogue, Refusal>, question: Question) -> Outcome {
    let Question { target, left, right, words } = question;
    let mut numbers: Numbers<u32> = Numbers::new(&mut trial.random);
    let before = numbers.values();
    let [first, second, _] = numbers.lend();
    let (library, document) = trial.words.lend(words, &mut trial.random);
    let reply = ffi::pair(placed.file(), target, left, right, library, first, second);
    let answer = catalogue.and_then(|catalogue| simple::pair(catalogue, target, left, right, document));
    let (expected, values, written) = match answer {
        Ok(Some((x, y))) => (1, [x as u32, y as u32, before[2]], 2),
        Ok(None) => (0, before, 0),
        Err(refusal) => (negative(refusal) as i32, before, 0),
    };
    let call = || format!("pair {question:?}: reply, first and second row");
    trial.reply(call, (reply, numbers.values()), (expected, values))?;
    expect(trial.words.alike(), call, "the work words or their guards were left otherwise than stated")?;
    expect(numbers.untouched_but_first(written), call, "numbers beside the two rows were altered")?;
    match answer {
        Ok(Some(_)) => trial.seen.answer("pair"),
        Ok(None) => trial.seen.answer("pair, none"),
        Err(refusal) => trial.seen.refusal(refusal),
    }
    Ok(())
}

/// Every target to one past the last, every left to one column past the last, and many rights, with each number
/// of words.
pub fn every(trial: &mut Trial, placed: &Placed, catalogue: &Catalogue, words: &[usize]) -> Outcome {
    for target in 0..catalogue.tables.len() as u32 + 1 {
        let n = catalogue.tables.get(target as usize).map_or(0, |table| table.visible.len() as u32);
        for left in (0..2 << n).chain([u32::MAX]) {
            for right in (0..n + 2).chain([15, 16, 254, 255, 256, u32::MAX]) {
                for words in words {
                    compare(trial, placed, Ok(catalogue), Question { target, left, right, words: *words })?;
                }
            }
        }
    }
    Ok(())
}
