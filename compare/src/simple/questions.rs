//! The question and the first breaking pair, and what they refuse: 8 to 11.

use super::Refusal::{self, *};
use super::{first_pair, holds, rights, Catalogue, WORK_WORDS};

/// Refusals 8 to 10.
pub fn refused_sides(catalogue: &Catalogue, target: u32, left: u32, right: u32) -> Result<(), Refusal> {
    if target as usize >= catalogue.tables.len() {
        return Err(UnknownTable);
    }
    let n = catalogue.tables[target as usize].visible.len();
    if (left as u64) >= 1 << n {
        return Err(UnknownColumn);
    }
    if !rights(catalogue, target as usize).contains(&right) {
        return Err(UnknownRight);
    }
    Ok(())
}

/// Refusals 8 to 11, for the question and the pair.
pub fn refused_question(
    catalogue: &Catalogue,
    target: u32,
    left: u32,
    right: u32,
    words: usize,
) -> Result<(), Refusal> {
    refused_sides(catalogue, target, left, right)?;
    if words < WORK_WORDS {
        return Err(SmallBench);
    }
    Ok(())
}

/// The yes-or-no question. After an answer every work word is 0.
pub fn ask(catalogue: &Catalogue, target: u32, left: u32, right: u32, work: &mut [u32]) -> Result<bool, Refusal> {
    refused_question(catalogue, target, left, right, work.len())?;
    let answer = holds(catalogue, target as usize, left, right);
    work.fill(0);
    Ok(answer)
}

/// The first breaking pair, lower row first, or none. After an answer every work word is 0.
pub fn pair(
    catalogue: &Catalogue,
    target: u32,
    left: u32,
    right: u32,
    work: &mut [u32],
) -> Result<Option<(usize, usize)>, Refusal> {
    refused_question(catalogue, target, left, right, work.len())?;
    let answer = first_pair(catalogue, target as usize, left, right);
    work.fill(0);
    Ok(answer)
}
