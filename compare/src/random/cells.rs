//! The cells of a table's rows: how the codes of a column are drawn, and which cells are missing.

use super::Random;
use crate::simple::MISSING;

/// The cells of a table's rows that are missing, besides those that the styles of its columns leave out.
#[derive(Clone, Copy)]
pub enum Gaps {
    /// None.
    No,
    /// One cell of each row, in the next column after every two rows.
    One,
    /// Of each row the cells before this column, or those from it on.
    Part(usize),
    /// All cells of a row, once in so many rows.
    Row(usize),
}

pub fn gaps(random: &mut Random, columns: usize) -> Gaps {
    match random.below(3) {
        0 => Gaps::One,
        1 if columns > 1 => Gaps::Part(random.from_to(1, columns - 1)),
        _ => Gaps::Row(random.from_to(1, 3)),
    }
}

/// Leaves out the cells of row k.
pub fn leave_out(random: &mut Random, gaps: Gaps, k: usize, codes: &mut [u32]) {
    match gaps {
        Gaps::One if !codes.is_empty() => codes[k / 2 % codes.len()] = MISSING,
        Gaps::Part(column) if random.once_in(2) => codes[..column].fill(MISSING),
        Gaps::Part(column) => codes[column..].fill(MISSING),
        Gaps::Row(many) if random.once_in(many) => codes.fill(MISSING),
        _ => {}
    }
}

/// How the codes of one column are drawn.
#[derive(Clone, Copy)]
pub struct Style {
    values: Values,
    /// A cell is missing once in so many times.
    missing: usize,
}

#[derive(Clone, Copy)]
enum Values {
    /// One value everywhere.
    One,
    /// Values below a small bound.
    Below(usize),
    /// Another value in each row.
    Distinct,
    /// A function of the row's earlier cells, so that dependencies hold.
    Derived(usize),
    /// Values that differ in one byte only, and the largest ones.
    Close,
}

pub fn style(random: &mut Random) -> Style {
    let bound = random.from_to(2, 5);
    let values = match random.below(12) {
        0 => Values::One,
        1 => Values::Distinct,
        2..=4 => Values::Derived(bound),
        5 => Values::Close,
        _ => Values::Below(bound),
    };
    let missing = random.pick(&[1, 2, 4, 8, 1_000, 1_000, 1_000, 1_000]);
    let missing = if missing == 1 && !random.once_in(4) { 1_000 } else { missing };
    Style { values, missing }
}

/// The codes of row k.
pub fn codes(random: &mut Random, styles: &[Style], k: usize) -> Vec<u32> {
    let mut codes = Vec::new();
    for style in styles {
        let code = code(random, style, k, &codes);
        codes.push(code);
    }
    codes
}

fn code(random: &mut Random, style: &Style, row: usize, earlier: &[u32]) -> u32 {
    if random.once_in(style.missing) {
        return MISSING;
    }
    match style.values {
        Values::One => 7,
        Values::Below(bound) => random.below(bound) as u32,
        Values::Distinct => row as u32,
        Values::Derived(bound) => {
            let sum = earlier.iter().rev().take(2).fold(0u32, |sum, code| sum.wrapping_mul(3).wrapping_add(*code));
            sum % bound as u32
        }
        Values::Close => random.pick(&[0, 1, 0x0000_0101, 0x0001_0001, 0x0100_0001, 0xFFFF_FFFE, 0x7FFF_FFFF, 0xFFFF]),
    }
}
