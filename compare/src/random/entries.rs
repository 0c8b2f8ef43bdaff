//! Entries for packed lists.

use super::Random;
use crate::simple::{Entry, COLUMNS, TABLES};

/// Any entry that passes 15 alone.
pub fn entry(random: &mut Random) -> Entry {
    let column = random.below(COLUMNS) as u8;
    let right = random.pick(&[column, column, 255]);
    let mut left = (random.number() & random.number()) as u16;
    if right == column {
        left &= !(1 << right);
    }
    Entry { target: random.below(TABLES) as u8, right, left }
}
