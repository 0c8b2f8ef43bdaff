//! Sets of columns, and picks from them.

use compare::random::Random;
use compare::simple::COLUMNS;

/// The index of some item, if there is one.
pub fn any<T>(random: &mut Random, items: &[T]) -> Option<usize> {
    if items.is_empty() {
        None
    } else {
        Some(random.below(items.len()))
    }
}

/// The set of so many columns.
pub fn full(columns: usize) -> u16 {
    ((1u32 << columns) - 1) as u16
}

/// All columns but the right.
pub fn outside(right: u8) -> u16 {
    if (right as usize) < COLUMNS {
        !(1 << right)
    } else {
        u16::MAX
    }
}

/// A set of one member of a set; the empty set of that.
pub fn member(random: &mut Random, set: u16) -> u16 {
    set & !less(random, set)
}

/// A set without one of its members.
pub fn less(random: &mut Random, set: u16) -> u16 {
    let members: Vec<usize> = (0..COLUMNS).filter(|k| set & 1 << k != 0).collect();
    any(random, &members).map_or(set, |i| set & !(1 << members[i]))
}
