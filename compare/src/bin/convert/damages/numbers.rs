//! Table and column numbers that the shape does not have: right numerals, but too large.

use compare::random::xml::Element;
use compare::random::{Draft, Random};

/// The numeral of a number at or above a bound of at most 16. Some are below it in their last 8, 16, 32, 64 or 128 bits
/// or in their last digits.
pub fn at_or_above(random: &mut Random, bound: usize) -> String {
    let low = random.below(bound.max(1)) as u128;
    let number = match random.below(10) {
        0 | 1 => bound as u128,
        2 => bound as u128 + 1,
        3 => 16,
        4 => (1 << 8) + low,
        5 => (1 << 16) + low,
        6 => (1 << 32) + low,
        7 => (1 << 64) + low,
        8 => return format!("340282366920938463463374607431768211{}", 456 + low),
        _ => return format!("{}{low:0width$}", random.from_to(1, 9), width = random.from_to(2, 60)),
    };
    number.to_string()
}

pub fn unknown_table(random: &mut Random, shape: &Draft, catalogue: &mut Element) -> Option<u8> {
    let number = at_or_above(random, shape.tables.len());
    catalogue.any_row(random)?.name = format!("t{number}");
    Some(21)
}

pub fn unknown_column(random: &mut Random, shape: &Draft, catalogue: &mut Element) -> Option<u8> {
    let row = catalogue.any_row(random)?;
    let number = at_or_above(random, shape.tables[row.table()?].columns);
    let at = random.below(row.attributes.len() + 1);
    row.attributes.insert(at, (format!("c{number}"), random.below(10).to_string()));
    Some(21)
}
