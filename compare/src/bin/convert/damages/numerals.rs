//! Numerals that are none, and values at and above their bound.

use compare::random::xml::Element;
use compare::random::{Draft, Random};
use compare::simple::MISSING;

/// What is no numeral, made of one that is or not. In a name no white space may stand behind it: it would be allowed.
fn wrong(random: &mut Random, numeral: &str) -> String {
    match random.below(12) {
        0 => String::new(),
        1 => "00".into(),
        2 => format!("0{numeral}"),
        3 => format!("000{numeral}"),
        4 => format!("+{numeral}"),
        5 => format!("-{numeral}"),
        6 => format!(" {numeral}"),
        7 => format!("{numeral}.0"),
        8 => format!("0x{numeral}"),
        9 => format!("{numeral}e1"),
        10 => format!("{numeral},000"),
        _ => random.pick(&["a", "\u{FF11}", "\u{0661}", "_", ":", "/", "1 1", "1\n1"]).into(),
    }
}

/// The value of an attribute of any row, which gets one if it has none and its table has a column.
fn any_value<'a>(random: &mut Random, shape: &Draft, catalogue: &'a mut Element) -> Option<&'a mut String> {
    let row = catalogue.any_row(random)?;
    if row.attributes.is_empty() && shape.tables[row.table()?].columns > 0 {
        row.attributes.push(("c0".into(), "1".into()));
    }
    let count = row.attributes.len();
    (count > 0).then(|| &mut row.attributes[random.below(count)].1)
}

pub fn largest_value(random: &mut Random, shape: &Draft, catalogue: &mut Element) -> Option<u8> {
    *any_value(random, shape, catalogue)? = (MISSING - 1).to_string();
    Some(0)
}

/// Some are small in their last 32 or 64 bits, or but for their first or last digit.
pub fn value_too_large(random: &mut Random, shape: &Draft, catalogue: &mut Element) -> Option<u8> {
    let low = random.below(10);
    let value = match random.below(7) {
        0 | 1 => MISSING.to_string(),
        2 => ((1 << 32) + low).to_string(),
        3 => ((1 << 64) + low as u128).to_string(),
        4 => format!("{}{low}", MISSING - 1),
        5 => format!("{}{low:0width$}", random.from_to(1, 9), width = random.from_to(10, 60)),
        _ => random.pick(&["9999999999", "4294967300", "5000000000", "10000000000"]).into(),
    };
    *any_value(random, shape, catalogue)? = value;
    Some(20)
}

pub fn wrong_value(random: &mut Random, shape: &Draft, catalogue: &mut Element) -> Option<u8> {
    let value = any_value(random, shape, catalogue)?;
    *value = if random.once_in(4) {
        let white = random.pick(&[" ", "\t", "\n"]);
        format!("{value}{white}")
    } else {
        wrong(random, value)
    };
    Some(20)
}

pub fn wrong_table(random: &mut Random, _: &Draft, catalogue: &mut Element) -> Option<u8> {
    let row = catalogue.any_row(random)?;
    row.name = format!("t{}", wrong(random, &row.name[1..]));
    Some(20)
}

pub fn wrong_column(random: &mut Random, _: &Draft, catalogue: &mut Element) -> Option<u8> {
    let row = catalogue.any_row(random)?;
    let column = format!("c{}", wrong(random, "1"));
    let at = random.below(row.attributes.len() + 1);
    row.attributes.insert(at, (column, "1".into()));
    Some(20)
}
