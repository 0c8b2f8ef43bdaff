//! What may be wrong with a supplier's text. Most damages are made to the elements before they are text, and tell the
//! number that must come; those to bytes tell nothing.
//!
//! - `numbers`: table and column numbers that the shape does not have
//! - `places`: rows in the wrong place, and deep nesting
//! - `numerals`: what is no right numeral, and values too large
//! - `names`: other names, end tags, attributes twice
//! - `foreign`: what else may stand in XML, put into the text
//! - `bytes`: bytes dropped, doubled, exchanged, replaced, inserted and cut

pub mod bytes;
pub mod foreign;
mod names;
mod numbers;
mod numerals;
mod places;

pub use places::height;

use compare::random::xml::Element;
use compare::random::{Draft, Random};
use compare::simple::TABLES;

/// Alters elements that fit a shape. Gives the number that must come, 0 if they are still converted, or none if there
/// is nothing to alter.
pub type Alter = fn(&mut Random, &Draft, &mut Element) -> Option<u8>;

/// Those after which the text is of the form, unless rows come to stand too deep. Each has a name to be counted by.
pub const OF_FORM: [(&str, Alter); 9] = [
    ("an unknown table", numbers::unknown_table),
    ("an unknown column", numbers::unknown_column),
    ("a row moved", places::moved),
    ("a row in one of its own table", places::in_its_own),
    ("a root row in a row", places::root_in_row),
    ("rows 16 deep", places::sixteen_deep),
    ("a value at its bound", numerals::largest_value),
    ("a row more", places::row_more),
    ("a row less", places::row_less),
];

/// Those after which it is not.
pub const OF_NO_FORM: [(&str, Alter); 12] = [
    ("rows 17 deep", places::seventeen_deep),
    ("a value too large", numerals::value_too_large),
    ("a wrong value", numerals::wrong_value),
    ("a wrong table numeral", numerals::wrong_table),
    ("a wrong column numeral", numerals::wrong_column),
    ("a column twice", names::column_twice),
    ("an unknown column twice", names::unknown_twice),
    ("a wrong row name", names::row_name),
    ("a wrong attribute name", names::attribute_name),
    ("a wrong root name", names::root_name),
    ("an attribute on the root", names::root_attribute),
    ("a wrong end tag", names::end_tag),
];

/// The number that comes for right numerals and names, by where the rows stand.
pub fn by_place(shape: &Draft, catalogue: &Element) -> u8 {
    if height(catalogue) > TABLES + 1 {
        20
    } else if !places::fit(shape, catalogue) {
        21
    } else {
        0
    }
}

/// A damage after which 21 must come: an unknown number, or a row more in `catalogue` that may not stand there.
pub fn misfit(random: &mut Random, shape: &Draft, catalogue: &mut Element) {
    let made = match random.below(3) {
        0 => numbers::unknown_table(random, shape, catalogue),
        1 => numbers::unknown_column(random, shape, catalogue),
        _ => None,
    };
    if made.is_none() {
        let table = random.from_to(1, shape.tables.len());
        catalogue.put(random, Element::row(table));
    }
}
