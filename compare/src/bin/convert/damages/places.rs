//! Rows in the wrong place, rows more and less, and deep nesting.

use super::by_place;
use compare::random::xml::Element;
use compare::random::{Draft, Random};
use compare::simple::{NO_PARENT, TABLES};

/// How many elements stand in each other, the outermost included.
pub fn height(element: &Element) -> usize {
    1 + element.content.iter().map(height).max().unwrap_or(0)
}

/// Whether the rows in an element, and in these, are of tables of the shape and stand where they must.
pub fn fit(shape: &Draft, element: &Element) -> bool {
    let within = element.table().unwrap_or(NO_PARENT);
    element.content.iter().all(|row| {
        let table = row.table().and_then(|table| shape.tables.get(table));
        table.is_some_and(|table| table.parent == within) && fit(shape, row)
    })
}

/// A row with those in it, put into any element.
pub fn moved(random: &mut Random, shape: &Draft, catalogue: &mut Element) -> Option<u8> {
    let row = catalogue.take_row(random)?;
    let above = random.below(catalogue.count());
    catalogue.at(above).0.put(random, row);
    Some(by_place(shape, catalogue))
}

pub fn in_its_own(random: &mut Random, shape: &Draft, catalogue: &mut Element) -> Option<u8> {
    let row = catalogue.any_row(random)?;
    let table = row.table()?;
    row.put(random, Element::row(table));
    Some(by_place(shape, catalogue))
}

pub fn root_in_row(random: &mut Random, shape: &Draft, catalogue: &mut Element) -> Option<u8> {
    catalogue.any_row(random)?.put(random, Element::row(0));
    Some(by_place(shape, catalogue))
}

/// A row of any table in any element, mostly where it may stand.
pub fn row_more(random: &mut Random, shape: &Draft, catalogue: &mut Element) -> Option<u8> {
    let above = random.below(catalogue.count());
    let above = catalogue.at(above).0;
    let within = above.table().unwrap_or(NO_PARENT);
    let below = |table: &usize| shape.tables[*table].parent == within;
    let tables: Vec<usize> = (0..shape.tables.len()).filter(below).collect();
    let any = random.below(shape.tables.len());
    let table = if tables.is_empty() || random.once_in(4) { any } else { random.pick(&tables) };
    let codes: Vec<u32> = (0..shape.tables[table].columns).map(|_| random.below(5) as u32).collect();
    above.put(random, Element::with_codes(table, &codes));
    Some(by_place(shape, catalogue))
}

pub fn row_less(random: &mut Random, _: &Draft, catalogue: &mut Element) -> Option<u8> {
    catalogue.take_row(random)?;
    Some(0)
}

pub fn sixteen_deep(random: &mut Random, shape: &Draft, catalogue: &mut Element) -> Option<u8> {
    deepen(random, shape, catalogue, TABLES)
}

pub fn seventeen_deep(random: &mut Random, shape: &Draft, catalogue: &mut Element) -> Option<u8> {
    deepen(random, shape, catalogue, TABLES + 1)
}

/// Rows of any tables in each other, put into any element, down to so many rows in each other.
fn deepen(random: &mut Random, shape: &Draft, catalogue: &mut Element, rows: usize) -> Option<u8> {
    let above = random.below(catalogue.count());
    let (above, depth) = catalogue.at(above);
    if depth >= rows {
        return None;
    }
    let mut row = Element::row(random.below(shape.tables.len()));
    for _ in depth + 1..rows {
        let mut around = Element::row(random.below(shape.tables.len()));
        around.content.push(row);
        row = around;
    }
    above.put(random, row);
    Some(by_place(shape, catalogue))
}
