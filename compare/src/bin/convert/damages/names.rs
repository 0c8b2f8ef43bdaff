//! Other names, end tags of another name, and attributes twice in a tag.

use super::numbers::at_or_above;
use compare::random::xml::Element;
use compare::random::{Draft, Random};

pub fn row_name(random: &mut Random, _: &Draft, catalogue: &mut Element) -> Option<u8> {
    let row = catalogue.any_row(random)?;
    let digits = &row.name[1..];
    row.name = match random.below(10) {
        0 => format!("T{digits}"),
        1 => digits.to_string(),
        2 => format!("tt{digits}"),
        3 => format!("t{digits}t"),
        4 => format!("x:t{digits}"),
        5 => format!("t{digits}:x"),
        6 => format!("t-{digits}"),
        7 => format!("c{digits}"),
        8 => String::new(),
        _ => random.pick(&["catalogue", "t", "row", "table", "xml", "t:0", "\u{0442}0"]).into(),
    };
    Some(20)
}

pub fn attribute_name(random: &mut Random, _: &Draft, catalogue: &mut Element) -> Option<u8> {
    let row = catalogue.any_row(random)?;
    let names = [
        "C0",
        "c",
        "d0",
        "cc0",
        "c0c",
        "x:c0",
        "c:0",
        "xmlns",
        "xmlns:x",
        "xml:space",
        "id",
        "0",
        "t0",
        "",
        "\u{0441}0",
    ];
    let at = random.below(row.attributes.len() + 1);
    row.attributes.insert(at, (random.pick(&names).into(), "1".into()));
    Some(20)
}

pub fn root_name(random: &mut Random, _: &Draft, catalogue: &mut Element) -> Option<u8> {
    let names = [
        "catalog",
        "Catalogue",
        "CATALOGUE",
        "catalogues",
        "catalogue0",
        "x:catalogue",
        "t0",
        "t",
        "",
        "c0",
        "cat alogue",
    ];
    catalogue.name = random.pick(&names).into();
    Some(20)
}

pub fn root_attribute(random: &mut Random, _: &Draft, catalogue: &mut Element) -> Option<u8> {
    let name = random.pick(&["c0", "t0", "xmlns", "xmlns:x", "version", "c99999999999999999999"]);
    catalogue.attributes.push((name.into(), "1".into()));
    Some(20)
}

/// The end tag of any element, `catalogue` among them, has another name, or one of another length.
pub fn end_tag(random: &mut Random, shape: &Draft, catalogue: &mut Element) -> Option<u8> {
    let number = random.below(catalogue.count());
    let element = catalogue.at(number).0;
    let name = element.name.clone();
    let end = match random.below(8) {
        0 => format!("{name}0"),
        1 => name[..name.len() - 1].to_string(),
        2 => format!("t{}", random.below(shape.tables.len() + 1)),
        3 => format!(" {name}"),
        4 => name.to_uppercase(),
        5 => format!("{name}/"),
        6 => format!("{name} c0=\"1\""),
        _ => random.pick(&["catalogue", "t", "t0", "", "t00"]).into(),
    };
    if end == name {
        return None;
    }
    element.end = Some(end);
    Some(20)
}

/// A column of its table twice in a row, with the same value or another, side by side or apart.
pub fn column_twice(random: &mut Random, shape: &Draft, catalogue: &mut Element) -> Option<u8> {
    let row = catalogue.any_row(random)?;
    let columns = shape.tables[row.table()?].columns;
    if row.attributes.is_empty() && columns > 0 {
        row.attributes.push((format!("c{}", random.below(columns)), "1".into()));
    }
    if row.attributes.is_empty() {
        return None;
    }
    let (name, value) = row.attributes[random.below(row.attributes.len())].clone();
    let other = random.below(10).to_string();
    let at = random.below(row.attributes.len() + 1);
    row.attributes.insert(at, (name, if random.once_in(2) { value } else { other }));
    Some(20)
}

/// The same with a column that the table does not have.
pub fn unknown_twice(random: &mut Random, shape: &Draft, catalogue: &mut Element) -> Option<u8> {
    let row = catalogue.any_row(random)?;
    let name = format!("c{}", at_or_above(random, shape.tables[row.table()?].columns));
    for _ in 0..2 {
        let at = random.below(row.attributes.len() + 1);
        row.attributes.insert(at, (name.clone(), random.below(3).to_string()));
    }
    Some(20)
}
