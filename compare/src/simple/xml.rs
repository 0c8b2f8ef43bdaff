//! The supplier's XML text, read as rows in rows: document 02 f and its refusal 20.
//!
//! The text is cut into tags, each tag is read by itself, and the tags are nested by a list of the elements that are
//! open.

use super::Refusal::{self, *};
use super::{MISSING, TABLES};

/// A row and the rows in it. Table and column numbers are the digits that stand in the text, however many.
#[derive(Clone, PartialEq, Eq, Debug, Default)]
pub struct Element {
    pub table: String,
    pub cells: Vec<(String, u32)>,
    pub rows: Vec<Element>,
}

/// The rows that stand in `catalogue`. "20 when the text isn't of this form."
pub fn read_text(text: &[u8]) -> Result<Vec<Element>, Refusal> {
    // bytes that are no text stand nowhere
    let text = std::str::from_utf8(text).map_err(|_| NotOfForm)?;
    tags(text).and_then(|tags| nested(&tags)).ok_or(NotOfForm)
}

// ---- Tags ----

enum Tag<'a> {
    /// Its name and its attributes, and whether it is closed by `/>`.
    Start { name: &'a str, attributes: Vec<(&'a str, &'a str)>, closed: bool },
    /// Its name.
    End(&'a str),
}

/// "White space is allowed where XML allows it": space, tab, carriage return, line feed.
fn white(character: char) -> bool {
    matches!(character, ' ' | '\t' | '\r' | '\n')
}

fn skipped(text: &str) -> &str {
    text.trim_start_matches(white)
}

/// The tags, with nothing but white space before, between and behind them. No tag has a `>` inside.
fn tags(text: &str) -> Option<Vec<Tag<'_>>> {
    let mut tags = Vec::new();
    let mut rest = skipped(text);
    while !rest.is_empty() {
        let (tag, behind) = rest.strip_prefix('<')?.split_once('>')?;
        tags.push(read_tag(tag)?);
        rest = skipped(behind);
    }
    Some(tags)
}

/// What stands between `<` and `>`.
fn read_tag(tag: &str) -> Option<Tag<'_>> {
    if let Some(name) = tag.strip_prefix('/') {
        return Some(Tag::End(name.trim_end_matches(white)));
    }
    let (tag, closed) = match tag.strip_suffix('/') {
        Some(tag) => (tag, true),
        None => (tag, false),
    };
    let (name, rest) = tag.split_at(tag.find(white).unwrap_or(tag.len()));
    Some(Tag::Start { name, attributes: read_attributes(rest)?, closed })
}

/// Names and values, each with white space before it.
fn read_attributes(mut rest: &str) -> Option<Vec<(&str, &str)>> {
    let mut attributes = Vec::new();
    while !skipped(rest).is_empty() {
        if skipped(rest) == rest {
            return None;
        }
        let (name, behind) = skipped(rest).split_once('=')?;
        let behind = skipped(behind);
        let quote = behind.chars().next().filter(|first| *first == '"' || *first == '\'')?;
        let (value, behind) = behind[1..].split_once(quote)?;
        attributes.push((name.trim_end_matches(white), value));
        rest = behind;
    }
    Some(attributes)
}

// ---- Elements ----

/// "The text is one element `catalogue`", and "rows nest ... down to 16 tables". The open elements stand outermost
/// first: `catalogue`, then rows.
fn nested(tags: &[Tag]) -> Option<Vec<Element>> {
    let mut open: Vec<(&str, Element)> = Vec::new();
    let mut whole = None;
    for tag in tags {
        if whole.is_some() {
            return None;
        }
        match tag {
            Tag::Start { name, attributes, closed } => {
                let rows_above = open.len().saturating_sub(1);
                let element = if open.is_empty() { catalogue(name, attributes)? } else { row(name, attributes)? };
                if rows_above >= TABLES {
                    return None;
                }
                open.push((name, element));
                if !closed {
                    continue;
                }
            }
            Tag::End(name) if open.last()?.0 != *name => return None,
            Tag::End(_) => {}
        }
        let (_, element) = open.pop()?;
        match open.last_mut() {
            Some((_, above)) => above.rows.push(element),
            None => whole = Some(element.rows),
        }
    }
    whole
}

/// "`catalogue` has no attributes."
fn catalogue(name: &str, attributes: &[(&str, &str)]) -> Option<Element> {
    (name == "catalogue" && attributes.is_empty()).then(Element::default)
}

/// "An element `t` followed by a table number without leading zeros is a row of that table; attributes `c0`, `c1` and
/// on are its own columns"; no "attribute twice in a tag".
fn row(name: &str, attributes: &[(&str, &str)]) -> Option<Element> {
    let table = numeral(name.strip_prefix('t')?)?;
    let mut cells: Vec<(String, u32)> = Vec::new();
    for (name, value) in attributes {
        let column = numeral(name.strip_prefix('c')?)?;
        if cells.iter().any(|(earlier, _)| *earlier == column) {
            return None;
        }
        cells.push((column, code(value)?));
    }
    Some(Element { table, cells, rows: Vec::new() })
}

/// "Decimal, without leading zeros."
fn numeral(digits: &str) -> Option<String> {
    let decimal = !digits.is_empty() && digits.bytes().all(|byte| byte.is_ascii_digit());
    let leading_zero = digits.len() > 1 && digits.starts_with('0');
    (decimal && !leading_zero).then(|| digits.to_string())
}

/// "Below 4,294,967,295."
fn code(digits: &str) -> Option<u32> {
    let code: u32 = numeral(digits)?.parse().ok()?;
    (code < MISSING).then_some(code)
}
