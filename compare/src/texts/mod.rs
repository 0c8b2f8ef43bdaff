//! Supplier's texts by hand, one or more for each point of document 02 f: the rows that a text means, or the number by
//! which it is refused.
//!
//! - `white`: white space
//! - `tags`: tags, names, and what else XML has
//! - `numbers`: numerals and attributes
//! - `places`: where rows stand, and how deep; texts with grounds for two numbers
//! - `bounds`: as many rows as may be, outputs and shapes

mod bounds;
mod numbers;
mod places;
mod tags;
mod white;

use crate::random::{Draft, DraftTable};
use crate::simple::{COLUMNS, MISSING, NO_PARENT};

pub struct Text {
    pub about: &'static str,
    pub shape: Vec<u8>,
    pub text: Vec<u8>,
    /// Bytes of output, if not as many as needed.
    pub output: Option<usize>,
    /// The catalogue file, or the refusal's number.
    pub told: Result<Vec<u8>, u8>,
}

/// A row: its table, its parent row and its codes.
type Row<'a> = (usize, usize, &'a [u32]);

const R: usize = NO_PARENT;
const M: u32 = MISSING;

/// All of them.
pub fn all() -> Vec<Text> {
    [white::all(), tags::all(), numbers::all(), places::all(), bounds::all()].into_iter().flatten().collect()
}

/// A table of so many columns under another.
fn table(parent: usize, columns: usize) -> DraftTable {
    DraftTable { columns, parent, rows: Vec::new() }
}

/// The shape of the texts that name no other: tables 1 and 3 under table 0, table 2 under table 1, with 1, 2, 0 and 15
/// columns.
fn plain() -> Draft {
    Draft { tables: vec![table(R, 1), table(0, 2), table(1, 0), table(0, COLUMNS - 1)] }
}

fn with_rows(shape: &Draft, rows: &[Row]) -> Vec<u8> {
    let mut draft = shape.clone();
    rows.iter().for_each(|(table, parent, codes)| draft.tables[*table].rows.push((*parent, codes.to_vec())));
    draft.file()
}

fn text(about: &'static str, shape: &Draft, text: impl Into<Vec<u8>>, told: Result<Vec<u8>, u8>) -> Text {
    Text { about, shape: shape.file(), text: text.into(), output: None, told }
}

/// Texts that mean these rows.
fn mean(about: &'static str, rows: &[Row], texts: &[impl AsRef<str>]) -> Vec<Text> {
    let shape = plain();
    texts.iter().map(|each| text(about, &shape, each.as_ref(), Ok(with_rows(&shape, rows)))).collect()
}

/// Texts that are refused.
fn refused(about: &'static str, number: u8, texts: &[impl AsRef<str>]) -> Vec<Text> {
    texts.iter().map(|each| text(about, &plain(), each.as_ref(), Err(number))).collect()
}

/// The same of what stands in `catalogue`.
fn mean_inside(about: &'static str, rows: &[Row], contents: &[impl AsRef<str>]) -> Vec<Text> {
    mean(about, rows, &inside(contents))
}

fn refused_inside(about: &'static str, number: u8, contents: &[impl AsRef<str>]) -> Vec<Text> {
    refused(about, number, &inside(contents))
}

fn inside(contents: &[impl AsRef<str>]) -> Vec<String> {
    contents.iter().map(|content| format!("<catalogue>{}</catalogue>", content.as_ref())).collect()
}
