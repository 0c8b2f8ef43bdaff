//! Document 01 in plain loops, with the requests of document 02 that have landed (a, d, e, f; b is in `evidence`).
//!
//! Nothing here is fast. Each function renders one sentence or one table row of the documents, in their order:
//!
//! - `catalogue`: the catalogue file, read and checked
//! - `agreement`: when two rows agree, and what is said of rows by it: dependencies, minimal ones, backed, keys, listed
//! - `questions`: the question and the first breaking pair, with what they refuse
//! - `listing`: entries in their order, the full listing, one listing call
//! - `packed`: packed lists
//! - `text`: what the listing program prints
//! - `xml`: the supplier's XML text, read
//! - `convert`: the conversion of such a text into a catalogue file

mod agreement;
mod catalogue;
mod convert;
mod listing;
mod packed;
mod questions;
mod text;
mod xml;

pub use agreement::*;
pub use catalogue::*;
pub use convert::*;
pub use listing::*;
pub use packed::*;
pub use questions::*;
pub use text::*;
pub use xml::*;

// ---- Bounds ("The catalogue file", "Order and places") ----

pub const TABLES: usize = 16;
pub const COLUMNS: usize = 16;
pub const ROWS: usize = 4_096;
pub const WORK_WORDS: usize = 16_384;
pub const SMALLEST_FILE: usize = 16;

/// The code of a missing cell.
pub const MISSING: u32 = 4_294_967_295;
/// The parent table of the root, and the parent row of each of its rows.
pub const NO_PARENT: usize = 65_535;
/// The right side that stands for the row itself.
pub const ROW: u32 = 255;

// ---- Refusals ("Feeder desk codes"; 17 to 19 by document 02 b, 20 to 22 by f) ----

#[derive(Clone, Copy, PartialEq, Eq, Debug)]
pub enum Refusal {
    Torn = 1,
    NoTail = 2,
    Misplaced = 3,
    Oversize = 4,
    NoStem = 5,
    TooWide = 6,
    StrayRow = 7,
    UnknownTable = 8,
    UnknownColumn = 9,
    UnknownRight = 10,
    SmallBench = 11,
    PastTheEnd = 12,
    TrayFull = 13,
    NoList = 14,
    BadEntry = 15,
    ShortSheet = 16,
    FalseRecord = 17,
    UnsoundEntry = 18,
    UncoveredSet = 19,
    NotOfForm = 20,
    Misfit = 21,
    Overfull = 22,
}
