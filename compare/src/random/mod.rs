//! Deterministic random catalogues, sound and damaged. One seed gives one catalogue of each kind, everywhere.
//!
//! - `numbers`: the random numbers
//! - `drafts`: tables before they are bytes
//! - `kinds`: the kinds of catalogues by name, each made in a file of its own
//! - `mixed`: catalogues of many shapes, if no kind is named; `trees` hangs their tables, `cells` draws their codes
//! - `skewed`, `deep`, `few`, `missing`, `wide`: the other kinds
//! - `bounds`: drafts at a bound, and one past it
//! - `damage`: files with damages
//! - `entries`: entries for packed lists
//! - `xml`: supplier's texts of a draft's rows

mod bounds;
mod cells;
mod damage;
mod deep;
mod drafts;
mod entries;
mod few;
mod kinds;
mod missing;
mod mixed;
mod numbers;
mod skewed;
mod trees;
mod wide;
pub mod xml;

pub use bounds::draft_at_bound;
pub use damage::damaged;
pub use drafts::{album, Draft, DraftTable, Layout};
pub use entries::entry;
pub use kinds::{Kind, KINDS};
pub use mixed::{draft, small_draft};
pub use numbers::Random;
