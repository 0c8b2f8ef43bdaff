//! Comparison of the library with a second implementation of the documents, and peers for the benchmark.
//!
//! - `simple`: document 01 in plain loops, to be read line by line against the document; 02 f too
//! - `evidence`: document 02 b in plain loops, as d and e alter it: the check of a supplier's list by evidence
//! - `ffi`: the static library's functions
//! - `random`: deterministic random catalogues of several kinds, sound and damaged
//! - `named`: small catalogues by name, with what is listed of them and what is not
//! - `unfilled`: those with missing cells or without rows, and wide ones
//! - `keyed`: those whose keys stand for columns, and wide ones
//! - `texts`: supplier's texts by hand, with what they mean or the number that refuses them
//! - `lent`: lent memory with guards on both sides
//! - `stack`: how much stack a call uses
//! - `tane`, `table`: two other ways to the same full listing; `table` also makes evidence

pub mod evidence;
pub mod ffi;
pub mod keyed;
pub mod lent;
pub mod named;
pub mod random;
pub mod simple;
pub mod stack;
pub mod table;
pub mod tane;
pub mod texts;
pub mod unfilled;
