//! The check of a supplier's list by evidence (document 02 b, d and e), on the album and on small catalogues, worked
//! out by hand from the requests' words. Each expected answer is held against the simple implementation and the
//! library. Also the simple implementation's records, read and made, and its grounds.

mod album;
mod keyed;
mod unbacked;

use compare::evidence::{written, Record};
use compare::ffi;
use compare::random::{Draft, DraftTable};
use compare::simple::{pack, Entry, Refusal, NO_PARENT};

const ROW: u8 = 255;

/// An entry as the listing program prints it: target, left, right.
type Line = (u8, u16, u8);

/// A record: target, right, set, and its two rows.
type Plain = (u8, u8, u16, u16, u16);

fn list(lines: &[Line]) -> Vec<u8> {
    let entries: Vec<Entry> = lines.iter().map(|(target, left, right)| entry(*target, *left, *right)).collect();
    let mut file = vec![0; 4 * lines.len() + 8];
    pack(&entries, &mut file).expect("entries that pass 15");
    file
}

fn entry(target: u8, left: u16, right: u8) -> Entry {
    Entry { target, right, left }
}

fn record((target, right, set, first, second): Plain) -> Record {
    Record { target, right, set, rows: [first, second] }
}

fn evidence(plain: &[Plain]) -> Vec<u8> {
    written(&plain.iter().map(|plain| record(*plain)).collect::<Vec<Record>>())
}

/// What both implementations answer of the same three files; an expected answer is equal to it if both give it.
#[derive(Debug)]
struct Answers {
    simple: Result<u64, Refusal>,
    library: i64,
}

impl PartialEq<Result<u64, Refusal>> for Answers {
    fn eq(&self, expected: &Result<u64, Refusal>) -> bool {
        let reply = match *expected {
            Ok(entries) => entries as i64,
            Err(refusal) => -(refusal as i64),
        };
        self.simple == *expected && self.library == reply
    }
}

fn verify(cat: &[u8], list: &[u8], evidence: &[u8]) -> Answers {
    Answers { simple: compare::evidence::verify(cat, list, evidence), library: ffi::verify(cat, list, evidence) }
}

fn without<T: Copy>(items: &[T], i: usize) -> Vec<T> {
    [&items[..i], &items[i + 1..]].concat()
}

/// One table of so many columns with these rows.
fn table(columns: usize, rows: &[&[u32]]) -> Vec<u8> {
    let rows = rows.iter().map(|codes| (NO_PARENT, codes.to_vec())).collect();
    Draft { tables: vec![DraftTable { columns, parent: NO_PARENT, rows }] }.file()
}
