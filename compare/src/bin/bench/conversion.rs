//! Times of the conversion of supplier's texts, beside the simple implementation and a peer over libexpat.
//!
//! The peer is the program `target/peer/expat_peer`, which `bench_xml` builds if expat's header is there; its file must
//! be the library's. Beside its time stands that of expat alone, without handlers. The texts have each row on a line of
//! its own.

use crate::timing::{least, ratio, seconds, shown};
use compare::random::xml::{Element, Printed, Style};
use compare::random::{album, Draft, DraftTable, Random};
use compare::simple::{self, COLUMNS, NO_PARENT, ROWS, TABLES};
use compare::{ffi, stack};
use std::path::Path;
use std::process::Command;

pub const XML: &str = "xml";
const PEER: &str = "target/peer/expat_peer";
/// Conversions of which the peer gives the least time.
const RUNS: &str = "10";
/// The columns of a tag that has many.
const MANY: usize = 10_000;
/// The bytes of a text of white space, or of `<`.
const LONG: usize = 100_000_000;
/// A conversion takes at most so many seconds.
const MOST: f64 = 1.0;

struct Supplied {
    name: &'static str,
    shape: Vec<u8>,
    text: Vec<u8>,
}

/// All texts.
pub fn run() {
    let bare = album().without_rows().file();
    let long = |name, byte| Supplied { name, shape: bare.clone(), text: vec![byte; LONG] };
    one(&supplied("16 tables in a line, one column each", line()));
    one(&supplied("15 tables of 16 columns under one row", fork()));
    one(&supplied("the album's tables", pair()));
    one(&Supplied { name: "a tag of many columns", shape: bare.clone(), text: many_columns() });
    one(&long("100 MB of white space", b' '));
    one(&long("100 MB of <", b'<'));
}

// ---- Texts ----

fn table(parent: usize, columns: usize) -> DraftTable {
    DraftTable { columns, parent, rows: Vec::new() }
}

/// Codes of one to ten digits.
fn codes(random: &mut Random, columns: usize) -> Vec<u32> {
    (0..columns).map(|_| random.number() as u32 >> random.from_to(1, 31)).collect()
}

/// Each table has as many rows as may be, each in one of the table before.
fn line() -> Draft {
    let random = &mut Random::new(16);
    let mut draft = Draft::default();
    for i in 0..TABLES {
        let above = |k: usize| if i == 0 { NO_PARENT } else { k };
        let rows = (0..ROWS).map(|k| (above(k), codes(random, 1))).collect();
        draft.tables.push(DraftTable { rows, ..table(if i == 0 { NO_PARENT } else { i - 1 }, 1) });
    }
    draft
}

/// A root of one row without columns, and under it as many tables, columns and rows as may be.
fn fork() -> Draft {
    let random = &mut Random::new(15);
    let mut draft = Draft { tables: vec![DraftTable { rows: vec![(NO_PARENT, Vec::new())], ..table(NO_PARENT, 0) }] };
    for _ in 1..TABLES {
        let rows = (0..ROWS).map(|_| (0, codes(random, COLUMNS))).collect();
        draft.tables.push(DraftTable { rows, ..table(0, COLUMNS) });
    }
    draft
}

/// The album's tables with as many rows as may be.
fn pair() -> Draft {
    let random = &mut Random::new(2);
    let mut draft = album().without_rows();
    draft.tables[0].rows = (0..ROWS).map(|_| (NO_PARENT, codes(random, 1))).collect();
    draft.tables[1].rows = (0..ROWS).map(|k| (k, codes(random, 2))).collect();
    draft
}

/// Columns that no table has, each once: it is not the attribute twice that refuses them.
fn many_columns() -> Vec<u8> {
    let cells: String = (0..MANY).map(|own| format!(" c{own}=\"1\"")).collect();
    format!("<catalogue><t0{cells}/></catalogue>").into()
}

fn supplied(name: &'static str, draft: Draft) -> Supplied {
    let catalogue = elements(&draft);
    let text = Printed::of(&mut Random::new(1), &Style::lines(), &catalogue).text;
    Supplied { name, shape: draft.without_rows().file(), text }
}

/// The rows of a draft in which those of each table stand in the order of their parent rows.
fn elements(draft: &Draft) -> Element {
    let mut rows: Vec<Vec<Element>> = Vec::new();
    for (i, table) in draft.tables.iter().enumerate() {
        rows.push(table.rows.iter().map(|(_, codes)| Element::with_codes(i, codes)).collect());
    }
    for (i, table) in draft.tables.iter().enumerate().skip(1).rev() {
        for (row, (parent, _)) in std::mem::take(&mut rows[i]).into_iter().zip(&table.rows) {
            rows[table.parent][*parent].content.push(row);
        }
    }
    Element { content: rows.swap_remove(0), ..Element::new("catalogue") }
}

// ---- Times ----

fn one(supplied: &Supplied) {
    let mut output = vec![0xA5; 8_000_000];
    let (shape, text) = (&supplied.shape, &supplied.text);
    let mut reply = 0;
    let library = least(|| seconds(|| reply = ffi::convert(shape, text, &mut output)));
    let file = &output[..usize::try_from(reply).unwrap_or(0)];
    let made = simple::converted(shape, text);
    assert_eq!(reply, made.as_ref().map_or_else(|refusal| -(*refusal as i64), |file| file.len() as i64));
    assert!(made.is_err() || made.is_ok_and(|made| made == file), "the simple implementation makes another file");
    let simple = least(|| seconds(|| simple::converted(shape, text).map(|file| file.len())));
    let peer = match peer(supplied, reply, file) {
        Some([peer, parse]) => {
            let [peer, parse] = [peer, parse].map(|time| ratio(time, Some(library)));
            format!("peer over expat {peer}, expat alone {parse}")
        }
        None => format!("no {PEER}"),
    };
    let over = if library > MOST { ", over the bar" } else { "" };
    println!("{}: {} bytes, reply {reply}", supplied.name, text.len());
    println!("  library {} (at most {}{over}), simple {}", shown(library), shown(MOST), ratio(simple, Some(library)));
    let mut output = vec![0; output.len()];
    println!("  {peer}; stack {} bytes", stack::used(|| assert_eq!(ffi::convert(shape, text, &mut output), reply)));
}

/// The peer's time and that of expat alone, if there is a peer. Its reply and its file must be the library's.
fn peer(supplied: &Supplied, reply: i64, file: &[u8]) -> Option<[f64; 2]> {
    if !Path::new(PEER).exists() {
        return None;
    }
    let paths = ["shape", "text", "made"].map(|name| format!("{PEER}.{name}"));
    std::fs::write(&paths[0], &supplied.shape).unwrap();
    std::fs::write(&paths[1], &supplied.text).unwrap();
    let output = Command::new(PEER).args(&paths).arg(RUNS).output().unwrap();
    let words = String::from_utf8(output.stdout).unwrap();
    let words: Vec<&str> = words.split_whitespace().collect();
    let made = std::fs::read(&paths[2]).unwrap();
    paths.iter().for_each(|path| std::fs::remove_file(path).unwrap());
    assert_eq!(words[0].parse(), Ok(reply), "the peer's reply");
    assert!(made == file, "the peer makes another file");
    Some([words[1], words[2]].map(|time| time.parse().unwrap()))
}
