//! As many rows as may be and one more, outputs of all lengths, and shapes.

use super::{table, text, with_rows, Text, M, R};
use crate::random::{album, Draft, DraftTable};
use crate::simple::{COLUMNS, ROWS};

pub fn all() -> Vec<Text> {
    [rows(), outputs(), shapes()].into_iter().flatten().collect()
}

/// So many rows of the album's table 0, so many of table 1 in the last of them, and something behind.
fn many(roots: usize, below: usize, behind: &str) -> String {
    let (roots, below) = ("<t0/>".repeat(roots - 1), "<t1 c1='7'/>".repeat(below));
    format!("<catalogue>{roots}<t0>{below}</t0>{behind}</catalogue>")
}

/// The file of these.
fn file(roots: usize, below: usize) -> Vec<u8> {
    let mut rows = vec![(0, R, &[M] as &[u32]); roots];
    rows.extend(vec![(1, roots - 1, &[M, 7] as &[u32]); below]);
    with_rows(&album().without_rows(), &rows)
}

fn rows() -> Vec<Text> {
    let of = |about, text_of: String, told| text(about, &album().without_rows(), text_of, told);
    vec![
        of("4,096 rows of table 0", many(ROWS, 0, ""), Ok(file(ROWS, 0))),
        of("4,096 rows of both tables", many(ROWS, ROWS, ""), Ok(file(ROWS, ROWS))),
        of("4,097 rows of table 0", many(ROWS + 1, 0, ""), Err(22)),
        of("4,097 rows of table 1", many(1, ROWS + 1, ""), Err(22)),
        of("65,536 rows of table 1", many(1, 65_536, ""), Err(22)),
        of("65,537 rows of table 0", many(65_537, 1, ""), Err(22)),
        of("4,097 rows, then a row in the wrong place", many(1, ROWS + 1, "<t1/>"), Err(21)),
        of("4,097 rows, then other text", many(1, ROWS + 1, "x"), Err(20)),
        of("4,097 rows, then both", many(1, ROWS + 1, "<t1/>x"), Err(20)),
    ]
}

fn outputs() -> Vec<Text> {
    let whole = file(2, 1);
    let of = |about, bytes, behind, told| {
        let output = Some(bytes);
        Text { output, ..text(about, &album().without_rows(), many(2, 1, behind), told) }
    };
    vec![
        of("output of just so many bytes", whole.len(), "", Ok(whole.clone())),
        of("output of one byte more", whole.len() + 1, "", Ok(whole.clone())),
        of("output of many bytes more", whole.len() + 1_000, "", Ok(whole.clone())),
        of("output of one byte less", whole.len() - 1, "", Err(22)),
        of("output of no bytes", 0, "", Err(22)),
        of("21 and output of no bytes", 0, "<t1/>", Err(21)),
        of("20 and output of no bytes", 0, "x", Err(20)),
    ]
}

fn shapes() -> Vec<Text> {
    let (none, album) = (Draft { tables: vec![table(R, 0)] }, album());
    let right = "<catalogue><t0/></catalogue>";
    let torn = Text { shape: vec![0; 15], ..text("a torn shape", &none, "", Err(1)) };
    let no_tail = Text { shape: vec![0; 16], ..text("a shape without a tail, and no form", &none, "<", Err(2)) };
    let wide = Draft { tables: vec![table(R, COLUMNS), table(0, 1)] };
    let stray = Draft { tables: vec![DraftTable { rows: vec![(0, vec![])], ..table(R, 0) }] };
    vec![
        torn,
        no_tail,
        text("a shape too wide, and a wrong place", &wide, "<catalogue><t1/></catalogue>", Err(6)),
        text("a shape with a stray row, and no form", &stray, "x", Err(7)),
        text("a shape with rows", &album, right, Err(21)),
        text("a shape with rows, no rows in the text", &album, "<catalogue/>", Err(21)),
        text("a shape with rows, and no form", &album, "<catalogue><t0></catalogue>", Err(20)),
        Text { output: Some(0), ..text("a shape with rows, and a short output", &album, right, Err(21)) },
        text("the smallest shape", &none, "<catalogue/>", Ok(none.file())),
        text("no columns", &none, right, Ok(with_rows(&none, &[(0, R, &[])]))),
        text("no columns, and one in the text", &none, "<catalogue><t0 c0='1'/></catalogue>", Err(21)),
    ]
}
