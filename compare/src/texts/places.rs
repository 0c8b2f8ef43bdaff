//! Where rows stand and how deep, how they are numbered, and texts with grounds for 20 and 21.

use super::{mean_inside, plain, refused, refused_inside, table, text, with_rows, Row, Text, M, R};
use crate::random::Draft;
use crate::simple::TABLES;

pub fn all() -> Vec<Text> {
    [nesting(), places()].into_iter().flatten().collect()
}

/// A line of as many tables as may be, without columns.
fn line() -> Draft {
    Draft { tables: (0..TABLES).map(|i| table(if i == 0 { R } else { i - 1 }, 0)).collect() }
}

/// Rows of these tables, each in the one before.
fn in_each_other(tables: impl Iterator<Item = usize> + Clone) -> String {
    let starts: String = tables.clone().map(|table| format!("<t{table}>")).collect();
    let mut ends: Vec<String> = tables.map(|table| format!("</t{table}>")).collect();
    ends.reverse();
    format!("<catalogue>{starts}{}</catalogue>", ends.concat())
}

fn nesting() -> Vec<Text> {
    let rows: Vec<Row> = (0..TABLES).map(|table| (table, if table == 0 { R } else { 0 }, &[] as &[u32])).collect();
    let whole = in_each_other(0..TABLES);
    let deeper = whole.replace("<t15>", "<t15><t15/>");
    let unknown = whole.replace("<t15>", "<t15><t16>").replace("</t15>", "</t16></t15>");
    let beside = whole.replace("</t15>", "</t15><t15/>");
    let twice: Vec<Row> = rows.iter().copied().chain([(15, 0, &[] as &[u32])]).collect();
    vec![
        text("rows 16 deep", &line(), whole.clone(), Ok(with_rows(&line(), &rows))),
        text("rows 16 deep, two of them", &line(), beside, Ok(with_rows(&line(), &twice))),
        text("rows 17 deep", &line(), deeper, Err(20)),
        text("rows 17 deep, the last of no table", &line(), unknown, Err(20)),
        text("rows 16 deep, of one table", &line(), in_each_other([0; 16].into_iter()), Err(21)),
        text("rows 17 deep, of one table", &line(), in_each_other([0; 17].into_iter()), Err(20)),
        text("rows 17 deep, of no table", &plain(), in_each_other([99; 17].into_iter()), Err(20)),
        text("rows 16 deep, of no table", &plain(), in_each_other([99; 16].into_iter()), Err(21)),
        text("rows very deep", &plain(), in_each_other((0..100_000).map(|_| 0)), Err(20)),
        text("rows 16 deep, cut", &line(), whole[..whole.len() / 2].to_string(), Err(20)),
    ]
}

fn places() -> Vec<Text> {
    let mut texts = refused_inside(
        "rows in the wrong place",
        21,
        &[
            "<t1/>",
            "<t2/>",
            "<t0/><t1/>",
            "<t0><t0/></t0>",
            "<t0><t2/></t0>",
            "<t0><t1><t1/></t1></t0>",
            "<t0><t1><t3/></t1></t0>",
            "<t0><t3><t1/></t3></t0>",
            "<t0><t1><t2><t0/></t2></t1></t0>",
            "<t1><t0/></t1>",
        ],
    );
    texts.extend(mean_inside(
        "rows numbered in text order within their table",
        &[
            (0, R, &[5]),
            (0, R, &[6]),
            (0, R, &[7]),
            (1, 0, &[1, M]),
            (1, 2, &[2, M]),
            (1, 2, &[3, M]),
            (2, 0, &[]),
            (2, 0, &[]),
            (2, 2, &[]),
        ],
        &["<t0 c0='5'><t1 c0='1'><t2/><t2/></t1></t0><t0 c0='6'/><t0 c0='7'><t1 c0='2'/><t1 c0='3'><t2/></t1></t0>"],
    ));
    let missing = [M; 15];
    texts.extend(mean_inside(
        "rows of two tables mixed",
        &[(0, R, &[M]), (1, 0, &[1, M]), (1, 0, &[2, M]), (3, 0, &missing), (3, 0, &missing)],
        &["<t0><t1 c0='1'/><t3/><t1 c0='2'/><t3/></t0>", "<t0><t3/><t3></t3><t1 c0='1'/><t1 c0='2'></t1></t0>"],
    ));
    texts.extend(refused_inside(
        "20 before 21, wherever they stand",
        20,
        &[
            "<t1/>x",
            "x<t1/>",
            "<t9/><t0 c0=\"\"/>",
            "<t0 c9='1' c0='01'/>",
            "<t0 c9='4294967295'/>",
            "<t1></t0>",
            "<t9 x='1'/>",
        ],
    ));
    texts.extend(refused("20 before 21, cut", 20, &["<catalogue><t1/>", "<catalogue><t9/></catalogue", "<t1/>"]));
    texts
}
