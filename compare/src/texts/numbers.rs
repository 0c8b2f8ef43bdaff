//! Numerals of tables, columns and values, and attributes.

use super::{mean_inside, refused_inside, Text, M, R};

pub fn all() -> Vec<Text> {
    [numerals(), attributes()].into_iter().flatten().collect()
}

fn numerals() -> Vec<Text> {
    let mut texts = refused_inside(
        "wrong table numerals",
        20,
        &["<t00/>", "<t01/>", "<t-0/>", "<t-1/>", "<t+1/>", "<t 0/>", "<t0x0/>", "<t0e0/>", "<t1,0/>", "<t\u{FF10}/>"],
    );
    texts.extend(refused_inside(
        "wrong column numerals",
        20,
        &["<t0 c00=\"1\"/>", "<t0 c01=\"1\"/>", "<t0 c-0=\"1\"/>", "<t0 c+0=\"1\"/>", "<t0 c 0=\"1\"/>"],
    ));
    let wrong = [
        "", "00", "01", "000", "-1", "+1", "-0", " 1", "1 ", "\t1", "1\n", "1 1", "1.0", "1e1", "0x1", "x", "\u{0661}",
    ];
    texts.extend(wrong.iter().flat_map(|value| {
        let contents = [format!("<t0 c0=\"{value}\"/>"), format!("<t0 c0='{value}'></t0>")];
        refused_inside("wrong values", 20, &contents)
    }));
    let right = ["0", "1", "9", "10", "100", "65535", "65536", "2147483648", "4294967293", "4294967294"];
    texts.extend(right.iter().flat_map(|value| {
        let content = format!("<t0 c0=\"{value}\"/>");
        mean_inside("right values", &[(0, R, &[value.parse().unwrap()])], &[&content])
    }));
    let large = [
        "4294967295",
        "4294967296",
        "4294967297",
        "4294967300",
        "9999999999",
        "10000000000",
        "18446744073709551615",
        "18446744073709551616",
        "18446744073709551617",
        "340282366920938463463374607431768211457",
    ];
    texts.extend(refused_inside("values too large", 20, &with_long(&large, |value| format!("<t0 c0=\"{value}\"/>"))));
    let large = ["4", "10", "15", "16", "255", "256", "65536", "4294967295", "4294967296", "18446744073709551616"];
    for row in [|t: &str| format!("<t{t}/>"), |t: &str| format!("<t{t}></t{t}>"), |t: &str| format!("<t0><t{t}/></t0>")]
    {
        texts.extend(refused_inside("table numbers too large", 21, &with_long(&large, row)));
    }
    let large = ["1", "2", "16", "255", "256", "65536", "4294967295", "4294967296", "18446744073709551616"];
    for row in [|c: &str| format!("<t0 c{c}=\"7\"/>"), |c: &str| format!("<t0 c0='1' c{c}='7'></t0>")] {
        texts.extend(refused_inside("column numbers too large", 21, &with_long(&large, row)));
    }
    texts
}

/// What is made of some numerals, and of two that are very long.
fn with_long(numerals: &[&str], made: impl Fn(&str) -> String) -> Vec<String> {
    let long = ["1".to_string() + &"0".repeat(1_000), "9".repeat(100_000)];
    numerals.iter().copied().chain(long.iter().map(String::as_str)).map(made).collect()
}

fn attributes() -> Vec<Text> {
    let mut texts = mean_inside(
        "columns in any order, those absent missing",
        &[(0, R, &[1]), (1, 0, &[2, M]), (1, 0, &[M, 3]), (1, 0, &[2, 3]), (1, 0, &[3, 2]), (0, R, &[M])],
        &[
            "<t0 c0='1'><t1 c0='2'/><t1 c1='3'/><t1 c0='2' c1='3'/><t1 c1='2' c0='3'/></t0><t0/>",
            "<t0 c0='1'><t1 c0='2'/><t1 c1='3'></t1><t1 c1='3' c0='2'/><t1 c0='3' c1='2'/></t0><t0></t0>",
        ],
    );
    let codes: Vec<u32> = (0..15).map(|own| if own == 9 { M } else { 100 + own }).collect();
    let row = |order: &[usize]| {
        let cells: String = order.iter().map(|own| format!(" c{own}='{}'", 100 + own)).collect();
        format!("<t0><t3{cells}/></t0>")
    };
    let up = row(&[0, 1, 2, 3, 4, 5, 6, 7, 8, 10, 11, 12, 13, 14]);
    let down = row(&[14, 13, 12, 11, 10, 8, 7, 6, 5, 4, 3, 2, 1, 0]);
    texts.extend(mean_inside("columns of two digits", &[(0, R, &[M]), (3, 0, &codes)], &[&up, &down]));
    texts.extend(refused_inside(
        "an attribute twice",
        20,
        &[
            "<t0 c0=\"1\" c0=\"1\"/>",
            "<t0 c0=\"1\" c0=\"2\"/>",
            "<t0 c0=\"1\" c0='1'/>",
            "<t0 c0 = '1'\nc0= \"1\"></t0>",
            "<t0><t1 c0='1' c1='1' c0='1'/></t0>",
            "<t0><t1 c1='1' c0='1' c1='1'/></t0>",
            "<t0><t3 c10='1' c1='1' c10='1'/></t0>",
            "<t0 c5='1' c5='1'/>",
            "<t0 c16='1' c16='1'/>",
            "<t0 c4294967296='1' c4294967296='1'/>",
            "<t0 c18446744073709551617='1' c1='1' c18446744073709551617='2'/>",
            "<t9 c0='1' c0='1'/>",
        ],
    ));
    let many: String = (0..300).map(|own| format!(" c{own}='1'")).collect();
    texts.extend(refused_inside("many columns", 21, &[&format!("<t0{many}/>"), &format!("<t0{many}></t0>")]));
    let twice = ["c0", "c150", "c299"].map(|again| format!("<t0{many} {again}='1'/>"));
    texts.extend(refused_inside("one of many columns twice", 20, &twice));
    texts.extend(mean_inside(
        "a column once in each of several tags",
        &[(0, R, &[1]), (0, R, &[1]), (1, 1, &[1, M])],
        &["<t0 c0='1'/><t0 c0='1'><t1 c0='1'/></t0>"],
    ));
    texts.extend(refused_inside(
        "columns that are one only in their last bits",
        21,
        &["<t0 c0='1' c4294967296='1'/>", "<t0 c0='1' c18446744073709551616='1'/>", "<t0 c0='1' c256='1' c65536='1'/>"],
    ));
    texts
}
