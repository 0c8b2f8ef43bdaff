//! Tags and names, right and wrong, and what else XML has.

use super::{mean, mean_inside, plain, refused, refused_inside, text, Text, M, R};

pub fn all() -> Vec<Text> {
    [tags(), names(), foreign()].into_iter().flatten().collect()
}

fn tags() -> Vec<Text> {
    let mut texts = mean("no rows", &[], &["<catalogue/>", "<catalogue></catalogue>", "<catalogue >\n</catalogue >"]);
    texts.extend(mean_inside(
        "either closing",
        &[(0, R, &[M]), (1, 0, &[M, M]), (1, 0, &[M, M])],
        &["<t0><t1/><t1></t1></t0>", "<t0><t1></t1><t1/></t0>", "<t0><t1 /><t1 > </t1 ></t0 >"],
    ));
    texts.extend(mean_inside(
        "either quote",
        &[(0, R, &[M]), (1, 0, &[5, 6])],
        &[
            "<t0><t1 c0=\"5\" c1=\"6\"/></t0>",
            "<t0><t1 c0='5' c1='6'/></t0>",
            "<t0><t1 c0='5' c1=\"6\"/></t0>",
            "<t0><t1 c1='6' c0=\"5\"/></t0>",
        ],
    ));
    texts.extend(refused_inside(
        "quotes that do not match",
        20,
        &[
            "<t0 c0=\"1'/>",
            "<t0 c0='1\"/>",
            "<t0 c0=1/>",
            "<t0 c0=\"1/>",
            "<t0 c0=1\"/>",
            "<t0 c0=''1'/>",
            "<t0 c0=`1`/>",
        ],
    ));
    texts.extend(refused_inside(
        "end tags that do not match",
        20,
        &["<t0>", "</t0>", "<t0></t1>", "<t0></t>", "<t0></t00>", "<t0></T0>", "<t0><t1></t0></t1>", "<t0/></t0>"],
    ));
    texts.extend(refused_inside(
        "end tags with more, or without",
        20,
        &["<t0></t0 c0=\"1\">", "<t0></t0/>", "<t0></>", "<t0><//t0>", "<t0></t0 0>", "<t0></catalogue>", "<t0></t0"],
    ));
    texts.extend(refused_inside(
        "broken tags",
        20,
        &[
            "<", ">", "<>", "</>", "<t0", "<t0/", "<t0//>", "<t0/ >", "<t0 / >", "<<t0/>", "<t0>>", "<t0/>>", "t0/>",
            "/",
        ],
    ));
    texts.extend(refused_inside(
        "broken attributes",
        20,
        &[
            "<t0 c0/>",
            "<t0 c0=/>",
            "<t0 =\"1\"/>",
            "<t0 \"1\"/>",
            "<t0 c0==\"1\"/>",
            "<t0 c0=\"1\"\"/>",
            "<t0 c0 \"1\"/>",
        ],
    ));
    texts.extend(refused(
        "more or less than one element",
        20,
        &[
            "",
            " ",
            "\n\n",
            "<catalogue/><catalogue/>",
            "<catalogue></catalogue><catalogue/>",
            "<catalogue/></catalogue>",
            "<catalogue>",
            "</catalogue>",
            "<catalogue><catalogue/></catalogue>",
            "<catalogue/><t0/>",
            "<t0/>",
            "<t0/><catalogue/>",
        ],
    ));
    texts
}

fn names() -> Vec<Text> {
    let mut texts = refused(
        "other names than catalogue",
        20,
        &[
            "<catalog/>",
            "<catalogue1/>",
            "<Catalogue/>",
            "<CATALOGUE/>",
            "<c/>",
            "<x:catalogue/>",
            "<catalogue:x/>",
            "<catalogue></Catalogue>",
            "<catalogue></catalog>",
            "<catalogue></catalogue1>",
        ],
    );
    texts.extend(refused_inside(
        "other names than t and a number",
        20,
        &["<T0/>", "<t/>", "<c0/>", "<row/>", "<0/>", "<tt0/>", "<t0t/>", "<t0.0/>", "<x:t0/>", "<t0:x/>", "<t_0/>"],
    ));
    texts.extend(refused_inside(
        "other names than c and a number",
        20,
        &["<t0 C0=\"1\"/>", "<t0 c=\"1\"/>", "<t0 t0=\"1\"/>", "<t0 x=\"1\"/>", "<t0 cc0=\"1\"/>", "<t0 c0c=\"1\"/>"],
    ));
    texts.extend(refused_inside(
        "namespaces",
        20,
        &["<t0 xmlns=\"1\"/>", "<t0 xmlns:x=\"1\"/>", "<t0 x:c0=\"1\"/>", "<t0 xml:c0=\"1\"/>"],
    ));
    texts.extend(refused(
        "attributes on catalogue",
        20,
        &[
            "<catalogue c0=\"1\"/>",
            "<catalogue xmlns=\"x\"/>",
            "<catalogue c0=\"1\"></catalogue>",
            "<catalogue t0='0' />",
        ],
    ));
    texts
}

fn foreign() -> Vec<Text> {
    let pieces: [&[u8]; 22] = [
        b"x",
        b"0",
        b"<!-- a comment -->",
        b"<!---->",
        b"<![CDATA[]]>",
        b"<![CDATA[ ]]>",
        b"<?xml version=\"1.0\"?>",
        b"<?xml version='1.0' encoding='UTF-8'?>",
        b"<?x?>",
        b"<!DOCTYPE catalogue>",
        b"<!DOCTYPE catalogue [<!ENTITY e '1'>]>",
        b"<!ELEMENT catalogue ANY>",
        b"&#32;",
        b"&#x20;",
        b"&amp;",
        b"&e;",
        b"\xEF\xBB\xBF",
        b"\xFE\xFF",
        b"\xFF\xFE",
        b"\0",
        b"\xC3\xA9",
        b"\xE9",
    ];
    let mut texts = Vec::new();
    for piece in pieces {
        let around: [[&[u8]; 2]; 5] = [
            [b"", b"<catalogue><t0/></catalogue>"],
            [b"<catalogue>", b"<t0/></catalogue>"],
            [b"<catalogue><t0>", b"</t0></catalogue>"],
            [b"<catalogue><t0/>", b"</catalogue>"],
            [b"<catalogue><t0/></catalogue>", b""],
        ];
        for [before, behind] in around {
            let whole = [before, piece, behind].concat();
            texts.push(text("text, comments, prologs and the like", &plain(), whole, Err(20)));
        }
    }
    texts.extend(refused_inside(
        "entities for digits",
        20,
        &["<t0 c0=\"&#49;\"/>", "<t0 c0=\"&#x31;\"/>", "<t0 c0=\"1&#32;\"/>", "<t0 c0=\"&one;\"/>"],
    ));
    let wide: Vec<u8> = "<catalogue/>".encode_utf16().flat_map(u16::to_le_bytes).collect();
    texts.push(text("16 bits for a character", &plain(), wide, Err(20)));
    texts
}
