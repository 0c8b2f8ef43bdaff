//! What else may stand in XML, or in no XML, put where white space may stand: all of it is refused there.

use compare::random::xml::{Gap, Printed};
use compare::random::Random;

/// No digits are among these: behind a name they could make another one. Nor is white space.
const FOREIGN: [&[u8]; 32] = [
    b"<!-- a comment -->",
    b"<!---->",
    b"<!-- <t0/> -->",
    b"<![CDATA[]]>",
    b"<![CDATA[ ]]>",
    b"<?xml version=\"1.0\"?>",
    b"<?xml version='1.0' encoding='UTF-8'?>",
    b"<?target?>",
    b"<!DOCTYPE catalogue>",
    b"<!DOCTYPE catalogue [<!ENTITY one '1'>]>",
    b"<!ELEMENT catalogue ANY>",
    b"&#32;",
    b"&#x20;",
    b"&amp;",
    b"&one;",
    b"text",
    b"x",
    b"<x/>",
    b"<x>",
    b"<",
    b">",
    b"/",
    b"\"",
    b"'",
    b"=",
    b"\xEF\xBB\xBF",
    b"\xC2\xA0",
    b"\xE3\x80\x80",
    b"\x0B",
    b"\x0C",
    b"\0",
    b"\xFF",
];

/// A piece at any place where white space may stand, before it, within or behind.
pub fn put(random: &mut Random, printed: &Printed) -> Vec<u8> {
    let (_, start, end) = printed.gaps[random.below(printed.gaps.len())];
    with(&printed.text, random.from_to(start, end), random.pick(&FOREIGN))
}

/// The same outside of `catalogue`; also a second one.
pub fn put_outside(random: &mut Random, printed: &Printed) -> Vec<u8> {
    let outside: Vec<_> = printed.gaps.iter().filter(|(gap, _, _)| *gap == Gap::Outside).collect();
    let (_, start, end) = *random.pick(&outside);
    let at = random.from_to(start, end);
    match random.below(6) {
        0 => with(&printed.text, at, b"<catalogue/>"),
        1 => with(&printed.text, at, b"<t0/>"),
        2 => with(&printed.text, at, &printed.text),
        3 => with(&printed.text, at, b"</catalogue>"),
        _ => with(&printed.text, at, random.pick(&FOREIGN)),
    }
}

fn with(text: &[u8], at: usize, piece: &[u8]) -> Vec<u8> {
    [&text[..at], piece, &text[at..]].concat()
}
