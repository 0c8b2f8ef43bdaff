//! White space: where it may stand, where it must, where it may not, and what is none; and a text cut anywhere.

use super::{mean, refused, Row, Text, R};

/// In this text `_` stands where white space may, and nowhere else may any; a space must stand where one does.
const MARKED: &str = "_<catalogue_>_<t0_ _c0_=_\"1\"_>_<t1_ _c1_=_'2'_ _c0_=_\"3\"_/>_</t0_>_</catalogue_>_";
const MEANT: [Row; 2] = [(0, R, &[1]), (1, 0, &[3, 2])];

pub fn all() -> Vec<Text> {
    let bare = MARKED.replace('_', "");
    let mut texts = mean("no white space to spare", &MEANT, &[&bare]);
    let (mut allowed, mut at) = (vec![false; bare.len() + 1], 0);
    for character in MARKED.chars() {
        match character {
            '_' => allowed[at] = true,
            _ => at += 1,
        }
    }
    for (at, allowed) in allowed.into_iter().enumerate() {
        let (before, behind) = bare.split_at(at);
        let with = |white: &str| format!("{before}{white}{behind}");
        let some = [" ", "\t", "\r", "\n", " \t\r\n\n "].map(with);
        texts.extend(match allowed {
            true => mean("white space where it may stand", &MEANT, &some),
            false => refused("white space where it may not", 20, &some),
        });
        let other = ["\x0b", "\x0c", "\0", "\u{A0}", "\u{85}", "\u{2028}", "\u{FEFF}"].map(with);
        texts.extend(refused("what is no white space", 20, &other));
    }
    for (at, _) in bare.match_indices(' ') {
        let without = format!("{}{}", &bare[..at], &bare[at + 1..]);
        texts.extend(refused("no white space before an attribute", 20, &[&without]));
    }
    let other = ["\t", "\r", "\n", " \r\n\t "].map(|white| bare.replace(' ', white));
    texts.extend(mean("other white space before an attribute", &MEANT, &other));
    texts.extend((0..bare.len()).flat_map(|len| refused("a text cut", 20, &[&bare[..len]])));
    texts
}
