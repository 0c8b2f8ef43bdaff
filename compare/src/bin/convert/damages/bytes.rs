//! Bytes of a text dropped, doubled, exchanged, replaced, inserted and cut. After some the text is still converted, to
//! the same file or to another.

use compare::random::Random;

/// Alters a text that is not empty.
pub type Alter = fn(&mut Random, &mut Vec<u8>);

/// Each has a name to be counted by.
pub const BYTES: [(&str, Alter); 6] = [
    ("dropped", dropped),
    ("doubled", doubled),
    ("exchanged", exchanged),
    ("replaced", replaced),
    ("inserted", inserted),
    ("cut", cut),
];

/// Bytes that such texts have, or that look like them.
const LIKELY: &[u8] = b"<>/='\" \t\r\n0123459tcaloguex&!-?:[]\0\x0b\x0c\x80\xff";

fn likely(random: &mut Random) -> u8 {
    let any = random.number() as u8;
    let known = random.pick(LIKELY);
    if random.once_in(20) {
        any
    } else {
        known
    }
}

/// A place in a text: any, or one of markup, of a number or of white space.
fn place(random: &mut Random, text: &[u8]) -> usize {
    let start = random.below(text.len());
    let sought: &[u8] = random.pick(&[b"" as &[u8], b"<>/='\"tc", b"0123456789", b"0123456789", b" \t\r\n"]);
    (start..text.len()).find(|at| sought.contains(&text[*at])).unwrap_or(start)
}

fn dropped(random: &mut Random, text: &mut Vec<u8>) {
    text.remove(place(random, text));
}

fn doubled(random: &mut Random, text: &mut Vec<u8>) {
    let at = place(random, text);
    text.insert(at, text[at]);
}

/// With the next byte, or with any other.
fn exchanged(random: &mut Random, text: &mut Vec<u8>) {
    let at = place(random, text);
    let next = (at + 1) % text.len();
    let other = if random.once_in(4) { place(random, text) } else { next };
    text.swap(at, other);
}

fn replaced(random: &mut Random, text: &mut Vec<u8>) {
    let at = place(random, text);
    text[at] = likely(random);
}

fn inserted(random: &mut Random, text: &mut Vec<u8>) {
    let at = place(random, text) + random.below(2);
    text.insert(at, likely(random));
}

/// Anywhere, or near the end.
fn cut(random: &mut Random, text: &mut Vec<u8>) {
    let any = random.below(text.len());
    let near = text.len() - random.from_to(1, text.len().min(16));
    text.truncate(random.pick(&[any, near]));
}

/// Two or three of these.
pub fn several(random: &mut Random, text: &mut Vec<u8>) {
    for _ in 0..random.from_to(2, 3) {
        if !text.is_empty() {
            random.pick(&BYTES[..5]).1(random, text);
        }
    }
}

/// The texts that come of each byte of a text: cut there, without it, with it twice, with it and the next exchanged,
/// and with each likely byte in its place and before it.
pub fn every(text: &[u8]) -> Vec<(&'static str, Vec<u8>)> {
    let mut texts = Vec::new();
    for at in 0..text.len() {
        let (before, behind) = (&text[..at], &text[at + 1..]);
        texts.push(("cut", before.to_vec()));
        texts.push(("dropped", [before, behind].concat()));
        texts.push(("doubled", [&text[..=at], &text[at..]].concat()));
        let mut exchanged = text.to_vec();
        exchanged.swap(at, (at + 1) % text.len());
        texts.push(("exchanged", exchanged));
        for byte in LIKELY {
            texts.push(("replaced", [before, &[*byte], behind].concat()));
            texts.push(("inserted", [before, &[*byte], &text[at..]].concat()));
        }
    }
    texts
}
