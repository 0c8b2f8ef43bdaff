//! The text of elements: with white space in any of the places where it is allowed, either quote and either closing.

use super::Element;
use crate::random::Random;

/// A place where white space is allowed.
#[derive(Clone, Copy, PartialEq, Eq, Debug)]
pub enum Gap {
    /// Before or behind `catalogue`.
    Outside,
    /// Between tags.
    Content,
    /// Before an attribute, where some is needed.
    Attribute,
    /// On either side of `=`.
    Equals,
    /// Before `>` or `/>`.
    Close,
    /// Before the `>` of an end tag.
    End,
}

#[derive(Clone, Copy, PartialEq, Eq)]
enum White {
    /// Only where it is needed.
    Least,
    /// Each row on a line of its own.
    Lines,
    /// Anywhere, now and then.
    Some,
    /// Almost everywhere, and more of it.
    Much,
}

/// How a text is laid out.
pub struct Style {
    white: White,
    quotes: &'static [char],
    /// Whether elements without rows are closed by `/>`, one of these each time.
    short: &'static [bool],
}

impl Style {
    pub fn any(random: &mut Random) -> Style {
        let white = random.pick(&[White::Least, White::Lines, White::Some, White::Some, White::Much]);
        let quotes: &[char] = random.pick(&[&['"'] as &[char], &['\''], &['"', '\'']]);
        let short: &[bool] = random.pick(&[&[true] as &[bool], &[false], &[true, false]]);
        Style { white, quotes, short }
    }

    /// As people lay it out.
    pub fn lines() -> Style {
        Style { white: White::Lines, quotes: &['"'], short: &[true] }
    }
}

/// A text, and the places in it where white space is allowed, each with the white space that stands there.
#[derive(Clone, Debug)]
pub struct Printed {
    pub text: Vec<u8>,
    pub gaps: Vec<(Gap, usize, usize)>,
}

impl Printed {
    pub fn of(random: &mut Random, style: &Style, catalogue: &Element) -> Printed {
        let text = Printed { text: Vec::new(), gaps: Vec::new() };
        let mut printer = Printer { random, style, printed: text };
        printer.gap(Gap::Outside, 0);
        printer.element(catalogue, 0);
        printer.gap(Gap::Outside, 0);
        printer.printed
    }
}

struct Printer<'a> {
    random: &'a mut Random,
    style: &'a Style,
    printed: Printed,
}

impl Printer<'_> {
    fn put(&mut self, text: &str) {
        self.printed.text.extend(text.as_bytes());
    }

    /// An element at a depth: `catalogue` has depth 0.
    fn element(&mut self, element: &Element, depth: usize) {
        self.put(&format!("<{}", element.name));
        element.attributes.iter().for_each(|(name, value)| self.attribute(name, value));
        self.gap(Gap::Close, depth);
        let empty = element.content.is_empty() && element.end.is_none();
        if empty && self.random.pick(self.style.short) {
            return self.put("/>");
        }
        self.put(">");
        for row in &element.content {
            self.gap(Gap::Content, depth + 1);
            self.element(row, depth + 1);
        }
        self.gap(Gap::Content, depth);
        self.put(&format!("</{}", element.end.as_ref().unwrap_or(&element.name)));
        self.gap(Gap::End, depth);
        self.put(">");
    }

    fn attribute(&mut self, name: &str, value: &str) {
        let quote = self.random.pick(self.style.quotes);
        self.gap(Gap::Attribute, 0);
        self.put(name);
        self.gap(Gap::Equals, 0);
        self.put("=");
        self.gap(Gap::Equals, 0);
        self.put(&format!("{quote}{value}{quote}"));
    }

    /// White space by the style.
    fn gap(&mut self, gap: Gap, depth: usize) {
        let start = self.printed.text.len();
        let needed = gap == Gap::Attribute;
        match self.style.white {
            White::Lines if gap == Gap::Content => self.put(&format!("\n{}", "  ".repeat(depth))),
            White::Some if self.random.once_in(6) => self.white(2),
            White::Much if !self.random.once_in(6) => self.white(4),
            _ if needed => self.put(" "),
            _ => {}
        }
        self.printed.gaps.push((gap, start, self.printed.text.len()));
    }

    /// Up to so many characters of white space, at least one.
    fn white(&mut self, most: usize) {
        for _ in 0..self.random.from_to(1, most) {
            let white = self.random.pick(&[" ", " ", "\t", "\r", "\n", "\r\n"]);
            self.put(white);
        }
    }
}
