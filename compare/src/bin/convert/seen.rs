//! What occurred: how often each kind of text got each number, and which of them a run must have met.

use std::collections::BTreeMap;

/// How often each kind of text was refused by each number, or converted: 0.
#[derive(Default)]
pub struct Seen {
    counts: BTreeMap<&'static str, BTreeMap<u8, u64>>,
}

/// The numbers that a kind must have got in a run of some length, `OFTEN` times each.
const OFTEN: u64 = 200;
const KINDS: [(&str, &[u8]); 43] = [
    ("whole", &[0]),
    // damages to bytes
    ("dropped", &[0, 20]),
    ("doubled", &[0, 20, 21]),
    ("exchanged", &[0, 20]),
    ("replaced", &[0, 20, 21]),
    ("inserted", &[0, 20, 21]),
    ("cut", &[20]),
    ("several", &[20]),
    // damages to elements that leave the text of the form
    ("an unknown table", &[21]),
    ("an unknown column", &[21]),
    ("a row moved", &[0, 21]),
    ("a row in one of its own table", &[21]),
    ("a root row in a row", &[21]),
    ("rows 16 deep", &[21]),
    ("a value at its bound", &[0]),
    ("a row more", &[0, 21]),
    ("a row less", &[0]),
    // those that do not
    ("rows 17 deep", &[20]),
    ("a value too large", &[20]),
    ("a wrong value", &[20]),
    ("a wrong table numeral", &[20]),
    ("a wrong column numeral", &[20]),
    ("a column twice", &[20]),
    ("an unknown column twice", &[20]),
    ("a wrong row name", &[20]),
    ("a wrong attribute name", &[20]),
    ("a wrong root name", &[20]),
    ("an attribute on the root", &[20]),
    ("a wrong end tag", &[20]),
    ("foreign", &[20]),
    ("foreign outside", &[20]),
    // the output and the shape
    ("output one byte short", &[22]),
    ("output short", &[22]),
    ("shape with rows", &[21]),
    ("another shape", &[0, 21]),
    ("damaged shape", &[1, 2, 3, 4, 5, 7]),
    // grounds of two numbers
    ("20 behind 21", &[20]),
    ("20 before 21", &[20]),
    ("20 and output short", &[20]),
    ("21 and output short", &[21]),
    ("shape with rows and 20", &[20]),
    ("shape with rows and output short", &[21]),
    ("damaged shape and 20", &[1, 2, 3, 4, 5, 7, 20]),
];

/// The same of what is rare, and of texts with many rows, `SOME` times each.
const SOME: u64 = 10;
const RARE: [(&str, &[u8]); 13] = [
    ("dropped", &[21]),
    ("exchanged", &[21]),
    ("cut", &[0]),
    ("several", &[0, 21]),
    ("whole, rows 16 deep", &[0]),
    ("a row moved", &[20]),
    ("damaged shape", &[6]),
    ("damaged shape and 20", &[6]),
    ("4,096 rows", &[0]),
    ("4,096 rows and output one byte short", &[22]),
    ("4,097 rows", &[22]),
    ("4,097 rows and 20", &[20]),
    ("4,097 rows and 21", &[21]),
];

impl Seen {
    pub fn count(&mut self, kind: &'static str, number: u8) {
        *self.counts.entry(kind).or_default().entry(number).or_default() += 1;
    }

    /// What occurred elsewhere as well.
    pub fn add(&mut self, other: &Seen) {
        for (kind, numbers) in &other.counts {
            for (number, more) in numbers {
                *self.counts.entry(kind).or_default().entry(*number).or_default() += more;
            }
        }
    }

    pub fn texts(&self) -> u64 {
        self.counts.values().flat_map(|numbers| numbers.values()).sum()
    }

    fn times(&self, kind: &str, number: u8) -> u64 {
        self.counts.get(kind).and_then(|numbers| numbers.get(&number)).copied().unwrap_or(0)
    }

    /// What came up too seldom.
    pub fn seldom(&self) -> Vec<String> {
        let demand = |least: u64| move |(kind, numbers): &(&'static str, &'static [u8])| (*kind, *numbers, least);
        let demands = KINDS.iter().map(demand(OFTEN)).chain(RARE.iter().map(demand(SOME)));
        let mut seldom = Vec::new();
        for (kind, numbers, least) in demands {
            for number in numbers.iter().filter(|number| self.times(kind, **number) < least) {
                seldom.push(format!("{kind}, {number}: {} times", self.times(kind, *number)));
            }
        }
        seldom
    }

    pub fn print(&self) {
        let kinds: Vec<String> =
            self.counts.iter().map(|(kind, numbers)| format!("{kind} ({})", listed(numbers))).collect();
        println!("kinds     {}", kinds.join("; "));
        let mut totals: BTreeMap<u8, u64> = BTreeMap::new();
        for (number, count) in self.counts.values().flatten() {
            *totals.entry(*number).or_default() += count;
        }
        println!("all       {}", listed(&totals));
    }
}

fn listed(numbers: &BTreeMap<u8, u64>) -> String {
    let shown = |(number, count): (&u8, &u64)| match number {
        0 => format!("converted {count}"),
        _ => format!("{number}: {count}"),
    };
    numbers.iter().map(shown).collect::<Vec<String>>().join(", ")
}
