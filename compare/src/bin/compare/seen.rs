//! What occurred: how often each refusal, answer and kind came up, and which of them a run must have met.

use compare::simple::Refusal;
use std::collections::BTreeMap;

/// The number of the last refusal.
const LAST: usize = Refusal::UncoveredSet as usize;

/// How often each refusal and each answer occurred, and each kind of entry, by what backs it and by what is a key. Also
/// each answer of the check by evidence: the refusal's number, or 0 if the list is accepted, with the first ground that
/// was met. Of the same checks, how many refused the catalogue, how many had files with grounds of two kinds, and how
/// many turned on a listed key alone.
#[derive(Default)]
pub struct Seen {
    /// The replies of the library that were compared.
    pub comparisons: u64,
    refusals: [u64; LAST + 1],
    answers: BTreeMap<&'static str, u64>,
    kinds: BTreeMap<&'static str, u64>,
    verified: BTreeMap<(u8, &'static str), u64>,
    also: BTreeMap<&'static str, u64>,
}

/// The answers that a run of some length must have met.
const ANSWERS: [&str; 16] = [
    "check, sound",
    "ask, breaks",
    "ask, holds",
    "pair",
    "pair, none",
    "first pair, far apart",
    "first pair, among the last rows only",
    "first pair, of several groups",
    "first pair, not of the lowest second row",
    "first pair, with several second rows",
    "list",
    "pack",
    "open",
    "read",
    "read, end",
    "read, no record lent",
];

/// The kinds of entries and of targets that a run of some length must have met in `SOME` catalogues each.
const KINDS: [&str; 16] = [
    NO_CELL,
    APART,
    ABOVE,
    NOT_REACHED,
    HARMLESS,
    NO_ROWS,
    NO_ROWS_UNDER_ROWS,
    SEVERAL,
    OF_EMPTY,
    REACHES_UP,
    ALL_ABOVE,
    ANOTHER_LEFT,
    INSIDE_KEY,
    KEY_ELSEWHERE,
    UNBACKED_KEY,
    NO_OWN_COLUMNS,
];

/// Entries listed or withheld since no row backs them, and targets without rows.
pub const NO_CELL: &str = "withheld, a column without cells";
pub const APART: &str = "withheld, each of its columns backed";
pub const ABOVE: &str = "withheld, its own columns backed";
pub const NOT_REACHED: &str = "withheld, backed in a table above";
pub const HARMLESS: &str = "listed, its cell missing in a row not reached";
pub const NO_ROWS: &str = "no rows";
pub const NO_ROWS_UNDER_ROWS: &str = "no rows under rows";

/// Entries listed or dropped since their left side is a key.
pub const SEVERAL: &str = "dropped, several columns for one key";
pub const OF_EMPTY: &str = "dropped, the empty set a key";
pub const REACHES_UP: &str = "dropped, its key of own columns and others";
pub const ALL_ABOVE: &str = "dropped, its key of columns above";
pub const ANOTHER_LEFT: &str = "dropped, its column listed with another left";
pub const INSIDE_KEY: &str = "listed, its left inside a listed key";
pub const KEY_ELSEWHERE: &str = "listed, its left a listed key of another table";
pub const UNBACKED_KEY: &str = "withheld, a key and a column that it gives";
pub const NO_OWN_COLUMNS: &str = "listed, a key of no own columns";
const SOME: u64 = 5;

/// The answers of the check by evidence that a run of some length must have met `OFTEN` times each.
const VERIFIED: [(u8, &str); 23] = [
    (0, ""),
    (0, UNBACKED_OPEN),
    (14, ""),
    (15, ""),
    (17, "broken"),
    (17, "8"),
    (17, "9"),
    (17, "10"),
    (17, "no such row"),
    (17, "right in the set"),
    (17, "rows disagree on the set"),
    (17, "rows agree on the right"),
    (18, "8"),
    (18, "9"),
    (18, "10"),
    (18, "fails"),
    (18, "contains another"),
    (18, "unbacked"),
    (18, "its left is a listed key"),
    (18, "contains a listed key"),
    (19, "a set that holds contains no listed left"),
    (19, "a key contains neither a left listed for a column nor a listed key"),
    (19, "a set that fails lies inside no record"),
];

/// The ground of an accepted list with an unbacked set that is uncovered.
pub const UNBACKED_OPEN: &str = "an unbacked set uncovered";

/// The same of its refusals of the catalogue, all together, and of files with grounds of two kinds at once and none of
/// an earlier kind; and of lists that a listed key decides on.
const ALSO: [&str; 8] = [
    REFUSED_CATALOGUE,
    LIST_AND_RECORD,
    RECORD_AND_ENTRY,
    ENTRY_AND_SET,
    KEY_ALONE,
    COLUMNS_FOR_KEY,
    OTHER_KEY_COVERS,
    OTHER_KEY_INSIDE,
];
pub const REFUSED_CATALOGUE: &str = "1 to 7";
pub const LIST_AND_RECORD: &str = "14 or 15 with 17";
pub const RECORD_AND_ENTRY: &str = "17 with 18";
pub const ENTRY_AND_SET: &str = "18 with 19";
pub const KEY_ALONE: &str = "18 for a listed key alone";
pub const COLUMNS_FOR_KEY: &str = "19 for a key whose columns are listed";
pub const OTHER_KEY_COVERS: &str = "19, covered if keys stood for other tables";
pub const OTHER_KEY_INSIDE: &str = "accepted, a column's left contains a key of another table";
const OFTEN: u64 = 200;

impl Seen {
    pub fn refusal(&mut self, refusal: Refusal) {
        self.refusals[refusal as usize] += 1;
    }

    pub fn answer(&mut self, name: &'static str) {
        *self.answers.entry(name).or_default() += 1;
    }

    pub fn kind(&mut self, name: &'static str) {
        *self.kinds.entry(name).or_default() += 1;
    }

    pub fn verified(&mut self, number: u8, ground: &'static str) {
        *self.verified.entry((number, ground)).or_default() += 1;
    }

    pub fn also(&mut self, name: &'static str) {
        *self.also.entry(name).or_default() += 1;
    }

    /// What occurred elsewhere as well.
    pub fn add(&mut self, other: &Seen) {
        self.comparisons += other.comparisons;
        self.refusals.iter_mut().zip(other.refusals).for_each(|(count, more)| *count += more);
        other.answers.iter().for_each(|(name, more)| *self.answers.entry(name).or_default() += more);
        other.kinds.iter().for_each(|(name, more)| *self.kinds.entry(name).or_default() += more);
        other.verified.iter().for_each(|(answer, more)| *self.verified.entry(*answer).or_default() += more);
        other.also.iter().for_each(|(name, more)| *self.also.entry(name).or_default() += more);
    }

    pub fn all(&self) -> bool {
        self.refusals[1..].iter().all(|count| *count > 0)
            && ANSWERS.iter().all(|name| self.answers.contains_key(name))
            && KINDS.iter().all(|name| self.kinds.get(name).is_some_and(|count| *count >= SOME))
            && VERIFIED.iter().all(|answer| self.verified.get(answer).is_some_and(|count| *count >= OFTEN))
            && ALSO.iter().all(|name| self.also.get(name).is_some_and(|count| *count >= OFTEN))
    }

    pub fn print(&self) {
        let refusals: Vec<String> = (1..=LAST).map(|number| format!("{number}: {}", self.refusals[number])).collect();
        println!("refusals  {}", refusals.join(", "));
        let answers: Vec<String> = self.answers.iter().map(|(name, count)| format!("{name}: {count}")).collect();
        println!("answers   {}", answers.join("; "));
        let kinds: Vec<String> = self.kinds.iter().map(|(name, count)| format!("{name}: {count}")).collect();
        println!("kinds     {}", kinds.join("; "));
        let verified: Vec<String> = self.verified.iter().map(verified_line).collect();
        println!("verify    {} checks; {}", self.verified.values().sum::<u64>(), verified.join("; "));
        let also: Vec<String> = self.also.iter().map(|(name, count)| format!("{name}: {count}")).collect();
        println!("of these  {}", also.join("; "));
    }
}

fn verified_line(((number, ground), count): (&(u8, &'static str), &u64)) -> String {
    match (number, *ground) {
        (0, "") => format!("accepted: {count}"),
        (0, ground) => format!("accepted, {ground}: {count}"),
        (number, "") => format!("{number}: {count}"),
        (number, ground) => format!("{number}, {ground}: {count}"),
    }
}
