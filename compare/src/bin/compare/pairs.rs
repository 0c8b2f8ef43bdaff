//! Catalogues that are made to break a dependency: by rows far apart, among the last rows only, in several groups.

use crate::catalogues::check;
use crate::questions;
use crate::trial::{expect, same, Outcome, Trial};
use compare::lent::Placed;
use compare::random::{Draft, DraftTable, Random};
use compare::simple::{self, MISSING, NO_PARENT, ROW, ROWS};

/// Where the rows of a group stand: its first row among the lowest and the others among the highest, or all among the
/// last four, or anywhere, with two groups at least.
#[derive(Clone, Copy)]
enum Spread {
    Apart,
    Last,
    Several,
}

const SPREADS: [Spread; 3] = [Spread::Apart, Spread::Last, Spread::Several];

impl Spread {
    /// What the first pair of such a catalogue is like.
    fn kind(self) -> &'static str {
        match self {
            Spread::Apart => "first pair, far apart",
            Spread::Last => "first pair, among the last rows only",
            Spread::Several => "first pair, of several groups",
        }
    }
}

/// One catalogue of a few rows.
pub fn run(trial: &mut Trial) -> Outcome {
    let rows = trial.random.from_to(16, 64);
    let (columns, tables) = (trial.random.from_to(1, 3), trial.random.from_to(1, 3));
    let spread = trial.random.pick(&SPREADS);
    planted(trial, rows, columns, tables, spread)
}

/// As many rows as there may be, with each spread, in one table and in three.
pub fn large(trial: &mut Trial) -> Outcome {
    for spread in SPREADS {
        planted(trial, ROWS, 1, 1, spread)?;
        planted(trial, ROWS, 3, 3, spread)?;
    }
    Ok(())
}

/// The left columns together give the right one but among the rows of a group. They are in the target and in the tables
/// above it, root first, and the right column stands behind them.
fn planted(trial: &mut Trial, rows: usize, columns: usize, tables: usize, spread: Spread) -> Outcome {
    let groups = groups(&mut trial.random, rows, spread);
    let (lefts, rights) = codes(&mut trial.random, &groups, columns);
    let file = in_line(tables, columns, &lefts, &rights);
    trial.file = file.clone();
    let placed = Placed::new(&file, &mut trial.random);
    let catalogue =
        check(trial, &placed)?.map_err(|refusal| format!("the generator made a refused file: {refusal:?}"))?;
    let (target, left, right) = (tables as u32 - 1, (1 << columns) - 1, columns as u32);
    for (left, right) in [(left, right), (left, ROW), (1, right), (0, right), (1 << right, ROW), (2 * left + 1, ROW)] {
        questions::one(trial, &placed, &catalogue, target, left, right)?;
    }
    let breaking = |x: usize, y: usize| simple::breaks(&catalogue, target as usize, left, right, x, y);
    let kinds = kinds(&groups, breaking);
    expect(
        kinds.contains(&spread.kind()),
        || "the generator".into(),
        "its catalogue is not of the kind it is made for",
    )?;
    kinds.into_iter().for_each(|kind| trial.seen.answer(kind));
    same(|| "the catalogue after all calls".into(), placed.file(), &file)
}

/// The group of each row, if it is in one.
fn groups(random: &mut Random, rows: usize, spread: Spread) -> Vec<Option<usize>> {
    let mut groups = vec![None; rows];
    let (count, size) = match spread {
        Spread::Apart => (random.from_to(1, 4), random.from_to(2, 4)),
        Spread::Last => (random.from_to(1, 2), 2),
        Spread::Several => (random.from_to(2, 4), random.from_to(2, 4)),
    };
    for group in 0..count {
        for member in 0..size {
            let part = match spread {
                Spread::Apart if member == 0 => 0..rows / 4,
                Spread::Apart => rows - rows / 4..rows,
                Spread::Last => rows - 4..rows,
                Spread::Several => 0..rows,
            };
            let free: Vec<usize> = part.filter(|row| groups[*row].is_none()).collect();
            if !free.is_empty() {
                groups[random.pick(&free)] = Some(group);
            }
        }
    }
    groups
}

/// The codes of the left columns and of the right one, for each row. The rows of a group agree on all left columns, no
/// other two rows do; the last row of a group has another right than those before it, which may differ too.
fn codes(random: &mut Random, groups: &[Option<usize>], columns: usize) -> (Vec<Vec<u32>>, Vec<u32>) {
    let mut lefts = Vec::new();
    let mut rights = Vec::new();
    for (row, group) in groups.iter().enumerate() {
        let last = group.is_some() && !groups[row + 1..].contains(group);
        let own = random.below(columns);
        let mut code = |column| match group {
            Some(group) => *group as u32,
            None if column != own => random.below(4) as u32,
            None if random.once_in(8) => MISSING,
            None => 1_000 + row as u32,
        };
        lefts.push((0..columns).map(&mut code).collect());
        rights.push(match group {
            Some(_) if last => random.pick(&[9, MISSING]),
            Some(_) => random.pick(&[5, 5, 5, 6]),
            None => 5,
        });
    }
    (lefts, rights)
}

/// So many tables in a line, row k under row k, with the left columns spread over them and the right one in the last.
fn in_line(tables: usize, columns: usize, lefts: &[Vec<u32>], rights: &[u32]) -> Vec<u8> {
    let mut draft = Draft::default();
    for table in 0..tables {
        let is_own = |column: &usize| column * tables / columns == table;
        let last = table + 1 == tables;
        let row = |(k, (left, right)): (usize, (&Vec<u32>, &u32))| {
            let own = (0..columns).filter(is_own).map(|column| left[column]);
            (if table == 0 { NO_PARENT } else { k }, own.chain(last.then_some(*right)).collect())
        };
        let rows = lefts.iter().zip(rights).enumerate().map(row).collect();
        let parent = if table == 0 { NO_PARENT } else { table - 1 };
        draft.tables.push(DraftTable { columns: (0..columns).filter(is_own).count() + last as usize, parent, rows });
    }
    draft.file()
}

/// What the first of the pairs that the left columns and the right one have is like.
fn kinds(groups: &[Option<usize>], breaking: impl Fn(usize, usize) -> bool) -> Vec<&'static str> {
    let rows = groups.len();
    let below = |second: usize| (0..second).map(move |first| (first, second));
    let grouped = (0..rows).filter(|row| groups[*row].is_some());
    let mut pairs: Vec<(usize, usize)> = grouped.flat_map(below).filter(|(x, y)| breaking(*x, *y)).collect();
    pairs.sort();
    let (first, second) = pairs[0];
    let mut kinds = Vec::new();
    if second - first > rows / 2 {
        kinds.push(Spread::Apart.kind());
    }
    if first >= rows - 4 {
        kinds.push(Spread::Last.kind());
    }
    if pairs.iter().any(|(row, _)| groups[*row] != groups[first]) {
        kinds.push(Spread::Several.kind());
    }
    if pairs.iter().any(|(_, row)| *row < second) {
        kinds.push("first pair, not of the lowest second row");
    }
    if pairs.iter().any(|(row, other)| *row == first && *other > second) {
        kinds.push("first pair, with several second rows");
    }
    kinds
}
