//! The kinds of random catalogues: all are sound, and each is what it is made for.

use compare::random::{Draft, DraftTable, Kind, Random, KINDS};
use compare::simple::{self, Catalogue, Entry, MISSING, ROW};
use compare::table;

const SEEDS: u64 = 200;

fn drafts(name: &str) -> Vec<Draft> {
    let kind = Kind::named(name).expect("a kind");
    (1..=SEEDS).map(|seed| (kind.draft)(&mut Random::new(seed))).collect()
}

fn catalogues(name: &str) -> Vec<Catalogue> {
    drafts(name).iter().map(|draft| simple::check(&draft.file()).expect("a sound catalogue")).collect()
}

/// Whether at least so many in a hundred are such.
fn often<T>(items: &[T], percent: usize, is_such: impl Fn(&T) -> bool) -> bool {
    100 * items.iter().filter(|item| is_such(item)).count() >= percent * items.len()
}

/// How often each value of a column occurs, the most frequent first.
fn frequencies(table: &DraftTable, column: usize) -> Vec<usize> {
    let codes: Vec<u32> = table.rows.iter().map(|(_, codes)| codes[column]).collect();
    let mut values = codes.clone();
    values.sort();
    values.dedup();
    let mut counts: Vec<usize> =
        values.iter().map(|value| codes.iter().filter(|code| *code == value).count()).collect();
    counts.sort_by(|a, b| b.cmp(a));
    counts
}

/// Whether some table has a column whose values occur so often.
fn has_column(draft: &Draft, is_such: impl Fn(&[usize], usize) -> bool) -> bool {
    let is_such = |table: &DraftTable| (0..table.columns).any(|k| is_such(&frequencies(table, k), table.rows.len()));
    draft.tables.iter().any(is_such)
}

#[test]
fn all_are_sound() {
    for kind in KINDS {
        assert_eq!(catalogues(kind.name).len(), SEEDS as usize);
    }
    assert!(KINDS[0].is_mixed() && Kind::named("mixed").is_some_and(|kind| kind.is_mixed()));
    assert!(Kind::named("any").is_none());
}

#[test]
fn skewed_columns_have_one_value_in_most_rows_or_tell_apart_all_but_two() {
    let skewed = drafts("skewed");
    let one_value = |counts: &[usize], rows: usize| counts.len() > 1 && 4 * counts[0] >= 3 * rows;
    let near_key = |counts: &[usize], rows: usize| counts.len() + 1 == rows && counts[0] == 2;
    assert!(often(&skewed, 50, |draft| has_column(draft, one_value)));
    assert!(often(&skewed, 25, |draft| has_column(draft, near_key)));
}

/// How many tables above a table another one stands.
fn distance(catalogue: &Catalogue, target: usize, above: usize) -> usize {
    if target == above {
        0
    } else {
        1 + distance(catalogue, catalogue.tables[target].parent, above)
    }
}

/// Whether a column is listed with a left side that has a column four tables up, or more.
fn hangs_far_up(catalogue: &Catalogue) -> bool {
    let far_up = |entry: &Entry| {
        let (target, left) = (entry.target as usize, entry.left as u32);
        let members = catalogue.tables[target].visible.iter().enumerate().filter(|(k, _)| left & 1 << k != 0);
        entry.right as u32 != ROW
            && members.into_iter().any(|(_, column)| distance(catalogue, target, column.table) >= 4)
    };
    table::listing(catalogue).iter().any(far_up)
}

#[test]
fn rights_hang_far_up_in_deep_ones() {
    let deep = catalogues("deep");
    assert!(deep.iter().all(|catalogue| (0..catalogue.tables.len()).any(|i| distance(catalogue, i, 0) >= 7)));
    assert!(often(&deep, 50, hangs_far_up));
    let parents = |catalogue: &Catalogue, i: usize| catalogue.tables[catalogue.tables[i].parent].rows.len();
    let fans = |catalogue: &Catalogue, out: bool| {
        (1..catalogue.tables.len()).any(|i| match catalogue.tables[i].rows.len() {
            rows if out => rows >= 2 * parents(catalogue, i),
            rows => 2 * rows <= parents(catalogue, i),
        })
    };
    assert!(
        often(&deep, 50, |catalogue| fans(catalogue, true)) && often(&deep, 50, |catalogue| fans(catalogue, false))
    );
}

#[test]
fn few_rows_and_columns_anywhere() {
    let few = catalogues("few");
    let any = |of: fn(&Catalogue, usize) -> bool| {
        move |catalogue: &Catalogue| (0..catalogue.tables.len()).any(|i| of(catalogue, i))
    };
    fn rows(catalogue: &Catalogue, i: usize) -> usize {
        catalogue.tables[i].rows.len()
    }
    fn rows_above(catalogue: &Catalogue, i: usize) -> Option<usize> {
        (i > 0).then(|| rows(catalogue, catalogue.tables[i].parent))
    }
    assert!(often(&few, 30, any(|catalogue, i| rows(catalogue, i) == 0 && rows_above(catalogue, i) != Some(0))));
    assert!(often(&few, 30, any(|catalogue, i| rows_above(catalogue, i) == Some(0) && catalogue.tables[i].own > 0)));
    assert!(often(&few, 50, any(|catalogue, i| rows(catalogue, i) == 1 && catalogue.tables[i].own > 0)));
    assert!(often(&few, 50, any(|catalogue, i| rows(catalogue, i) > 0 && catalogue.tables[i].own == 0)));
}

#[test]
fn half_of_the_cells_are_missing() {
    let missing = drafts("missing");
    let half = |table: &DraftTable| {
        let cells = table.columns * table.rows.len();
        2 * table.rows.iter().flat_map(|(_, codes)| codes).filter(|code| **code == MISSING).count() >= cells
    };
    assert!(missing.iter().all(|draft| draft.tables.iter().all(half)));
    assert!(often(&catalogues("missing"), 50, |catalogue| !table::withheld(catalogue).is_empty()));
    assert!(often(&catalogues("missing"), 50, |catalogue| !table::listing(catalogue).is_empty()));
}

#[test]
fn wide_ones_have_twelve_to_sixteen_columns() {
    let widest = |catalogue: &Catalogue| catalogue.tables.iter().map(|table| table.visible.len()).max().unwrap();
    let wide: Vec<usize> = catalogues("wide").iter().map(widest).collect();
    assert!(wide.iter().all(|columns| (12..=16).contains(columns)));
    assert!((12..=16).all(|columns| wide.contains(&columns)));
}
