//! The smallest catalogues, and sets that no row backs.

use crate::{evidence, list, table, verify, without, Line, Plain, ROW};
use compare::random::{Draft, DraftTable};
use compare::simple::{Refusal, MISSING, NO_PARENT};

#[test]
fn the_smallest_catalogues() {
    // without rows nothing is listed, and nothing must be covered
    for columns in [0, 1] {
        assert_eq!(verify(&table(columns, &[]), &list(&[]), &[]), Ok(0));
        assert_eq!(verify(&table(columns, &[]), &list(&[(0, 0, ROW)]), &[]), Err(Refusal::UnsoundEntry));
    }
    assert_eq!(verify(&table(1, &[]), &list(&[(0, 0, 0)]), &[]), Err(Refusal::UnsoundEntry));
    assert_eq!(verify(&table(1, &[]), &list(&[]), &evidence(&[(0, ROW, 0, 0, 1)])), Err(Refusal::FalseRecord));
    // with one row the empty set is a key, and stands for the column
    let one = table(1, &[&[MISSING]]);
    assert_eq!(verify(&one, &list(&[(0, 0, ROW)]), &[]), Ok(1));
    assert_eq!(verify(&one, &list(&[(0, 0, 0), (0, 0, ROW)]), &[]), Err(Refusal::UnsoundEntry));
    assert_eq!(verify(&one, &list(&[(0, 0, 0)]), &[]), Err(Refusal::UncoveredSet));
    assert_eq!(verify(&one, &list(&[]), &[]), Err(Refusal::UncoveredSet));
    // two rows without columns have no key
    let two = table(0, &[&[], &[]]);
    assert_eq!(verify(&two, &list(&[]), &evidence(&[(0, ROW, 0, 1, 0)])), Ok(0));
    assert_eq!(verify(&two, &list(&[]), &[]), Err(Refusal::UncoveredSet));
    assert_eq!(verify(&two, &list(&[(0, 0, ROW)]), &[]), Err(Refusal::UnsoundEntry));
}

/// Two rows, both cells missing: {0} is a key, and no row backs it. The empty set is backed, and gives neither.
#[test]
fn a_key_that_no_row_backs() {
    let two = table(1, &[&[MISSING], &[MISSING]]);
    let (column, key) = ((0, 0, 0, 0, 1), (0, ROW, 0, 0, 1));
    assert_eq!(verify(&two, &list(&[]), &evidence(&[column, key])), Ok(0));
    assert_eq!(verify(&two, &list(&[(0, 1, ROW)]), &evidence(&[column, key])), Err(Refusal::UnsoundEntry));
    // it is refused as such also where a set is uncovered, and after a record that is not true
    assert_eq!(verify(&two, &list(&[(0, 1, ROW)]), &[]), Err(Refusal::UnsoundEntry));
    assert_eq!(verify(&two, &list(&[(0, 1, ROW)]), &evidence(&[(0, ROW, 1, 0, 1)])), Err(Refusal::FalseRecord));
    assert_eq!(verify(&two, &list(&[]), &evidence(&[column])), Err(Refusal::UncoveredSet));
    assert_eq!(verify(&two, &list(&[]), &evidence(&[key])), Err(Refusal::UncoveredSet));
}

/// Columns 0, 1 and 2, and rows 1 - 5, 1 - 5, - 2 5, - 2 5. A row backs {0, 2} and {1, 2}, none backs {0, 1}. The empty
/// set gives 2. {0, 2} gives neither 1 nor the row, {1, 2} neither 0 nor the row; {0, 1} is a key.
#[test]
fn only_backed_sets_must_be_covered() {
    let (a, b): (&[u32], &[u32]) = (&[1, MISSING, 5], &[MISSING, 2, 5]);
    let four = table(3, &[a, a, b, b]);
    let lines = [(0, 0, 2)];
    let plain = [(0, 0, 6, 2, 3), (0, 1, 5, 0, 1), (0, ROW, 5, 0, 1), (0, ROW, 6, 2, 3)];
    let answer = |lines: &[Line], plain: &[Plain]| verify(&four, &list(lines), &evidence(plain));
    assert_eq!(answer(&lines, &plain), Ok(1));
    // {0, 1} and {0, 1, 2} contain no listed left for the row, and need none; with {0, 1} listed it is unbacked
    assert_eq!(answer(&[lines[0], (0, 3, ROW)], &plain), Err(Refusal::UnsoundEntry));
    for i in 0..plain.len() {
        assert_eq!(answer(&lines, &without(&plain, i)), Err(Refusal::UncoveredSet), "record {i} dropped");
    }
    assert_eq!(answer(&[], &plain), Err(Refusal::UncoveredSet));
}

/// Column 0 is that of the table above, whose one row has its cell missing; under it are three rows with 1, 1 and 2 in
/// column 1. All agree on {0}, since they reach one row, and none backs it: of {0} and {0, 1} records may be, but need
/// not.
#[test]
fn records_need_not_be_backed() {
    let above = DraftTable { columns: 1, parent: NO_PARENT, rows: vec![(NO_PARENT, vec![MISSING])] };
    let below = DraftTable { columns: 1, parent: 0, rows: vec![(0, vec![1]), (0, vec![1]), (0, vec![2])] };
    let file = Draft { tables: vec![above, below] }.file();
    let answer = |plain: &[Plain]| verify(&file, &list(&[(0, 0, ROW)]), &evidence(plain));
    // largest failing sets: {0} for column 1, {0, 1} for the row
    assert_eq!(answer(&[(1, 1, 1, 0, 2), (1, ROW, 3, 0, 1)]), Ok(1));
    // largest backed failing sets: the empty set, {1}
    assert_eq!(answer(&[(1, 1, 0, 0, 2), (1, ROW, 2, 0, 1)]), Ok(1));
    // {1} is backed, and {0} above the empty set alone
    assert_eq!(answer(&[(1, 1, 0, 0, 2), (1, ROW, 1, 0, 1)]), Err(Refusal::UncoveredSet));
    assert_eq!(answer(&[(1, ROW, 3, 0, 1)]), Err(Refusal::UncoveredSet));
}
