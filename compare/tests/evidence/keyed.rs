//! Listed keys: what they cover, which entries they refuse, and that those of other tables do neither.

use crate::{entry, evidence, list, record, table, verify, without, Answers, Line, Plain, ROW};
use compare::evidence::{first_flaw, first_gap};
use compare::random::{Draft, DraftTable};
use compare::simple::{check, Entry, Refusal, NO_PARENT};

/// Columns 0, 1 and 2, and rows 1 5 7, 2 5 7, 3 6 8, 4 9 8. Rows 0 and 1 agree on {1, 2}, rows 2 and 3 on {2}; no other
/// two agree on a column. {0} is the only minimal key, and {1} gives 2.
const KEYED: [&[u32]; 4] = [&[1, 5, 7], &[2, 5, 7], &[3, 6, 8], &[4, 9, 8]];
const KEYED_LINES: [Line; 2] = [(0, 1, ROW), (0, 2, 2)];
const KEYED_TRUE: [Plain; 4] = [(0, 0, 6, 0, 1), (0, 1, 4, 2, 3), (0, 2, 0, 0, 2), (0, ROW, 6, 0, 1)];

fn keyed(lines: &[Line], plain: &[Plain]) -> Answers {
    verify(&table(3, &KEYED), &list(lines), &evidence(plain))
}

/// The key covers the sets that contain it, for every right; without it, or without the other entry, or any record, a
/// set is uncovered.
#[test]
fn a_listed_key_covers() {
    let [key, other] = KEYED_LINES;
    assert_eq!(keyed(&KEYED_LINES, &KEYED_TRUE), Ok(2));
    assert_eq!(keyed(&[key], &KEYED_TRUE), Err(Refusal::UncoveredSet));
    assert_eq!(keyed(&[other], &KEYED_TRUE), Err(Refusal::UncoveredSet));
    for i in 0..KEYED_TRUE.len() {
        assert_eq!(keyed(&KEYED_LINES, &without(&KEYED_TRUE, i)), Err(Refusal::UncoveredSet), "record {i} dropped");
    }
    // both columns that {0} gives stand for no key: {0} is uncovered for the row
    assert_eq!(keyed(&[(0, 1, 1), (0, 1, 2), other], &KEYED_TRUE), Err(Refusal::UncoveredSet));
    assert_eq!(keyed(&[(0, 1, 1), other], &KEYED_TRUE), Err(Refusal::UncoveredSet));
    // a key with a column to spare leaves {0} uncovered
    for spare in [3, 5, 7] {
        assert_eq!(keyed(&[other, (0, spare, ROW)], &KEYED_TRUE), Err(Refusal::UncoveredSet));
    }
}

#[test]
fn column_entries_that_contain_a_listed_key() {
    let [key, other] = KEYED_LINES;
    let refused: [&[Line]; 6] = [
        &[(0, 1, 1), key, other],            // {0} is the key
        &[(0, 1, 2), key, other],            // so it is for 2, which {1} gives too
        &[(0, 1, 1), (0, 1, 2), key, other], // both
        &[key, other, (0, 5, 1)],            // {0, 2} contains the key, and no left listed for 1
        &[key, (0, 5, 1)],                   // the same where a set is uncovered
        &[key, other, (0, 2, ROW)],          // {1} is no key
    ];
    for lines in refused {
        assert_eq!(keyed(lines, &KEYED_TRUE), Err(Refusal::UnsoundEntry), "{lines:?}");
        assert_eq!(keyed(lines, &[]), Err(Refusal::UnsoundEntry), "{lines:?}, no evidence");
        assert_eq!(keyed(lines, &[(0, 0, 7, 0, 1)]), Err(Refusal::FalseRecord), "{lines:?}, a false record");
    }
    // a false key would cover all
    assert_eq!(keyed(&[(0, 0, ROW)], &[]), Err(Refusal::UnsoundEntry));
}

/// Why the simple implementation refuses some entries of this table, and what it finds uncovered.
#[test]
fn grounds_of_a_listed_key() {
    let catalogue = check(&table(3, &KEYED)).unwrap();
    let entries = |lines: &[Line]| lines.iter().map(|line| entry(line.0, line.1, line.2)).collect::<Vec<Entry>>();
    let flaw = |lines: &[Line]| first_flaw(&catalogue, &entries(lines));
    let gap = |lines: &[Line]| first_gap(&catalogue, &entries(lines), &KEYED_TRUE.map(record));
    let [key, other] = KEYED_LINES;
    assert_eq!((flaw(&KEYED_LINES), gap(&KEYED_LINES)), (None, None));
    assert_eq!(flaw(&[(0, 1, 1), key, other]), Some("its left is a listed key"));
    assert_eq!(flaw(&[key, other, (0, 5, 1)]), Some("contains a listed key"));
    assert_eq!(flaw(&[key, other, (0, 3, 2)]), Some("contains another"));
    assert_eq!(flaw(&[key, other, (0, 3, ROW)]), Some("contains another"));
    assert_eq!(flaw(&[key, (0, 0, 1)]), Some("fails"));
    assert_eq!(flaw(&[(0, 1, 1), other]), None);
    assert_eq!(gap(&[other]), Some("a key contains neither a left listed for a column nor a listed key"));
    assert_eq!(gap(&[(0, 1, 1), other]), Some("a key contains neither a left listed for a column nor a listed key"));
    assert_eq!(gap(&[(0, 1, 1), (0, 1, 2), other]), Some("a set that holds contains no listed left"));
    assert_eq!(gap(&[key]), Some("a set that holds contains no listed left"));
    assert_eq!(first_gap(&catalogue, &entries(&KEYED_LINES), &[]), Some("a set that fails lies inside no record"));
}

/// Under one row without columns two tables with those columns and rows. The empty set is a key of table 0, and lies
/// inside every set of the others; {0} is a key of both.
#[test]
fn keys_of_other_targets_stand_for_nothing() {
    let above = DraftTable { columns: 0, parent: NO_PARENT, rows: vec![(NO_PARENT, vec![])] };
    let rows = KEYED.map(|codes| (0, codes.to_vec())).to_vec();
    let below = DraftTable { columns: 3, parent: 0, rows };
    let file = Draft { tables: vec![above, below.clone(), below] }.file();
    let of = |target: u8| KEYED_LINES.map(|(_, left, right)| (target, left, right));
    let records = |target: u8| KEYED_TRUE.map(|(_, right, set, x, y)| (target, right, set, x, y));
    let (lines, plain) = ([&[(0, 0, ROW)], &of(1)[..], &of(2)].concat(), [records(1), records(2)].concat());
    let answer = |lines: &[Line], plain: &[Plain]| verify(&file, &list(lines), &evidence(plain));
    assert_eq!(answer(&lines, &plain), Ok(5));
    for i in 0..lines.len() {
        assert_eq!(answer(&without(&lines, i), &plain), Err(Refusal::UncoveredSet), "entry {i} dropped");
    }
    for i in 0..plain.len() {
        assert_eq!(answer(&lines, &without(&plain, i)), Err(Refusal::UncoveredSet), "record {i} dropped");
    }
    // the columns of one table, and the key of the other: uncovered for the row of the first, and no entry is refused
    assert_eq!(
        answer(&[lines[0], (1, 1, 1), (1, 1, 2), lines[2], lines[3], lines[4]], &plain),
        Err(Refusal::UncoveredSet)
    );
    // with the key of its own table, a column is refused
    assert_eq!(
        answer(&[lines[0], (1, 1, 1), lines[1], lines[2], lines[3], lines[4]], &plain),
        Err(Refusal::UnsoundEntry)
    );
}
