//! The album: records that are true or not, entries that are sound or not, sets that are covered or not, in order.
//!
//! In the album's table 1 rows 0 and 1, and rows 2 and 3, agree on {0, 2}; rows 0 and 2 agree on {1}; no other two rows
//! agree on a column. In table 0 rows 0 and 1 agree on {0}; no other two do.

use crate::{evidence, list, record, verify, without, Answers, Line, Plain, ROW};
use compare::evidence::{read, records, Failing, Record, RECORD_BYTES};
use compare::random::album;
use compare::simple::{check, Refusal};

/// Its full listing, and evidence for it.
const LINES: [Line; 3] = [(1, 1, 2), (1, 3, ROW), (1, 6, ROW)];
const TRUE: [Plain; 6] =
    [(0, 0, 0, 0, 2), (0, ROW, 1, 0, 1), (1, 1, 5, 0, 1), (1, 2, 2, 0, 2), (1, ROW, 5, 0, 1), (1, ROW, 2, 0, 2)];

fn answer(lines: &[Line], plain: &[Plain]) -> Answers {
    verify(&album().file(), &list(lines), &evidence(plain))
}

/// The album's list with all true records and one more.
fn with(more: Plain) -> Answers {
    answer(&LINES, &[&TRUE[..], &[more]].concat())
}

#[test]
fn a_record_has_eight_bytes() {
    let bytes = evidence(&[(1, 3, 258, 772, 1_286)]);
    assert_eq!(bytes, [1, 3, 2, 1, 4, 3, 6, 5]);
    assert_eq!(bytes.len(), RECORD_BYTES);
    assert_eq!(read(&bytes), (vec![record((1, 3, 258, 772, 1_286))], false));
    assert_eq!(read(&bytes[..7]), (vec![], true));
}

#[test]
fn the_album_is_accepted() {
    assert_eq!(answer(&LINES, &TRUE), Ok(3));
}

#[test]
fn order_repeats_reversed_rows_and_bytes_in_front_are_allowed() {
    let mut turned = TRUE;
    turned.reverse();
    assert_eq!(answer(&LINES, &turned), Ok(3));
    assert_eq!(answer(&LINES, &[TRUE, TRUE].concat()), Ok(3));
    let swapped = TRUE.map(|(target, right, set, first, second)| (target, right, set, second, first));
    assert_eq!(answer(&LINES, &swapped), Ok(3));
    assert_eq!(with((1, 1, 1, 2, 3)), Ok(3)); // one row of table 0, its cell missing
    assert_eq!(with((1, 2, 0, 1, 3)), Ok(3));
    let album = album().file();
    assert_eq!(verify(&album, &[&album[..], &list(&LINES)].concat(), &evidence(&TRUE)), Ok(3));
}

#[test]
fn the_made_evidence_is_that_of_the_album() {
    let mut expected = TRUE.map(record).to_vec();
    let position = |record: &Record| (record.target, record.right, record.set);
    expected.sort_by_key(position);
    for of in [Failing::Backed, Failing::All] {
        let mut made = records(&check(&album().file()).unwrap(), of);
        made.sort_by_key(position);
        assert_eq!(made, expected);
    }
}

#[test]
fn a_broken_record_is_not_true() {
    let (album, list, evidence) = (album().file(), list(&LINES), evidence(&TRUE));
    for len in 1..RECORD_BYTES {
        let less = &evidence[..evidence.len() - len];
        assert_eq!(verify(&album, &list, less), Err(Refusal::FalseRecord), "{len} bytes less");
        let more = [&evidence[..], &evidence[..len]].concat();
        assert_eq!(verify(&album, &list, &more), Err(Refusal::FalseRecord), "{len} bytes more");
    }
}

#[test]
fn records_that_are_not_true() {
    let refused = [
        (2, ROW, 0, 0, 1),   // no table 2
        (255, ROW, 0, 0, 1), // nor 255
        (0, ROW, 2, 0, 1),   // table 0 has no column 1
        (1, ROW, 8, 0, 1),   // table 1 has no column 3
        (1, 0, 0, 0, 2),     // column 0 is not table 1's own
        (1, 3, 0, 0, 2),     // there is no column 3
        (1, 254, 0, 0, 2),   // only 255 is the row
        (1, ROW, 0, 0, 4),   // table 1 has no row 4
        (1, ROW, 0, 4, 0),   // in either place
        (0, ROW, 0, 0, 3),   // table 0 has no row 3
        (1, 1, 2, 0, 2),     // column 1 is in the set, and the rows agree on it
        (1, 1, 2, 0, 1),     // column 1 is in the set, and the rows disagree on it
        (1, 2, 1, 0, 2),     // rows 0 and 2 disagree on column 0
        (0, ROW, 1, 0, 2),   // a missing cell agrees only with itself
        (1, 2, 1, 0, 1),     // rows 0 and 1 agree on column 2
        (1, ROW, 0, 1, 1),   // one row agrees with itself
    ];
    for plain in refused {
        assert_eq!(with(plain), Err(Refusal::FalseRecord), "{plain:?}");
    }
}

#[test]
fn entries_that_are_not_sound() {
    let [a, b, c] = LINES;
    let refused: [&[Line]; 9] = [
        &[a, b, c, (2, 0, ROW)], // no table 2
        &[(0, 2, ROW), a, b, c], // table 0 has no column 1
        &[a, (1, 4, 0), b, c],   // {2} gives 0, but column 0 is not table 1's own
        &[a, b, c, (1, 7, 3)],   // there is no column 3
        &[(1, 0, 2), b, c],      // the empty set doesn't give 2
        &[(0, 1, ROW), a, b, c], // {0} is no key of table 0: rows 0 and 1
        &[a, (1, 3, 2), b, c],   // {0, 1} contains {0}
        &[a, b, c, (1, 7, ROW)], // the whole set contains {0, 1}
        &[(1, 3, 2), b, c],      // {0, 1} is a listed key
    ];
    for lines in refused {
        assert_eq!(answer(lines, &TRUE), Err(Refusal::UnsoundEntry), "{lines:?}");
    }
}

#[test]
fn sets_that_are_uncovered() {
    for i in 0..LINES.len() {
        assert_eq!(answer(&without(&LINES, i), &TRUE), Err(Refusal::UncoveredSet), "entry {i} dropped");
    }
    for i in 0..TRUE.len() {
        assert_eq!(answer(&LINES, &without(&TRUE, i)), Err(Refusal::UncoveredSet), "record {i} dropped");
    }
    assert_eq!(answer(&[], &[]), Err(Refusal::UncoveredSet));
    // {0, 1} gives 2, but nothing covers {0}; nor {0, 1} for the row, since it is not listed as a key
    assert_eq!(answer(&[(1, 3, 2), LINES[2]], &TRUE), Err(Refusal::UncoveredSet));
    // a smaller set is true, but nothing covers {0, 2}
    let [a, b, c, d, _, f] = TRUE;
    assert_eq!(answer(&LINES, &[a, b, c, d, (1, ROW, 4, 0, 1), f]), Err(Refusal::UncoveredSet));
    // a record for column 1 covers nothing for the row, nor one of table 1 for table 0
    assert_eq!(answer(&LINES, &[a, b, c, d, (1, 1, 5, 2, 3), f]), Err(Refusal::UncoveredSet));
    assert_eq!(answer(&LINES, &[a, (1, ROW, 1, 0, 1), c, d, TRUE[4], f]), Err(Refusal::UncoveredSet));
}

#[test]
fn refusals_in_their_order() {
    let album = album().file();
    let (torn, unsound) = (&evidence(&TRUE)[1..], list(&[(1, 0, 2)]));
    assert_eq!(verify(&album[..15], &[], torn), Err(Refusal::Torn));
    assert_eq!(verify(&album[1..], &[], torn), Err(Refusal::NoTail));
    assert_eq!(verify(&album, &[], torn), Err(Refusal::NoList));
    let mut bad = unsound.clone();
    bad[0] = 16;
    assert_eq!(verify(&album, &bad, torn), Err(Refusal::BadEntry));
    assert_eq!(verify(&album, &unsound, torn), Err(Refusal::FalseRecord));
    assert_eq!(verify(&album, &unsound, &[]), Err(Refusal::UnsoundEntry));
    assert_eq!(verify(&album, &list(&[]), &[]), Err(Refusal::UncoveredSet));
}
