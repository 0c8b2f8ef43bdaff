//! Drafts at and past a bound, the file's size matching.

use super::{Draft, DraftTable, Random};
use crate::simple::{COLUMNS, NO_PARENT, ROWS, TABLES};

fn plain_rows(count: usize, columns: usize, parent: usize) -> Vec<(usize, Vec<u32>)> {
    (0..count).map(|k| (parent, vec![k as u32 % 3; columns])).collect()
}

/// A draft with one number at a bound or one past it; everything else is in order.
pub fn draft_at_bound(random: &mut Random) -> Draft {
    let past = random.below(2);
    let mut draft = Draft::default();
    let table = |columns, parent, rows| DraftTable { columns, parent, rows };
    match random.below(5) {
        0 => {
            let columns = COLUMNS + past;
            draft.tables.push(table(columns, NO_PARENT, plain_rows(random.below(2), columns, NO_PARENT)));
        }
        1 => draft.tables.push(table(0, NO_PARENT, plain_rows(ROWS + past, 0, NO_PARENT))),
        2 => {
            draft.tables.push(table(0, NO_PARENT, plain_rows(2, 0, NO_PARENT)));
            draft.tables.push(table(0, 0, plain_rows(ROWS + past, 0, 1)));
        }
        3 => {
            for i in 0..TABLES + past {
                let parent = if i == 0 { NO_PARENT } else { i - 1 };
                let parent_row = if i == 0 { NO_PARENT } else { 0 };
                draft.tables.push(table(0, parent, plain_rows(1, 0, parent_row)));
            }
        }
        _ => {
            let upper = random.from_to(1, COLUMNS);
            let lower = COLUMNS + past - upper;
            draft.tables.push(table(upper, NO_PARENT, plain_rows(1, upper, NO_PARENT)));
            draft.tables.push(table(lower, 0, plain_rows(random.below(2), lower, 0)));
        }
    }
    draft
}
