//! Wide catalogues: one table, or a line of up to four, with 12 to 16 visible columns and few rows. The library lists
//! them by all of its ways, with few work words and with many.

use super::cells::{codes, style, Style};
use super::trees::anywhere;
use super::{Draft, DraftTable, Random};
use crate::simple::NO_PARENT;

/// How many columns are visible in the last table: the more, the seldomer, for the time of the simple implementation.
const VISIBLE: [usize; 16] = [12, 12, 12, 12, 13, 13, 13, 13, 14, 14, 14, 15, 15, 15, 16, 16];
/// The most rows of a table.
const ROWS: usize = 5;

pub fn draft(random: &mut Random) -> Draft {
    let visible = random.pick(&VISIBLE);
    let mut draft = Draft::default();
    for (i, columns) in parts(random, visible).into_iter().enumerate() {
        let parent = if i == 0 { NO_PARENT } else { i - 1 };
        let rows = random.from_to(2, ROWS);
        let parent_rows = anywhere(random, draft.rows(parent), rows);
        let styles: Vec<Style> = (0..columns).map(|_| style(random)).collect();
        let rows = parent_rows.into_iter().enumerate().map(|(k, row)| (row, codes(random, &styles, k))).collect();
        draft.tables.push(DraftTable { columns, parent, rows });
    }
    draft
}

/// How many columns each table of the line has.
fn parts(random: &mut Random, visible: usize) -> Vec<usize> {
    let mut cuts: Vec<usize> = (0..random.below(4)).map(|_| random.from_to(1, visible - 1)).collect();
    cuts.extend([0, visible]);
    cuts.sort();
    cuts.windows(2).map(|cut| cut[1] - cut[0]).collect()
}
