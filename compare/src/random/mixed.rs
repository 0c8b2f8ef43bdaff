//! Catalogues of many shapes, within all bounds: the mix that is made if no kind is named.

use super::cells::{codes, gaps, leave_out, style, Gaps, Style};
use super::trees::Tree;
use super::{Draft, DraftTable, Random};
use crate::simple::{COLUMNS, NO_PARENT, TABLES};

/// What a draft is made by: the number of tables, its tree, and the most columns, visible columns and rows; and how
/// many in eight of its tables have gaps.
struct Shape {
    tables: usize,
    tree: Tree,
    columns: usize,
    visible: usize,
    rows: usize,
    gaps: usize,
}

fn shape(random: &mut Random) -> Shape {
    let tree = Tree::any(random);
    let few = random.from_to(1, 4);
    let many = random.from_to(2, TABLES);
    let most = if random.once_in(3) { TABLES } else { many };
    let wide_rows = random.pick(&[3, 3, 8]);
    let wide = random.pick(&[14, 15]);
    let gaps = 3;
    match random.below(1_000) {
        0..=99 => Shape { tables: few, tree: Tree::Line, columns: 4, visible: 6, rows: 12, gaps: 8 },
        100..=269 => Shape { tables: few, tree, columns: 3, visible: 5, rows: 6, gaps },
        270..=419 => Shape { tables: most, tree: Tree::Line, columns: 1, visible: 6, rows: 5, gaps },
        420..=559 => Shape { tables: most, tree: Tree::Star, columns: 3, visible: 4, rows: 5, gaps },
        560..=699 => Shape { tables: most, tree: Tree::Any, columns: 2, visible: 5, rows: 5, gaps },
        700..=799 => Shape { tables: few.min(2), tree, columns: 4, visible: 4, rows: 40, gaps },
        800..=849 => Shape { tables: few, tree, columns: 7, visible: 7, rows: 14, gaps },
        850..=879 => Shape { tables: most, tree, columns: 0, visible: 0, rows: 9, gaps },
        880..=969 => Shape { tables: few, tree: Tree::Line, columns: 8, visible: 8, rows: 7, gaps },
        970..=989 => Shape { tables: few, tree, columns: 11, visible: 11, rows: 6, gaps },
        990..=994 => Shape { tables: few, tree: Tree::Line, columns: wide, visible: wide, rows: wide_rows, gaps },
        _ => Shape { tables: few, tree: Tree::Line, columns: COLUMNS, visible: COLUMNS, rows: wide_rows, gaps },
    }
}

/// A random draft within all bounds.
pub fn draft(random: &mut Random) -> Draft {
    let shape = shape(random);
    draft_of(random, &shape)
}

/// A random draft of a few tables with at most `visible` visible columns and `rows` rows.
pub fn small_draft(random: &mut Random, visible: usize, rows: usize) -> Draft {
    let tree = Tree::any(random);
    let tables = random.from_to(1, 4);
    draft_of(random, &Shape { tables, tree, columns: visible, visible, rows, gaps: 3 })
}

fn draft_of(random: &mut Random, shape: &Shape) -> Draft {
    let mut draft = Draft::default();
    for i in 0..shape.tables {
        let parent = shape.tree.parent(random, i);
        let room = shape.columns.min(shape.visible - draft.visible(parent));
        let fill = i + 1 == shape.tables && random.once_in(2);
        let columns = if fill { room } else { random.from_to(0, room) };
        let gaps = if random.below(8) < shape.gaps { gaps(random, columns) } else { Gaps::No };
        let rows = rows(random, shape.rows, draft.rows(parent), columns, gaps);
        draft.tables.push(DraftTable { columns, parent, rows });
    }
    draft
}

/// Rows of a table under a parent with so many rows; a table under an empty parent is empty, and some others are.
fn rows(
    random: &mut Random,
    most: usize,
    parents: Option<usize>,
    columns: usize,
    gaps: Gaps,
) -> Vec<(usize, Vec<u32>)> {
    let empty = parents == Some(0) || random.once_in(40);
    let low = if random.once_in(10) { 0 } else { most.min(2) };
    let count = if empty { 0 } else { random.from_to(low, most) };
    let styles: Vec<Style> = (0..columns).map(|_| style(random)).collect();
    let under = random.below(4);
    let repeats = random.pick(&[2, 6, 1_000]);
    let mut rows: Vec<(usize, Vec<u32>)> = Vec::new();
    for k in 0..count {
        if k > 0 && random.once_in(repeats) {
            let row = rows[random.below(k)].clone();
            rows.push(row);
            continue;
        }
        let parent = match parents {
            None => NO_PARENT,
            Some(parents) => match under {
                0 => 0,
                1 => parents - 1,
                2 => k * parents / count,
                _ => random.below(parents),
            },
        };
        let mut codes = codes(random, &styles, k);
        leave_out(random, gaps, k, &mut codes);
        rows.push((parent, codes));
    }
    rows
}
