//! The catalogue file, read: "The catalogue file" and refusals 1 to 7.

use super::Refusal::{self, *};
use super::{COLUMNS, NO_PARENT, ROWS, SMALLEST_FILE, TABLES};

#[derive(Clone, Debug)]
pub struct Row {
    /// Row number in the parent table; without meaning in the root.
    pub parent: usize,
    pub codes: Vec<u32>,
}

/// A visible column: the table that it belongs to and its number among that table's own columns.
#[derive(Clone, Copy, Debug)]
pub struct Column {
    pub table: usize,
    pub own: usize,
}

#[derive(Clone, Debug)]
pub struct Table {
    /// Table number of the parent; without meaning in the root.
    pub parent: usize,
    /// The ancestors' columns, root first, then its own.
    pub visible: Vec<Column>,
    /// How many of the visible columns are its own: the last ones.
    pub own: usize,
    pub rows: Vec<Row>,
}

#[derive(Clone, Debug, Default)]
pub struct Catalogue {
    pub tables: Vec<Table>,
}

pub(crate) fn u16_at(file: &[u8], at: usize) -> usize {
    file[at] as usize + 256 * file[at + 1] as usize
}

pub(super) fn u32_at(file: &[u8], at: usize) -> usize {
    u16_at(file, at) + 65_536 * u16_at(file, at + 2)
}

/// "1 and 2 come first. Then table by table ...; after the last table, left bytes (3)."
pub fn check(file: &[u8]) -> Result<Catalogue, Refusal> {
    if file.len() < SMALLEST_FILE {
        return Err(Torn);
    }
    let t = u16_at(file, file.len() - 6);
    let trailer = u32_at(file, file.len() - 4);
    if t == 0 || t > TABLES || trailer + 4 * t + 6 != file.len() {
        return Err(NoTail);
    }
    let mut catalogue = Catalogue::default();
    let mut end = 0;
    for i in 0..t {
        let offset = u32_at(file, trailer + 4 * i);
        if offset != end || offset + 6 > trailer {
            return Err(Misplaced);
        }
        end = read_table(file, offset, trailer, &mut catalogue)?;
    }
    if end != trailer {
        return Err(Misplaced);
    }
    Ok(catalogue)
}

/// One table: "4, 5, 6, rows' extent (3), each row (7)". Returns the table's end.
fn read_table(file: &[u8], offset: usize, trailer: usize, catalogue: &mut Catalogue) -> Result<usize, Refusal> {
    let i = catalogue.tables.len();
    let c = u16_at(file, offset);
    let parent = u16_at(file, offset + 2);
    let r = u16_at(file, offset + 4);
    if c > COLUMNS || r > ROWS {
        return Err(Oversize);
    }
    let sound_parent = if i == 0 { parent == NO_PARENT } else { parent < i };
    if !sound_parent {
        return Err(NoStem);
    }
    let mut visible = if i == 0 { Vec::new() } else { catalogue.tables[parent].visible.clone() };
    for own in 0..c {
        visible.push(Column { table: i, own });
    }
    if visible.len() > COLUMNS {
        return Err(TooWide);
    }
    let end = offset + 6 + r * (2 + 4 * c);
    if end > trailer {
        return Err(Misplaced);
    }
    let parent_rows = if i == 0 { None } else { Some(catalogue.tables[parent].rows.len()) };
    let rows = read_rows(&file[offset + 6..end], c, r, parent_rows)?;
    catalogue.tables.push(Table { parent, visible, own: c, rows });
    Ok(end)
}

/// "A row is its parent row (2 bytes) and c codes of 4 bytes." 7, for each row; the root has no parent rows.
fn read_rows(bytes: &[u8], c: usize, r: usize, parent_rows: Option<usize>) -> Result<Vec<Row>, Refusal> {
    let mut rows = Vec::new();
    for k in 0..r {
        let at = k * (2 + 4 * c);
        let parent = u16_at(bytes, at);
        let sound_row = match parent_rows {
            None => parent == NO_PARENT,
            Some(parent_rows) => parent < parent_rows,
        };
        if !sound_row {
            return Err(StrayRow);
        }
        let codes = (0..c).map(|own| u32_at(bytes, at + 2 + 4 * own) as u32).collect();
        rows.push(Row { parent, codes });
    }
    Ok(rows)
}

impl Catalogue {
    /// The number of sets over all targets: a target with n visible columns has 2^n. This is the last place.
    pub fn sets(&self) -> u32 {
        self.tables.iter().map(|table| 1 << table.visible.len()).sum()
    }
}
