//! Drafts: tables before they are bytes. Nothing keeps a draft within the bounds.

use crate::simple::{MISSING, NO_PARENT};

#[derive(Clone, Debug)]
pub struct DraftTable {
    pub columns: usize,
    pub parent: usize,
    /// Each row: its parent row and its codes.
    pub rows: Vec<(usize, Vec<u32>)>,
}

impl DraftTable {
    /// A table of some columns, each with a code for each of the parent rows.
    pub(super) fn of_columns(parent: usize, parent_rows: &[usize], columns: &[Vec<u32>]) -> DraftTable {
        let codes = |k: usize| columns.iter().map(|column| column[k]).collect();
        let rows = parent_rows.iter().enumerate().map(|(k, parent_row)| (*parent_row, codes(k))).collect();
        DraftTable { columns: columns.len(), parent, rows }
    }
}

#[derive(Clone, Debug, Default)]
pub struct Draft {
    pub tables: Vec<DraftTable>,
}

/// A file, and where its tables and its trailer begin.
#[derive(Clone, Debug)]
pub struct Layout {
    pub file: Vec<u8>,
    pub offsets: Vec<usize>,
    pub trailer: usize,
}

impl Draft {
    pub fn layout(&self) -> Layout {
        let mut file = Vec::new();
        let mut offsets = Vec::new();
        for table in &self.tables {
            offsets.push(file.len());
            for number in [table.columns, table.parent, table.rows.len()] {
                file.extend((number as u16).to_le_bytes());
            }
            for (parent, codes) in &table.rows {
                file.extend((*parent as u16).to_le_bytes());
                codes.iter().for_each(|code| file.extend(code.to_le_bytes()));
            }
        }
        let trailer = file.len();
        offsets.iter().for_each(|offset| file.extend((*offset as u32).to_le_bytes()));
        file.extend((offsets.len() as u16).to_le_bytes());
        file.extend((trailer as u32).to_le_bytes());
        Layout { file, offsets, trailer }
    }

    pub fn file(&self) -> Vec<u8> {
        self.layout().file
    }

    /// The same tables without their rows.
    pub fn without_rows(&self) -> Draft {
        let table = |table: &DraftTable| DraftTable { rows: Vec::new(), ..*table };
        Draft { tables: self.tables.iter().map(table).collect() }
    }

    /// The visible columns of a table; none of the root's parent.
    pub(super) fn visible(&self, table: usize) -> usize {
        self.above(table).iter().map(|table| self.tables[*table].columns).sum()
    }

    /// The rows of a table, if it is not the root's parent.
    pub(super) fn rows(&self, table: usize) -> Option<usize> {
        self.tables.get(table).map(|table| table.rows.len())
    }

    /// A table and those above it, root first; none for the root's parent.
    pub(super) fn above(&self, table: usize) -> Vec<usize> {
        if table == NO_PARENT {
            return Vec::new();
        }
        let mut above = self.above(self.tables[table].parent);
        above.push(table);
        above
    }
}

/// The album catalogue of document 01.
pub fn album() -> Draft {
    let root = |code| (NO_PARENT, vec![code]);
    let sheet = |parent, tray, profile| (parent, vec![tray, profile]);
    let shops = DraftTable { columns: 1, parent: NO_PARENT, rows: vec![root(5), root(5), root(MISSING)] };
    let rows = vec![sheet(0, 1, 7), sheet(1, 3, 7), sheet(2, 1, 8), sheet(2, 2, 8)];
    let sheets = DraftTable { columns: 2, parent: 0, rows };
    Draft { tables: vec![shops, sheets] }
}
