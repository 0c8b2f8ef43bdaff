//! Small catalogues by name. Of each it is told, worked out by hand, what its full listing has and what of the minimal
//! dependencies and keys it lacks: those that no row backs (document 02 d) and those that repeat a key (02 e).

use crate::random::{Draft, DraftTable};
use crate::simple::NO_PARENT;
use crate::{keyed, unfilled};

/// An entry as the listing program prints it: target, left, right.
pub type Line = (u8, u16, u8);

/// Each minimal dependency or key is in one of the three lists.
pub struct Named {
    pub name: &'static str,
    pub draft: Draft,
    /// The full listing.
    pub listed: Vec<Line>,
    /// Those whose left side no row backs.
    pub withheld: Vec<Line>,
    /// Those that a row backs, with a column on the right and a key on the left.
    pub dropped: Vec<Line>,
}

/// All of them.
pub fn all() -> Vec<Named> {
    [unfilled::small(), keyed::small()].into_iter().flatten().collect()
}

impl Named {
    pub(crate) fn new(name: &'static str, tables: Vec<DraftTable>) -> Named {
        Named { name, draft: Draft { tables }, listed: Vec::new(), withheld: Vec::new(), dropped: Vec::new() }
    }

    pub(crate) fn lists(self, listed: &[Line]) -> Named {
        Named { listed: listed.to_vec(), ..self }
    }

    pub(crate) fn withholds(self, withheld: &[Line]) -> Named {
        Named { withheld: withheld.to_vec(), ..self }
    }

    pub(crate) fn drops(self, dropped: &[Line]) -> Named {
        Named { dropped: dropped.to_vec(), ..self }
    }
}

/// A root of so many columns with these rows.
pub(crate) fn root(columns: usize, rows: &[&[u32]]) -> DraftTable {
    let rows = rows.iter().map(|codes| (NO_PARENT, codes.to_vec())).collect();
    DraftTable { columns, parent: NO_PARENT, rows }
}

/// A table of so many columns under another, with these rows: parent row and codes.
pub(crate) fn under(parent: usize, columns: usize, rows: &[(usize, &[u32])]) -> DraftTable {
    let rows = rows.iter().map(|(parent, codes)| (*parent, codes.to_vec())).collect();
    DraftTable { columns, parent, rows }
}
