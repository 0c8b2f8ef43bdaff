//! The kinds of catalogues, by name.

use super::{deep, few, missing, mixed, skewed, wide, Draft, Random};

/// A name, and what makes a draft within all bounds.
#[derive(Clone, Copy)]
pub struct Kind {
    pub name: &'static str,
    pub draft: fn(&mut Random) -> Draft,
}

/// All of them; the first is meant if none is named.
pub const KINDS: [Kind; 6] = [
    Kind { name: "mixed", draft: mixed::draft },
    Kind { name: "skewed", draft: skewed::draft },
    Kind { name: "deep", draft: deep::draft },
    Kind { name: "few", draft: few::draft },
    Kind { name: "missing", draft: missing::draft },
    Kind { name: "wide", draft: wide::draft },
];

impl Kind {
    /// The kind of a name, if there is one.
    pub fn named(name: &str) -> Option<Kind> {
        KINDS.into_iter().find(|kind| kind.name == name)
    }

    /// Whether it is the one that is meant if none is named.
    pub fn is_mixed(&self) -> bool {
        self.name == KINDS[0].name
    }
}
