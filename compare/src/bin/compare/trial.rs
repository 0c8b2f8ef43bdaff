//! What every comparison needs: the random numbers, the lent memory, the file at hand, and a count of what
//! occurred.

use crate::seen::Seen;
use compare::lent::{self, Lent};
use compare::random::Random;
use compare::simple::{Entry, Refusal, WORK_WORDS};
use std::fmt::Debug;

/// The words at which every left side of the widest table has its own.
pub const MANY_WORDS: usize = 65_536;

/// Ok, or what differed.
pub type Outcome = Result<(), String>;

pub struct Trial {
    pub random: Random,
    pub words: Lent<u32>,
    pub run: Lent<Entry>,
    pub output: Lent<u8>,
    /// The catalogue or packed list that is being compared, for the report of a difference.
    pub file: Vec<u8>,
    pub seen: Seen,
}

impl Trial {
    pub fn new() -> Trial {
        Trial {
            random: Random::new(0),
            words: lent::words(MANY_WORDS + 4_096),
            run: lent::entries(MANY_WORDS),
            output: lent::bytes(4 * MANY_WORDS),
            file: Vec::new(),
            seen: Seen::default(),
        }
    }

    pub fn start(&mut self, seed: u64) {
        self.random = Random::new(seed);
    }

    /// Compares a reply of the library, described by a call, with the reply by the document, and counts it.
    pub fn reply<T: PartialEq + Debug>(&mut self, call: impl FnOnce() -> String, library: T, document: T) -> Outcome {
        self.seen.comparisons += 1;
        same(call, library, document)
    }

    /// A number of work words: mostly enough, few or many, and sometimes too few.
    pub fn any_words(&mut self) -> usize {
        match self.random.below(16) {
            0 => self.random.pick(&[0, 1, WORK_WORDS / 2, WORK_WORDS - 1, WORK_WORDS - 1]),
            1 => self.random.from_to(WORK_WORDS, MANY_WORDS),
            2 | 3 => self.many_words(),
            _ => self.few_words(),
        }
    }

    pub fn few_words(&mut self) -> usize {
        WORK_WORDS + self.random.pick(&[0, 0, 0, 1, 7])
    }

    pub fn many_words(&mut self) -> usize {
        MANY_WORDS + self.random.pick(&[0, 0, 0, 1, 7, 4_000])
    }
}

/// Compares what the library did, described by a call, with what it does by the document.
pub fn same<T: PartialEq + Debug>(call: impl FnOnce() -> String, library: T, document: T) -> Outcome {
    if library == document {
        Ok(())
    } else {
        Err(format!("{}\n  library  {library:?}\n  document {document:?}", call()))
    }
}

/// Says what differed unless the condition is met.
pub fn expect(condition: bool, call: impl FnOnce() -> String, what: &str) -> Outcome {
    if condition {
        Ok(())
    } else {
        Err(format!("{}\n  {what}", call()))
    }
}

/// A refusal as the library returns it.
pub fn negative(refusal: Refusal) -> i64 {
    -(refusal as i64)
}

/// The bytes of a file as a report shows them.
pub fn hex(file: &[u8]) -> String {
    file.iter().map(|byte| format!("{byte:02x}")).collect()
}
