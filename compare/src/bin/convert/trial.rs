//! What every comparison needs: the random numbers, the lent output, the conversion at hand, what was accepted, and a
//! count of what occurred.

use crate::seen::Seen;
use compare::ffi;
use compare::lent::{self, Lent, Placed};
use compare::random::Random;
use compare::simple::{self, Refusal};

/// Bytes of the largest output that is lent: more than any text here needs, also one with too many rows.
const OUTPUT: usize = 600_000;

/// Ok, or what differed.
pub type Outcome = Result<(), String>;

/// How many bytes of output are lent.
#[derive(Clone, Copy, PartialEq, Eq)]
pub enum Room {
    /// As many as the file has, or some more.
    Enough,
    /// One less than the file has.
    OneShort,
    /// Any number below that.
    Short,
    /// None.
    None,
}

pub struct Trial {
    pub random: Random,
    pub seen: Seen,
    /// The shape, text and catalogue of each conversion that was accepted, each with its length (4 bytes) before it.
    pub accepted: Vec<u8>,
    output: Lent<u8>,
    /// The shape and text at hand, for the report of a difference, and the last file that was made.
    shape: Vec<u8>,
    text: Vec<u8>,
    made: Vec<u8>,
}

impl Trial {
    pub fn new() -> Trial {
        Trial {
            random: Random::new(0),
            seen: Seen::default(),
            accepted: Vec::new(),
            output: lent::bytes(OUTPUT),
            shape: Vec::new(),
            text: Vec::new(),
            made: Vec::new(),
        }
    }

    pub fn start(&mut self, seed: u64) {
        self.random = Random::new(seed);
    }

    /// Compares a conversion and counts it as one of a kind. Gives its refusal's number by the documents, or 0.
    pub fn compare(&mut self, kind: &'static str, shape: &[u8], text: &[u8], room: Room) -> Result<u8, String> {
        (self.shape, self.text) = (shape.to_vec(), text.to_vec());
        let placed = [shape, text].map(|file| Placed::new(file, &mut self.random));
        let made = simple::converted(shape, text);
        let bytes = self.bytes(made.as_ref().map(Vec::len).map_err(|refusal| *refusal), room);
        let (library, document) = self.output.lend(bytes, &mut self.random);
        let reply = ffi::convert(placed[0].file(), placed[1].file(), library);
        let answer = made.and_then(|file| simple::delivered(&file, document));
        let expected = answer.map_or_else(|refusal| -(refusal as i64), |bytes| bytes as i64);
        let what = format!("{kind}, output of {bytes} bytes");
        if reply != expected {
            return Err(format!("{what}\n  library  {reply}\n  document {expected}"));
        }
        if !self.output.alike() {
            return Err(format!("{what}, reply {reply}\n  the output is another"));
        }
        if placed[0].file() != shape || placed[1].file() != text {
            return Err(format!("{what}, reply {reply}\n  the shape or the text was altered"));
        }
        if let Ok(bytes) = answer {
            self.made = self.output.left()[..bytes].to_vec();
            for file in [shape, text, &self.made] {
                self.accepted.extend((file.len() as u32).to_le_bytes());
                self.accepted.extend(file);
            }
        }
        let number = answer.map_or_else(|refusal| refusal as u8, |_| 0);
        self.seen.count(kind, number);
        Ok(number)
    }

    /// The same where the number is known beforehand.
    pub fn told(&mut self, kind: &'static str, shape: &[u8], text: &[u8], room: Room, number: u8) -> Outcome {
        let answer = self.compare(kind, shape, text, room)?;
        if answer == number {
            return Ok(());
        }
        Err(format!("{kind}\n  both answer {answer}\n  the text was made for {number}"))
    }

    /// The same where the file is known beforehand.
    pub fn becomes(&mut self, kind: &'static str, shape: &[u8], text: &[u8], file: &[u8]) -> Outcome {
        self.told(kind, shape, text, Room::Enough, 0)?;
        if self.made == file {
            return Ok(());
        }
        Err(format!("{kind}\n  both make the same file, and the text was made for another"))
    }

    /// How many bytes to lend for a file of so many, or for a refused text. Where a table has too many rows there are
    /// enough for all of them, so that no short output hides an answer.
    fn bytes(&mut self, file: Result<usize, Refusal>, room: Room) -> usize {
        match (room, file) {
            (Room::None, _) => 0,
            (Room::Enough, Ok(file)) => file + self.random.pick(&[0, 0, 0, 1, 2, 7, 100]),
            (Room::OneShort, Ok(file)) => file - 1,
            (Room::Short, Ok(file)) => self.random.below(file),
            (_, Err(Refusal::Overfull)) => OUTPUT,
            (_, Err(_)) => self.random.pick(&[0, 15, 16, 100, 1_000, 5_000, 20_000]),
        }
    }

    /// The conversion at hand, as a report shows it.
    pub fn shown(&self) -> String {
        let hex: String = self.shape.iter().map(|byte| format!("{byte:02x}")).collect();
        let text = self.text.escape_ascii();
        format!("shape of {} bytes:\n{hex}\ntext of {} bytes:\n{text}", self.shape.len(), self.text.len())
    }
}
