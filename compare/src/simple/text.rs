//! What the listing program prints ("The album catalogue").

use super::{check, Catalogue, Entry, ROW};

/// "The listing program reads a catalogue of at most 32,768 bytes from standard input."
pub const INPUT_BYTES: usize = 32_768;

/// What the program prints for an input. `entries` gives the full listing of a catalogue.
pub fn printed(input: &[u8], entries: impl Fn(&Catalogue) -> Vec<Entry>) -> String {
    if input.len() > INPUT_BYTES {
        return "too long\n".into();
    }
    match check(input) {
        Err(refusal) => format!("refused {}\n", refusal as u32),
        Ok(catalogue) => {
            let entries = entries(&catalogue);
            let head = [catalogue.tables.len(), catalogue.sets() as usize, entries.len()];
            let mut text = format!("tables {} sets {} entries {}\n", head[0], head[1], head[2]);
            for entry in entries {
                text += &printed_entry(entry);
            }
            text
        }
    }
}

/// "Each other line is target, left as a number, right, with 255 printed as `row`."
fn printed_entry(entry: Entry) -> String {
    let right = if entry.right as u32 == ROW { "row".into() } else { entry.right.to_string() };
    format!("{} {} {right}\n", entry.target, entry.left)
}
