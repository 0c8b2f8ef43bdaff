//! Packed lists: written, opened and read, and what they refuse: 14 to 16.

use super::Refusal::{self, *};
use super::{member, u16_at, u32_at, Entry};

/// "Targets go by table number; within a target, left sides by size, then by their number;
/// within a left side, rights by number, 255 last."
pub fn position(entry: Entry) -> (u8, u32, u16, u8) {
    (entry.target, entry.left.count_ones(), entry.left, entry.right)
}

/// 15, for one entry and the one before it.
fn bad_entry(before: Option<Entry>, entry: Entry) -> bool {
    let target_over = entry.target > 15;
    let no_right = entry.right >= 16 && entry.right != 255;
    let right_in_left = entry.right < 16 && member(entry.left as u32, entry.right as usize);
    let not_later = before.is_some_and(|before| position(entry) <= position(before));
    target_over || no_right || right_in_left || not_later
}

fn check_entries(entries: &[Entry]) -> Result<(), Refusal> {
    for i in 0..entries.len() {
        let before = if i == 0 { None } else { Some(entries[i - 1]) };
        if bad_entry(before, entries[i]) {
            return Err(BadEntry);
        }
    }
    Ok(())
}

/// "Packing checks its entries by 15, then its output by 16, and writes 4k + 8 bytes from the start of its output."
pub fn pack(entries: &[Entry], output: &mut [u8]) -> Result<usize, Refusal> {
    check_entries(entries)?;
    let bytes = 4 * entries.len() + 8;
    if output.len() < bytes {
        return Err(ShortSheet);
    }
    let mut packed = Vec::new();
    for entry in entries {
        packed.extend([entry.target, entry.right]);
        packed.extend(entry.left.to_le_bytes());
    }
    packed.extend((entries.len() as u32).to_le_bytes());
    packed.extend((bytes as u32).to_le_bytes());
    output[..bytes].copy_from_slice(&packed);
    Ok(bytes)
}

/// An opened list: how many bytes stand in front of it, and its entries.
#[derive(Clone, PartialEq, Eq, Debug)]
pub struct List {
    pub front: usize,
    pub entries: Vec<Entry>,
}

/// "It is opened only if the whole list passes 14 and 15."
pub fn open(file: &[u8]) -> Result<List, Refusal> {
    if file.len() < 8 {
        return Err(NoList);
    }
    let k = u32_at(file, file.len() - 8);
    let distance = u32_at(file, file.len() - 4);
    if distance != 4 * k + 8 || distance > file.len() {
        return Err(NoList);
    }
    let front = file.len() - distance;
    let mut entries = Vec::new();
    for i in 0..k {
        let at = front + 4 * i;
        entries.push(Entry { target: file[at], right: file[at + 1], left: u16_at(file, at + 2) as u16 });
    }
    check_entries(&entries)?;
    Ok(List { front, entries })
}

/// Reads entries from an index on into a run, as many as fit, after 14 and 15 over the whole list. Returns how many:
/// none behind the last entry.
pub fn read(file: &[u8], from: usize, run: &mut [Entry]) -> Result<usize, Refusal> {
    let list = open(file)?;
    let mut count = 0;
    for (index, entry) in list.entries.iter().enumerate() {
        if index >= from && count < run.len() {
            run[count] = *entry;
            count += 1;
        }
    }
    Ok(count)
}
