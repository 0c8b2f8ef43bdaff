//! Packed lists: packing, opening and reading back, sound and damaged.

use crate::trial::{expect, negative, same, Outcome, Trial};
use compare::ffi;
use compare::lent::{Numbers, Placed};
use compare::random::{self, Random};
use compare::simple::{self, Entry};

/// How many readings from any index into any run are made of each file.
const READS: usize = 4;

/// Random lists and their damaged forms; `front` are bytes that may stand in front.
pub fn run(trial: &mut Trial, front: &[u8]) -> Outcome {
    let mut entries: Vec<Entry> = (0..trial.random.below(12)).map(|_| random::entry(&mut trial.random)).collect();
    entries.sort_by_key(|entry| simple::position(*entry));
    entries.dedup();
    listing(trial, front, &entries)?;
    for _ in 0..3 {
        let entries = damaged_entries(&mut trial.random, &entries);
        pack(trial, &entries)?;
        let file = written(&entries, &[]);
        open_and_read(trial, &file)?;
    }
    for _ in 0..6 {
        let file = written(&entries, if trial.random.once_in(2) { front } else { &[] });
        let file = damaged_file(&mut trial.random, file);
        open_and_read(trial, &file)?;
    }
    Ok(())
}

/// A list that passes 15: packed, put behind bytes of the caller, opened and read.
pub fn listing(trial: &mut Trial, front: &[u8], entries: &[Entry]) -> Outcome {
    pack(trial, entries)?;
    let front = if trial.random.once_in(3) { &[] } else { front };
    let file = written(entries, front);
    open_and_read(trial, &file)
}

/// The bytes of a list behind a front, without any check.
pub fn written(entries: &[Entry], front: &[u8]) -> Vec<u8> {
    let mut file = front.to_vec();
    for entry in entries {
        file.extend([entry.target, entry.right, entry.left as u8, (entry.left >> 8) as u8]);
    }
    file.extend((entries.len() as u32).to_le_bytes());
    file.extend((4 * entries.len() as u32 + 8).to_le_bytes());
    file
}

/// One ground of 15, somewhere.
fn damaged_entries(random: &mut Random, entries: &[Entry]) -> Vec<Entry> {
    let mut entries = entries.to_vec();
    if entries.is_empty() {
        entries.push(random::entry(random));
    }
    let i = random.below(entries.len());
    let j = random.below(entries.len());
    match random.below(7) {
        0 => entries[i].target = random.pick(&[15, 16, 17, 255]),
        1 => entries[i].right = random.pick(&[15, 16, 17, 254, 255]),
        2 => entries[i].left |= 1 << (entries[i].right % 16),
        3 => entries.insert(i, entries[i]),
        4 => entries.swap(i, j),
        5 => entries[i].left = random.number() as u16,
        _ => entries[i] = random::entry(random),
    }
    entries
}

/// A packed list cut, lengthened, a byte altered, or its count or distance set.
pub fn damaged_file(random: &mut Random, mut file: Vec<u8>) -> Vec<u8> {
    let len = file.len();
    let entries = u32::from_le_bytes(file[len - 8..len - 4].try_into().unwrap());
    match random.below(7) {
        0 => file.truncate(random.below(len)),
        1 => file.truncate(random.below(9).min(len)),
        2 => file.drain(..random.below(len)).for_each(drop),
        3 => file[random.below(len)] ^= 1 << random.below(8),
        4 => file.push(0),
        5 => {
            let count = random.pick(&[entries + 1, entries.wrapping_sub(1), 0, 1, u32::MAX]);
            file[len - 8..len - 4].copy_from_slice(&count.to_le_bytes());
            if random.once_in(2) {
                let distance = count.wrapping_mul(4).wrapping_add(8);
                file[len - 4..].copy_from_slice(&distance.to_le_bytes());
            }
        }
        _ => {
            // Counts for which 4k + 8 does not fit in 4 bytes.
            let count = random.pick(&[1 << 30, (1 << 30) + 1, (1 << 30) - 2, (1 << 30) - 1, entries | 1 << 31]);
            file[len - 8..len - 4].copy_from_slice(&count.to_le_bytes());
            file[len - 4..].copy_from_slice(&count.wrapping_mul(4).wrapping_add(8).to_le_bytes());
        }
    }
    file
}

fn pack(trial: &mut Trial, entries: &[Entry]) -> Outcome {
    let bytes = 4 * entries.len() + 8;
    let extra = trial.random.below(20);
    let len = trial.random.pick(&[bytes, bytes, bytes + 1, bytes + extra, bytes - 1, 0, 7, 8]);
    let lent = entries.to_vec().into_boxed_slice();
    let (library, document) = trial.output.lend(len, &mut trial.random);
    let reply = ffi::pack(&lent, library);
    let answer = simple::pack(entries, document);
    let expected = match answer {
        Ok(written) => written as i64,
        Err(refusal) => negative(refusal),
    };
    let call = || format!("pack into {len} bytes {entries:?}");
    trial.reply(call, reply, expected)?;
    expect(trial.output.alike(), call, "the output or its guards were left otherwise than stated")?;
    expect(*lent == *entries, call, "the entries were altered")?;
    match answer {
        Ok(_) => trial.seen.answer("pack"),
        Err(refusal) => trial.seen.refusal(refusal),
    }
    Ok(())
}

/// Opens a file, then reads from it, whether it was opened or refused.
fn open_and_read(trial: &mut Trial, file: &[u8]) -> Outcome {
    let placed = placed(trial, file);
    let entries = open(trial, &placed)?;
    for _ in 0..READS {
        let from = any_index(&mut trial.random, entries);
        let records = any_records(&mut trial.random, entries.saturating_sub(from)).min(trial.run.most());
        read(trial, &placed, from, records)?;
    }
    whole(trial, &placed)?;
    expect(placed.file() == file, || "open and read".into(), "the file was altered")
}

/// Reads from every index to past the last, with every run to longer than the list.
pub fn every_read(trial: &mut Trial, file: &[u8]) -> Outcome {
    let placed = placed(trial, file);
    let entries = open(trial, &placed)?;
    for from in (0..entries + 3).chain([1 << 32, usize::MAX - 1, usize::MAX]) {
        for records in (0..entries + 3).chain([entries + 100]) {
            read(trial, &placed, from, records)?;
        }
    }
    whole(trial, &placed)?;
    expect(placed.file() == file, || "open and read".into(), "the file was altered")
}

fn placed(trial: &mut Trial, file: &[u8]) -> Placed {
    trial.file = file.to_vec();
    Placed::new(file, &mut trial.random)
}

/// The number of entries, or of a refused file 3, as if it had some.
fn open(trial: &mut Trial, placed: &Placed) -> Result<usize, String> {
    let mut numbers: Numbers<usize> = Numbers::new(&mut trial.random);
    let [front, _, _] = numbers.lend();
    let reply = ffi::open(placed.file(), front);
    let call = || "open: reply and bytes in front".to_string();
    match simple::open(placed.file()) {
        Err(refusal) => {
            trial.reply(call, reply, negative(refusal))?;
            expect(numbers.untouched_but_first(0), call, "a refusal altered memory")?;
            trial.seen.refusal(refusal);
            Ok(3)
        }
        Ok(list) => {
            trial.reply(call, (reply, numbers.values()[0]), (list.entries.len() as i64, list.front))?;
            expect(numbers.untouched_but_first(1), call, "memory beside the number was altered")?;
            trial.seen.answer("open");
            Ok(list.entries.len())
        }
    }
}

/// The first index, one inside, the last, the end, and past it.
fn any_index(random: &mut Random, entries: usize) -> usize {
    let inside = random.below(entries + 1);
    let last = entries.saturating_sub(1);
    random.pick(&[0, 0, inside, inside, last, entries, entries + 1, 1 << 30, 1 << 32, 1 << 62, usize::MAX])
}

/// A run of no record, one too short, one that just suffices for what is left, or one that is longer.
fn any_records(random: &mut Random, left: usize) -> usize {
    let short = random.below(left + 1);
    random.pick(&[0, 1, short, short, left.saturating_sub(1), left, left, left + 1, left + 9])
}

/// One reading from an index on, by the library and by the document: reply, run and what is around it.
fn read(trial: &mut Trial, placed: &Placed, from: usize, records: usize) -> Result<usize, String> {
    let (library, document) = trial.run.lend(records, &mut trial.random);
    let reply = ffi::read(placed.file(), from, library);
    let answer = simple::read(placed.file(), from, document);
    let expected = match answer {
        Ok(count) => count as i64,
        Err(refusal) => negative(refusal),
    };
    let call = || format!("read from {from} into {records} records");
    trial.reply(call, reply, expected)?;
    expect(trial.run.alike(), call, "the run of records or its guards were left otherwise than stated")?;
    match answer {
        Ok(0) if records == 0 => trial.seen.answer("read, no record lent"),
        Ok(0) => trial.seen.answer("read, end"),
        Ok(_) => trial.seen.answer("read"),
        Err(refusal) => trial.seen.refusal(refusal),
    }
    Ok(answer.unwrap_or(0))
}

/// Reads the whole list in runs of one length, each from the entry behind the run before, to the end.
fn whole(trial: &mut Trial, placed: &Placed) -> Outcome {
    let Ok(list) = simple::open(placed.file()) else { return Ok(()) };
    let records = 1 + list.entries.len() / trial.random.from_to(1, 5);
    let mut joined: Vec<Entry> = Vec::new();
    loop {
        let count = read(trial, placed, joined.len(), records.min(trial.run.most()))?;
        if count == 0 {
            break;
        }
        joined.extend(&trial.run.left()[..count]);
    }
    same(|| format!("a list read in runs of {records}"), joined, list.entries)
}
