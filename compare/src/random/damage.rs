//! Damage to a catalogue's file: to any bytes, to the trailer, to the extent of a table, to a table's numbers.

use super::{Layout, Random};

/// Whether so many bytes stand in the file from a place on. A damaged offset may be any number.
fn within(file: &[u8], at: usize, bytes: usize) -> bool {
    at <= file.len() && bytes <= file.len() - at
}

fn put16(file: &mut [u8], at: usize, number: usize) {
    if within(file, at, 2) {
        file[at..at + 2].copy_from_slice(&(number as u16).to_le_bytes());
    }
}

fn put32(file: &mut [u8], at: usize, number: usize) {
    if within(file, at, 4) {
        file[at..at + 4].copy_from_slice(&(number as u32).to_le_bytes());
    }
}

/// A file with one to three damages. Some leave it sound.
pub fn damaged(random: &mut Random, layout: &Layout) -> Vec<u8> {
    let mut layout = layout.clone();
    for _ in 0..random.pick(&[1, 1, 1, 2, 3]) {
        match random.below(4) {
            0 => damage_bytes(random, &mut layout.file),
            1 => damage_trailer(random, &mut layout),
            2 => damage_extent(random, &mut layout),
            _ => damage_table(random, &mut layout),
        }
    }
    layout.file
}

/// Cut, lengthened, or a byte altered, anywhere.
fn damage_bytes(random: &mut Random, file: &mut Vec<u8>) {
    let len = file.len();
    match random.below(6) {
        0 => file.truncate(random.below(len + 1)),
        1 => file.truncate(random.pick(&[0, 1, 5, 6, 8, 15, 16, 17, len.saturating_sub(1), len.saturating_sub(6)])),
        2 => {
            for _ in 0..random.from_to(1, 8) {
                let any = random.number() as u8;
                file.push(random.pick(&[0, 255, any]));
            }
        }
        3 if len > 0 => file[random.below(len)] ^= 1 << random.below(8),
        4 if len > 0 => file[random.below(len)] = random.pick(&[0, 1, 15, 16, 17, 255]),
        _ => {
            let at = random.below(len + 1);
            put32(file, at, random.pick(&[0, 1, 16, 17, 4_096, 4_097, 65_535, 65_536, u32::MAX as usize]));
        }
    }
}

/// The number of tables, the trailer's offset, or a table's offset.
fn damage_trailer(random: &mut Random, layout: &mut Layout) {
    let t = layout.offsets.len();
    let len = layout.file.len();
    let trailer = layout.trailer;
    if len < 6 {
        return;
    }
    match random.below(6) {
        0 => put16(&mut layout.file, len - 6, random.pick(&[0, 1, t - 1, t + 1, 16, 17, 256 + t, 65_535])),
        1 => put32(&mut layout.file, len - 4, random.pick(&[0, trailer + 1, trailer.wrapping_sub(1), len, 1 << 31])),
        2 => {
            // A number of tables for which the trailer would begin before the file, its offset wrapped round.
            let tables = random.pick(&[0, 1, 15, 16, 17]);
            put16(&mut layout.file, len - 6, tables);
            put32(&mut layout.file, len - 4, len.wrapping_sub(4 * tables + 6));
        }
        _ => {
            let i = random.below(t);
            let offset = layout.offsets[i];
            let other = layout.offsets[random.below(t)];
            let choices = [
                0,
                offset.wrapping_add(1),
                offset.wrapping_sub(1),
                other,
                trailer,
                trailer.wrapping_sub(6),
                u32::MAX as usize,
                1 << 16,
            ];
            put32(&mut layout.file, trailer + 4 * i, random.pick(&choices));
        }
    }
}

/// Bytes put in or taken out of the tables, the trailer moved along, its table offsets too or not.
fn damage_extent(random: &mut Random, layout: &mut Layout) {
    let t = layout.offsets.len();
    let len = layout.file.len();
    if len != layout.trailer + 4 * t + 6 {
        return;
    }
    let table = layout.offsets[random.below(t)];
    let anywhere = random.below(layout.trailer + 1);
    let at = random.pick(&[layout.trailer, table, anywhere]).min(layout.trailer);
    let bytes = random.from_to(1, 8);
    let moved = if random.once_in(2) {
        layout.file.splice(at..at, (0..bytes).map(|_| 0));
        bytes as isize
    } else {
        let bytes = bytes.min(layout.trailer - at);
        layout.file.drain(at..at + bytes);
        -(bytes as isize)
    };
    let follow = random.once_in(2);
    layout.trailer = layout.trailer.wrapping_add_signed(moved);
    for i in 0..t {
        if follow && layout.offsets[i] >= at && layout.offsets[i] > 0 {
            layout.offsets[i] = layout.offsets[i].wrapping_add_signed(moved);
        }
        put32(&mut layout.file, layout.trailer + 4 * i, layout.offsets[i]);
    }
    let len = layout.file.len();
    put32(&mut layout.file, len - 4, layout.trailer);
}

/// A table's columns, parent or rows, or a row's parent.
fn damage_table(random: &mut Random, layout: &mut Layout) {
    let t = layout.offsets.len();
    let i = random.below(t);
    let at = layout.offsets[i];
    if !within(&layout.file, at, 6) {
        return;
    }
    let number = |at: usize| layout.file[at] as usize + 256 * layout.file[at + 1] as usize;
    let (c, parent, r) = (number(at), number(at + 2), number(at + 4));
    match random.below(5) {
        0 => put16(&mut layout.file, at, random.pick(&[0, c + 1, c.wrapping_sub(1), 16, 17, 256, 65_535])),
        1 => put16(&mut layout.file, at + 2, random.pick(&[0, i, i + 1, i.wrapping_sub(1), t, 255, 65_534, 65_535])),
        2 => put16(&mut layout.file, at + 4, random.pick(&[0, r + 1, r.wrapping_sub(1), 4_096, 4_097, 256, 65_535])),
        _ if r > 0 => {
            let any = random.below(r);
            let row = at + 6 + random.pick(&[0, r - 1, any]) * (2 + 4 * c);
            let parent_rows = match layout.offsets.get(parent) {
                Some(at) if within(&layout.file, *at, 6) => number(at + 4),
                _ => 0,
            };
            let choices = [0, parent_rows, parent_rows.wrapping_sub(1), parent_rows + 1, 65_534, 65_535];
            put16(&mut layout.file, row, random.pick(&choices));
        }
        _ => {}
    }
}
