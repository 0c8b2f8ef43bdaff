//! The functions of the static library: the C declarations, and the same calls on slices.
//!
//! Every signature stands here and in `include/cagberin.h`, as `crates/host` exports it. A refusal comes back as its number
//! made negative.

use crate::simple::Entry;

mod raw {
    use super::Entry;

    extern "C" {
        pub fn cagberin_check(cat: *const u8, cat_len: usize, tables: *mut u32, sets: *mut u32) -> i32;
        pub fn cagberin_ask(
            cat: *const u8,
            cat_len: usize,
            target: u32,
            left: u32,
            right: u32,
            work: *mut u32,
            words: usize,
        ) -> i32;
        pub fn cagberin_pair(
            cat: *const u8,
            cat_len: usize,
            target: u32,
            left: u32,
            right: u32,
            work: *mut u32,
            words: usize,
            first: *mut u32,
            second: *mut u32,
        ) -> i32;
        pub fn cagberin_list(
            cat: *const u8,
            cat_len: usize,
            place: u32,
            budget: u32,
            run: *mut Entry,
            records: usize,
            work: *mut u32,
            words: usize,
            next_place: *mut u32,
            passed: *mut u32,
        ) -> i64;
        pub fn cagberin_pack(entries: *const Entry, count: usize, out: *mut u8, out_len: usize) -> i64;
        pub fn cagberin_open(file: *const u8, len: usize, front: *mut usize) -> i64;
        pub fn cagberin_read(file: *const u8, len: usize, from: usize, run: *mut Entry, records: usize) -> i64;
        pub fn cagberin_verify(
            cat: *const u8,
            cat_len: usize,
            list: *const u8,
            list_len: usize,
            evidence: *const u8,
            evidence_len: usize,
        ) -> i64;
        pub fn cagberin_convert(
            shape: *const u8,
            shape_len: usize,
            text: *const u8,
            text_len: usize,
            out: *mut u8,
            out_len: usize,
        ) -> i64;
    }
}

/// 0 or a refusal; tables and sets are written only on 0.
pub fn check(cat: &[u8], tables: &mut u32, sets: &mut u32) -> i32 {
    unsafe { raw::cagberin_check(cat.as_ptr(), cat.len(), tables, sets) }
}

/// 1 holds, 0 breaks, or a refusal.
pub fn ask(cat: &[u8], target: u32, left: u32, right: u32, work: &mut [u32]) -> i32 {
    unsafe { raw::cagberin_ask(cat.as_ptr(), cat.len(), target, left, right, work.as_mut_ptr(), work.len()) }
}

/// 1 the first breaking pair, 0 none, or a refusal; the rows are written only on 1.
pub fn pair(
    cat: &[u8],
    target: u32,
    left: u32,
    right: u32,
    work: &mut [u32],
    first: &mut u32,
    second: &mut u32,
) -> i32 {
    unsafe {
        let (words, len) = (work.as_mut_ptr(), work.len());
        raw::cagberin_pair(cat.as_ptr(), cat.len(), target, left, right, words, len, first, second)
    }
}

/// The entry count or a refusal; the next place and the number passed are written only with a count.
pub fn list(
    cat: &[u8],
    place: u32,
    budget: u32,
    run: &mut [Entry],
    work: &mut [u32],
    next_place: &mut u32,
    passed: &mut u32,
) -> i64 {
    unsafe {
        let (records, count) = (run.as_mut_ptr(), run.len());
        let (words, len) = (work.as_mut_ptr(), work.len());
        raw::cagberin_list(cat.as_ptr(), cat.len(), place, budget, records, count, words, len, next_place, passed)
    }
}

/// The number of bytes written, or a refusal.
pub fn pack(entries: &[Entry], out: &mut [u8]) -> i64 {
    unsafe { raw::cagberin_pack(entries.as_ptr(), entries.len(), out.as_mut_ptr(), out.len()) }
}

/// The number of entries, or a refusal; the number of bytes in front is written only with a number of entries.
pub fn open(file: &[u8], front: &mut usize) -> i64 {
    unsafe { raw::cagberin_open(file.as_ptr(), file.len(), front) }
}

/// How many entries were read from an index on into the run, or a refusal.
pub fn read(file: &[u8], from: usize, run: &mut [Entry]) -> i64 {
    unsafe { raw::cagberin_read(file.as_ptr(), file.len(), from, run.as_mut_ptr(), run.len()) }
}

/// The number of entries of an accepted list, or a refusal.
pub fn verify(cat: &[u8], list: &[u8], evidence: &[u8]) -> i64 {
    unsafe {
        let (records, len) = (evidence.as_ptr(), evidence.len());
        raw::cagberin_verify(cat.as_ptr(), cat.len(), list.as_ptr(), list.len(), records, len)
    }
}

/// The number of bytes of the catalogue file written, or a refusal.
pub fn convert(shape: &[u8], text: &[u8], out: &mut [u8]) -> i64 {
    unsafe {
        let (bytes, len) = (out.as_mut_ptr(), out.len());
        raw::cagberin_convert(shape.as_ptr(), shape.len(), text.as_ptr(), text.len(), bytes, len)
    }
}
