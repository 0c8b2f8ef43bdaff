//! What the C header says besides each call's reply: the stack that a call needs, and that threads may share a
//! catalogue, a packed list and a text.

use compare::evidence::{self, Failing};
use compare::random::xml::{Element, Printed, Style};
use compare::random::{Draft, DraftTable, Random};
use compare::simple::{self, Entry, COLUMNS, NO_PARENT, ROW, TABLES, WORK_WORDS};
use compare::{ffi, stack, table};
use std::thread::{scope, Builder};

/// The stack of `cagberin_verify`, of `cagberin_list`, of a question or pair, and of each other call, as the header
/// states it. A thread's own needs come out of the same.
const VERIFY_STACK: usize = 409_600;
const LIST_STACK: usize = 307_200;
const QUESTION_STACK: usize = 245_760;
const OTHER_STACK: usize = 16_384;

/// A line of 16 tables, each with one column, and enough rows below that a listing takes all its ways.
fn line() -> Vec<u8> {
    line_of_tables().file()
}

fn line_of_tables() -> Draft {
    let mut random = Random::new(6);
    let mut draft = Draft::default();
    for i in 0..TABLES {
        let above = if i == 0 { 0 } else { draft.tables[i - 1].rows.len() };
        let mut row = || {
            let parent = if i == 0 { NO_PARENT } else { random.below(above) };
            (parent, vec![random.below(2 + i) as u32])
        };
        let rows = (0..8 + 12 * i).map(|_| row()).collect();
        draft.tables.push(DraftTable { columns: 1, parent: if i == 0 { NO_PARENT } else { i - 1 }, rows });
    }
    draft
}

/// One table of 16 columns.
fn flat() -> Vec<u8> {
    let mut random = Random::new(7);
    let mut row = || (NO_PARENT, (0..COLUMNS).map(|_| random.below(4) as u32).collect());
    let rows = (0..300).map(|_| row()).collect();
    Draft { tables: vec![DraftTable { columns: COLUMNS, parent: NO_PARENT, rows }] }.file()
}

/// Whether a listing by calls of this budget, with so many words, gives these entries.
fn lists(file: &[u8], budget: u32, words: usize, expected: &[Entry]) -> bool {
    let mut work = vec![7; words];
    let mut run = vec![Entry::default(); expected.len()];
    let (mut place, mut passed, mut count) = (0, 1, 0);
    while passed > 0 {
        let reply = ffi::list(file, place, budget, &mut run[count..], &mut work, &mut place, &mut passed);
        count += usize::try_from(reply).unwrap();
    }
    count == expected.len() && run == expected
}

#[test]
fn listings_of_a_shared_catalogue_in_threads_with_the_stated_stack() {
    for file in [line(), flat()] {
        let entries = table::listing(&simple::check(&file).unwrap());
        scope(|threads| {
            let lent = [WORK_WORDS, 65_536];
            for (budget, words) in [1, 9_999, u32::MAX].into_iter().flat_map(|budget| lent.map(|words| (budget, words)))
            {
                let thread = Builder::new().stack_size(LIST_STACK);
                let (file, entries) = (&file, &entries);
                thread.spawn_scoped(threads, move || assert!(lists(file, budget, words, entries))).unwrap();
            }
        });
    }
}

/// The files are shared too: two threads check the same list at once, a third one lacks a record.
#[test]
fn lists_checked_by_evidence_in_threads_with_the_stated_stack() {
    for file in [line(), flat()] {
        let catalogue = simple::check(&file).unwrap();
        let entries = table::listing(&catalogue);
        let mut list = vec![0; 4 * entries.len() + 8];
        simple::pack(&entries, &mut list).unwrap();
        let records = evidence::written(&table::evidence(&catalogue, Failing::Backed));
        let (accepted, uncovered) = (entries.len() as i64, -(simple::Refusal::UncoveredSet as i64));
        let less = records.len() - evidence::RECORD_BYTES;
        scope(|threads| {
            for (len, reply) in [(records.len(), accepted), (records.len(), accepted), (less, uncovered)] {
                let (file, list, records) = (&file, &list, &records[..len]);
                let thread = Builder::new().stack_size(VERIFY_STACK);
                thread.spawn_scoped(threads, move || assert_eq!(ffi::verify(file, list, records), reply)).unwrap();
            }
        });
    }
}

/// The benchmark's measure of stack, on a call that is known to use some.
#[test]
fn stack_is_measured() {
    const BYTES: usize = 100_000;
    let fill = || {
        let mut bytes = [1u8; BYTES];
        std::hint::black_box(&mut bytes);
    };
    let used = stack::used(fill);
    assert!((BYTES..BYTES + 1_000).contains(&used), "{used}");
    assert!(stack::used(|| ()) < 4_000);
}

#[test]
fn other_calls_on_shared_files_in_threads_with_the_stated_stack() {
    let file = line();
    let target = TABLES as u32 - 1;
    let entries = table::listing(&simple::check(&file).unwrap());
    let mut list = vec![0; 4 * entries.len() + 8];
    simple::pack(&entries, &mut list).unwrap();
    let (file, list, entries) = (&file, &list, &entries);
    let questions = move || {
        let mut work = vec![7; WORK_WORDS];
        for left in [0, 1, 0xAAAA, 0xFFFF] {
            for right in [target, ROW] {
                let holds = ffi::ask(file, target, left, right, &mut work);
                let pair = ffi::pair(file, target, left, right, &mut work, &mut 0, &mut 0);
                assert_eq!(holds + pair, 1);
            }
        }
    };
    let calls = move || {
        assert_eq!(ffi::check(file, &mut 0, &mut 0), 0);
        let mut output = vec![0; list.len()];
        assert_eq!(ffi::pack(entries, &mut output), list.len() as i64);
        assert!(output == *list);
        assert_eq!(ffi::open(list, &mut 0), entries.len() as i64);
        let mut run = vec![Entry::default(); entries.len()];
        assert_eq!(ffi::read(list, 0, &mut run), entries.len() as i64);
        assert!(run == *entries);
    };
    scope(|threads| {
        for _ in 0..4 {
            Builder::new().stack_size(QUESTION_STACK).spawn_scoped(threads, questions).unwrap();
            Builder::new().stack_size(OTHER_STACK).spawn_scoped(threads, calls).unwrap();
        }
    });
}

/// Rows 16 deep; two threads convert the same text at once, a third one what is cut of it at its deepest.
#[test]
fn conversions_of_a_shared_text_in_threads_with_the_stated_stack() {
    let random = &mut Random::new(8);
    let draft = line_of_tables();
    let (bare, catalogue) = (draft.without_rows(), Element::of(random, &draft));
    let (shape, file) = (bare.file(), catalogue.draft(&bare).file());
    let text = Printed::of(random, &Style::lines(), &catalogue).text;
    let deepest = text.windows(4).position(|window| window == b"<t15").unwrap();
    scope(|threads| {
        for (len, reply) in [(text.len(), file.len() as i64), (text.len(), file.len() as i64), (deepest, -20)] {
            let (shape, text, file) = (&shape, &text[..len], &file);
            let call = move || {
                let mut output = vec![7; file.len()];
                assert_eq!(ffi::convert(shape, text, &mut output), reply);
                assert!(reply < 0 || output == *file);
            };
            Builder::new().stack_size(OTHER_STACK).spawn_scoped(threads, call).unwrap();
        }
    });
}
