//! Fixed cases before the random ones: the album, its packed list and its evidence throughout, small catalogues with
//! their evidence, the named ones throughout, wide ones with missing cells and wide ones with known keys, catalogues at
//! and past the bounds, and large ones that are made to break a dependency.

use crate::catalogues::{check, damaged};
use crate::trial::{Outcome, Trial, MANY_WORDS};
use crate::{dropped, listings, packed, pairs, questions, supplied, withheld};
use compare::lent::Placed;
use compare::random::{album, Draft, DraftTable, Layout, Random};
use compare::simple::{self, Entry, COLUMNS, MISSING, NO_PARENT, ROW, ROWS, WORK_WORDS};
use compare::{keyed, named, unfilled};

/// So many lists with a damage are checked by evidence on each catalogue at the bounds.
const SUPPLIED: usize = 16;
/// The same on each wide catalogue, and so many of its withheld entries and of its dropped ones are listed around.
const WIDE_SUPPLIED: usize = 4;
const AROUND: usize = 20;

pub fn run(trial: &mut Trial) -> Outcome {
    throughout(trial, &album().file())?;
    damaged_album(trial)?;
    packed_album(trial)?;
    supplied::every(trial, album().layout())?;
    for (columns, rows) in [(0, 0), (0, 2), (1, 1), (1, 2), (4, 3), (5, 4), (6, 4)] {
        supplied::every(trial, flat_draft(columns, rows).layout())?;
    }
    for catalogue in named::all() {
        let layout = catalogue.draft.layout();
        let named = |difference: String| format!("{}: {difference}", catalogue.name);
        throughout(trial, &layout.file).map_err(named)?;
        supplied::every(trial, layout).map_err(named)?;
    }
    wide_named(trial)?;
    for (columns, rows) in [(16, 0), (16, 1), (16, 3), (17, 1), (0, ROWS), (0, ROWS + 1), (2, ROWS), (2, ROWS + 1)] {
        flat(trial, columns, rows)?;
    }
    classes(trial)?;
    pairs::large(trial)?;
    line(trial)?;
    wide(trial)
}

/// Every question and every call on a small catalogue, with each number of words at its bound.
fn throughout(trial: &mut Trial, file: &[u8]) -> Outcome {
    trial.file = file.to_vec();
    let placed = Placed::new(file, &mut trial.random);
    let catalogue = check(trial, &placed)?.map_err(|refusal| format!("a sound file is refused: {refusal:?}"))?;
    questions::every(trial, &placed, &catalogue, &[WORK_WORDS - 1, WORK_WORDS])?;
    let listing = simple::full_listing(&catalogue);
    listings::every(trial, &placed, &listing, 4, &[WORK_WORDS - 1, WORK_WORDS, MANY_WORDS])?;
    withheld::run(trial, &placed, &catalogue, &listing, 1)?;
    dropped::run(trial, &placed, &catalogue, &listing, 1)?;
    packed::listing(trial, file, &listing.concat())
}

/// Tables of 14 to 16 visible columns with missing cells, or with known keys: with few words the library lists 14
/// columns by its table and more by planes. Lists of the widest are checked by evidence.
fn wide_named(trial: &mut Trial) -> Outcome {
    for columns in [14, 15, 16] {
        let flat = |table: DraftTable| Draft { tables: vec![table] };
        let (gap, whole) = (flat(unfilled::but_one(columns, false)), flat(unfilled::but_one(columns, true)));
        let (once, twice) = (flat(keyed::one_each(columns, false)), flat(keyed::one_each(columns, true)));
        for (name, draft, listing) in [
            ("all cells but one", gap, Some(but_one_listing(columns, false))),
            ("all cells but one, and a whole row", whole, Some(but_one_listing(columns, true))),
            ("keys of all columns but one", once, Some(one_each_listing(columns, false))),
            ("all columns but one, and rows that stand twice", twice, Some(one_each_listing(columns, true))),
            ("cells in one half of the columns", unfilled::halves(columns, 24), None),
            ("rows above without cells", unfilled::rows_above(&[(3, 6), (4, 8), (4, 12), (columns - 11, 24)]), None),
        ] {
            let named = |difference: String| format!("{columns} columns, {name}: {difference}");
            let layout = draft.layout();
            wide_listing(trial, &layout.file, listing).map_err(named)?;
            if columns == COLUMNS {
                supplied::large(trial, layout, WIDE_SUPPLIED).map_err(named)?;
            }
        }
    }
    Ok(())
}

/// The full listing of a table with all cells but one, told by how it is made: the full set is the only key, and only a
/// whole row backs it.
fn but_one_listing(columns: usize, whole: bool) -> Vec<Vec<Entry>> {
    let full = (1 << columns) - 1;
    let mut listing = vec![Vec::new(); full + 1];
    if whole {
        listing[full].push(Entry { target: 0, right: ROW as u8, left: full as u16 });
    }
    listing
}

/// That of a table with a 1 in each row: the sets with a column less than all stand before the full one. Each is a key,
/// or where rows stand twice gives its column.
fn one_each_listing(columns: usize, twice: bool) -> Vec<Vec<Entry>> {
    let full = (1 << columns) - 1;
    let mut listing = vec![Vec::new(); full + 1];
    for column in 0..columns {
        let right = if twice { column as u8 } else { ROW as u8 };
        let left = full & !(1 << column);
        listing[full - 1 - column].push(Entry { target: 0, right, left: left as u16 });
    }
    listing
}

/// The whole listing at one go and in steps, and calls around the sets of entries that are not listed. A listing that
/// is not told is made by the simple implementation.
fn wide_listing(trial: &mut Trial, file: &[u8], listing: Option<Vec<Vec<Entry>>>) -> Outcome {
    trial.file = file.to_vec();
    let placed = Placed::new(file, &mut trial.random);
    let catalogue = check(trial, &placed)?.map_err(|refusal| format!("a sound file is refused: {refusal:?}"))?;
    let listing = listing.unwrap_or_else(|| simple::full_listing(&catalogue));
    listings::one_go(trial, &placed, &listing)?;
    listings::steps(trial, &placed, &listing, false)?;
    listings::steps(trial, &placed, &listing, true)?;
    withheld::run(trial, &placed, &catalogue, &listing, AROUND)?;
    dropped::run(trial, &placed, &catalogue, &listing, AROUND)?;
    packed::listing(trial, file, &listing.concat())
}

/// The album cut at every length, lengthened, and with each of its bytes altered.
fn damaged_album(trial: &mut Trial) -> Outcome {
    let file = album().file();
    for len in 0..file.len() {
        damaged(trial, &file[..len])?;
    }
    damaged(trial, &[&file[..], &[0]].concat())?;
    for at in 0..file.len() {
        for byte in [0, 1, 2, 3, 16, 17, 254, 255, file[at].wrapping_add(1), file[at].wrapping_sub(1)] {
            let mut file = file.clone();
            file[at] = byte;
            damaged(trial, &file)?;
        }
    }
    Ok(())
}

/// Every reading of the album's packed list: alone, behind the album, as an empty list, cut at every length,
/// lengthened, and with each of its bytes altered.
fn packed_album(trial: &mut Trial) -> Outcome {
    let album = album().file();
    let catalogue = simple::check(&album).map_err(|refusal| format!("the album is refused: {refusal:?}"))?;
    let entries = simple::full_listing(&catalogue).concat();
    let file = packed::written(&entries, &[]);
    for len in 0..=file.len() {
        packed::every_read(trial, &file[..len])?;
    }
    for file in [packed::written(&entries, &album), packed::written(&[], &album), packed::written(&[], &[]), album] {
        packed::every_read(trial, &file)?;
    }
    packed::every_read(trial, &[&file[..], &[0]].concat())?;
    for at in 0..file.len() {
        for byte in [0, 1, 2, 3, 15, 16, 254, 255, file[at].wrapping_add(1), file[at].wrapping_sub(1)] {
            let mut file = file.clone();
            file[at] = byte;
            packed::every_read(trial, &file)?;
        }
    }
    Ok(())
}

/// One table, in and past the bounds.
fn flat(trial: &mut Trial, columns: usize, rows: usize) -> Outcome {
    whole(trial, flat_draft(columns, rows).layout())
}

/// Codes from small ranges; the last column is given by the first.
fn flat_draft(columns: usize, rows: usize) -> Draft {
    let mut random = Random::new(columns as u64);
    let mut row = || {
        let mut codes: Vec<u32> = (0..columns).map(|k| random.below(2 + k % 3) as u32).collect();
        if columns > 1 {
            codes[columns - 1] = codes[0] % 2;
        }
        (NO_PARENT, codes)
    };
    let rows = (0..rows).map(|_| row()).collect();
    Draft { tables: vec![DraftTable { columns, parent: NO_PARENT, rows }] }
}

/// One table of 300 rows whose columns have few classes of rows, or 255 to 300 of them, some with missing cells, each a
/// class of its own: the library tells classes by a byte where there are at most 256.
fn classes(trial: &mut Trial) -> Outcome {
    let mut random = Random::new(300);
    let values = [2, 255, 256, 257, 3, 300, 2, 4, 250, 250];
    let missing = [0, 0, 0, 0, 0, 0, 1, 0, 6, 7];
    let mut row = |k: usize| {
        let code = |(values, missing): (usize, usize)| match k {
            k if k < missing => MISSING,
            _ if values < 250 => random.below(values) as u32,
            k => ((k - missing) % values) as u32,
        };
        (NO_PARENT, values.into_iter().zip(missing).map(code).collect())
    };
    let rows = (0..300).map(&mut row).collect();
    whole(trial, Draft { tables: vec![DraftTable { columns: values.len(), parent: NO_PARENT, rows }] }.layout())
}

/// A line of four tables with 16 visible columns, some cells missing at every level.
fn line(trial: &mut Trial) -> Outcome {
    let mut random = Random::new(4);
    let mut tables: Vec<DraftTable> = Vec::new();
    for (i, (columns, rows)) in [(3, 2), (4, 3), (4, 3), (5, 4)].into_iter().enumerate() {
        let mut row = || {
            let codes = (0..columns).map(|_| random.pick(&[0, 1, 1, MISSING])).collect();
            let parent = if i == 0 { NO_PARENT } else { random.below(tables[i - 1].rows.len()) };
            (parent, codes)
        };
        let rows = (0..rows).map(|_| row()).collect();
        tables.push(DraftTable { columns, parent: if i == 0 { NO_PARENT } else { i - 1 }, rows });
    }
    whole(trial, Draft { tables }.layout())
}

/// Sixteen visible columns with thousands of entries and hundreds of records, in one table and in two.
fn wide(trial: &mut Trial) -> Outcome {
    let mut random = Random::new(16);
    for (upper, rows) in [(0, 20), (7, 24)] {
        let mut codes = |columns: usize| (0..columns).map(|k| random.below(2 + k % 3) as u32).collect();
        let above = (0..4).map(|_| (NO_PARENT, codes(upper))).collect();
        let below = (0..rows).map(|k| (k % 4, codes(COLUMNS - upper))).collect();
        let root = DraftTable { columns: upper, parent: NO_PARENT, rows: above };
        let sheets = DraftTable { columns: COLUMNS - upper, parent: 0, rows: below };
        supplied::large(trial, Draft { tables: vec![root, sheets] }.layout(), 6)?;
    }
    Ok(())
}

/// The check, a few questions, the whole listing with few words and with many, and its check by evidence.
fn whole(trial: &mut Trial, layout: Layout) -> Outcome {
    let file = &layout.file;
    trial.file = file.to_vec();
    let placed = Placed::new(file, &mut trial.random);
    match check(trial, &placed)? {
        Err(_) => damaged(trial, file),
        Ok(catalogue) => {
            questions::few(trial, &placed, &catalogue)?;
            let listing = simple::full_listing(&catalogue);
            listings::one_go(trial, &placed, &listing)?;
            listings::steps(trial, &placed, &listing, false)?;
            listings::steps(trial, &placed, &listing, true)?;
            listings::any_calls(trial, &placed, &listing)?;
            packed::listing(trial, file, &listing.concat())?;
            supplied::large(trial, layout, SUPPLIED)
        }
    }
}
