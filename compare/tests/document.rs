//! The simple implementation on document 01's own cases (the album, K1 to K11 and the boundary cases), on the first of
//! several breaking pairs (02 a), on what a row backs (02 d), and on what a key stands for (02 e).

use compare::simple::*;

/// A table: its columns, its parent, and its rows as parent row and codes.
type Plain<'a> = (u16, u16, &'a [(u16, &'a [u32])]);

fn file(tables: &[Plain]) -> Vec<u8> {
    let mut file = Vec::new();
    let mut offsets = Vec::new();
    for (columns, parent, rows) in tables {
        offsets.push(file.len() as u32);
        file.extend([*columns, *parent, rows.len() as u16].map(u16::to_le_bytes).concat());
        for (parent, codes) in *rows {
            file.extend(parent.to_le_bytes());
            codes.iter().for_each(|code| file.extend(code.to_le_bytes()));
        }
    }
    let trailer = file.len() as u32;
    offsets.iter().for_each(|offset| file.extend(offset.to_le_bytes()));
    file.extend((offsets.len() as u16).to_le_bytes());
    file.extend(trailer.to_le_bytes());
    file
}

const ROOT: u16 = 65_535;

fn album() -> Vec<u8> {
    let upper: Plain = (1, ROOT, &[(ROOT, &[5]), (ROOT, &[5]), (ROOT, &[MISSING])]);
    let lower: Plain = (2, 0, &[(0, &[1, 7]), (1, &[3, 7]), (2, &[1, 8]), (2, &[2, 8])]);
    file(&[upper, lower])
}

fn words() -> Vec<u32> {
    vec![9; WORK_WORDS]
}

/// The full listing as the listing program prints it: target, left, right.
fn lines(catalogue: &Catalogue) -> Vec<(u8, u16, u8)> {
    full_listing(catalogue).concat().iter().map(|entry| (entry.target, entry.left, entry.right)).collect()
}

fn answer(file: &[u8], target: u32, left: u32, right: u32) -> bool {
    ask(&check(file).unwrap(), target, left, right, &mut words()).unwrap()
}

#[test]
fn the_album_is_the_file_beside_the_examples() {
    let album = album();
    assert_eq!(album.len(), 84);
    assert_eq!(album[70..74], 0u32.to_le_bytes());
    assert_eq!(album[74..78], 24u32.to_le_bytes());
    assert_eq!(album[80..84], 70u32.to_le_bytes());
    assert_eq!(album, std::fs::read("../examples/album.cat").unwrap());
}

#[test]
fn the_album_lists_three_entries() {
    let catalogue = check(&album()).unwrap();
    assert_eq!((catalogue.tables.len(), catalogue.sets()), (2, 10));
    assert_eq!(lines(&catalogue), [(1, 1, 2), (1, 3, 255), (1, 6, 255)]);
}

#[test]
fn cases_k1_to_k9() {
    let album = album();
    assert!(answer(&album, 1, 1, 2));
    assert!(!answer(&album, 1, 2, 2));
    assert_eq!(pair(&check(&album).unwrap(), 1, 2, 2, &mut words()), Ok(Some((0, 2))));
    assert!(answer(&album, 1, 6, ROW));
    assert!(!answer(&album, 0, 0, 0));
    assert!(answer(&album, 0, 1, 0));
    assert!(answer(&file(&[(1, ROOT, &[])]), 0, 0, ROW));
    assert!(answer(&file(&[(1, ROOT, &[(ROOT, &[MISSING])])]), 0, 0, 0));
    assert!(answer(&file(&[(1, ROOT, &[(ROOT, &[MISSING]), (ROOT, &[MISSING])])]), 0, 1, ROW));
    let equal = file(&[(0, ROOT, &[(ROOT, &[])]), (2, 0, &[(0, &[1, 2]), (0, &[1, 2])])]);
    assert!(!answer(&equal, 1, 3, ROW));
}

/// K1's entry is listed, since {0} is no key of table 1, and so is K3's key. K9's rows have no key, so that the columns
/// which the empty set gives are listed; of the one row above them it is the key.
#[test]
fn cases_k1_to_k9_listed_or_not() {
    let album = check(&album()).unwrap();
    assert!(listed(&album, 1, 1, 2) && !key(&album, 1, 1));
    assert!(listed(&album, 1, 6, ROW) && key(&album, 1, 6));
    assert!(!listed(&album, 1, 2, 2) && !listed(&album, 0, 0, 0) && !listed(&album, 0, 1, 0));
    let equal = check(&file(&[(0, ROOT, &[(ROOT, &[])]), (2, 0, &[(0, &[1, 2]), (0, &[1, 2])])])).unwrap();
    assert_eq!(lines(&equal), [(0, 0, 255), (1, 0, 0), (1, 0, 1)]);
}

/// Whether a dependency of table 0 holds, is minimal, is backed, repeats a key, and is listed.
fn five(file: &[u8], left: u32, right: u32) -> [bool; 5] {
    let catalogue = check(file).unwrap();
    let [minimal, repeats_key, listed] = [minimal, repeats_key, listed].map(|of| of(&catalogue, 0, left, right));
    [answer(file, 0, left, right), minimal, backed(&catalogue, 0, left), repeats_key, listed]
}

/// "A table without rows now lists nothing; K8's key holds and is unlisted." Of K7's one row the key alone is listed.
#[test]
fn cases_k6_to_k8_listed_or_not() {
    let no_rows = file(&[(1, ROOT, &[])]);
    assert_eq!(five(&no_rows, 0, ROW), [true, true, false, false, false]);
    assert_eq!(five(&no_rows, 0, 0), [true, true, false, true, false]);
    assert!(lines(&check(&no_rows).unwrap()).is_empty());
    // the row backs the empty set, its missing cell notwithstanding; the empty set is a key
    let one_row = file(&[(1, ROOT, &[(ROOT, &[MISSING])])]);
    assert_eq!(five(&one_row, 0, 0), [true, true, true, true, false]);
    assert_eq!(five(&one_row, 0, ROW), [true, true, true, false, true]);
    assert_eq!(five(&one_row, 1, ROW), [true, false, false, false, false]);
    assert_eq!(lines(&check(&one_row).unwrap()), [(0, 0, 255)]);
    let two_rows = file(&[(1, ROOT, &[(ROOT, &[MISSING]), (ROOT, &[MISSING])])]);
    assert_eq!(five(&two_rows, 1, ROW), [true, true, false, false, false]);
    assert_eq!(five(&two_rows, 0, ROW), [false, false, true, false, false]);
    assert!(lines(&check(&two_rows).unwrap()).is_empty());
    // one cell more
    let with_a_cell = file(&[(1, ROOT, &[(ROOT, &[MISSING]), (ROOT, &[7])])]);
    assert_eq!(five(&with_a_cell, 1, ROW), [true, true, true, false, true]);
}

/// In the album's table 1 the keys are {0, 1}, {1, 2} and the full set. {0, 1} gives 2, and so does {0}, which is no
/// key; {1, 2} has both own columns in it. Table 0 has no key.
#[test]
fn the_album_drops_no_entry() {
    let catalogue = check(&album()).unwrap();
    let keys = |target: usize, sets: u32| (0..sets).filter(|left| key(&catalogue, target, *left)).collect::<Vec<u32>>();
    assert_eq!((keys(0, 2), keys(1, 8)), (vec![], vec![3, 6, 7]));
    assert!(repeats_key(&catalogue, 1, 3, 2) && !minimal(&catalogue, 1, 3, 2));
    for right in rights(&catalogue, 1) {
        for left in 0..8 {
            let stands = backed(&catalogue, 1, left) && minimal(&catalogue, 1, left, right);
            assert_eq!(listed(&catalogue, 1, left, right), stands);
        }
    }
}

/// Every left side of the album's table 1: rows 0 and 1 have all cells, rows 2 and 3 lack that of column 0. In table 0
/// rows 0 and 1 have their cell.
#[test]
fn the_album_backs_every_left_side() {
    let catalogue = check(&album()).unwrap();
    assert!((0..8).all(|left| backed(&catalogue, 1, left)));
    assert!((0..2).all(|left| backed(&catalogue, 0, left)));
}

/// The lowest first row, then the lowest second row.
#[test]
fn the_first_breaking_pair() {
    let first = |rows: &[(u16, &[u32])]| {
        let file = file(&[(2, ROOT, rows)]);
        pair(&check(&file).unwrap(), 0, 1, 1, &mut words()).unwrap()
    };
    let row = |codes| (ROOT, codes);
    let [a, b, c, d, e]: [&[u32]; 5] = [&[1, 1], &[1, 2], &[1, 3], &[2, 1], &[2, 2]];
    assert_eq!(first(&[row(a), row(d), row(e), row(b), row(c)]), Some((0, 3)));
    assert_eq!(first(&[row(d), row(a), row(a), row(b), row(c)]), Some((1, 3)));
    assert_eq!(first(&[row(d), row(a), row(d), row(a)]), None);
}

#[test]
fn cases_k10_and_k11() {
    assert_eq!(left_sides(3), [0, 1, 2, 4, 3, 5, 6, 7]);
    let listing = full_listing(&check(&album()).unwrap());
    let mut run = [Entry::default(); 3];
    let end = Answer { next_place: 10, passed: 0, entries: 0 };
    assert_eq!(list(&listing, 10, 5, &mut run, &mut words()), Ok(end));
    assert_eq!(list(&listing, 11, 5, &mut run, &mut words()), Err(Refusal::PastTheEnd));
}

#[test]
fn bounds() {
    let codes = [1u32; 17];
    assert!(check(&file(&[(16, ROOT, &[(ROOT, &codes[..16])])])).is_ok());
    assert_eq!(check(&file(&[(17, ROOT, &[(ROOT, &codes)])])).unwrap_err(), Refusal::Oversize);
    let rows = [(ROOT, &[] as &[u32]); 4_097];
    assert!(check(&file(&[(0, ROOT, &rows[..4_096])])).is_ok());
    assert_eq!(check(&file(&[(0, ROOT, &rows)])).unwrap_err(), Refusal::Oversize);
    assert_eq!(check(&file(&[(16, ROOT, &[]), (1, 0, &[])])).unwrap_err(), Refusal::TooWide);
    assert_eq!(file(&[(0, ROOT, &[])]).len(), SMALLEST_FILE);
    let catalogue = check(&album()).unwrap();
    assert_eq!(ask(&catalogue, 1, 1, 2, &mut [0; 16_383]), Err(Refusal::SmallBench));
    assert!(ask(&catalogue, 1, 1, 2, &mut words()).is_ok());
}

#[test]
fn a_run_of_no_records() {
    let listing = full_listing(&check(&album()).unwrap());
    let mut work = words();
    let stop = Answer { next_place: 3, passed: 3, entries: 0 };
    assert_eq!(list(&listing, 0, 100, &mut [], &mut work), Ok(stop));
    work.fill(9);
    assert_eq!(list(&listing, 3, 1, &mut [], &mut work), Err(Refusal::TrayFull));
    assert!(work.iter().all(|word| *word == 0));
    let same = Answer { next_place: 3, passed: 0, entries: 0 };
    assert_eq!(list(&listing, 3, 0, &mut [], &mut work), Ok(same));
}

#[test]
fn packed_lists_round_trip() {
    let entries = full_listing(&check(&album()).unwrap()).concat();
    let mut output = [7; 24];
    assert_eq!(pack(&entries, &mut output), Ok(20));
    assert_eq!(output[20..], [7; 4]);
    let opened = open(&[&album()[..], &output[..20]].concat()).unwrap();
    assert_eq!(opened, List { front: 84, entries: entries.clone() });
    assert_eq!(pack(&entries, &mut output[..19]), Err(Refusal::ShortSheet));
    let twice = [entries[0], entries[0]];
    assert_eq!(pack(&twice, &mut []), Err(Refusal::BadEntry));
    assert_eq!(open(&output[..7]), Err(Refusal::NoList));
}

#[test]
fn lists_are_read_into_runs() {
    let entries = full_listing(&check(&album()).unwrap()).concat();
    let mut file = [0; 20];
    pack(&entries, &mut file).unwrap();
    let noise = Entry { target: 7, right: 7, left: 7 };
    let mut run = [noise; 2];
    assert_eq!((read(&file, 0, &mut run), run), (Ok(2), [entries[0], entries[1]]));
    run = [noise; 2];
    assert_eq!((read(&file, 2, &mut run), run), (Ok(1), [entries[2], noise]));
    for end in [3, 4, usize::MAX] {
        assert_eq!(read(&file, end, &mut run), Ok(0));
    }
    assert_eq!(read(&file, 0, &mut []), Ok(0));
    file[0] = 16;
    assert_eq!(read(&file, 3, &mut run), Err(Refusal::BadEntry));
    assert_eq!(read(&file[1..12], 0, &mut run), Err(Refusal::NoList));
    assert_eq!(run, [entries[2], noise]);
}

#[test]
fn the_text_of_the_listing_program() {
    let text = |input: &[u8]| printed(input, |catalogue| full_listing(catalogue).concat());
    assert_eq!(text(&album()), "tables 2 sets 10 entries 3\n1 1 2\n1 3 row\n1 6 row\n");
    let one_row = file(&[(1, ROOT, &[(ROOT, &[MISSING])])]);
    assert_eq!(text(&one_row), "tables 1 sets 2 entries 1\n0 0 row\n");
    assert_eq!(text(&[0; 15]), "refused 1\n");
    assert_eq!(text(&[0; 32_768]), "refused 2\n");
    assert_eq!(text(&[0; 32_769]), "too long\n");
}
