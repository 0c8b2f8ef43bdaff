//! Runs the compiled listing program and compares all that it prints with the text by document 01.
//!
//!     program [PATH] [CATALOGUES] [SEED]
//!
//! PATH is ../crates/list/out/list if not given. After the fixed inputs, CATALOGUES (1,000 if not given) are made from
//! the seeds SEED, SEED + 1, and so on (from 1 if not given), each sound and damaged. A difference is printed
//! with its input, and ends the run with status 1.

mod child;
mod inputs;

use child::Way;
use compare::random::{self, Draft, Random};
use compare::simple::{self, Catalogue, Entry, INPUT_BYTES};
use compare::{keyed, named, table, unfilled};
use std::path::PathBuf;
use std::process::exit;
use std::time::Instant;

/// Sets times pairs of rows, up to which the full listing is made by the simple implementation; others are made by
/// the table, which the tests hold to the simple implementation.
const SIMPLE_WORK: usize = 100_000;

type Outcome = Result<(), String>;

/// The program, and what occurred so far.
struct Trial {
    program: PathBuf,
    refusals: [u64; 17],
    too_long: u64,
    listings: u64,
    most_entries: usize,
}

impl Trial {
    /// The program's output for an input, and the text by the document.
    fn compare(&mut self, name: &str, input: &[u8], way: &Way) -> Outcome {
        let expected = simple::printed(input, full_listing);
        let output = child::output(&self.program, input, way);
        self.count(&expected);
        let difference = match output {
            Err(failure) => failure,
            Ok(output) if output == expected.as_bytes() => return Ok(()),
            Ok(output) => first_difference(&output, expected.as_bytes()),
        };
        let hex: String = input.iter().map(|byte| format!("{byte:02x}")).collect();
        Err(format!("{name}, {way}\n{difference}\ninput of {} bytes:\n{hex}", input.len()))
    }

    fn count(&mut self, text: &str) {
        if text == "too long\n" {
            self.too_long += 1;
        } else if let Some(number) = text.strip_prefix("refused ") {
            self.refusals[number.trim_end().parse::<usize>().unwrap()] += 1;
        } else {
            self.listings += 1;
            self.most_entries = self.most_entries.max(text.lines().count() - 1);
        }
    }

    /// Whether listings, refusals 1 to 7 and `too long` have all occurred.
    fn all(&self) -> bool {
        self.listings > 0 && self.refusals[1..8].iter().all(|count| *count > 0) && self.too_long > 0
    }

    fn summary(&self) -> String {
        let refusals: Vec<String> = (1..8).map(|number| format!("{number}: {}", self.refusals[number])).collect();
        let (listings, most, too_long) = (self.listings, self.most_entries, self.too_long);
        format!("{listings} listings of up to {most} entries, refused {}, too long {too_long}", refusals.join(", "))
    }
}

fn full_listing(catalogue: &Catalogue) -> Vec<Entry> {
    let work: usize = catalogue.tables.iter().map(|table| table.rows.len().pow(2) << table.visible.len()).sum();
    if work > SIMPLE_WORK {
        table::listing(catalogue)
    } else {
        simple::full_listing(catalogue).concat()
    }
}

/// Where two texts differ first, with the lines there.
fn first_difference(output: &[u8], expected: &[u8]) -> String {
    let at = output.iter().zip(expected).take_while(|(a, b)| a == b).count();
    let line = expected[..at].iter().filter(|byte| **byte == b'\n').count();
    let shown = |text: &[u8]| {
        let start = text[..at].iter().rposition(|byte| *byte == b'\n').map_or(0, |end| end + 1);
        let end = text.len().min(at + 40);
        format!("{} bytes, there {:?}", text.len(), String::from_utf8_lossy(&text[start..end]))
    };
    format!("line {} differs\n  program  {}\n  document {}", line + 1, shown(output), shown(expected))
}

/// The document's example, and inputs at and past the bound on bytes: sound ones, the same cut and lengthened, and
/// noise. Handed over at once, and cut so that the last byte comes late.
fn sizes(trial: &mut Trial) -> Outcome {
    let random = &mut Random::new(9);
    let album = std::fs::read("../examples/album.cat").map_err(|error| format!("../examples/album.cat: {error}"))?;
    trial.compare("the album", &album, &Way::at_once())?;
    trial.compare("the album", &album, &Way::in_pieces(album.len(), 1))?;
    trial.compare("no input", &[], &Way::at_once())?;
    for columns in 2..=simple::COLUMNS {
        for bytes in [INPUT_BYTES - 2, INPUT_BYTES, INPUT_BYTES + 2] {
            let mut file = inputs::sized(random, bytes, columns);
            trial.compare("a catalogue at the bound", &file, &Way::at_once())?;
            trial.compare("a catalogue at the bound", &file, &Way::cut_at(bytes - 1))?;
            file.pop();
            trial.compare("a catalogue at the bound, cut", &file, &Way::at_once())?;
            file.extend([0, 0]);
            trial.compare("a catalogue at the bound, lengthened", &file, &Way::cut_at(bytes))?;
        }
    }
    for bytes in [0, 1, 15, 16, 17, 4_096, 4_097, INPUT_BYTES - 1, INPUT_BYTES, INPUT_BYTES + 1, 65_536, 65_537] {
        let noise = inputs::noise(random, bytes);
        trial.compare("noise", &noise, &Way::at_once())?;
        trial.compare("noise", &noise, &Way::in_pieces(bytes, 1 + bytes / 10))?;
    }
    trial.compare("much noise", &inputs::noise(random, 1_000_000), &Way::at_once())
}

/// The named catalogues, with missing cells, without rows, or with keys that stand for columns: small ones, and ones of
/// 15 and 16 columns.
fn named(trial: &mut Trial) -> Outcome {
    for catalogue in named::all() {
        trial.compare(catalogue.name, &catalogue.draft.file(), &Way::at_once())?;
    }
    for columns in [15, 16] {
        let whole = Draft { tables: vec![unfilled::but_one(columns, columns == 16)] };
        trial.compare("all cells but one", &whole.file(), &Way::at_once())?;
        trial.compare("cells in one half", &unfilled::halves(columns, 200).file(), &Way::at_once())?;
        for twice in [false, true] {
            let ones = Draft { tables: vec![keyed::one_each(columns, twice)] };
            trial.compare("all columns but one", &ones.file(), &Way::at_once())?;
        }
    }
    Ok(())
}

/// Listings of about 65,536 entries and of many more, their output taken at once, slowly, and with its writes cut.
fn lengths(trial: &mut Trial) -> Outcome {
    for entries in [65_535, 65_536, 65_537] {
        let file = inputs::with_entries(entries);
        assert_eq!(entries_of(&file), entries);
        trial.compare("a long listing", &file, &Way::at_once())?;
        trial.compare("a long listing", &file, &Way::interrupted(10_000))?;
    }
    let most = inputs::most();
    assert!(entries_of(&most) > 2 * 65_536);
    for way in [Way::at_once(), Way::in_pieces(most.len(), 1_021), Way::slowly(10_000), Way::interrupted(30_000)] {
        trial.compare("the longest listing", &most, &way)?;
    }
    Ok(())
}

fn entries_of(file: &[u8]) -> usize {
    assert!(file.len() <= INPUT_BYTES);
    table::listing(&simple::check(file).expect("a sound catalogue")).len()
}

/// A random catalogue, sound and damaged, and some at a bound; one in eight handed over in pieces and taken slowly.
fn catalogue(trial: &mut Trial, seed: u64) -> Outcome {
    let random = &mut Random::new(seed);
    let layout = random::draft(random).layout();
    let mut files = vec![layout.file.clone(), random::damaged(random, &layout)];
    if random.once_in(10) {
        let layout = random::draft_at_bound(random).layout();
        files.push(random::damaged(random, &layout));
        files.push(layout.file);
    }
    for file in files {
        let way = if random.once_in(8) {
            let bytes = 1 + file.len() / random.from_to(2, 20);
            Way { taken: random.from_to(1_000, 70_000), ..Way::in_pieces(file.len(), bytes) }
        } else {
            Way::at_once()
        };
        trial.compare(&format!("seed {seed}"), &file, &way)?;
    }
    Ok(())
}

fn end_on_difference(outcome: Outcome) {
    if let Err(difference) = outcome {
        println!("DIFFERENCE, {difference}");
        exit(1);
    }
}

fn main() {
    let arguments: Vec<String> = std::env::args().skip(1).collect();
    let number = |at: usize, default: u64| match arguments.get(at).map(|word| word.parse()) {
        None => default,
        Some(Ok(number)) => number,
        Some(Err(_)) => {
            eprintln!("usage: program [PATH] [CATALOGUES] [SEED]");
            exit(2)
        }
    };
    let program = arguments.first().map_or("../crates/list/out/list", String::as_str).into();
    let (count, first) = (number(1, 1_000), number(2, 1));
    let start = Instant::now();
    let mut trial = Trial { program, refusals: [0; 17], too_long: 0, listings: 0, most_entries: 0 };
    end_on_difference(sizes(&mut trial));
    end_on_difference(named(&mut trial));
    end_on_difference(lengths(&mut trial));
    for seed in first..first + count {
        end_on_difference(catalogue(&mut trial, seed));
    }
    if count >= 1_000 && !trial.all() {
        println!("some refusal or answer never occurred: {}", trial.summary());
        exit(1);
    }
    println!("the listing program, no difference: {}, {:.1} s", trial.summary(), start.elapsed().as_secs_f64());
}
