//! Compares the library with the simple implementation on random catalogues, sound and damaged.
//!
//!     compare [CATALOGUES] [SEED] [KIND]
//!
//! CATALOGUES (20,000 if not given) are made from the seeds SEED, SEED + 1, and so on (from 1 if not given), after the
//! fixed cases, on as many threads as there are processors. KIND is `mixed` if not given, or `skewed`, `deep`, `few`,
//! `missing` or `wide`. A difference is printed with its seed and catalogue, and ends the run with status 1;
//! `compare 1 SEED KIND` repeats it.

mod catalogues;
mod damages;
mod dropped;
mod fixed;
mod listings;
mod packed;
mod pairs;
mod questions;
mod seen;
mod supplied;
mod trial;
mod withheld;

use compare::random::{Kind, KINDS};
use seen::Seen;
use std::ops::Range;
use std::process::exit;
use std::thread::{available_parallelism, scope};
use std::time::Instant;
use trial::Trial;

/// A line is printed after so many catalogues: it tells where a crash happened.
const PROGRESS: u64 = 2_000;
/// From so many mixed catalogues on, every refusal, answer and kind must have occurred.
const COMPLETE: u64 = 1_000;

/// An argument as it is read, or the default if it is not given.
fn argument<T>(number: usize, read: impl Fn(&str) -> Option<T>, default: T) -> T {
    let Some(word) = std::env::args().nth(number) else { return default };
    read(&word).unwrap_or_else(|| {
        let kinds = KINDS.map(|kind| kind.name).join(", ");
        eprintln!("usage: compare [CATALOGUES] [SEED] [KIND]; kinds are {kinds}");
        exit(2)
    })
}

fn main() {
    let number = |word: &str| word.parse().ok();
    let (count, first): (u64, u64) = (argument(1, number, 20_000), argument(2, number, 1));
    let kind = argument(3, Kind::named, KINDS[0]);
    let start = Instant::now();
    let mut trial = Trial::new();
    let result = fixed::run(&mut trial);
    end_on_difference(&trial, "fixed cases", result);
    let workers = available_parallelism().map_or(1, |number| number.get() as u64);
    scope(|threads| {
        let bounds = |worker: u64| first + count * worker / workers;
        let seeds = (0..workers).map(|worker| bounds(worker)..bounds(worker + 1));
        let running: Vec<_> = seeds.map(|seeds| threads.spawn(move || catalogues_of(kind, seeds, start))).collect();
        running.into_iter().for_each(|thread| trial.seen.add(&thread.join().unwrap()));
    });
    trial.seen.print();
    if kind.is_mixed() && count >= COMPLETE && !trial.seen.all() {
        println!("some refusal or answer never occurred, or some kind of entry or check by evidence too seldom");
        exit(1);
    }
    println!(
        "{count} {} catalogues from seed {first}, {} comparisons, no difference, {:.1} s",
        kind.name,
        trial.seen.comparisons,
        start.elapsed().as_secs_f64()
    );
}

/// Compares the catalogues of some seeds.
fn catalogues_of(kind: Kind, seeds: Range<u64>, start: Instant) -> Seen {
    let mut trial = Trial::new();
    let first = seeds.start;
    for seed in seeds {
        trial.start(seed);
        let result = catalogues::run(&mut trial, kind);
        end_on_difference(&trial, &format!("seed {seed}, {}", kind.name), result);
        if (seed - first) % PROGRESS == PROGRESS - 1 {
            println!("seeds {first} to {seed} alike, {:.1} s", start.elapsed().as_secs_f64());
        }
    }
    trial.seen
}

fn end_on_difference(trial: &Trial, which: &str, result: Result<(), String>) {
    if let Err(difference) = result {
        println!("DIFFERENCE, {which}");
        println!("{difference}");
        println!("file of {} bytes:", trial.file.len());
        println!("{}", trial::hex(&trial.file));
        exit(1);
    }
}
