//! Compares the library's conversion of a supplier's text with the simple implementation, on texts made of random
//! catalogues, sound and damaged.
//!
//!     convert [CATALOGUES] [SEED] [FILE]
//!
//! CATALOGUES (10,000 if not given) are made from the seeds SEED, SEED + 1, and so on (from 1 if not given), each with
//! some forty texts, after the texts by hand, on as many threads as there are processors. All that the library
//! converted goes to FILE, if one is given, for `expat.py` to read. A difference is printed with its seed, shape and
//! text, and ends the run with status 1; `convert 1 SEED` repeats it.

mod damages;
mod fixed;
mod rows;
mod seen;
mod trees;
mod trial;

use std::ops::Range;
use std::process::exit;
use std::thread::{available_parallelism, scope};
use std::time::Instant;
use trial::{Outcome, Trial};

/// From so many catalogues on, every kind of text must have got each of its numbers often.
const COMPLETE: u64 = 10_000;

fn main() {
    let arguments: Vec<String> = std::env::args().skip(1).collect();
    let number = |at: usize, default: u64| match arguments.get(at).map(|word| word.parse()) {
        None => default,
        Some(Ok(number)) => number,
        Some(Err(_)) => {
            eprintln!("usage: convert [CATALOGUES] [SEED] [FILE]");
            exit(2)
        }
    };
    let (count, first) = (number(0, 10_000), number(1, 1));
    let start = Instant::now();
    let mut trial = Trial::new();
    let outcome = fixed::run(&mut trial);
    end_on_difference(&trial, "fixed texts", outcome);
    let workers = available_parallelism().map_or(1, |number| number.get() as u64);
    scope(|threads| {
        let bounds = |worker: u64| first + count * worker / workers;
        let seeds = (0..workers).map(|worker| bounds(worker)..bounds(worker + 1));
        let running: Vec<_> = seeds.map(|seeds| threads.spawn(move || texts_of(seeds))).collect();
        for done in running.into_iter().map(|thread| thread.join().unwrap()) {
            trial.seen.add(&done.seen);
            trial.accepted.extend(done.accepted);
        }
    });
    if let Some(path) = arguments.get(2) {
        std::fs::write(path, &trial.accepted).unwrap_or_else(|error| panic!("{path}: {error}"));
    }
    trial.seen.print();
    let seldom = trial.seen.seldom();
    if count >= COMPLETE && !seldom.is_empty() {
        println!("some kind of text got some number too seldom:\n{}", seldom.join("\n"));
        exit(1);
    }
    let (texts, time) = (trial.seen.texts(), start.elapsed().as_secs_f64());
    println!("{texts} texts of {count} catalogues from seed {first}, no difference, {time:.1} s");
}

/// Compares the texts of some seeds.
fn texts_of(seeds: Range<u64>) -> Trial {
    let mut trial = Trial::new();
    for seed in seeds {
        trial.start(seed);
        let outcome = trees::run(&mut trial);
        end_on_difference(&trial, &format!("seed {seed}"), outcome);
    }
    trial
}

fn end_on_difference(trial: &Trial, which: &str, outcome: Outcome) {
    if let Err(difference) = outcome {
        println!("DIFFERENCE, {which}: {difference}\n{}", trial.shown());
        exit(1);
    }
}
