//! Times of the processor, and how they are shown.

use std::hint::black_box;
use std::time::{Duration, Instant};

/// The least of several runs, in seconds: at least one, and more within about half a second.
pub fn least(mut run: impl FnMut() -> f64) -> f64 {
    let start = Instant::now();
    let mut best = f64::INFINITY;
    for _ in 0..1_000 {
        best = best.min(run());
        if start.elapsed() > Duration::from_millis(500) {
            break;
        }
    }
    best
}

/// The time that the processor spent on some work, in seconds.
pub fn seconds<T>(work: impl FnOnce() -> T) -> f64 {
    let start = processor_time();
    black_box(work());
    processor_time() - start
}

/// The processor's time for this thread so far, in seconds.
fn processor_time() -> f64 {
    const CLOCK_THREAD_CPUTIME_ID: i32 = 3;
    extern "C" {
        fn clock_gettime(clock: i32, time: *mut [i64; 2]) -> i32;
    }
    let mut time = [0; 2];
    unsafe { clock_gettime(CLOCK_THREAD_CPUTIME_ID, &mut time) };
    time[0] as f64 + time[1] as f64 * 1e-9
}

fn noise(work: &mut [u32]) {
    work.iter_mut().enumerate().for_each(|(i, word)| *word = (i as u32).wrapping_mul(2_654_435_761) | 1);
}

/// The time of a library call with work words that hold noise at its start.
pub fn with_words(words: usize, mut call: impl FnMut(&mut [u32])) -> f64 {
    let mut work = vec![0; words];
    least(|| {
        noise(&mut work);
        seconds(|| call(&mut work))
    })
}

pub fn shown(time: f64) -> String {
    match time {
        time if time >= 1.0 => format!("{time:.2} s"),
        time if time >= 1e-3 => format!("{:.2} ms", time * 1e3),
        time => format!("{:.2} us", time * 1e6),
    }
}

pub fn ratio(peer: f64, library: Option<f64>) -> String {
    match library {
        Some(library) => format!("{} (x {:.2})", shown(peer), peer / library),
        None => shown(peer),
    }
}
