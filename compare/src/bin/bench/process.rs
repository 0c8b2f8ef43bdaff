//! A library listing in a process of its own, so that it can be given up.

use crate::shapes::{shape, Shape};
use crate::timing::with_words;
use compare::ffi;
use compare::simple::Entry;
use std::process::{exit, Command, Stdio};
use std::time::{Duration, Instant};

/// Records lent to a listing: more than any of these shapes has entries.
pub const RECORDS: usize = 1 << 20;
/// A library listing that takes longer is given up.
pub const GIVE_UP: Duration = Duration::from_secs(180);

/// A number that tells two lists of entries apart.
pub fn digest(entries: &[Entry]) -> u64 {
    entries.iter().fold(entries.len() as u64, |sum, entry| {
        let number = (entry.target as u64) << 24 | (entry.right as u64) << 16 | entry.left as u64;
        (sum ^ number).wrapping_mul(0x0000_0100_0000_01B3)
    })
}

/// Lists the whole catalogue by calls of this budget. Gives the entries.
pub fn listed(file: &[u8], budget: u32, run: &mut [Entry], work: &mut [u32]) -> usize {
    let (mut place, mut count) = (0, 0);
    loop {
        let (mut next, mut passed) = (0, 0);
        let reply = ffi::list(file, place, budget, &mut run[count..], work, &mut next, &mut passed);
        assert!(reply >= 0, "refused {reply}");
        count += reply as usize;
        place = next;
        if passed < budget {
            return count;
        }
    }
}

/// `bench --listing SHAPE WORDS BUDGET`: prints the time, the number of entries and their digest.
pub fn child(arguments: &[String]) {
    let shape = shape(&arguments[0]).unwrap();
    let words = arguments[1].parse().unwrap();
    let budget = arguments[2].parse().unwrap();
    let mut run = vec![Entry { target: 9, right: 9, left: 9 }; RECORDS];
    let mut count = 0;
    let time = with_words(words, |work| count = listed(&shape.file, budget, &mut run, work));
    println!("{time} {count} {}", digest(&run[..count]));
}

/// The time, number and digest of a library listing, or none if it took too long.
pub fn library_listing(shape: &Shape, words: usize, budget: u32) -> Option<(f64, usize, u64)> {
    let program = std::env::current_exe().unwrap();
    let arguments = ["--listing", shape.name, &words.to_string(), &budget.to_string()];
    let mut child = Command::new(program).args(arguments).stdout(Stdio::piped()).spawn().unwrap();
    let start = Instant::now();
    while child.try_wait().unwrap().is_none() {
        if start.elapsed() > GIVE_UP {
            child.kill().unwrap();
            child.wait().unwrap();
            return None;
        }
        std::thread::sleep(Duration::from_millis(2));
    }
    let output = String::from_utf8(child.wait_with_output().unwrap().stdout).unwrap();
    let words: Vec<&str> = output.split_whitespace().collect();
    match words[..] {
        [time, count, digest] => Some((time.parse().unwrap(), count.parse().unwrap(), digest.parse().unwrap())),
        _ => {
            println!("the library's listing failed");
            exit(1)
        }
    }
}
