//! Times of the library's calls on named shapes, beside three peers in the same run.
//!
//!     bench [SHAPE]...          all shapes if none is named
//!     bench xml                 the conversion of supplier's texts
//!
//! Peers: `simple`, document 01 in plain loops; `TANE`, the level-wise partition search; `table`, the table of
//! broken rights in plain Rust. A ratio is the peer's time over the library's. Each figure is the least of
//! several runs, in time of the processor, so that other programs disturb it little: the catalogue has been
//! read before, all buffers are allocated and written beforehand, and the work words hold noise at the start of
//! every library call. The peers' listings include reading the catalogue and allocating their memory.
//!
//! `shapes` says what the shapes are, `times` which calls are timed, and `verification` what is checked by evidence;
//! `fork-15` and `album` have nothing else here. `conversion` has texts and a peer of its own.

mod conversion;
mod process;
mod shapes;
mod times;
mod timing;
mod verification;

use compare::{simple, table};
use shapes::{Shape, ALBUM, FORK, SHAPES};
use std::process::exit;

const MANY_WORDS: usize = 65_536;

fn main() {
    let arguments: Vec<String> = std::env::args().skip(1).collect();
    if arguments.first().is_some_and(|first| first == "--listing") {
        return process::child(&arguments[1..]);
    }
    let names: Vec<&str> =
        if arguments.is_empty() { SHAPES.to_vec() } else { arguments.iter().map(String::as_str).collect() };
    println!(
        "processor time, least of several runs; buffers written beforehand, work words hold noise; (x peer / library)"
    );
    for name in names {
        match (name, shapes::shape(name)) {
            (conversion::XML, _) => conversion::run(),
            (FORK, _) => verification::many_wide_targets(),
            (ALBUM, _) => verification::album(),
            (_, Some(shape)) => all_calls(&shape),
            (_, None) => {
                println!("no shape {name}; there are {}", SHAPES.join(", "));
                exit(2)
            }
        }
    }
}

/// The times of all calls on a shape.
fn all_calls(shape: &Shape) {
    let catalogue = simple::check(&shape.file).unwrap();
    let [entries, withheld, dropped] = [table::listing, table::withheld, table::dropped].map(|of| of(&catalogue).len());
    println!(
        "{}: {} bytes, {} sets, {entries} entries, {withheld} more that no row backs, \
         {dropped} more that repeat a key",
        shape.name,
        shape.file.len(),
        catalogue.sets()
    );
    times::line_of("call", "library", "simple", "TANE", "table");
    times::questions(shape, &catalogue);
    if shape.name == "flat-4096x16" {
        times::last_pair();
    }
    if ["flat-4096x16", "flat-4096x16-few", "nested-16", "flat-480x16", "one-chain"].contains(&shape.name) {
        times::single_calls(shape, &catalogue);
    }
    times::listings(shape, &catalogue);
    verification::of(&shape.file);
}
