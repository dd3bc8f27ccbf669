//! Measures calls of the port and of the Rust on the same operands; `tests/speed` starts it.
//!
//!     speed check|count|time|allocations SIZES [OPERATIONS [SIDE]]
//!
//! `check` compares the answers, `count` runs under callgrind, which writes down what was counted,
//! `time` prints nanoseconds, and `allocations`, where it is built with that feature, how many a
//! call makes. SIZES are numbers of rows with commas between them. OPERATIONS are parts of names, or
//! whole names that end in `=`; none means all. SIDE is `rust` or `port`; none means both.

#[allow(dead_code)]
mod ast;
#[allow(unused_imports, dead_code)]
mod discretise;

mod speed {
    #[cfg(feature = "allocations")]
    pub mod allocations;
    pub mod bench;
    pub mod callgrind;
    pub mod lists;
    pub mod operands;
    pub mod pairs;
    pub mod port;
    pub mod questions;
    pub mod single;
}

use speed::bench::{Bench, Case, Mode};
use speed::operands::{Random, Tables};
use speed::port::Lent;
use speed::{lists, pairs, questions, single};
use std::hint::black_box;

/// Measures what the words ask for.
fn main() {
    let words: Vec<String> = std::env::args().skip(1).collect();
    let listed = |place: usize| {
        let word = words.get(place).map_or("", String::as_str);
        word.split(',').filter(|part| !part.is_empty()).map(str::to_string).collect::<Vec<_>>()
    };
    let mode = match listed(0).first().map_or("", String::as_str) {
        "check" => Mode::Check,
        "count" => Mode::Count,
        "time" => Mode::Time,
        "allocations" => Mode::Allocations,
        _ => panic!("the first word is check, count, time or allocations"),
    };
    let bench = Bench::new(mode, listed(2), listed(3));
    clearing(&bench);
    for size in listed(1) {
        let rows = size.parse().expect("a size is a number");
        assert!((8..=128).contains(&rows) && rows % 8 == 0, "a size is 8, 16, .. or 128");
        eprintln!("  {rows} rows");
        all_cases(&bench, rows);
    }
}

/// Zeros into a whole working buffer, which each call that is lent one has to write.
fn clearing(bench: &Bench) {
    let mut lent = Lent::new();
    let case = Case::new("clear-alone", 0);
    bench.measure("port", &case, || (), |()| black_box(&mut lent.work).fill(0));
}

/// Every operation on layouts of so many rows.
fn all_cases(bench: &Bench, rows: usize) {
    let random = &mut Random::new(rows);
    let two = Tables::pair(random, rows);
    pairs::measure(bench, random, &two);
    let four = Tables::four(random, rows);
    lists::broadcasts(bench, &two, &four);
    lists::concatenations(bench, random, rows);
    single::measure(bench, random, &two);
    questions::measure(bench, &two);
}
