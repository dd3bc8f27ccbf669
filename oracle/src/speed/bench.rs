//! How a call is compared, counted and timed.

use super::callgrind;
use super::port::Lent;
use crate::discretise::layout::record;
use crate::discretise::Layout;
use std::hint::black_box;
use std::time::{Duration, Instant};

/// Calls that are made before any is counted.
const UNCOUNTED: usize = 8;
/// Calls that are counted together, and calls in a batch that is timed.
const CALLS: usize = 32;
/// Batches that are timed at the least and at the most, and how long to go on between the two.
const BATCHES: std::ops::Range<usize> = 15..2_000;
const LONG_ENOUGH: Duration = Duration::from_millis(40);

#[derive(Clone, Copy, PartialEq)]
pub enum Mode {
    Check,
    Count,
    Time,
    Allocations,
}

/// An operation on operands of so many rows. One call asks it once, or more often where it is short.
pub struct Case {
    operation: String,
    rows: usize,
    asked: usize,
}

impl Case {
    /// An operation that a call asks once.
    pub fn new(operation: &str, rows: usize) -> Self {
        Self::repeated(operation, rows, 1)
    }

    /// An operation that a call asks so many times.
    pub fn repeated(operation: &str, rows: usize, asked: usize) -> Self {
        Case { operation: operation.to_string(), rows, asked }
    }

    /// Prints what a call of one side costs, for each time that it asks.
    fn say(&self, side: &str, cost: f64) {
        println!("{side} {} {} {:.1}", self.operation, self.rows, cost / self.asked as f64);
    }

    /// The name under which calls of one side are counted.
    fn name(&self, side: &str) -> String {
        format!("{side} {} {} {CALLS} {}", self.operation, self.rows, self.asked)
    }
}

/// What is measured, of which operations and sides (all where none is named), and what the clock
/// itself takes.
pub struct Bench {
    mode: Mode,
    operations: Vec<String>,
    sides: Vec<String>,
    clock: f64,
}

impl Bench {
    /// A bench that has measured a call of nothing, which is taken off every other one.
    pub fn new(mode: Mode, operations: Vec<String>, sides: Vec<String>) -> Self {
        let mut bench = Bench { mode, operations, sides, clock: 0.0 };
        match mode {
            Mode::Check | Mode::Allocations => {}
            Mode::Count => count(&Case::new("nothing", 0).name("none"), || (), |()| ()),
            Mode::Time => bench.clock = time(|| (), |()| ()),
        }
        bench
    }

    /// Whether an operation was asked for.
    fn wants(&self, case: &Case) -> bool {
        let fits = |wanted: &String| match wanted.strip_suffix('=') {
            Some(whole) => case.operation == whole,
            None => case.operation.contains(wanted.as_str()),
        };
        self.operations.is_empty() || self.operations.iter().any(fits)
    }

    /// Whether a side was asked for.
    fn wants_side(&self, side: &str) -> bool {
        self.sides.is_empty() || self.sides.iter().any(|wanted| wanted == side)
    }

    /// In mode check: says whether the answers are alike and the port's buffers as they must be.
    pub fn check(&self, case: &Case, alike: impl FnOnce() -> bool) {
        if self.mode == Mode::Check && self.wants(case) {
            let word = if alike() { "same" } else { "differs" };
            println!("{word} {} {}", case.operation, case.rows);
        }
    }

    /// Measures a call of one side, but not what `make` prepares for it, nor the drop of its answer.
    pub fn measure<A, R>(
        &self,
        side: &str,
        case: &Case,
        make: impl FnMut() -> A,
        call: impl FnMut(A) -> R,
    ) {
        if !self.wants(case) || !self.wants_side(side) {
            return;
        }
        match self.mode {
            Mode::Check => {}
            Mode::Count => count(&case.name(side), make, call),
            Mode::Time => case.say(side, time(make, call) - self.clock),
            Mode::Allocations => case.say(side, allocations(make, call)),
        }
    }

    /// A call that makes a layout: the Rust's of what `make` prepares, the port's of slices.
    pub fn made<A, S: Clone>(
        &self,
        case: &Case,
        make: impl Fn() -> A,
        rust: impl Fn(A) -> Layout,
        slices: &S,
        port: impl Fn(&S, &mut Lent) -> usize,
    ) {
        let mut lent = Lent::new();
        self.check(case, || {
            let count = port(slices, &mut lent);
            lent.has(count, &numbers(&rust(make()))) && lent.is_cleared()
        });
        self.measure("rust", case, &make, &rust);
        let call = |slices: S| (port(black_box(&slices), black_box(&mut *lent)), slices);
        self.measure("port", case, || slices.clone(), call);
    }
}

/// The record of a layout of the Rust.
pub fn numbers(layout: &Layout) -> Vec<i32> {
    let narrow = |number: i64| i32::try_from(number).expect("a record has numbers of 32 bits");
    record::numbers(layout).into_iter().map(narrow).collect()
}

/// How many heap allocations a call makes.
#[cfg(feature = "allocations")]
fn allocations<A, R>(make: impl FnMut() -> A, call: impl FnMut(A) -> R) -> f64 {
    super::allocations::of(make, call) as f64
}

/// Not to be asked here.
#[cfg(not(feature = "allocations"))]
fn allocations<A, R>(_: impl FnMut() -> A, _: impl FnMut(A) -> R) -> f64 {
    panic!("built without the feature `allocations`")
}

/// Lets callgrind count calls, each on its own operands, and write that down under a name.
fn count<A, R>(name: &str, mut make: impl FnMut() -> A, mut call: impl FnMut(A) -> R) {
    for _ in 0..UNCOUNTED {
        drop(black_box(call(black_box(make()))));
    }
    for _ in 0..CALLS {
        let operands = black_box(make());
        callgrind::toggle();
        let answer = black_box(call(operands));
        callgrind::toggle();
        drop(answer);
    }
    callgrind::dump(name);
}

/// The nanoseconds of a call and of the clock: the mean of the quickest batch.
fn time<A, R>(mut make: impl FnMut() -> A, mut call: impl FnMut(A) -> R) -> f64 {
    let begun = Instant::now();
    let mut least = Duration::MAX;
    let mut batches = 0;
    while batches < BATCHES.start || (batches < BATCHES.end && begun.elapsed() < LONG_ENOUGH) {
        let mut batch = Duration::ZERO;
        for _ in 0..CALLS {
            let operands = black_box(make());
            let start = Instant::now();
            let answer = black_box(call(operands));
            batch += start.elapsed();
            drop(answer);
        }
        least = least.min(batch);
        batches += 1;
    }
    least.as_nanos() as f64 / CALLS as f64
}
