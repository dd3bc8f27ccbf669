//! The text of answers.

use std::cell::Cell;
use std::panic::{self, AssertUnwindSafe};

use crate::discretise::layout::record;
use crate::discretise::Layout;

/// A call that would make more entries than this is not made.
const MOST_MADE: f64 = 2_000_000.0;

thread_local! {
    static ASKING: Cell<bool> = const { Cell::new(false) };
}

/// Keeps the panics of asked calls silent; any other is reported as usual.
pub fn silence_asked_panics() {
    let usual = panic::take_hook();
    panic::set_hook(Box::new(move |info| {
        if !ASKING.get() {
            usual(info)
        }
    }));
}

/// What a call gives: `panic` where it panics, `err` where it gives nothing.
pub fn ask<T>(call: impl FnOnce() -> Option<T>, show: fn(T) -> String) -> String {
    ASKING.set(true);
    let outcome = panic::catch_unwind(AssertUnwindSafe(call));
    ASKING.set(false);
    match outcome {
        Ok(Some(value)) => show(value),
        Ok(None) => "err".to_string(),
        Err(_) => "panic".to_string(),
    }
}

/// What a call gives that would make some entries: `large`, uncalled, where they are too many.
pub fn ask_sized<T>(made: f64, call: impl FnOnce() -> Option<T>, show: fn(T) -> String) -> String {
    if made <= MOST_MADE {
        ask(call, show)
    } else {
        "large".to_string()
    }
}

/// A word and numbers behind it.
fn say<T: ToString>(word: &str, numbers: impl IntoIterator<Item = T>) -> String {
    let mut line = word.to_string();
    for number in numbers {
        line.push(' ');
        line.push_str(&number.to_string());
    }
    line
}

/// A layout as its record.
pub fn layout(layout: Layout) -> String {
    say("ok", record::numbers(&layout))
}

/// One number.
pub fn number(number: i64) -> String {
    say("ok", [number])
}

/// A count.
pub fn count(count: usize) -> String {
    say("ok", [count])
}

/// Yes as 1, no as 0.
pub fn truth(truth: bool) -> String {
    number(i64::from(truth))
}

/// A list behind its count.
pub fn list(list: Vec<i64>) -> String {
    say("ok", with_count(list))
}

/// A part of a record behind its count.
pub fn part(part: Vec<i64>) -> String {
    say("part", with_count(part))
}

/// A place, or that there is none.
pub fn place(place: Option<usize>) -> String {
    place.map_or("nothing".to_string(), |place| say("found", [place]))
}

/// The count of a list and the list.
fn with_count(list: Vec<i64>) -> impl Iterator<Item = i64> {
    std::iter::once(record::number(list.len())).chain(list)
}
