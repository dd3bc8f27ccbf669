//! Answers request lines with what the Rust gives.

mod answer;
mod ast;
mod discretise;
mod operations;
mod request;

use std::io::{self, BufRead, BufWriter, Write};

/// Writes one answer line for each line of standard input.
fn main() -> io::Result<()> {
    answer::silence_asked_panics();
    let mut out = BufWriter::new(io::stdout().lock());
    for line in io::stdin().lock().split(b'\n') {
        writeln!(out, "{}", request::answer(&String::from_utf8_lossy(&line?)))?;
    }
    out.flush()
}
