//! Requests put to the program, and its answers.

use std::io::Write;
use std::process::{Command, Stdio};

/// The program's answers to some requests.
fn answers(requests: &str) -> Vec<String> {
    let mut program = Command::new(env!("CARGO_BIN_EXE_oracle"))
        .stdin(Stdio::piped())
        .stdout(Stdio::piped())
        .spawn()
        .expect("the program starts");
    let mut input = program.stdin.take().expect("its input is piped");
    input.write_all(requests.as_bytes()).expect("it reads");
    drop(input);
    let output = program.wait_with_output().expect("it ends");
    assert!(output.status.success());
    String::from_utf8(output.stdout).expect("it writes text").lines().map(str::to_string).collect()
}

/// Holds the answers to requests, one a line, against those expected, each behind `=>`.
fn holds(table: &str) {
    let rows: Vec<(&str, &str)> =
        table.trim().lines().map(|row| row.trim().split_once(" => ").expect("a row")).collect();
    let requests: Vec<&str> = rows.iter().map(|row| row.0).collect();
    let expected: Vec<&str> = rows.iter().map(|row| row.1).collect();
    assert_eq!(answers(&(requests.join("\n") + "\n")), expected);
}

#[test]
fn layouts_worked_by_hand() {
    holds(
        "22 9 2 1 2 2 2 1 1 0 0 10 2 0 2 2 2 1 1 0 0 0 1802 10812 => ok 2 0 2 2 2 2 1 0 1 1 0 0
        7 8 0 2 2 1 3 0 0 0 2 4 2 => found 2
        7 8 1 0 2 1 1 0 0 0 2 3 3 => nothing
        19 11 0 2 2 1 1 0 1 0 0 7 0 3 2 2 2 1802 10812 => ok 0 2 2 2 2 0 3 0 0 7 0 1 7 1 0 7 0
        24 9 2 1 2 2 2 1 1 0 0 1802 10812 => ok 2 0 1 2 0 0 0
        25 12 2 0 2 2 3 2 0 2 1 0 0 0 2 1 0 1802 10812 => ok 2 0 2 3 2 2 2 0 0 1 0 0
        27 0 0 3 1802 10812 => ok 0 0 0 0 0 0
        1 5 1 2 2 2 3 2 => ok 2 2 3",
    );
}

#[test]
fn a_contraction_that_fills_up_keeps_its_rows() {
    holds("24 12 2 0 2 2 2 2 0 0 1 1 0 0 1802 10812 => ok 0 0 1 2 2 0 1 0 0");
}

#[test]
fn requests_that_are_not_answered() {
    holds(
        "1 5 1 3 2 2 3 2 => err
        22 7 0 1 1 2 0 0 0 7 0 1 1 3 0 0 0 1802 10812 => panic
        8 7 0 0 1 2 0 0 0 => none
        29 7 0 1 1 2 0 0 0 => none
        13 2147483647 1802 => large
        8 1 => bad request
        6 => bad request",
    );
}
