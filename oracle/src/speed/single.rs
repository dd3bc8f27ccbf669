//! Calls that make a layout from one.

use super::bench::{Bench, Case};
use super::operands::{layout, sparse, Form, Random, Row, Tables, FORMS};
use super::port;
use crate::discretise::Shape;
use std::hint::black_box;

/// `contract_last_axis`, `permute` and `broadcast_to_shape`: to the same shape, and an eighth of the
/// rows in one column to eight columns.
pub fn measure(bench: &Bench, random: &mut Random, two: &Tables) {
    let rows = two.rows;
    for form in FORMS {
        let record = two.sparse(0, form);
        contract(bench, &Case::new(&form.name("contract"), rows), &record);
        permute(bench, &Case::new(&form.name("permute"), rows), &record);
        stretch(bench, &Case::new(&form.name("stretch-same"), rows), &record, two.extents());
    }
    let thin: Vec<Row> = (0..rows as i32 / 8).map(|i| [3 * i, 0]).collect();
    for form in FORMS {
        let record = match form {
            Form::Plain => sparse([rows, 1], &thin, &[]),
            Form::Deps => sparse([rows, 1], &thin, &thin),
            Form::Mixed => sparse([rows, 1], &random.mixed(&thin), &[]),
        };
        stretch(bench, &Case::new(&form.name("stretch-by-8"), rows), &record, [rows, 8]);
    }
}

/// A record without its last axis.
fn contract(bench: &Bench, case: &Case, record: &Vec<i32>) {
    let old = layout(record);
    let rust = |()| black_box(&old).contract_last_axis().unwrap();
    bench.made(case, || (), rust, record, |record, lent| port::contract(record, lent));
}

/// A record with its two axes exchanged.
fn permute(bench: &Bench, case: &Case, record: &Vec<i32>) {
    let old = layout(record);
    let rust = |()| black_box(&old).permute(black_box(&[1, 0])).unwrap();
    bench.made(case, || (), rust, record, |record, lent| port::permute(record, &[1, 0], lent));
}

/// A record stretched to a shape.
fn stretch(bench: &Bench, case: &Case, record: &Vec<i32>, [e, f]: [usize; 2]) {
    let (old, shape) = (layout(record), Shape::from_vec(vec![e, f]));
    let rust = |()| black_box(&old).broadcast_to_shape(black_box(&shape));
    let numbers = [2, e as i32, f as i32];
    bench.made(case, || (), rust, record, |record, lent| port::stretch(record, &numbers, lent));
}
