//! Calls without a working buffer: places looked up, a record judged, a sparse one made.

use super::bench::{numbers, Bench, Case};
use super::operands::{layout, sparse, Form, Row, Tables};
use super::port::{self, Lent};
use crate::discretise::layout::record;
use crate::discretise::{Index, Layout, Shape};
use std::hint::black_box;

/// A call is short here, so that so many are measured as one.
const AT_ONCE: usize = 16;

/// Every question about the first table's layout.
pub fn measure(bench: &Bench, two: &Tables) {
    // the rows of both tables: those of the first are found, of the second those that are in common
    let keys = [two.rows_of(0, Form::Plain), two.rows_of(1, Form::Plain)].concat();
    for form in [Form::Plain, Form::Deps] {
        let record = two.sparse(0, form);
        lookup(bench, &form.name("lookup"), two.rows, &record, &keys);
        lookup_many(bench, &format!("{}-many", form.name("lookup")), two.rows, &record, &keys);
    }
    let mut reversed = two.rows_of(0, Form::Plain).to_vec();
    reversed.reverse();
    sound(bench, "sound", two.rows, &two.sparse(0, Form::Plain));
    sound(bench, "sound-deps", two.rows, &two.sparse(0, Form::Deps));
    sound(bench, "sound-reversed", two.rows, &sparse(two.extents(), &reversed, &[]));
    sound(bench, "sound-mixed", two.rows, &two.sparse(0, Form::Mixed));
    for form in [Form::Plain, Form::Mixed] {
        make_sparse(bench, &Case::new(&form.name("sparse"), two.rows), two, form);
    }
}

/// The places of indices, a call each.
fn lookup(bench: &Bench, name: &str, rows: usize, record: &[i32], keys: &[Row]) {
    let case = Case::repeated(name, rows, keys.len());
    let (layout, indices) = (layout(record), indices(keys));
    bench.check(&case, || {
        let wanted = |index| layout.find_nnz_index(index).unwrap_or(port::NOTHING);
        keys.iter().zip(&indices).all(|(key, index)| port::find(record, key) == wanted(index))
    });
    let rust = |()| {
        let place = |index| black_box(&layout).find_nnz_index(index).unwrap_or(port::NOTHING);
        black_box(&indices).iter().map(place).sum::<usize>()
    };
    bench.measure("rust", &case, || (), rust);
    let port =
        |()| black_box(keys).iter().map(|key| port::find(black_box(record), key)).sum::<usize>();
    bench.measure("port", &case, || (), port);
}

/// The places of indices: of the port by one call for all of them.
fn lookup_many(bench: &Bench, name: &str, rows: usize, record: &[i32], keys: &[Row]) {
    let case = Case::repeated(name, rows, keys.len());
    let (layout, indices, list, count) =
        (layout(record), indices(keys), keys.concat(), keys.len() as i32);
    let place =
        |index: &Index| black_box(&layout).find_nnz_index(index).map_or(-1, |place| place as i32);
    let mut lent = Lent::new();
    bench.check(&case, || {
        let written = port::find_many(record, &list, count, &mut lent.result);
        lent.has(written, &indices.iter().map(place).collect::<Vec<_>>())
    });
    let rust = |mut places: Vec<i32>| {
        for (index, to) in black_box(&indices).iter().zip(places.iter_mut()) {
            *to = place(index);
        }
        places
    };
    bench.measure("rust", &case, || vec![0; keys.len()], rust);
    let port = |()| port::find_many(black_box(record), &list, count, black_box(&mut lent.result));
    bench.measure("port", &case, || (), port);
}

/// The indices of some rows.
fn indices(rows: &[Row]) -> Vec<Index> {
    rows.iter().map(|row| record::index(row)).collect()
}

/// Whether a record is sound: the Rust cannot be asked.
fn sound(bench: &Bench, name: &str, rows: usize, record: &[i32]) {
    let case = Case::repeated(name, rows, AT_ONCE);
    bench.check(&case, || port::sound(record) == 1);
    let port = |()| (0..AT_ONCE).map(|_| port::sound(black_box(record))).sum::<usize>();
    bench.measure("port", &case, || (), port);
}

/// `sparse`, from rows as plain numbers: the Rust has to make its indices of them.
fn make_sparse(bench: &Bench, case: &Case, two: &Tables, form: Form) {
    let (rows, count) = (two.rows_of(0, form).concat(), two.rows as i32);
    let shape = [2, count, count];
    let rust = |()| {
        let indices = black_box(&rows).chunks(2).map(record::index).collect();
        Layout::sparse(indices, Shape::from_vec(two.extents().to_vec()))
    };
    let mut lent = Lent::new();
    bench.check(case, || {
        let written = port::sparse(&shape, &rows, count, &mut lent.result);
        lent.has(written, &numbers(&rust(())))
    });
    bench.measure("rust", case, || (), rust);
    let port =
        |rows: Vec<i32>| (port::sparse(&shape, &rows, count, black_box(&mut lent.result)), rows);
    bench.measure("port", case, || rows.clone(), port);
}
