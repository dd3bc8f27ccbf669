//! Calls on lists of layouts.

use super::bench::{Bench, Case};
use super::operands::{layout, sorted, sparse, Form, Random, Tables, FORMS};
use super::port;
use crate::ast::{Ast, AstKind};
use crate::discretise::layout::record;
use crate::discretise::{ArcLayout, Layout, TensorBlock};
use std::hint::black_box;

/// `broadcast` of two and of four layouts: all sparse, or some of them dense.
pub fn broadcasts(bench: &Bench, two: &Tables, four: &Tables) {
    let rows = two.rows;
    let vector = vec![0, 1, 1, rows as i32, 0, 0, 0];
    for form in FORMS {
        let sparse = [0, 1, 2, 3].map(|table| four.sparse(table, form));
        let dense = [&sparse[0], &vector, &sparse[1], &four.dense(2, form)].map(Vec::clone);
        let [x, y] = [0, 1].map(|table| two.sparse(table, form));
        let name = |list: &str| form.name(list);
        broadcast(bench, &name("2-sparse"), rows, &[x.clone(), y]);
        broadcast(bench, &name("2-sparse-dense"), rows, &[x, two.dense(1, form)]);
        broadcast(bench, &name("4-sparse"), rows, &sparse);
        broadcast(bench, &name("4-sparse-dense"), rows, &dense);
    }
}

/// `broadcast` of some records by addition and by multiplication.
fn broadcast(bench: &Bench, name: &str, rows: usize, records: &[Vec<i32>]) {
    let layouts: Vec<Layout> = records.iter().map(|record| layout(record)).collect();
    let count = records.len() as i32;
    for (word, operator) in [("plus", '+'), ("times", '*')] {
        bench.made(
            &Case::new(&format!("{word}-{name}"), rows),
            || layouts.clone(),
            |layouts| Layout::broadcast(layouts, Some(operator)).unwrap(),
            &records.concat(),
            |list, lent| port::broadcast(list, count, operator as u8, lent),
        );
    }
}

/// `concatenate` of four sparse blocks with a quarter of the rows each: one above the other, or two
/// by two.
pub fn concatenations(bench: &Bench, random: &mut Random, rows: usize) {
    for (name, extents, places) in [
        ("concatenate-stack", [rows / 4, rows], [[0, 0], [1, 0], [2, 0], [3, 0]]),
        ("concatenate-grid", [rows / 2, rows / 2], [[0, 0], [0, 1], [1, 0], [1, 1]]),
    ] {
        for form in FORMS {
            let blocks = places.map(|[i, j]| {
                let drawn = random.rows(rows / 4, extents);
                let start = [i * extents[0] as i32, j * extents[1] as i32];
                (start, block_record(&drawn, extents, form))
            });
            concatenate(bench, &Case::new(&form.name(name), rows), &blocks);
        }
    }
}

/// The record of a block with some rows.
fn block_record(drawn: &[[i32; 2]], extents: [usize; 2], form: Form) -> Vec<i32> {
    match form {
        Form::Plain => sparse(extents, &sorted(drawn), &[]),
        Form::Deps => sparse(extents, &sorted(drawn), &sorted(drawn)),
        Form::Mixed => sparse(extents, drawn, &[]),
    }
}

/// `concatenate` of four records at their starts.
fn concatenate(bench: &Bench, case: &Case, blocks: &[([i32; 2], Vec<i32>); 4]) {
    let list: Vec<i32> =
        blocks.iter().flat_map(|(start, record)| [&start[..], &[0], record].concat()).collect();
    let blocks = blocks.each_ref().map(|(start, numbers)| {
        let layout = ArcLayout::new(layout(numbers));
        let (start, content) = (record::index(start), Ast { kind: AstKind::Name("content") });
        TensorBlock::new(None, start, Vec::new(), layout.clone(), layout, content)
    });
    bench.made(
        case,
        || (),
        |()| Layout::concatenate(black_box(&blocks), 2).unwrap(),
        &list,
        |list, lent| port::concatenate(list, 4, 2, lent),
    );
}
