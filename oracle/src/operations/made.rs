//! Layouts made from a shape, from a layout, or from two.

use crate::answer::{self, ask, ask_sized};
use crate::discretise::layout::{record, size};
use crate::discretise::{Index, Layout};
use crate::request::Arguments;

/// A layout as dense.
pub fn to_dense(a: &Arguments) -> Option<String> {
    let mut layout = a.layout(0)?;
    let call = || {
        layout.to_dense();
        Some(layout)
    };
    Some(ask(call, answer::layout))
}

/// The dense layout of a rank with all extents 0.
pub fn new_empty(a: &Arguments) -> Option<String> {
    let rank = a.count(0)?;
    Some(ask_sized(rank as f64, || Some(Layout::new_empty(rank)), answer::layout))
}

/// The scalar.
pub fn new_scalar(_: &Arguments) -> Option<String> {
    Some(ask(|| Some(Layout::new_scalar()), answer::layout))
}

/// The dense layout of a shape.
pub fn dense(a: &Arguments) -> Option<String> {
    let shape = a.shape(0)?;
    Some(ask(|| Some(Layout::dense(shape)), answer::layout))
}

/// The diagonal layout of a shape.
pub fn diagonal(a: &Arguments) -> Option<String> {
    let shape = a.shape(0)?;
    Some(ask(|| Some(Layout::diagonal(shape)), answer::layout))
}

/// The sparse layout of a shape and rows; nothing where the numbers are not that many rows.
pub fn sparse(a: &Arguments) -> Option<String> {
    let (shape, count, numbers) = (a.shape(0)?, a.count(0)?, a.slices[1]);
    let rank = shape.len();
    if count.checked_mul(rank)? != numbers.len() {
        return None;
    }
    let row = |i: usize| record::index(&numbers[i * rank..(i + 1) * rank]);
    let call = || Some(Layout::sparse((0..count).map(row).collect::<Vec<Index>>(), shape));
    Some(ask_sized(count as f64, call, answer::layout))
}

/// A layout stretched to a shape.
pub fn broadcast_to_shape(a: &Arguments) -> Option<String> {
    let (layout, shape) = (a.layout(0)?, a.shape(1)?);
    let made = size::stretching(&layout, &shape);
    Some(ask_sized(made, || Some(layout.broadcast_to_shape(&shape)), answer::layout))
}

/// A layout with axes of extent 1 added or cut.
pub fn broadcast_to_rank(a: &Arguments) -> Option<String> {
    let (layout, rank) = (a.layout(0)?, a.count(0)?);
    let made = size::ranking(&layout, rank);
    Some(ask_sized(made, || Some(layout.broadcast_to_rank(rank)), answer::layout))
}

/// The union of two layouts.
pub fn union(a: &Arguments) -> Option<String> {
    let (left, right) = (a.layout(0)?, a.layout(1)?);
    let made = size::joining(&left, &right, false);
    Some(ask_sized(made, || Some(left.union(right)), answer::layout))
}

/// The intersection of two layouts.
pub fn intersect(a: &Arguments) -> Option<String> {
    let (left, right) = (a.layout(0)?, a.layout(1)?);
    let made = size::joining(&left, &right, true);
    Some(ask_sized(made, || Some(left.intersect(right)), answer::layout))
}

/// A layout without its last axis.
pub fn contract_last_axis(a: &Arguments) -> Option<String> {
    let layout = a.layout(0)?;
    Some(ask(|| layout.contract_last_axis().ok(), answer::layout))
}

/// A layout with its axes moved; nothing where an entry of the permutation is negative.
pub fn permute(a: &Arguments) -> Option<String> {
    let layout = a.layout(0)?;
    let entries = a.slices[1].iter().map(|&entry| usize::try_from(entry).ok());
    let permutation: Vec<usize> = entries.collect::<Option<_>>()?;
    let made = size::permuting(&layout, &permutation);
    Some(ask_sized(made, || layout.permute(&permutation).ok(), answer::layout))
}

/// A layout with those dependencies of another that lie in a range.
pub fn filter_deps_from(a: &Arguments) -> Option<String> {
    let (mut target, source) = (a.layout(0)?, a.layout(1)?);
    let (start, end) = (i64::from(a.numbers[0]), i64::from(a.numbers[1]));
    let call = || {
        target.filter_deps_from(source, start, end);
        Some(target)
    };
    Some(ask(call, answer::layout))
}
