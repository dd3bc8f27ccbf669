//! What is read of layouts.

use crate::answer::{self, ask};
use crate::discretise::layout::record;
use crate::request::Arguments;

/// The most indices that are looked up for one request.
const MOST_INDICES: usize = 1802;

/// The place of an index among a layout's positions.
pub fn find_nnz_index(a: &Arguments) -> Option<String> {
    let (layout, index) = (a.layout(0)?, record::index(a.slices[1]));
    Some(ask(|| Some(layout.find_nnz_index(&index)), answer::place))
}

/// The place of each of some indices, end to end, among a layout's positions, one by one; -1 where it has none.
pub fn find_nnz_indices(a: &Arguments) -> Option<String> {
    let (layout, count) = (a.layout(0)?, a.count(0).filter(|&count| count <= MOST_INDICES)?);
    let rank = layout.rank();
    let index = |i: usize| Some(record::index(a.slices[1].get(i * rank..(i + 1) * rank)?));
    let indices: Vec<_> = (0..count).map(index).collect::<Option<_>>()?;
    let place = |index| layout.find_nnz_index(index).map_or(-1, record::number);
    Some(ask(|| Some(indices.iter().map(place).collect()), answer::list))
}

/// How many positions a layout has.
pub fn nnz(a: &Arguments) -> Option<String> {
    let layout = a.layout(0)?;
    Some(ask(|| Some(layout.nnz()), answer::count))
}

/// The rank without the last axes of extent 1.
pub fn min_rank(a: &Arguments) -> Option<String> {
    let layout = a.layout(0)?;
    Some(ask(|| Some(layout.min_rank()), answer::count))
}

/// Whether two layouts have the same positions.
pub fn eq_nonzeros(a: &Arguments) -> Option<String> {
    let (left, right) = (a.layout(0)?, a.layout(1)?);
    Some(ask(|| Some(left.eq_nonzeros(&right)), answer::truth))
}

/// Whether two layouts have the same positions and dependencies.
pub fn eq_nonzeros_and_deps(a: &Arguments) -> Option<String> {
    let (left, right) = (a.layout(0)?, a.layout(1)?);
    Some(ask(|| Some(left.eq_nonzeros_and_deps(&right)), answer::truth))
}

/// The numbers of a sparse layout's rows.
pub fn to_data_layout(a: &Arguments) -> Option<String> {
    let layout = a.layout(0)?;
    let call = || Some(layout.to_data_layout().into_iter().map(i64::from).collect());
    Some(ask(call, answer::list))
}

/// The row of a number, of those that the layout lists.
pub fn row(a: &Arguments) -> Option<String> {
    let layout = a.layout(0)?;
    let row = layout.explicit_indices().get(a.count(0)?)?;
    Some(answer::part(row.iter().copied().collect()))
}
