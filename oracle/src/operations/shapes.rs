//! Shapes and positions.

use crate::answer::{self, ask};
use crate::discretise::layout::record;
use crate::discretise::{self, Layout, Shape};
use crate::request::{self, Arguments};

/// The common shape of a list of shapes.
pub fn broadcast_shapes(a: &Arguments) -> Option<String> {
    let shapes = a.list(request::shape)?;
    let lent: Vec<&Shape> = shapes.iter().collect();
    let extents = |shape: Shape| shape.iter().copied().map(record::number).collect();
    Some(ask(|| discretise::broadcast_shapes(&lent).map(extents), answer::list))
}

/// Whether the second shape stretches to the first.
pub fn can_broadcast_to(a: &Arguments) -> Option<String> {
    let (to, from) = (a.shape(0)?, a.shape(1)?);
    Some(ask(|| Some(discretise::can_broadcast_to(&to, &from)), answer::truth))
}

/// The place of an index in a shape.
pub fn ravel_index(a: &Arguments) -> Option<String> {
    let (index, shape) = (record::index(a.slices[0]), a.shape(1)?);
    Some(ask(|| Some(Layout::ravel_index(&index, &shape)), answer::count))
}

/// The index of a place in a shape.
pub fn unravel_index(a: &Arguments) -> Option<String> {
    let (place, shape) = (a.count(0)?, a.shape(0)?);
    let call = || Some(Layout::unravel_index(place, &shape).iter().copied().collect());
    Some(ask(call, answer::list))
}

/// How two indices compare.
pub fn cmp_index(a: &Arguments) -> Option<String> {
    let (left, right) = (record::index(a.slices[0]), record::index(a.slices[1]));
    Some(ask(|| Some(Layout::cmp_index(&left, &right) as i64), answer::number))
}
