//! Parts of arrays, as the macro `s!` names them.

use std::ops::{Range, RangeFrom, RangeTo};

use crate::Array1;

/// From a number up to, not including, an end; without one, up to the array's.
pub struct Slice {
    start: usize,
    end: Option<usize>,
}

impl From<Range<usize>> for Slice {
    /// The part `start..end`.
    fn from(range: Range<usize>) -> Self {
        Slice { start: range.start, end: Some(range.end) }
    }
}

impl From<RangeTo<usize>> for Slice {
    /// The part `..end`.
    fn from(range: RangeTo<usize>) -> Self {
        Slice { start: 0, end: Some(range.end) }
    }
}

impl From<RangeFrom<usize>> for Slice {
    /// The part `start..`.
    fn from(range: RangeFrom<usize>) -> Self {
        Slice { start: range.start, end: None }
    }
}

/// The part that a range names.
#[macro_export]
macro_rules! s {
    ($range:expr) => {
        $crate::Slice::from($range)
    };
}

#[derive(Clone, Debug, PartialEq)]
pub struct ArrayView1<'a, T>(&'a [T]);

impl<'a, T> ArrayView1<'a, T> {
    /// A part of some elements: an end before the start gives none, either past the elements panics.
    pub(crate) fn of(elements: &'a [T], part: Slice) -> Self {
        let end = part.end.unwrap_or(elements.len()).max(part.start);
        ArrayView1(&elements[part.start..end])
    }
}

impl<T: Clone> ArrayView1<'_, T> {
    /// An array of the part's elements.
    pub fn to_owned(&self) -> Array1<T> {
        Array1::from_vec(self.0.to_vec())
    }
}

#[cfg(test)]
mod tests {
    use super::*;

    /// The elements of a part of 0, 1, 2.
    fn part(part: Slice) -> Array1<i64> {
        Array1::from_vec(vec![0, 1, 2]).slice(part).to_owned()
    }

    /// The part from a start up to an end.
    fn between(start: usize, end: usize) -> Slice {
        s![start..end]
    }

    #[test]
    fn parts_within_the_array() {
        assert_eq!(part(s![0..2]), Array1::from(vec![0, 1]));
        assert_eq!(part(s![..1]), Array1::from(vec![0]));
        assert_eq!(part(s![3..]), Array1::from(vec![]));
        assert_eq!(part(between(2, 1)), Array1::from(vec![]));
    }

    #[test]
    #[should_panic]
    fn an_end_past_the_array() {
        part(s![..4]);
    }

    #[test]
    #[should_panic]
    fn a_start_past_the_array() {
        part(between(4, 2));
    }
}
