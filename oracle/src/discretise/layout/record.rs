//! Layouts from and to the numbers of a record.

use super::sound::{is_sound, MOST_ENTRIES, MOST_RANK};
use super::{Index, Layout, LayoutKind, NonZero, Shape};

/// The sound layout at the front of some numbers and the numbers behind it, or nothing.
pub fn read(numbers: &[i32]) -> Option<(Layout, &[i32])> {
    let (&[kind, dense_axes], rest) = numbers.split_first_chunk()?;
    let (extents, rest) = section(rest, 1, MOST_RANK)?;
    let rank = extents.len();
    let n_dense_axes = usize::try_from(dense_axes).ok()?;
    let (rows, rest) = section(rest, rank.checked_sub(n_dense_axes)?, MOST_ENTRIES)?;
    let (state_deps, rest) = section(rest, rank + 1, MOST_ENTRIES)?;
    let (input_deps, rest) = section(rest, rank + 1, MOST_ENTRIES)?;
    let layout = Layout {
        indices: rows.into_iter().map(index).collect(),
        values: None,
        state_deps: state_deps.into_iter().map(dependency).collect::<Option<_>>()?,
        input_deps: input_deps.into_iter().map(dependency).collect::<Option<_>>()?,
        shape: shape(&extents.concat())?,
        kind: kind_of(kind)?,
        n_dense_axes,
    };
    is_sound(&layout).then_some((layout, rest))
}

/// The entries of a section behind their count and the numbers behind them, or nothing.
fn section(numbers: &[i32], width: usize, most: usize) -> Option<(Vec<&[i32]>, &[i32])> {
    let (&count, rest) = numbers.split_first()?;
    let count = usize::try_from(count).ok().filter(|&count| count <= most)?;
    let (mine, rest) = rest.split_at_checked(count * width)?;
    Some(((0..count).map(|i| &mine[i * width..(i + 1) * width]).collect(), rest))
}

/// An index of the given components.
pub fn index(components: &[i32]) -> Index {
    Index::from_vec(components.iter().map(|&c| i64::from(c)).collect())
}

/// A shape of the given extents, nothing where one is negative.
pub fn shape(extents: &[i32]) -> Option<Shape> {
    let extents = extents.iter().map(|&e| usize::try_from(e).ok());
    extents.collect::<Option<Vec<_>>>().map(Shape::from_vec)
}

/// A dependency of an index and, behind it, its number; nothing where that is negative.
fn dependency(numbers: &[i32]) -> Option<NonZero> {
    let (&number, components) = numbers.split_last()?;
    Some((index(components), usize::try_from(number).ok()?))
}

/// The kind that a number stands for.
fn kind_of(number: i32) -> Option<LayoutKind> {
    match number {
        0 => Some(LayoutKind::Dense),
        1 => Some(LayoutKind::Diagonal),
        2 => Some(LayoutKind::Sparse),
        _ => None,
    }
}

/// The numbers of a layout's record, whatever the layout holds.
pub fn numbers(layout: &Layout) -> Vec<i64> {
    let kind = match layout.kind {
        LayoutKind::Dense => 0,
        LayoutKind::Diagonal => 1,
        LayoutKind::Sparse => 2,
    };
    let mut out = vec![kind, number(layout.n_dense_axes), number(layout.rank())];
    out.extend(layout.shape.iter().copied().map(number));
    out.push(number(layout.indices.len()));
    out.extend(layout.indices.iter().flat_map(Index::iter));
    for deps in [&layout.state_deps, &layout.input_deps] {
        out.push(number(deps.len()));
        for (index, j) in deps {
            out.extend(index.iter());
            out.push(number(*j));
        }
    }
    out
}

/// A count as a number of a record.
pub fn number(count: usize) -> i64 {
    i64::try_from(count).expect("no count passes 63 bits")
}
