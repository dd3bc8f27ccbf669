//! How many entries a call would make, told without making them: bounds from above.

use super::{broadcast_shapes, Layout, LayoutKind, Shape};

/// What a layout would list: its positions and its dependencies.
#[derive(Clone, Copy)]
struct Size<'a> {
    kind: &'a LayoutKind,
    dense_axes: usize,
    positions: f64,
    deps: f64,
}

impl<'a> Size<'a> {
    /// The size of a layout.
    fn of(layout: &'a Layout) -> Self {
        Size {
            kind: &layout.kind,
            dense_axes: layout.n_dense_axes,
            positions: layout.nnz() as f64,
            deps: (layout.state_deps.len() + layout.input_deps.len()) as f64,
        }
    }

    /// The size after every position and dependency took all values on the axes that are no longer dense.
    fn lowered(self, shape: &Shape, dense_axes: usize) -> Self {
        let kept = shape.len() - (self.dense_axes - dense_axes);
        let each = product(shape.iter().skip(kept));
        let (positions, deps) = (self.positions * each, self.deps * each);
        Size { kind: &LayoutKind::Sparse, dense_axes, positions, deps }
    }
}

/// The product of extents.
fn product<'a>(extents: impl Iterator<Item = &'a usize>) -> f64 {
    extents.map(|&e| e as f64).product()
}

/// Entries of some rank, long ones counted by their length.
fn weighed(entries: f64, rank: usize) -> f64 {
    entries * (1 + rank / 5) as f64
}

/// The size of a layout stretched to a shape, and the entries made on the way.
fn stretched<'a>(layout: &'a Layout, shape: &Shape) -> (Size<'a>, f64) {
    let old = Size::of(layout);
    let rank = layout.rank();
    let (mut rows, mut most_rows, mut each) = (layout.indices.len() as f64, 0.0, 1.0);
    for (axis, &extent) in shape.iter().enumerate() {
        if axis >= rank || (layout.shape[axis] == 1 && extent != 1) {
            each += extent as f64;
            if axis < rank - layout.n_dense_axes {
                rows *= extent as f64;
                most_rows = rows.max(most_rows);
            }
        }
    }
    let positions = match layout.kind {
        LayoutKind::Dense => product(shape.iter()),
        LayoutKind::Diagonal => product(shape.iter().take(1)),
        LayoutKind::Sparse => rows,
    };
    let dense_axes = (old.dense_axes + shape.len()).saturating_sub(rank);
    let deps = old.deps * each;
    (Size { dense_axes, positions, deps, ..old }, weighed(most_rows + deps, shape.len()))
}

/// The entries made by stretching a layout to a shape; none where it panics at once.
pub fn stretching(layout: &Layout, shape: &Shape) -> f64 {
    let mut shared = layout.shape.iter().zip(shape.iter());
    if shared.all(|(&old, &new)| old == 1 || old == new) {
        stretched(layout, shape).1
    } else {
        0.0
    }
}

/// The entries made by bringing a layout to a rank.
pub fn ranking(layout: &Layout, rank: usize) -> f64 {
    let added = rank.saturating_sub(layout.rank());
    weighed(1.0 + Size::of(layout).deps * (1 + added) as f64, rank)
}

/// The size of a union, or where `common` of an intersection, and the entries made on the way.
fn joined<'a>(a: Size<'a>, b: Size<'a>, shape: &Shape, common: bool) -> (Size<'a>, f64) {
    let deps = a.deps + b.deps;
    let a_dense = *a.kind == LayoutKind::Dense;
    if a_dense || *b.kind == LayoutKind::Dense {
        let left = if a_dense == common { b } else { a };
        let looked_at = if common { left.positions } else { 0.0 };
        return (Size { deps, ..left }, looked_at);
    }
    let low = a.dense_axes.min(b.dense_axes);
    if [a, b].iter().all(|x| *x.kind == LayoutKind::Diagonal && x.dense_axes == low) {
        return (Size { deps, ..a }, 0.0);
    }
    let (a, b) = (a.lowered(shape, low), b.lowered(shape, low));
    let listed = a.positions + b.positions;
    if common {
        let deps = a.deps + b.deps;
        (Size { positions: a.positions.min(b.positions), deps, ..a }, listed + deps)
    } else {
        (Size { positions: listed, deps, ..a }, listed)
    }
}

/// The entries made by a union, or where `common` by an intersection; none where it panics at once.
pub fn joining(a: &Layout, b: &Layout, common: bool) -> f64 {
    if a.shape == b.shape {
        joined(Size::of(a), Size::of(b), &a.shape, common).1
    } else {
        0.0
    }
}

/// The entries made by stretching layouts to their common shape and folding them from the last.
pub fn broadcasting(layouts: &[Layout], common: bool) -> f64 {
    let shapes: Vec<&Shape> = layouts.iter().map(Layout::shape).collect();
    let Some(shape) = broadcast_shapes(&shapes) else {
        return 0.0;
    };
    let all = layouts.iter().rev().map(|layout| stretched(layout, &shape));
    let folded = all.reduce(|(last, before), (next, stretching)| {
        let (size, joining) = joined(last, next, &shape, common);
        (size, before + stretching + joining)
    });
    folded.map_or(0.0, |(_, made)| made)
}

/// The entries made by permuting; none where it is turned down at once.
pub fn permuting(layout: &Layout, permutation: &[usize]) -> f64 {
    let rank = layout.rank();
    let dense_axes = if layout.is_sparse() { layout.n_dense_axes } else { 0 };
    let allowed = (layout.min_rank()..=rank).contains(&permutation.len())
        && (rank - dense_axes..rank).all(|i| permutation.get(i) == Some(&i));
    match permutation.iter().max() {
        Some(&last) if allowed => {
            weighed(1.0 + layout.indices.len() as f64 + Size::of(layout).deps, last + 1)
        }
        _ => 0.0,
    }
}
