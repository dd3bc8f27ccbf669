//! Which layouts a record may hold.

use super::{Index, Layout, NonZero};

pub const MOST_RANK: usize = 4;
pub const MOST_ENTRIES: usize = 128;
const MOST_PRODUCT: usize = 65_536;
const MOST_COMPONENT: i64 = 65_535;

/// Whether a layout of at most the allowed rank and entries is sound.
pub fn is_sound(layout: &Layout) -> bool {
    extents_fit(layout)
        && kind_fits(layout)
        && rows_fit(layout)
        && deps_fit(&layout.state_deps)
        && deps_fit(&layout.input_deps)
}

/// Whether the nonzero extents' product is allowed.
fn extents_fit(layout: &Layout) -> bool {
    let mut nonzero = layout.shape.iter().filter(|&&e| e != 0);
    let product = nonzero.try_fold(1, |product: usize, &e| product.checked_mul(e));
    product.is_some_and(|product| product <= MOST_PRODUCT)
}

/// Whether the dense axes and the first extents are as the kind asks.
fn kind_fits(layout: &Layout) -> bool {
    let listed_axes = layout.rank() - layout.n_dense_axes;
    if layout.is_dense() {
        listed_axes == 0
    } else if layout.is_diagonal() {
        listed_axes > 0 && (0..listed_axes).all(|i| layout.shape[i] == layout.shape[0])
    } else {
        true
    }
}

/// Whether the rows, in a sparse layout only, lie in the shape and are all different.
fn rows_fit(layout: &Layout) -> bool {
    let in_shape = |row: &Index| {
        row.iter().zip(layout.shape.iter()).all(|(&c, &e)| usize::try_from(c).is_ok_and(|c| c < e))
    };
    let mut sorted: Vec<&Index> = layout.indices.iter().collect();
    sorted.sort_by(|a, b| a.iter().cmp(b.iter()));
    (layout.is_sparse() || sorted.is_empty())
        && sorted.iter().all(|row| in_shape(row))
        && sorted.windows(2).all(|pair| pair[0] != pair[1])
}

/// Whether the dependencies strictly increase and their components are allowed.
fn deps_fit(deps: &[NonZero]) -> bool {
    let key = |i: usize| (deps[i].0.iter().collect::<Vec<_>>(), deps[i].1);
    let mut components = deps.iter().flat_map(|(index, _)| index.iter());
    components.all(|c| (0..=MOST_COMPONENT).contains(c))
        && (1..deps.len()).all(|i| key(i - 1) < key(i))
}
