//! The operations by their numbers. Each answers nothing where the Rust cannot be asked.

mod lists;
mod made;
mod read;
mod shapes;

use crate::request::Arguments;

pub type Operation = fn(&Arguments) -> Option<String>;

/// The form of an operation's arguments and the operation.
pub fn named(op: i32) -> Option<(&'static str, Operation)> {
    Some(match op {
        1 => ("Sn", shapes::broadcast_shapes),
        2 => ("SS", shapes::can_broadcast_to),
        3 => ("SS", shapes::ravel_index),
        4 => ("nS", shapes::unravel_index),
        5 => ("SS", shapes::cmp_index),
        7 => ("SS", read::find_nnz_index),
        8 => ("S", read::nnz),
        9 => ("S", read::min_rank),
        10 => ("SS", read::eq_nonzeros),
        11 => ("SS", read::eq_nonzeros_and_deps),
        12 => ("Sn", made::to_dense),
        13 => ("nn", made::new_empty),
        14 => ("n", made::new_scalar),
        15 => ("Sn", made::dense),
        16 => ("Sn", made::diagonal),
        17 => ("SnSn", made::sparse),
        18 => ("Sn", read::to_data_layout),
        19 => ("SSnn", made::broadcast_to_shape),
        20 => ("Snnn", made::broadcast_to_rank),
        22 => ("SSnn", made::union),
        23 => ("SSnn", made::intersect),
        24 => ("Snn", made::contract_last_axis),
        25 => ("SSnn", made::permute),
        26 => ("Snnnn", lists::broadcast),
        27 => ("Snnnn", lists::concatenate),
        28 => ("SSnnnn", made::filter_deps_from),
        29 | 30 => ("S", |_| None),
        31 => ("Sn", read::row),
        32 => ("SSnnn", |asked| in_mode_0(asked, 0, made::broadcast_to_shape)),
        33 => ("Snnnn", |asked| in_mode_0(asked, 1, made::broadcast_to_rank)),
        34 => ("Snnnnn", |asked| in_mode_0(asked, 2, lists::broadcast)),
        35 => ("SnSn", read::find_nnz_indices),
        _ => return None,
    })
}

/// What an operation answers where the number that names the mode of stretching is 0: the Rust has no other mode. Numbers behind it are the
/// sizes of buffers, which no operation reads.
fn in_mode_0(asked: &Arguments, mode: usize, operation: Operation) -> Option<String> {
    if asked.numbers[mode] == 0 {
        operation(asked)
    } else {
        None
    }
}
