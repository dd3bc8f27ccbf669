//! The module that the Rust sources stand in, with their neighbours' names.

#[allow(dead_code, clippy::wrong_self_convention)]
pub mod layout;

#[allow(dead_code)]
pub mod shape {
    include!(concat!(env!("OUT_DIR"), "/shape.rs"));
}

#[allow(dead_code)]
pub mod tensor {
    include!(concat!(env!("OUT_DIR"), "/tensor.rs"));
}

pub use layout::{ArcLayout, Layout};
pub use shape::{broadcast_shapes, can_broadcast_to, Shape};
pub use tensor::{Index, TensorBlock};

/// Stand-in for the environment: the two lists that layouts leave there.
pub struct Env {
    pub state0_input_deps: Vec<(Index, usize)>,
    pub dstate0_input_deps: Vec<(Index, usize)>,
}
