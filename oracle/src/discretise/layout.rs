// The unchanged source, and below it what must reach its private fields.
include!(concat!(env!("OUT_DIR"), "/layout.rs"));

pub mod record;
pub mod size;
pub mod sound;
