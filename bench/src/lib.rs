//! The proved calls and, beside them, the paper's algorithms in ordinary Rust and C; panels to measure them on.

pub mod ordinary;
pub mod ours;
pub mod panels;
pub mod sides;
pub mod timing;
