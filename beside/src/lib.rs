//! The port beside apicula's published Rust: inputs for both, the comparison of their answers, and the stored list for `crates/replay`.

/// The published source logs with these macros of the `log` crate. Here they expand to nothing and evaluate nothing.
macro_rules! debug {
    ($($arg:tt)*) => {};
}
macro_rules! trace {
    ($($arg:tt)*) => {};
}

include!(concat!(env!("OUT_DIR"), "/published.rs"));

pub mod apicula;
pub mod check;
pub mod input;
pub mod make;
pub mod random;
pub mod record;
pub mod rules;
pub mod shrink;
pub mod tally;
