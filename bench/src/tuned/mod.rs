//! The same entries in Rust written for speed, after document 01 and the readable implementation. It allocates nothing.
//!
//! Questions are asked of whole lists without an early exit, and only where one is answered with no the first no is
//! looked for. What is alike at all parties of a joint run is worked out once.

#![forbid(unsafe_code)]

mod field;
mod fit;
mod gates;
mod inverses;
mod joint;
mod sha256;
mod single;

pub use field::scale;
pub use fit::fit;
pub use joint::joint_run;
pub use single::{receive, send};

#[cfg(test)]
mod tests;
