//! The pool's calls, and those of a tally, in plain Rust, to measure the proved library against; and other forms of the tally's,
//! and of the directory's test.
pub mod baseline;
pub mod chains;
#[cfg(feature = "former")]
pub mod former;
pub mod forms;
pub mod recordings;
pub mod shapes;
