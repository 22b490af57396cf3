//! How many frames to buy: recordings into a tally, and the tally as lines and as a curve of hits against frames. What is counted
//! is counted by the library alone; here it is read, printed and drawn.
pub mod arguments;
pub mod axis;
pub mod calls;
pub mod curve;
pub mod figures;
pub mod pages;
pub mod refused;
pub mod report;
pub mod sources;
pub mod svg;
