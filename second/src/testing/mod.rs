//! The test bench, and no part of the second program itself: calls of the proved library, drawings to ask about, and
//! what makes and writes them. The tests and the programs `draw` and `bench` use it.
pub mod drawings;
pub mod ffi;
pub mod mutants;
pub mod random;
pub mod samples;
pub mod text;
pub mod writer;
