//! Inputs at the far ends of what a caller can pass, each compared with the second program: numbers, sums and lengths
//! that 8, 16 or 32 bits do not hold, the heaviest drawings, and bytes at every alignment.
mod alignment;
#[path = "../common/mod.rs"]
mod common;
mod heaviest;
mod huge;
mod long_buffers;
mod long_drawings;
mod numbers;
mod sheets;
