//! The second program: the constraint counter written again from document 01, to hold the proved library to.
//! It has its own reader, counts by brute force or by minimum cuts, and shares no code with the crates.
//! The module `testing` is the test bench, and no part of it.
pub mod answers;
pub mod brute;
pub mod codes;
pub mod cut;
pub mod net;
pub mod questions;
pub mod reader;
pub mod report;
pub mod sheet;
pub mod table;
pub mod testing;
