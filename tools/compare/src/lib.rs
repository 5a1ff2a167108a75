//! A second implementation of the part text, and the random texts on which `partsheet` is compared with it.

pub mod call;
pub mod generate;
pub mod graph;
pub mod object;
pub mod partsheet;
pub mod program;
pub mod ranges;
pub mod refusal;
pub mod tally;
pub mod text;
pub mod windows;
