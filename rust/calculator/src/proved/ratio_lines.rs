// Erased from crates/ratio_lines/src/lib.rt by rust/erase: not to be edited.
//! The line calculator as a library, which answers each line of an input, such as `1/2 + 1/3`, with a line of an output. For every reader
//! and writer, a run reads all input and writes exactly its answers, or it stops at the first fault.
pub mod answer;
pub mod calculator;
pub mod counted;
pub mod fault;
pub mod gathered;

pub mod line;
pub mod operand;
pub mod operator;
pub mod parts;
