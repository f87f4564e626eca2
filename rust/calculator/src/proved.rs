//! The proved sources with their contracts taken off. `rust/erase` writes this file, and each one in `proved/`.
//!
//! Nothing here tests a condition on its caller: the calls of the program were proved with it.

// Not all that is proved is called, imports serve contracts too, and some forms are the proved language's.
#![allow(dead_code, missing_docs, unused_imports, unused_variables)]
#![allow(clippy::all)]
// But a call of std that is newer than the crate's `rust-version` is a fault of rust/erase.
#![warn(clippy::incompatible_msrv)]

#[cfg(target_pointer_width = "64")]
pub mod ratio;
pub mod ratio_calc;
pub mod ratio_expressions;
pub mod ratio_lines;
