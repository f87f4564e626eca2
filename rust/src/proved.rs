//! The proved sources with their contracts taken off. `rust/erase` writes this file, and each one in `proved/`.
//!
//! Nothing here tests a condition on its caller: the layer does that before each call.

// Not all that is proved is called, imports serve contracts too, and some forms are the proved language's.
#![allow(dead_code, missing_docs, unused_imports, unused_variables)]
#![allow(clippy::all)]
// But a call of std that is newer than the crate's `rust-version` is a fault of rust/erase.
#![warn(clippy::incompatible_msrv)]

pub mod itoa;
pub mod num_rational;
pub mod ratio_approximation;
#[cfg(feature = "alloc")]
pub mod ratio_big;
pub mod ratio_core;
pub mod ratio_decimal;
pub mod ratio_integer;
pub mod ratio_natural;
pub mod ratio_slots;
pub mod ratio_totals;
