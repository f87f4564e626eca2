//! The crate `bakhsney`, named `num_rational`.
#![no_std]

pub use bakhsney::*;
