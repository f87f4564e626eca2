//! The crate `bakhsney`, under num-rational's name and version.
#![no_std]

pub use bakhsney::*;
