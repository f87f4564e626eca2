// Erased from crates/ratio_integer/src/lib.rt by rust/erase: not to be edited.
//! The trait of integer types that fractions are generic over, its laws, and its impls for the twelve primitive types, from `i8` to
//! `usize`. Arithmetic is exact: a checked call is `None` exactly if the result does not fit. Here are also the lowest terms of two
//! numbers, and exact sums of fractions over types of at most 64 bits.
pub mod binary_gcd;
mod integer;

mod negatives;
mod reducing;
mod signed_types;
mod unsigned_types;
mod widths;

pub use integer::{Integer, Primitive, SignedInteger};
pub use reducing::{both_cancelled, both_lowest_terms, cancelled, lowest_terms};
