// Erased from crates/ratio_totals/src/short.rt by rust/erase: not to be edited.
//! The trait `Short`: primitive types of at most 64 bits.

use crate::proved::ratio_integer::Primitive;

/// A primitive type of at most 64 bits. Each of its numbers is below 2^64 in magnitude, so a total takes its fractions.
pub trait Short: Primitive {}

impl Short for i8 {}

impl Short for i16 {}

impl Short for i32 {}

impl Short for i64 {}

impl Short for isize {}

impl Short for u8 {}

impl Short for u16 {}

impl Short for u32 {}

impl Short for u64 {}

impl Short for usize {}
