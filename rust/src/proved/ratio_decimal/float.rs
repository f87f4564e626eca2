// Erased from crates/ratio_decimal/src/float.rt by rust/erase: not to be edited.
//! Floats as fractions, the floats nearest to fractions, and the simplest fractions that round to floats.

pub mod exact;
pub mod format;
mod gap;
pub mod leading;
pub mod nearest;
mod quotient;
pub mod rationalize;
