// Erased from crates/ratio_expressions/src/replies/mixed.rt by rust/erase: not to be edited.
//! A number as its whole part and the rest: `1 5/12`.

use bakhsney::memory::{AllocError, Global, Vec};
use crate::proved::ratio_expressions::replies::written::fraction_text;
use bakhsney::proved::ratio_big::BigFraction;

/// The whole part of a number and the rest, without its sign, and a space between: `-1 5/12`. The fraction alone, if one of them is 0.
#[inline]
pub(crate) fn mixed_text(alloc: Global, x: &BigFraction) -> Result<Vec<u8>, AllocError> {
    let whole = x.trunc(alloc)?;
    let rest = x.fract(alloc)?;
    if whole.is_zero() || rest.is_zero() {
        return fraction_text(alloc, x);
    }
    parts_text(alloc, &whole, &rest)
}

// A whole part and the rest, without its sign, and a space between.
#[inline]
fn parts_text(alloc: Global, whole: &BigFraction, rest: &BigFraction) -> Result<Vec<u8>, AllocError> {
    let mut text = fraction_text(alloc, whole)?;
    let size = rest.abs(alloc)?;
    let rest = fraction_text(alloc, &size)?;
    text.push(b' ')?;
    text.extend_from_slice(&rest)?;
    Ok(text)
}
