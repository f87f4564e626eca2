// Erased from crates/ratio_expressions/src/limit.rt by rust/erase: not to be edited.
//! Whether numbers are not too large for an operator or a call to take them.

use bakhsney::memory::{AllocError, Global};
use crate::proved::ratio_expressions::size::{MOST_BITS, size_in_bits};
use bakhsney::proved::ratio_big::BigFraction;

/// Whether the two numbers have at most a million bits together. Two short numbers need no memory for this.
#[inline]
pub(crate) fn pair_fits(alloc: Global, x: &BigFraction, y: &BigFraction) -> Result<bool, AllocError> {
    if is_short(x) && is_short(y) {
        return Ok(true);
    }
    let left = size(alloc, x)?;
    let right = size(alloc, y)?;
    Ok(left + right <= MOST_BITS)
}

/// Whether the numbers have at most a million bits together.
#[inline]
pub(crate) fn fit_together(alloc: Global, numbers: &[BigFraction]) -> Result<bool, AllocError> {
    let mut left = MOST_BITS;
    for next in 0..numbers.len() {
        let own = size(alloc, &numbers[next])?;
        if left < own {
            return Ok(false);
        }
        left -= own;
    }
    Ok(true)
}

// Whether both numbers of the fraction fit an `i64`.
#[inline]
fn is_short(x: &BigFraction) -> bool {
    x.to_reduced().is_some()
}

// How many bits the longer one of a fraction's two numbers has, up to the limit.
#[inline]
fn size(alloc: Global, x: &BigFraction) -> Result<u64, AllocError> {
    let mut numer = x.numer_digits(alloc)?;
    let mut denom = x.denom_digits(alloc)?;
    let above = size_in_bits(numer.as_mut_slice());
    let below = size_in_bits(denom.as_mut_slice());
    if above < below { Ok(below) } else { Ok(above) }
}
