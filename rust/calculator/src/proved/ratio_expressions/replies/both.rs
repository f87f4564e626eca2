// Erased from crates/ratio_expressions/src/replies/both.rt by rust/erase: not to be edited.
//! A fraction with its decimal beside it: `7/12 ≈ 0.583333`.

use bakhsney::memory::{AllocError, Global, Vec};
use crate::proved::ratio_expressions::replies::written::fraction_text;
use bakhsney::proved::ratio_big::BigFraction;
use bakhsney::proved::ratio_decimal::rounding_rule::Rounding;

/// The fraction, and its decimal with six places, rounded half away from zero: `7/12 ≈ 0.583333`. If the decimal is exact, it has no zeros
/// at its end: `1/4 = 0.25`. A whole number stands alone. An error means that an allocation failed.
#[inline]
pub(crate) fn both_text(alloc: Global, x: &BigFraction) -> Result<Vec<u8>, AllocError> {
    let denom = short_denominator(alloc, x)?;
    match denom {
        Some(1) => fraction_text(alloc, x),
        _ => with_decimal(alloc, x, ends_in_six(denom)),
    }
}

// The fraction and its decimal with six places, which has no zeros at its end if it is exact.
#[inline]
fn with_decimal(alloc: Global, x: &BigFraction, exact: bool) -> Result<Vec<u8>, AllocError> {
    let mut text = fraction_text(alloc, x)?;
    let decimal = x.decimal(alloc, 6, Rounding::HalfAway)?;
    if exact {
        text.extend_from_slice(b" = ")?;
        text.extend_from_slice(without_zeros(decimal.as_bytes()))?;
    } else {
        text.extend_from_slice(" ≈ ".as_bytes())?;
        text.extend_from_slice(decimal.as_bytes())?;
    }
    Ok(text)
}

/// The denominator, if it has at most 64 bits.
#[inline]
pub(crate) fn short_denominator(alloc: Global, x: &BigFraction) -> Result<Option<u64>, AllocError> {
    let digits = x.denom_digits(alloc)?;
    if digits.len() == 1 {
        Ok(Some(digits[0]))
    } else {
        Ok(None)
    }
}

// Whether six places are all of a fraction over this denominator.
#[inline]
fn ends_in_six(denom: Option<u64>) -> bool {
    match denom {
        Some(n) => 1_000_000 % n == 0,
        None => false,
    }
}

// A decimal without the zeros at its end.
#[inline]
fn without_zeros(decimal: &[u8]) -> &[u8] {
    &decimal[..decimal.len() - zeros(decimal)]
}

// How many zeros a text has at its end.
#[inline]
fn zeros(text: &[u8]) -> usize {
    text.iter().rev().take_while(|byte| **byte == b'0').count()
}
