// Erased from crates/ratio_expressions/src/replies/fields.rt by rust/erase: not to be edited.
//! What a page shows of a number, with tabs between.

use bakhsney::memory::{AllocError, Global, Vec};
use crate::proved::ratio_expressions::replies::both::short_denominator;
use crate::proved::ratio_expressions::replies::mixed::mixed_text;
use crate::proved::ratio_expressions::replies::written::{decimal_text, fraction_text};
use bakhsney::proved::ratio_big::BigFraction;

/// The fraction, its decimal with so many places, and the mixed number, with tabs between. The digits of a whole number are computed once:
/// that takes long for a long one.
#[inline]
pub(crate) fn fields_text(
    alloc: Global,
    x: &BigFraction,
    places: u32,
) -> Result<Vec<u8>, AllocError> {
    let text = fraction_text(alloc, x)?;
    match short_denominator(alloc, x)? {
        Some(1) => {
            let decimal = with_zeros(alloc, &text, places)?;
            with_tabs(alloc, &text, &decimal, &text)
        }
        _ => {
            let decimal = decimal_text(alloc, x, places)?;
            let mixed = mixed_text(alloc, x)?;
            with_tabs(alloc, &text, &decimal, &mixed)
        }
    }
}

// The text of a whole number with so many places.
#[inline]
fn with_zeros(alloc: Global, whole: &[u8], places: u32) -> Result<Vec<u8>, AllocError> {
    let mut text = Vec::from_slice(alloc, whole)?;
    if places == 0 {
        return Ok(text);
    }
    text.push(b'.')?;
    let length = text.len().saturating_add(places as usize);
    text.resize(length, b'0')?;
    Ok(text)
}

// Three texts with tabs between.
#[inline]
fn with_tabs(
    alloc: Global,
    first: &[u8],
    second: &[u8],
    third: &[u8],
) -> Result<Vec<u8>, AllocError> {
    let mut text = Vec::from_slice(alloc, first)?;
    text.push(b'\t')?;
    text.extend_from_slice(second)?;
    text.push(b'\t')?;
    text.extend_from_slice(third)?;
    Ok(text)
}
