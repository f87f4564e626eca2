// Erased from crates/ratio_expressions/src/number/short_fraction.rt by rust/erase: not to be edited.
//! The number that a text of one or two short whole numbers says: `3/4`, `12`.

use bakhsney::proved::num_rational::Reduced64;
use bakhsney::proved::ratio_big::BigFraction;
use bakhsney::proved::ratio_core::text::leading_fields;

/// The number of a text of digits, with a slash or none, in 64 bits. `None` says nothing about the text: this is the quick way for most
/// numbers.
#[inline]
pub(crate) fn short_fraction(text: &[u8]) -> Option<BigFraction> {
    let (numer, denom, end) = leading_fields::<i64>(text)?;
    if end < text.len() {
        return None;
    }
    let lowest = Reduced64::checked_new(numer, denom)?;
    Some(BigFraction::from_reduced(lowest))
}
