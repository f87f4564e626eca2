// Erased from crates/ratio_core/src/pow/lowest_powers.rt by rust/erase: not to be edited.
//! Powers of fractions in lowest terms, which are `Some` exactly if the lowest terms of the power fit the type.
//!
//! The two powers of the fields have no common divisor, so they are the lowest terms. A negative exponent turns
//! the fraction over first, before anything is multiplied. So over `i8`, -1/2 to the -7 is -2/1 to the 7, which
//! is -128/1. The number 128 is never formed.

use crate::proved::ratio_core::exponent::Exponent;
use crate::proved::ratio_core::pow::{checked_recip, try_powers};
use crate::proved::ratio_integer::Integer;

/// The lowest terms of `n/d` to the `e`, or `None` if they do not fit the type, or if `n` is 0 and `e` is below 0.
/// The fraction must be in lowest terms. Over `i8`, -1/2 to the 7 would be -1/128.
///
/// # Conditions
///
/// The proof requires of the caller:
///
/// - `IsLowestTerms (T.value n) (T.value d)`
#[inline]
pub fn checked_pow_with<T: Integer, E: Exponent>(n: T, d: T, e: E) -> Option<(T, T)> {
    let (upper, lower) = if e.is_below_zero() {
        checked_recip(n, d)?
    } else {
        (n, d)
    };
    try_powers(upper, lower, e.magnitude())
}
