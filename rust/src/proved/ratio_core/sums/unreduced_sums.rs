// Erased from crates/ratio_core/src/sums/unreduced_sums.rt by rust/erase: not to be edited.
//! Sums and differences of any fractions with positive denominators: `Some` exactly if the lowest terms fit.
//!
//! The call adds the fields as they are, if this gives a result. Else it brings both fractions to lowest terms first.
//! Over `i8`, 2/72 + 1/28 is 1/36 + 1/28, and so 4/63.

use crate::proved::ratio_core::sums;
use crate::proved::ratio_core::sums::lowest_sums;
use crate::proved::ratio_integer::{Integer, lowest_terms};

/// The lowest terms of `a/b + c/d`, or `None` if they do not fit. The fractions need not be in lowest terms.
///
/// # Conditions
///
/// The proof requires of the caller:
///
/// - `left_positive`: `pos 0 <ℤ T.value b`
/// - `right_positive`: `pos 0 <ℤ T.value d`
#[inline(always)]
pub fn checked_add<T: Integer>(a: T, b: T, c: T, d: T) -> Option<(T, T)> {
    if let Some(sum) = sums::checked_add(a, b, c, d) {
        return Some(sum);
    }
    if T::EXACT_SUMS {
        return None;
    }
    let (n, m) = lowest_terms(a, b);
    let (p, q) = lowest_terms(c, d);
    lowest_sums::checked_add(n, m, p, q)
}

/// The lowest terms of `a/b - c/d`, or `None` if they do not fit. The fractions need not be in lowest terms.
///
/// # Conditions
///
/// The proof requires of the caller:
///
/// - `left_positive`: `pos 0 <ℤ T.value b`
/// - `right_positive`: `pos 0 <ℤ T.value d`
#[inline(always)]
pub fn checked_sub<T: Integer>(a: T, b: T, c: T, d: T) -> Option<(T, T)> {
    if let Some(difference) = sums::checked_sub(a, b, c, d) {
        return Some(difference);
    }
    if T::EXACT_SUMS {
        return None;
    }
    let (n, m) = lowest_terms(a, b);
    let (p, q) = lowest_terms(c, d);
    lowest_sums::checked_sub(n, m, p, q)
}
