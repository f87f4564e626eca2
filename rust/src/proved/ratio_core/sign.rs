// Erased from crates/ratio_core/src/sign.rt by rust/erase: not to be edited.
//! Signs of numbers and of fractions, and the negatives, absolute values and positive differences of fractions. A denominator may have either sign.

use crate::proved::ratio_core::counted::Counted;
use crate::proved::ratio_core::order::cross_order;
use crate::proved::ratio_core::steps::Steps;
use crate::proved::ratio_core::sums::sub;
use crate::proved::ratio_integer::{Integer, SignedInteger};
use core::cmp::Ordering;

/// The numerator of the negative fraction, over the same denominator.
///
/// # Conditions
///
/// The proof requires of the caller:
///
/// - `IsHeld T.lo T.hi (neg_ℤ (T.value n))`
#[inline]
pub fn neg<T: SignedInteger>(n: T) -> T {
    n.negate()
}

/// The numerator of the absolute value, over the same denominator: -1 for 1/-2.
///
/// # Conditions
///
/// The proof requires of the caller:
///
/// - `nonzero`: `T.value d ≢ pos 0`
/// - `held`: `IsNegative (T.value n) (T.value d) → IsHeld T.lo T.hi (neg_ℤ (T.value n))`
#[inline]
pub fn abs<T: SignedInteger>(n: T, d: T) -> T {
    if is_negative(n, d) { n.negate() } else { n }
}

/// The lowest terms of `a/b - c/d` if `a/b` is above `c/d`, and else 0/1. If it
/// is above, the call requires that `checked_sub` returns `Some`.
///
/// # Conditions
///
/// The proof requires of the caller:
///
/// - `left_positive`: `pos 0 <ℤ T.value b`
/// - `right_positive`: `pos 0 <ℤ T.value d`
/// - `answered`: `PositiveDifferenceCondition T.EXACT_SUMS T.lo T.hi (T.value a) (T.value b) (T.value c) (T.value d)`
#[inline]
pub fn abs_sub<T: SignedInteger>(a: T, b: T, c: T, d: T) -> (T, T) {
    match cross_order(a, b, c, d, &mut Steps::new()) {
        Ordering::Greater => sub(a, b, c, d),
        Ordering::Less | Ordering::Equal => (T::ZERO, T::ONE),
    }
}

/// The sign of `n/d`: -1, 0 or 1.
///
/// # Conditions
///
/// The proof requires of the caller:
///
/// - `T.value d ≢ pos 0`
#[inline]
pub fn signum<T: SignedInteger>(n: T, d: T) -> T {
    if n.is_zero() {
        T::ZERO
    } else if is_negative(n, d) {
        T::ONE.negate()
    } else {
        T::ONE
    }
}

/// Whether the value of `n/d` is above 0.
///
/// # Conditions
///
/// The proof requires of the caller:
///
/// - `T.value d ≢ pos 0`
#[inline]
pub fn is_positive<T: SignedInteger>(n: T, d: T) -> bool {
    if is_below_zero(d) {
        is_below_zero(n)
    } else {
        is_above_zero(n)
    }
}

/// Whether the value of `n/d` is below 0.
///
/// # Conditions
///
/// The proof requires of the caller:
///
/// - `T.value d ≢ pos 0`
#[inline]
pub fn is_negative<T: SignedInteger>(n: T, d: T) -> bool {
    if is_below_zero(d) {
        is_above_zero(n)
    } else {
        is_below_zero(n)
    }
}

/// Whether the number is below 0.
#[inline]
pub fn is_below_zero<T: Counted>(a: T) -> bool {
    a < T::ZERO
}

/// Whether the number is above 0.
#[inline]
pub fn is_above_zero<T: Integer>(a: T) -> bool {
    T::ZERO < a
}

/// Whether exactly one of the two is below 0.
#[inline]
pub fn have_unlike_signs<T: Counted>(d: T, e: T) -> bool {
    is_below_zero(d) != is_below_zero(e)
}
