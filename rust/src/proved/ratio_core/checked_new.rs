// Erased from crates/ratio_core/src/checked_new.rt by rust/erase: not to be edited.
//! The lowest terms of a fraction, with its sign moved to the numerator, if they fit the type.

use crate::proved::ratio_integer::{Integer, cancelled};

/// The lowest terms of `n/d`, or `None` if `d` is 0 or they do not fit the type. Over `i8`, 6/-4 gives -3/2,
/// and -128/-1 gives `None`. Either number may be the least one.
#[inline]
pub fn checked_new<T: Integer>(n: T, d: T) -> Option<(T, T)> {
    if d.is_one() {
        return Some((n, d));
    }
    if d.is_zero() {
        return None;
    }
    if n.is_zero() {
        return Some((T::ZERO, T::ONE));
    }
    // The gcd of the least number and itself may not fit the type.
    if n == d {
        return Some((T::ONE, T::ONE));
    }
    let (numer, denom) = cancelled(n, d);
    sign_moved(numer, denom)
}

/// `a/b` with a positive denominator, or `None` if it does not fit the type: -3/2 for 3/-2.
///
/// # Conditions
///
/// The proof requires of the caller:
///
/// - `IsCancelled (T.value a) (T.value b)`
#[inline]
pub(crate) fn sign_moved<T: Integer>(a: T, b: T) -> Option<(T, T)> {
    if b < T::ZERO {
        match T::ZERO.try_minus(a) {
            None => None,
            Some(numer) => match T::ZERO.try_minus(b) {
                None => None,
                Some(denom) => Some((numer, denom)),
            },
        }
    } else {
        Some((a, b))
    }
}
