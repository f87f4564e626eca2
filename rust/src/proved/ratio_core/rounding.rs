// Erased from crates/ratio_core/src/rounding.rt by rust/erase: not to be edited.
//! Whole numbers near a fraction (floor, ceiling, truncation, rounded), its fractional part, and its whole part as an `i64`, `i128`, `u64`
//! or `u128`.
//!
//! Each call requires only a positive denominator. It divides once, and no step overflows: nothing is
//! doubled, and nothing is added before the division.

use crate::proved::ratio_core::sign::{is_above_zero, is_below_zero};
use crate::proved::ratio_integer::Integer;

/// The greatest whole number that is not above `n/d`: -4 for -7/2.
///
/// # Conditions
///
/// The proof requires of the caller:
///
/// - `pos 0 <ℤ T.value d`
#[inline]
pub fn floor<T: Integer>(n: T, d: T) -> T {
    let (whole, rest) = cut(n, d);
    if is_below_zero(rest) {
        previous(whole)
    } else {
        whole
    }
}

/// The least whole number that is not below `n/d`: -3 for -7/2.
///
/// # Conditions
///
/// The proof requires of the caller:
///
/// - `pos 0 <ℤ T.value d`
#[inline]
pub fn ceil<T: Integer>(n: T, d: T) -> T {
    let (whole, rest) = cut(n, d);
    if is_above_zero(rest) {
        next(whole)
    } else {
        whole
    }
}

/// `n/d` cut towards zero: -3 for -7/2.
///
/// # Conditions
///
/// The proof requires of the caller:
///
/// - `pos 0 <ℤ T.value d`
#[inline]
pub fn trunc<T: Integer>(n: T, d: T) -> T {
    cut(n, d).0
}

/// The whole number nearest to `n/d`. A half is rounded away from zero: 5/2 to 3.
///
/// # Conditions
///
/// The proof requires of the caller:
///
/// - `pos 0 <ℤ T.value d`
#[inline]
pub fn round<T: Integer>(n: T, d: T) -> T {
    let (whole, rest) = cut(n, d);
    if is_below_half(rest, d) {
        whole
    } else if is_below_zero(rest) {
        previous(whole)
    } else {
        next(whole)
    }
}

/// The numerator, over `d`, of `n/d` minus its `trunc`: -1 for -7/2. It is 0 or has the sign of `n`.
///
/// # Conditions
///
/// The proof requires of the caller:
///
/// - `pos 0 <ℤ T.value d`
#[inline]
pub fn fract<T: Integer>(n: T, d: T) -> T {
    cut(n, d).1
}

/// What `trunc` returns, by the name of the call of `num-rational` whose result is a number and no fraction.
///
/// # Conditions
///
/// The proof requires of the caller:
///
/// - `pos 0 <ℤ T.value d`
#[inline]
pub fn to_integer<T: Integer>(n: T, d: T) -> T {
    trunc(n, d)
}

/// `trunc` as an `i64`, or `None` if it does not fit that type.
///
/// # Conditions
///
/// The proof requires of the caller:
///
/// - `pos 0 <ℤ T.value d`
#[inline]
pub fn to_i64<T: Integer>(n: T, d: T) -> Option<i64> {
    i64::from_i128(trunc(n, d).to_i128()?)
}

/// `trunc` as an `i128`, or `None` if it does not fit that type.
///
/// # Conditions
///
/// The proof requires of the caller:
///
/// - `pos 0 <ℤ T.value d`
#[inline]
pub fn to_i128<T: Integer>(n: T, d: T) -> Option<i128> {
    trunc(n, d).to_i128()
}

/// `trunc` as a `u64`, or `None` if it does not fit that type.
///
/// # Conditions
///
/// The proof requires of the caller:
///
/// - `pos 0 <ℤ T.value d`
#[inline]
pub fn to_u64<T: Integer>(n: T, d: T) -> Option<u64> {
    u64::from_u128(trunc(n, d).to_u128()?)
}

/// `trunc` as a `u128`, or `None` if it does not fit that type.
///
/// # Conditions
///
/// The proof requires of the caller:
///
/// - `pos 0 <ℤ T.value d`
#[inline]
pub fn to_u128<T: Integer>(n: T, d: T) -> Option<u128> {
    trunc(n, d).to_u128()
}

// The quotient cut towards zero, and the rest. A division by a positive number never overflows.
#[inline]
fn cut<T: Integer>(n: T, d: T) -> (T, T) {
    n.div_rem(d)
}

// Whether twice `part` is nearer to 0 than `d`. Twice `part` may not fit the
// type, so we compare `part` with the rest of `d`.
#[inline]
fn is_below_half<T: Integer>(part: T, d: T) -> bool {
    if is_below_zero(part) {
        T::ZERO.minus(part) < part.plus(d)
    } else {
        part < d.minus(part)
    }
}

#[inline]
fn previous<T: Integer>(whole: T) -> T {
    whole.minus(T::ONE)
}

#[inline]
fn next<T: Integer>(whole: T) -> T {
    whole.plus(T::ONE)
}
