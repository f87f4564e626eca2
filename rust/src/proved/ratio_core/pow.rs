// Erased from crates/ratio_core/src/pow.rt by rust/erase: not to be edited.
//! Reciprocals and powers of fractions, not reduced.
//!
//! A power is computed by squaring, for both numbers in one loop: it takes one turn for each binary digit of the
//! exponent but the last. It computes no square that it does not use. So over `i8`, 10 to the 2 is `Some`, though the
//! next square, 10 to the 4, does not fit. All powers of 0, 1 and -1 fit, but a negative power of 0 does not exist.
pub mod lowest_powers;

use crate::proved::ratio_core::exponent::Exponent;
use crate::proved::ratio_core::sign::is_below_zero;
use crate::proved::ratio_integer::Integer;

/// The reciprocal, with its sign in the numerator: `-3/2` for `-2/3`. It is not reduced. If `n` is negative,
/// `-n` must fit the type. Over `i8`, only -128 has no negative.
///
/// # Conditions
///
/// The proof requires of the caller:
///
/// - `positive`: `pos 0 <ℤ T.value d`
/// - `nonzero`: `T.value n ≢ pos 0`
/// - `held`: `T.value n <ℤ pos 0 → IsHeld T.lo T.hi (neg_ℤ (T.value n))`
#[inline]
pub fn recip<T: Integer>(n: T, d: T) -> (T, T) {
    if is_below_zero(n) {
        (negative(d), negative(n))
    } else {
        (d, n)
    }
}

/// `n/d` to the `e`, or `None` if it does not fit the type: see `checked_pow_with`.
///
/// # Conditions
///
/// The proof requires of the caller:
///
/// - `pos 0 <ℤ T.value d`
#[inline]
pub fn checked_pow<T: Integer>(n: T, d: T, e: i32) -> Option<(T, T)> {
    checked_pow_with(n, d, e)
}

/// `n/d` to the `e`. It requires that `checked_pow` returns `Some`.
///
/// # Conditions
///
/// The proof requires of the caller:
///
/// - `positive`: `pos 0 <ℤ T.value d`
/// - `answered`: `PowerCondition T.lo T.hi (T.value n) (T.value d) e`
#[inline]
pub fn pow<T: Integer>(n: T, d: T, e: i32) -> (T, T) {
    pow_with(n, d, e)
}

/// `n/d` to the `e`: each number to the `e`, not reduced. For the exponent 0 it is 1/1, also for 0/1. For a
/// negative exponent it is the reciprocal of the power with its magnitude: 2/4 to the -2 is 16/4.
///
/// The call returns `None` exactly if one of the two powers does not fit the type or, for a negative
/// exponent, if `n` is 0 or the sign cannot be moved. Over `i8`, -128/1 to the -1 would be -1/128.
///
/// # Conditions
///
/// The proof requires of the caller:
///
/// - `pos 0 <ℤ T.value d`
#[inline]
pub fn checked_pow_with<T: Integer, E: Exponent>(n: T, d: T, e: E) -> Option<(T, T)> {
    // n/d is the reciprocal of d/n, so `checked_recip` serves exponents of both signs.
    let (upper, lower) = if e.is_below_zero() { (n, d) } else { (d, n) };
    let (upper, lower) = try_powers(upper, lower, e.magnitude())?;
    checked_recip(upper, lower)
}

/// `n/d` to the `e`. It requires that `checked_pow_with` returns `Some`.
///
/// # Conditions
///
/// The proof requires of the caller:
///
/// - `positive`: `pos 0 <ℤ T.value d`
/// - `answered`: `PowerCondition T.lo T.hi (T.value n) (T.value d) (E.number e)`
#[inline]
pub fn pow_with<T: Integer, E: Exponent>(n: T, d: T, e: E) -> (T, T) {
    match checked_pow_with(n, d, e) {
        Some(power) => power,
        None => unreachable!(),
    }
}

// Both numbers to the `exponent`, or `None` if one of the powers does not fit the type.
#[inline]
fn try_powers<T: Integer>(n: T, d: T, exponent: u128) -> Option<(T, T)> {
    let mut power = if exponent % 2 == 1 {
        (n, d)
    } else {
        (T::ONE, T::ONE)
    };
    let mut square = (n, d);
    let mut left = exponent / 2;
    while left > 0 {
        // A digit of the exponent is left, so this square is a factor of the power.
        square = both_times(square, square)?;
        if left % 2 == 1 {
            power = both_times(power, square)?;
        }
        left /= 2;
    }
    Some(power)
}

// The products of the first numbers and of the second ones, or `None` if one does not fit the type.
#[inline(always)]
fn both_times<T: Integer>(x: (T, T), y: (T, T)) -> Option<(T, T)> {
    Some((x.0.try_times(y.0)?, x.1.try_times(y.1)?))
}

/// The reciprocal, with its sign in the numerator, not reduced. `None` if `n` is 0 or the sign cannot be
/// moved: over `i8`, the reciprocal of -128/3 would be -3/128.
///
/// # Conditions
///
/// The proof requires of the caller:
///
/// - `T.value n <ℤ pos 0 → pos 0 <ℤ T.value d`
#[inline]
pub fn checked_recip<T: Integer>(n: T, d: T) -> Option<(T, T)> {
    if n.is_zero() {
        return None;
    }
    if is_below_zero(n) {
        let denom = T::ZERO.try_minus(n)?;
        Some((negative(d), denom))
    } else {
        Some((d, n))
    }
}

#[inline]
fn negative<T: Integer>(z: T) -> T {
    T::ZERO.minus(z)
}
