// Erased from crates/ratio_decimal/src/float/nearest.rt by rust/erase: not to be edited.
//! The float nearest to a fraction: its leading digits, cut and rounded at the last one, and its bits.

use crate::proved::ratio_decimal::float::format::FloatType;
use crate::proved::ratio_decimal::float::quotient::leading_digits;
use crate::proved::ratio_core::sign::is_below_zero;
use crate::proved::ratio_core::text::magnitude;
use crate::proved::ratio_integer::Primitive;

/// The float nearest to the fraction: 0.3333333333333333 for 1/3. If two are equally near, it is the one whose last
/// bit is 0: 9007199254740992 for 9007199254740993.
///
/// # Conditions
///
/// The proof requires of the caller:
///
/// - `pos 0 <ℤ T.value denom`
#[inline]
pub fn to_f64<T: Primitive>(numer: T, denom: T) -> f64 {
    nearest::<T, f64>(numer, denom)
}

/// The float of 32 bits nearest to the fraction: 0.33333334 for 1/3. It is infinite if the size of the fraction is at least 2^128-2^103.
///
/// # Conditions
///
/// The proof requires of the caller:
///
/// - `pos 0 <ℤ T.value denom`
#[inline]
pub fn to_f32<T: Primitive>(numer: T, denom: T) -> f32 {
    nearest::<T, f32>(numer, denom)
}

// If both numbers are floats, one division gives the result. The sign decides no branch, since a processor cannot guess it.
#[inline]
fn nearest<T: Primitive, F: FloatType>(numer: T, denom: T) -> F {
    match (short::<T, F>(numer), short::<T, F>(denom)) {
        (Some(n), Some(d)) => F::quotient(n, d),
        _ => by_digits(numer, denom),
    }
}

// The number, if it has at most the digits of a float.
#[inline]
fn short<T: Primitive, F: FloatType>(t: T) -> Option<i64> {
    let n = t.to_i128()?;
    let end = 1 << F::DIGITS;
    if -end < n && n < end {
        Some(n as i64)
    } else {
        None
    }
}

/// The float nearest to the fraction, without a division of floats.
///
/// # Conditions
///
/// The proof requires of the caller:
///
/// - `pos 0 <ℤ T.value denom`
#[inline]
pub(crate) fn by_digits<T: Primitive, F: FloatType>(numer: T, denom: T) -> F {
    let bits = nearest_bits::<F>(magnitude(numer), magnitude(denom));
    F::of_bits(bits, is_below_zero(numer))
}

// The bits of the float nearest to n/d.
#[inline]
fn nearest_bits<F: FloatType>(n: u128, d: u128) -> u64 {
    if n == 0 {
        return 0;
    }
    let (high_n, n_zeros) = moved_up(n);
    let (high_d, d_zeros) = moved_up(d);
    let (digits, is_more) = leading_digits(high_n, high_d);
    rounded::<F>(digits, is_more, n_zeros, d_zeros)
}

// The number with zeros behind it, so that it has 128 binary digits, and how many zeros these are.
#[inline]
fn moved_up(n: u128) -> (u128, u64) {
    let zeros = n.leading_zeros();
    (n << zeros, zeros as u64)
}

// The bits of the float nearest to n/d, from the leading digits of the quotient of n with `n_zeros` zeros behind it and
// d with `d_zeros`.
#[inline]
fn rounded<F: FloatType>(digits: u64, is_more: bool, n_zeros: u64, d_zeros: u64) -> u64 {
    let (above, below) = (F::LEAST + d_zeros, n_zeros + 63);
    let length = 63 + (digits >> 63);
    // A float near 0 has fewer digits.
    let dropped = (length - F::DIGITS).max(below.saturating_sub(above));
    bits_of::<F>(
        kept_digits(digits, is_more, dropped),
        above + dropped - below,
    )
}

/// The digits without the last `dropped` ones, rounded to the nearest number. A tie goes to the even one.
///
/// # Conditions
///
/// The proof requires of the caller:
///
/// - `(0 < dropped) × (dropped < 64)`
#[inline]
pub(crate) fn kept_digits(digits: u64, is_more: bool, dropped: u64) -> u64 {
    let (kept, rest, half) = cut(digits, dropped);
    let is_up = if rest == half {
        is_more || kept % 2 == 1
    } else {
        half < rest
    };
    kept + is_up as u64
}

// The digits that are kept, those that are dropped, and half the weight of the last digit that is kept.
#[inline]
fn cut(digits: u64, dropped: u64) -> (u64, u64, u64) {
    (
        digits >> dropped,
        digits % (1 << dropped),
        1 << (dropped - 1),
    )
}

/// The bits of so many times 2^place times the least float above 0, or those of infinity.
///
/// # Conditions
///
/// The proof requires of the caller:
///
/// - `digits`: `digits ≤ 2 ^ 53`
/// - `place`: `place < 2 ^ 11`
#[inline]
pub(crate) fn bits_of<F: FloatType>(digits: u64, place: u64) -> u64 {
    ((place << (F::DIGITS - 1)) + digits).min(F::INFINITY)
}
