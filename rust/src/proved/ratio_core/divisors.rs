// Erased from crates/ratio_core/src/divisors.rt by rust/erase: not to be edited.
//! The greatest common divisor and the least common multiple of two fractions in lowest terms.
//!
//! One fraction divides another if the quotient is a whole number: 1/12 divides 1/4 and 1/6. Both results come
//! from those of the numerators and of the denominators, and are in lowest terms as they come.

use crate::proved::ratio_integer::Integer;

/// The greatest fraction that divides both: 1/12 for 1/4 and 1/6. It is never negative. For a fraction and 0 it
/// is the absolute value of the fraction.
///
/// The call returns `None` exactly if a number of the result does not fit the type. Over `i8`, for -128/1 and
/// 0/1 it is 128/1.
///
/// # Conditions
///
/// The proof requires of the caller:
///
/// - `left`: `IsLowestTerms (T.value a) (T.value b)`
/// - `right`: `IsLowestTerms (T.value c) (T.value d)`
#[inline]
pub fn checked_gcd<T: Integer>(a: T, b: T, c: T, d: T) -> Option<(T, T)> {
    let denom = b.try_lcm(d)?;
    let numer = try_gcd(a, c)?;
    Some((numer, denom))
}

/// The least fraction above 0 that both divide: 1/2 for 1/4 and 1/6. It is never negative. If one of the two
/// fractions is 0, it is 0/1.
///
/// The call returns `None` exactly if a number of the result does not fit the type. Over `i8`, for 127/2 and
/// 126/1 it is 16002/1.
///
/// # Conditions
///
/// The proof requires of the caller:
///
/// - `left`: `IsLowestTerms (T.value a) (T.value b)`
/// - `right`: `IsLowestTerms (T.value c) (T.value d)`
#[inline]
pub fn checked_lcm<T: Integer>(a: T, b: T, c: T, d: T) -> Option<(T, T)> {
    let numer = a.try_lcm(c)?;
    let denom = b.gcd(d);
    Some((numer, denom))
}

// The greatest common divisor of two numbers, or `None` if it does not fit the type.
#[inline]
fn try_gcd<T: Integer>(a: T, c: T) -> Option<T> {
    if c.is_zero() || a == c {
        return magnitude(a);
    }
    if a.is_zero() {
        return magnitude(c);
    }
    Some(a.gcd(c))
}

// The distance of the number from 0, or `None` if it does not fit the type.
#[inline]
fn magnitude<T: Integer>(a: T) -> Option<T> {
    if a < T::ZERO {
        T::ZERO.try_minus(a)
    } else {
        Some(a)
    }
}
