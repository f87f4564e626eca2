// Erased from crates/ratio_core/src/sums/lowest_sums.rt by rust/erase: not to be edited.
//! Sums and differences of fractions in lowest terms: `Some` exactly if the lowest terms fit.
//!
//! The sum is formed over the least common denominator, and reduced by a short gcd, by Henrici's method (1956). Let `g` be the greatest common
//! divisor of the denominators. What the sum and the least common denominator have in common divides `g`. If `g` is 1, the sum is in lowest
//! terms: 5/6 for 1/2 + 1/3. For 1/6 + 3/10 they are 14 and 30, and `g` is 2. So 7 and 15 are the lowest terms. If a number does not fit
//! there, as 252 for 1/36 + 1/28 over `i8`, whole numbers and parts of 1 are added separately.

use crate::proved::ratio_core::magnitudes::has_short_numbers;
use crate::proved::ratio_core::sums::mixed::{mixed_difference, mixed_sum};
use crate::proved::ratio_integer::{Integer, lowest_terms};

/// The lowest terms of `a/b + c/d`, or `None` if they do not fit. It requires both fractions in lowest
/// terms. Over `i8`, 1/36 + 1/28 is 4/63.
///
/// # Conditions
///
/// The proof requires of the caller:
///
/// - `left`: `IsLowestTerms (T.value a) (T.value b)`
/// - `right`: `IsLowestTerms (T.value c) (T.value d)`
#[inline]
pub fn checked_add<T: Integer>(a: T, b: T, c: T, d: T) -> Option<(T, T)> {
    if b == d {
        if let Some(sum) = a.try_plus(c) {
            return Some(lowest_terms(sum, b));
        }
    }
    let g = gcd_with(b, d);
    let for_right = divided(b, g);
    let for_left = divided(d, g);
    if let Some(left) = a.try_times(for_left) {
        if let Some(right) = c.try_times(for_right) {
            if let Some(sum) = left.try_plus(right) {
                if let Some(common) = b.try_times(for_left) {
                    return Some(divided_by(sum, common, g));
                }
            }
        }
    }
    mixed_sum(a, b, c, d, g)
}

/// The lowest terms of `a/b - c/d`, or `None` if they do not fit. It requires both fractions in lowest
/// terms. Over `u8`, 255/2 - 253/2 is 1/1.
///
/// Neighbours, as 22/7 and 19/6, differ by 1 over the product of their denominators. For types of at most 64 bits, this costs no gcd.
///
/// # Conditions
///
/// The proof requires of the caller:
///
/// - `left`: `IsLowestTerms (T.value a) (T.value b)`
/// - `right`: `IsLowestTerms (T.value c) (T.value d)`
#[inline]
pub fn checked_sub<T: Integer>(a: T, b: T, c: T, d: T) -> Option<(T, T)> {
    if b == d {
        if let Some(difference) = a.try_minus(c) {
            return Some(lowest_terms(difference, b));
        }
    }
    if let Some(numer) = one_apart(a, b, c, d) {
        return Some((numer, b.try_times(d)?));
    }
    let g = gcd_with(b, d);
    let for_right = divided(b, g);
    let for_left = divided(d, g);
    if let Some(minuend) = a.try_times(for_left) {
        if let Some(subtrahend) = c.try_times(for_right) {
            if let Some(difference) = minuend.try_minus(subtrahend) {
                if let Some(common) = b.try_times(for_left) {
                    return Some(divided_by(difference, common, g));
                }
            }
        }
    }
    mixed_difference(a, b, c, d, g)
}

// 1 or -1, if it is `a * d - c * b`. Types of more than 64 bits do not look for it, since the products would cost too much there.
#[inline(always)]
fn one_apart<T: Integer>(a: T, b: T, c: T, d: T) -> Option<T> {
    if !has_short_numbers::<T>() {
        return None;
    }
    let left = a.to_i128()?.try_times(d.to_i128()?)?;
    let right = c.to_i128()?.try_times(b.to_i128()?)?;
    let difference = left.try_minus(right)?;
    if difference.unsigned_abs() != 1 {
        return None;
    }
    let numer = T::from_i128(difference)?;
    Some(numer)
}

// The gcd of `n` and `d`. If `d` is 1, as the denominator of a whole number is, nothing is computed.
#[inline(always)]
fn gcd_with<T: Integer>(n: T, d: T) -> T {
    if d.is_one() {
        return d;
    }
    n.gcd(d)
}

// The quotient of a denominator and `g`. Most often `g` is 1, and nothing is divided.
#[inline(always)]
fn divided<T: Integer>(denom: T, g: T) -> T {
    if g.is_one() {
        return denom;
    }
    denom.div_rem(g).0
}

// A number and a multiple of `g`, both divided by the gcd of the number and `g`.
#[inline]
fn divided_by<T: Integer>(n: T, m: T, g: T) -> (T, T) {
    let shared = gcd_with(n, g);
    if shared.is_one() {
        return (n, m);
    }
    let (numer, _) = n.div_rem(shared);
    let (denom, _) = m.div_rem(shared);
    (numer, denom)
}
