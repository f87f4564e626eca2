// Erased from crates/ratio_core/src/products/many_products.rt by rust/erase: not to be edited.
//! The product of many numbers divided by the product of many others: each is cancelled against each before
//! anything is multiplied.
//!
//! The products are then already in lowest terms, and no part of a product is larger than the whole. So the result is
//! `None` only if its lowest terms do not fit. Over `i8`, 100 * 3 over 3 * 100 is 1/1, though 300 does not fit.

use crate::proved::ratio_core::sign::is_below_zero;
use crate::proved::ratio_integer::Integer;

/// The lowest terms of the product of the numbers `above` over the product of the numbers `below`. The call returns `None`
/// exactly if a number below is 0 or the lowest terms do not fit the type. It leaves other numbers in both lists.
#[inline]
pub fn checked_quotient_of_products<T: Integer>(above: &mut [T], below: &mut [T]) -> Option<(T, T)> {
    if has_zero(below) {
        return None;
    }
    if has_zero(above) {
        return Some((T::ZERO, T::ONE));
    }
    cancel_lists(above, below);
    let numer = times_magnitudes(quotient_sign(above, below), above)?;
    let denom = times_magnitudes(T::ONE, below)?;
    Some((numer, denom))
}

// Whether one of the numbers is 0.
#[inline]
fn has_zero<T: Integer>(items: &[T]) -> bool {
    for x in items {
        if x.is_zero() {
            return true;
        }
    }
    false
}

// -1 if the product of the numbers above over that of the numbers below is below 0, and else 1.
#[inline]
fn quotient_sign<T: Integer>(above: &[T], below: &[T]) -> T {
    if is_negative(above) != is_negative(below) {
        T::ZERO.minus(T::ONE)
    } else {
        T::ONE
    }
}

// Whether the product of the numbers is below 0.
#[inline]
fn is_negative<T: Integer>(items: &[T]) -> bool {
    let mut negative = false;
    for x in items {
        if is_below_zero(*x) {
            negative = !negative;
        }
    }
    negative
}

// Divides both lists by common factors, until no number above has a common divisor above 1 with one below.
#[inline]
fn cancel_lists<T: Integer>(above: &mut [T], below: &mut [T]) {
    for x in above.iter_mut() {
        *x = cancel_list(*x, below);
    }
}

// Divides the number and the list by common factors, until it has no common divisor above 1 with a number of the list.
#[inline]
fn cancel_list<T: Integer>(n: T, below: &mut [T]) -> T {
    let mut rest = n;
    for x in below.iter_mut() {
        let (numer, denom) = cancel_pair(rest, *x);
        rest = numer;
        *x = denom;
    }
    rest
}

// Divides both numbers by their gcd. Of two equal numbers the signs are left.
#[inline]
fn cancel_pair<T: Integer>(n: T, d: T) -> (T, T) {
    // The gcd of the least number and itself may not fit the type.
    if n == d {
        return (T::ONE, T::ONE);
    }
    crate::proved::ratio_integer::cancelled(n, d)
}

// `start` times the magnitude of each number, or `None` if it does not fit the type.
#[inline]
fn times_magnitudes<T: Integer>(start: T, items: &[T]) -> Option<T> {
    let mut total = start;
    for x in items {
        total = times_magnitude(total, *x)?;
    }
    Some(total)
}

// `total` times the magnitude of `x`, or `None` if it does not fit the type. The magnitude itself may not fit: over `i8`, -1
// times the magnitude of -128 is -128.
#[inline]
fn times_magnitude<T: Integer>(total: T, x: T) -> Option<T> {
    if !is_below_zero(x) {
        return total.try_times(x);
    }
    match T::ZERO.try_minus(x) {
        Some(magnitude) => total.try_times(magnitude),
        None if is_below_zero(total) && total.plus(T::ONE).is_zero() => Some(x),
        None => None,
    }
}
