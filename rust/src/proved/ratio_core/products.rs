// Erased from crates/ratio_core/src/products.rt by rust/erase: not to be edited.
//! Products and quotients of any fractions in lowest terms, which are `Some` exactly if these fit the type.
//!
//! If both products of the fields fit, one gcd reduces them. Else the operands are reduced and cancelled
//! across, and a sign is moved, before anything is multiplied. The products are then the lowest terms, so
//! only these must fit. Over `i8`, 100/3 times 3/100 is 1/1.
pub mod lowest_products;
pub mod many_products;

use crate::proved::ratio_core::checked_new::checked_new;
use crate::proved::ratio_core::products::lowest_products::{crossed_product, crossed_quotient};
use crate::proved::ratio_integer::{Integer, lowest_terms};

/// The lowest terms of `a/b * c/d`, or `None` if they do not fit the type. The fractions need not be reduced.
///
/// # Conditions
///
/// The proof requires of the caller:
///
/// - `left_positive`: `pos 0 <ℤ T.value b`
/// - `right_positive`: `pos 0 <ℤ T.value d`
#[inline]
pub fn checked_mul<T: Integer>(a: T, b: T, c: T, d: T) -> Option<(T, T)> {
    if let Some(numer) = a.try_times(c) {
        if let Some(denom) = b.try_times(d) {
            return Some(lowest_terms(numer, denom));
        }
    }
    cancelled_product(a, b, c, d)
}

/// The lowest terms of `a/b` divided by `c/d`, or `None` if `c` is 0 or they do
/// not fit the type. The fractions need not be reduced.
///
/// # Conditions
///
/// The proof requires of the caller:
///
/// - `left_positive`: `pos 0 <ℤ T.value b`
/// - `right_positive`: `pos 0 <ℤ T.value d`
#[inline]
pub fn checked_div<T: Integer>(a: T, b: T, c: T, d: T) -> Option<(T, T)> {
    if let Some(numer) = a.try_times(d) {
        if let Some(denom) = b.try_times(c) {
            return checked_new(numer, denom);
        }
    }
    cancelled_quotient(a, b, c, d)
}

/// The lowest terms of `a/b * c/d`. It requires that `checked_mul` returns `Some`.
///
/// # Conditions
///
/// The proof requires of the caller:
///
/// - `left_positive`: `pos 0 <ℤ T.value b`
/// - `right_positive`: `pos 0 <ℤ T.value d`
/// - `answered`: `ProductCondition T.lo T.hi (T.value a) (T.value b) (T.value c) (T.value d)`
#[inline]
pub fn mul<T: Integer>(a: T, b: T, c: T, d: T) -> (T, T) {
    match checked_mul(a, b, c, d) {
        Some(product) => product,
        None => unreachable!(),
    }
}

/// The lowest terms of `a/b` divided by `c/d`. It requires that `checked_div` returns `Some`.
///
/// # Conditions
///
/// The proof requires of the caller:
///
/// - `left_positive`: `pos 0 <ℤ T.value b`
/// - `right_positive`: `pos 0 <ℤ T.value d`
/// - `answered`: `QuotientCondition T.lo T.hi (T.value a) (T.value b) (T.value c) (T.value d)`
#[inline]
pub fn div<T: Integer>(a: T, b: T, c: T, d: T) -> (T, T) {
    match checked_div(a, b, c, d) {
        Some(quotient) => quotient,
        None => unreachable!(),
    }
}

// The product, cancelled before it is multiplied.
#[inline]
fn cancelled_product<T: Integer>(a: T, b: T, c: T, d: T) -> Option<(T, T)> {
    let (a, b) = lowest_terms(a, b);
    let (c, d) = lowest_terms(c, d);
    crossed_product(a, b, c, d)
}

// The quotient, cancelled before it is multiplied.
#[inline]
fn cancelled_quotient<T: Integer>(a: T, b: T, c: T, d: T) -> Option<(T, T)> {
    let (a, b) = lowest_terms(a, b);
    let (c, d) = lowest_terms(c, d);
    crossed_quotient(a, b, c, d)
}
