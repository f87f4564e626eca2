// Erased from crates/ratio_core/src/products/lowest_products.rt by rust/erase: not to be edited.
//! Products and quotients of fractions that are already in lowest terms, multiplied together or crosswise,
//! where that is quicker.
//!
//! If both products of the fields fit the type, one gcd reduces them, with an exception below. Else the fractions are cancelled
//! across, with two gcds, which types of at most 64 bits compute together.
//!
//! The exception: over a type of 128 bits, fields of 60 bits have products of 120 bits. Two gcds of 60 bits together take half the
//! time of one of 120 bits. So fields that fit an `i64` are cancelled across if both products are longer than that, and unequal.

use crate::proved::ratio_core::checked_new::{checked_new, sign_moved};
use crate::proved::ratio_core::magnitudes::has_short_numbers;
use crate::proved::ratio_integer::{Integer, both_cancelled, both_lowest_terms, lowest_terms};

/// The lowest terms of `a/b * c/d`, or `None` if they do not fit the type. Both fractions must be in lowest terms.
///
/// # Conditions
///
/// The proof requires of the caller:
///
/// - `left`: `IsLowestTerms (T.value a) (T.value b)`
/// - `right`: `IsLowestTerms (T.value c) (T.value d)`
#[inline]
pub fn checked_mul<T: Integer>(a: T, b: T, c: T, d: T) -> Option<(T, T)> {
    if let Some(numer) = a.try_times(c) {
        if let Some(denom) = b.try_times(d) {
            if is_quicker_crossed(numer, denom, a, b, c, d) {
                return product_together(a, b, c, d);
            }
            return Some(lowest_terms(numer, denom));
        }
    }
    crossed_product(a, b, c, d)
}

/// The lowest terms of `a/b` divided by `c/d`, or `None` if `c` is 0 or they do
/// not fit the type. Both fractions must be in lowest terms.
///
/// # Conditions
///
/// The proof requires of the caller:
///
/// - `left`: `IsLowestTerms (T.value a) (T.value b)`
/// - `right`: `IsLowestTerms (T.value c) (T.value d)`
#[inline]
pub fn checked_div<T: Integer>(a: T, b: T, c: T, d: T) -> Option<(T, T)> {
    if let Some(numer) = a.try_times(d) {
        if let Some(denom) = b.try_times(c) {
            if is_quicker_crossed(numer, denom, a, b, c, d) {
                return quotient_together(a, b, c, d);
            }
            return checked_new(numer, denom);
        }
    }
    crossed_quotient(a, b, c, d)
}

/// The product, cancelled across before it is multiplied: 2/3 times 3/4 becomes 1/1 times 1/2. The gcds of long numbers of 128 bits gain
/// nothing together. Nor does one with 1 or of equal numbers, which ends at once, beside another.
///
/// # Conditions
///
/// The proof requires of the caller:
///
/// - `left`: `IsLowestTerms (T.value a) (T.value b)`
/// - `right`: `IsLowestTerms (T.value c) (T.value d)`
#[inline]
pub(crate) fn crossed_product<T: Integer>(a: T, b: T, c: T, d: T) -> Option<(T, T)> {
    if has_short_numbers::<T>()
        && !(a.is_one() || b.is_one() || c.is_one() || d.is_one() || a == d || b == c)
    {
        return product_together(a, b, c, d);
    }
    let (p, t) = lowest_terms(a, d);
    let (s, q) = lowest_terms(c, b);
    multiplied(p, q, s, t)
}

// The product with both gcds together. It is a call of its own, since its code is long: where it is not needed, a product takes less time without it.
#[inline(never)]
fn product_together<T: Integer>(a: T, b: T, c: T, d: T) -> Option<(T, T)> {
    let ((p, t), (s, q)) = both_lowest_terms(a, d, c, b);
    multiplied(p, q, s, t)
}

/// The quotient: `a/c` times `d/b`. Reducing `a/c` moves the divisor's sign.
///
/// # Conditions
///
/// The proof requires of the caller:
///
/// - `left`: `IsLowestTerms (T.value a) (T.value b)`
/// - `right`: `IsLowestTerms (T.value c) (T.value d)`
#[inline]
pub(crate) fn crossed_quotient<T: Integer>(a: T, b: T, c: T, d: T) -> Option<(T, T)> {
    // With the test of `a` last, quotients of and by whole numbers take no longer for it.
    if has_short_numbers::<T>()
        && !(b.is_one() || c.is_one() || d.is_one() || a == c || b == d || a.is_one())
    {
        quotient_together(a, b, c, d)
    } else {
        quotient_in_turn(a, b, c, d)
    }
}

// The quotient with both gcds together, by a call of its own as the product. If `a/c` needs no gcd, at most one gcd is left.
#[inline(never)]
fn quotient_together<T: Integer>(a: T, b: T, c: T, d: T) -> Option<(T, T)> {
    if c.is_zero() || a.is_zero() || a == c {
        return quotient_in_turn(a, b, c, d);
    }
    let ((n, m), (s, t)) = both_cancelled(a, c, d, b);
    let (p, q) = sign_moved(n, m)?;
    multiplied(p, q, s, t)
}

// The quotient with one gcd after the other.
#[inline(always)]
fn quotient_in_turn<T: Integer>(a: T, b: T, c: T, d: T) -> Option<(T, T)> {
    let (s, t) = lowest_terms(d, b);
    let (p, q) = checked_new(a, c)?;
    multiplied(p, q, s, t)
}

// `p/q * s/t`, if its products are already in lowest terms.
#[inline]
fn multiplied<T: Integer>(p: T, q: T, s: T, t: T) -> Option<(T, T)> {
    Some((p.try_times(s)?, q.try_times(t)?))
}

// Whether the gcds of the fields take less time than the one of the products: neither of these fits an `i64`, and each field does.
// The gcd of a long product and a short one ends soon, and that of equal ones at once.
#[inline]
fn is_quicker_crossed<T: Integer>(numer: T, denom: T, a: T, b: T, c: T, d: T) -> bool {
    !has_short_numbers::<T>()
        && is_wide(denom)
        && is_wide(numer)
        && numer != denom
        && !(is_wide(a) || is_wide(b) || is_wide(c) || is_wide(d))
}

// Whether the number does not fit an `i64`.
#[inline(always)]
fn is_wide<T: Integer>(n: T) -> bool {
    match n.to_i128() {
        Some(number) => i64::from_i128(number).is_none(),
        None => true,
    }
}
