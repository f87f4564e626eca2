// Erased from crates/ratio_core/src/sums/mixed.rt by rust/erase: not to be edited.
//! Sums and differences of fractions as mixed numbers: the whole numbers and the parts of 1 are added
//! separately, and give one numerator again.
//!
//! Over `i8`, 3/2 + 5/6 is 1 and 0, and 1/2 + 5/6, which is a carry and 1/3. So it is 2 and 1/3: 7/3. If a
//! number on the way does not fit, the lowest terms do not fit either.
//!
//! The sum of the parts is in lowest terms, and no number on the way leaves the type. Let `g` be the greatest common divisor of the
//! denominators `b` and `d`. The sum of `p/b` and `r/d` is `t` over `b/g * d/g * g`, where `t` is `p * d/g + r * b/g`. Both products are
//! formed as a quotient and a rest by `g`, so `t` is never formed as one number. The rest of `p` is below `g`, so times `d/g` it is below
//! `d`, and in range. What divides `t` and the denominator divides the rest and `g`.

use crate::proved::ratio_core::sums::multiple::{carried_on, product_over, sum_over};
use crate::proved::ratio_integer::{Integer, cancelled};

/// The lowest terms of `a/b + c/d`, from the floors of both, or `None` if they do not fit. `g` is the gcd of the denominators.
///
/// # Conditions
///
/// The proof requires of the caller:
///
/// - `left`: `IsLowestTerms (T.value a) (T.value b)`
/// - `right`: `IsLowestTerms (T.value c) (T.value d)`
/// - `gcd`: `IsGcdOf (T.value b) (T.value d) (T.value g)`
#[cold]
pub(crate) fn mixed_sum<T: Integer>(a: T, b: T, c: T, d: T, g: T) -> Option<(T, T)> {
    let (floor, p) = a.div_mod_floor(b);
    let (other, r) = c.div_mod_floor(d);
    let (carry, part, denom) = parts_sum(p, b, r, d, g)?;
    let whole = carried_on(floor, carry).try_plus(other)?;
    Some((numerator_of(whole, part, denom)?, denom))
}

/// The lowest terms of `a/b - c/d`, from the floor of the left and the ceiling of the right side, or `None`
/// if they do not fit. `g` is the gcd of the denominators.
///
/// # Conditions
///
/// The proof requires of the caller:
///
/// - `left`: `IsLowestTerms (T.value a) (T.value b)`
/// - `right`: `IsLowestTerms (T.value c) (T.value d)`
/// - `gcd`: `IsGcdOf (T.value b) (T.value d) (T.value g)`
#[cold]
pub(crate) fn mixed_difference<T: Integer>(a: T, b: T, c: T, d: T, g: T) -> Option<(T, T)> {
    let (floor, p) = a.div_mod_floor(b);
    let (other, r) = ceiling(c, d);
    let (carry, part, denom) = parts_sum(p, b, r, d, g)?;
    let whole = carried_on(floor, carry).try_minus(other)?;
    Some((numerator_of(whole, part, denom)?, denom))
}

// The ceiling of `c/d`, and the ceiling less `c/d`, as a numerator over `d`: 2 and 1 for 5/3.
#[inline]
fn ceiling<T: Integer>(c: T, d: T) -> (T, T) {
    let (floor, rest) = c.div_mod_floor(d);
    if rest.is_zero() {
        return (floor, rest);
    }
    (floor.plus(T::ONE), d.minus(rest))
}

/// The numerator of `whole + part/denom`, or `None` if it does not fit. If `whole` is below 0, the next whole
/// number is multiplied: `whole * denom` may be out of range where the numerator is not.
///
/// # Conditions
///
/// The proof requires of the caller:
///
/// - `above`: `pos 0 ≤ℤ T.value part`
/// - `at_most`: `T.value part ≤ℤ T.value denom`
#[inline]
pub fn numerator_of<T: Integer>(whole: T, part: T, denom: T) -> Option<T> {
    if whole < T::ZERO {
        let next = whole.plus(T::ONE).try_times(denom)?;
        return next.try_minus(denom.minus(part));
    }
    let product = whole.try_times(denom)?;
    product.try_plus(part)
}

// `p/b + r/d`: whether it is 1 or more, and the part below 1 in lowest terms. `None` if their denominator
// does not fit. So 1/36 and 1/28 give 4/63, and 5/6 and 1/2 give 1/3 and a carry. `g` is the gcd of the denominators.
#[inline]
fn parts_sum<T: Integer>(p: T, b: T, r: T, d: T, g: T) -> Option<(bool, T, T)> {
    let (for_right, _) = b.div_rem(g);
    let (for_left, _) = d.div_rem(g);
    let common = for_right.try_times(for_left)?;
    let x = scaled_over(p, for_left, g);
    let y = scaled_over(r, for_right, g);
    let (carry, quotient, rest) = carried_sum(x, y, common, g);
    let (last, factor) = cancelled(rest, g);
    let denom = common.try_times(factor)?;
    Some((carry, quotient.times(factor).plus(last), denom))
}

// `number` times `factor`, as a quotient and a rest by `g`.
#[inline]
fn scaled_over<T: Integer>(number: T, factor: T, g: T) -> (T, T) {
    let (quotient, rest) = number.div_rem(g);
    if factor.is_one() {
        return (quotient, rest);
    }
    let (more, rest) = product_over(rest, factor, g);
    (quotient.times(factor).plus(more), rest)
}

// The sum of two numbers below `common * g`, each a quotient and a rest by `g`: whether it reaches
// `common * g`, and the quotient and the rest of what remains.
#[inline]
fn carried_sum<T: Integer>(x: (T, T), y: (T, T), common: T, g: T) -> (bool, T, T) {
    let (more, rest) = sum_over(x.1, y.1, g);
    let (carry, quotient) = sum_over(x.0, carried_on(y.0, more), common);
    (carry, quotient, rest)
}
