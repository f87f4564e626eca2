// Erased from crates/ratio_core/src/order/dividing.rt by rust/erase: not to be edited.
//! Comparing fractions by rounds of Euclid's algorithm on both, with the one pair whose quotient does not fit, and its counted
//! divisions, which hashing and other searches call too. A round takes one step a side.

use crate::proved::ratio_core::counted::Counted;
use crate::proved::ratio_core::sign::is_below_zero;
use crate::proved::ratio_core::steps::{Side, Steps};
use core::cmp::Ordering;

/// A step of the left side: the floored quotient and the rest. For -7 by 2 they are -4 and 1.
///
/// # Conditions
///
/// The proof requires of the caller:
///
/// - `nonzero`: `T.value d ≢ pos 0`
/// - `held`: `¬ (IsAboveMax T.hi (T.value n) (T.value d))`
#[inline]
pub fn divide_left<T: Counted>(n: T, d: T, steps: &mut Steps) -> (T, T) {
    let division = n.div_mod_floor(d, Side::Left, steps);
    division
}

/// A step of the right side: the floored quotient and the rest.
///
/// # Conditions
///
/// The proof requires of the caller:
///
/// - `nonzero`: `T.value d ≢ pos 0`
/// - `held`: `¬ (IsAboveMax T.hi (T.value n) (T.value d))`
#[inline]
pub fn divide_right<T: Counted>(n: T, d: T, steps: &mut Steps) -> (T, T) {
    let division = n.div_mod_floor(d, Side::Right, steps);
    division
}

/// The order of `n/d` and `m/e`, by rounds alone.
///
/// # Conditions
///
/// The proof requires of the caller:
///
/// - `left_nonzero`: `T.value d ≢ pos 0`
/// - `right_nonzero`: `T.value e ≢ pos 0`
#[inline]
pub(crate) fn cmp_by_rounds<T: Counted>(n: T, d: T, m: T, e: T, steps: &mut Steps) -> Ordering {
    let mut numer = n;
    let mut denom = d;
    let mut other_numer = m;
    let mut other_denom = e;
    // A round goes on with the reciprocals of the rests, and these have the reverse order.
    let mut reversed = false;
    loop {
        if let Some(order) = order_at_top(numer, denom, other_numer, other_denom) {
            return turned(reversed, order);
        }
        let (quotient, rest) = divide_left(numer, denom, steps);
        let other_rest = match follow_right(quotient, other_numer, other_denom, steps) {
            Ok(other_rest) => other_rest,
            Err(order) => return turned(reversed, order),
        };
        if let Some(order) = order_of_rests(rest, other_rest) {
            return turned(reversed, order);
        }
        numer = denom;
        denom = rest;
        other_numer = other_denom;
        other_denom = other_rest;
        reversed = !reversed;
    }
}

/// The order of the two, if the value of one of them is `hi+1`, which does not fit the type.
///
/// # Conditions
///
/// The proof requires of the caller:
///
/// - `left_nonzero`: `T.value d ≢ pos 0`
/// - `right_nonzero`: `T.value e ≢ pos 0`
#[inline]
fn order_at_top<T: Counted>(n: T, d: T, m: T, e: T) -> Option<Ordering> {
    match (is_above_max(n, d), is_above_max(m, e)) {
        (true, true) => Some(Ordering::Equal),
        (true, false) => Some(Ordering::Greater),
        (false, true) => Some(Ordering::Less),
        (false, false) => None,
    }
}

/// The order of two fractions with the same quotient, if at least one of them has no rest.
#[inline]
fn order_of_rests<T: Counted>(rest: T, other_rest: T) -> Option<Ordering> {
    match (rest.is_zero(), other_rest.is_zero()) {
        (true, true) => Some(Ordering::Equal),
        (true, false) => Some(Ordering::Less),
        (false, true) => Some(Ordering::Greater),
        (false, false) => None,
    }
}

/// The order, reversed if `reversed` is set.
#[inline]
fn turned(reversed: bool, answer: Ordering) -> Ordering {
    if reversed { answer.reverse() } else { answer }
}

/// A step of the right side after one of the left side. Most quotients are the same, and a product shows that. If `quotient` is the floored quotient of `n/d`, it returns the rest, as `Ok`. Else it returns
/// how `quotient` compares with that, as `Err`. For `quotient` 2, 9/4 gives `Ok(1)`, and 5/4 gives `Err(Greater)`.
///
/// # Conditions
///
/// The proof requires of the caller:
///
/// - `nonzero`: `T.value d ≢ pos 0`
/// - `held`: `¬ (IsAboveMax T.hi (T.value n) (T.value d))`
#[inline]
fn follow_right<T: Counted>(quotient: T, n: T, d: T, steps: &mut Steps) -> Result<T, Ordering> {
    if T::ZERO < d {
        if let Some(followed) = follow_by_product(quotient, n, d) {
            steps.tick_right();
            return followed;
        }
    }
    let (other, rest) = divide_right(n, d, steps);
    match quotient.cmp(&other) {
        Ordering::Equal => Ok(rest),
        order => Err(order),
    }
}

// What `follow_right` returns, by a product in place of a division. `None` if the product of `quotient` and `d` is below all numbers of the type.
#[inline]
fn follow_by_product<T: Counted>(quotient: T, n: T, d: T) -> Option<Result<T, Ordering>> {
    let product = match quotient.try_times(d) {
        Some(product) => product,
        None if T::ZERO < quotient => return Some(Err(Ordering::Greater)),
        None => return None,
    };
    if n < product {
        return Some(Err(Ordering::Greater));
    }
    let rest = match n.try_minus(product) {
        Some(rest) => rest,
        None => return Some(Err(Ordering::Less)),
    };
    if rest < d {
        return Some(Ok(rest));
    }
    Some(Err(Ordering::Less))
}

/// Whether the pair is `-hi-1` over -1. Its quotient `hi+1` does not fit the type: over `i8`, -128/-1 is 128.
#[inline]
pub(crate) fn is_above_max<T: Counted>(n: T, d: T) -> bool {
    is_below_zero(d)
        && is_below_zero(n)
        && d.plus(T::ONE).is_zero()
        && is_below_zero(n.plus(T::MAX))
}
