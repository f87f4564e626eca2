// Erased from crates/ratio_core/src/order.rt by rust/erase: not to be edited.
//! The order of two fractions, by what decides it soonest.
//!
//! `compare` and `cross_order` make three tests first. If the denominators are one positive number, the numerators have the order of the
//! fractions. If both cross products fit the type, these have it. If the denominators are positive and just one numerator is below 0, the
//! numerators have it again. What is left, `compare` decides by rounds of divisions, as `cmp_counted` does wherever a product does not fit.
//! `cross_order` tries half digits of the products before it divides.

pub mod dividing;
mod half_digits;

use crate::proved::ratio_core::counted::Counted;
use crate::proved::ratio_core::order::dividing::cmp_by_rounds;
use crate::proved::ratio_core::order::half_digits::order_by_half_digits;
use crate::proved::ratio_core::sign::have_unlike_signs;
use crate::proved::ratio_core::steps::Steps;
use core::cmp::Ordering;

/// Compares `n/d` with `m/e`. The denominators may have either sign, and the fractions need not be reduced. If both
/// cross products fit the type, it compares these and takes no step. Else it divides both fractions in rounds, by
/// Euclid's algorithm, until the quotients differ or one side has no rest. A round takes one step a side.
///
/// # Conditions
///
/// The proof requires of the caller:
///
/// - `left_nonzero`: `T.value d ≢ pos 0`
/// - `right_nonzero`: `T.value e ≢ pos 0`
#[inline]
pub fn cmp_counted<T: Counted>(n: T, d: T, m: T, e: T, steps: &mut Steps) -> Ordering {
    match order_of_products(n, d, m, e) {
        None => cmp_by_rounds(n, d, m, e, steps),
        Some(order) => order,
    }
}

/// Compares `n/d` with `m/e`, as `cmp_counted` does. The denominators may have either sign, and the fractions need
/// not be reduced. It calls `cmp_counted` only if neither the numerators alone nor the cross products decide.
///
/// # Conditions
///
/// The proof requires of the caller:
///
/// - `left_nonzero`: `T.value d ≢ pos 0`
/// - `right_nonzero`: `T.value e ≢ pos 0`
#[inline]
pub fn compare<T: Counted>(n: T, d: T, m: T, e: T, steps: &mut Steps) -> Ordering {
    if let Some(order) = order_at_once(n, d, m, e) {
        return order;
    }
    cmp_counted(n, d, m, e, steps)
}

/// The order of `n/d` and `m/e`, as `compare` tells it. The denominators may have either sign, and the fractions need not
/// be reduced. Where neither the numerators alone nor the cross products decide, it forms these products as half digits, by
/// eight steps a side. It divides in rounds, as `cmp_counted` does, if a denominator is below 8, if one of the numerators alone is
/// below 0, if one is the least number, or if the type has no half base. Both sides of `steps` rise by the same number, which is at
/// most twice the number of binary digits of the smaller denominator.
///
/// # Conditions
///
/// The proof requires of the caller:
///
/// - `left_nonzero`: `T.value d ≢ pos 0`
/// - `right_nonzero`: `T.value e ≢ pos 0`
#[inline]
pub fn cross_order<T: Counted>(n: T, d: T, m: T, e: T, steps: &mut Steps) -> Ordering {
    match order_at_once(n, d, m, e) {
        Some(at_once) => at_once,
        None => long_order(n, d, m, e, steps),
    }
}

/// The order of `n/d` and `m/e`, if the numerators alone or the cross products decide it.
///
/// # Conditions
///
/// The proof requires of the caller:
///
/// - `left_nonzero`: `T.value d ≢ pos 0`
/// - `right_nonzero`: `T.value e ≢ pos 0`
#[inline(always)]
fn order_at_once<T: Counted>(n: T, d: T, m: T, e: T) -> Option<Ordering> {
    if share_denominator(d, e) {
        return Some(n.cmp(&m));
    }
    if let Some(order) = order_of_products(n, d, m, e) {
        return Some(order);
    }
    // This test comes last, since a processor cannot guess it.
    if are_split_by_zero(n, d, m, e) {
        return Some(n.cmp(&m));
    }
    None
}

/// Whether both denominators are the same positive number.
#[inline]
fn share_denominator<T: Counted>(d: T, e: T) -> bool {
    d == e && T::ZERO < d
}

/// Whether both denominators are positive and exactly one numerator is below 0.
#[inline]
fn are_split_by_zero<T: Counted>(n: T, d: T, m: T, e: T) -> bool {
    T::ZERO < d && T::ZERO < e && have_unlike_signs(n, m)
}

/// The order of `n/d` and `m/e` by their cross products, or `None` if one of these does not fit the type.
///
/// # Conditions
///
/// The proof requires of the caller:
///
/// - `left_nonzero`: `T.value d ≢ pos 0`
/// - `right_nonzero`: `T.value e ≢ pos 0`
#[inline(always)]
fn order_of_products<T: Counted>(n: T, d: T, m: T, e: T) -> Option<Ordering> {
    let left = n.try_times(e)?;
    let right = m.try_times(d)?;
    Some(if have_unlike_signs(d, e) {
        right.cmp(&left)
    } else {
        left.cmp(&right)
    })
}

/// The order of fractions whose cross products do not fit the type. It is a function of its own, so that what goes before it
/// need not keep the numbers. It is marked as cold, so that the code for short numbers runs straight on.
///
/// # Conditions
///
/// The proof requires of the caller:
///
/// - `left_nonzero`: `T.value d ≢ pos 0`
/// - `right_nonzero`: `T.value e ≢ pos 0`
/// - `unsettled`: `¬ (DoNumeratorsDecide (T.value n) (T.value d) (T.value m) (T.value e) ⊎ AreProductsHeld T.lo T.hi (T.value n) (T.value d) (T.value m) (T.value e))`
#[cold]
#[inline(never)]
fn long_order<T: Counted>(n: T, d: T, m: T, e: T, steps: &mut Steps) -> Ordering {
    if let Some(order) = order_by_half_digits(n, d, m, e, steps) {
        return order;
    }
    cmp_by_rounds(n, d, m, e, steps)
}
