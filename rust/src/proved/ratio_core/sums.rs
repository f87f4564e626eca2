// Erased from crates/ratio_core/src/sums.rt by rust/erase: not to be edited.
//! Sums and differences of fractions with positive denominators, in lowest terms, and two fractions over their least common denominator.
//!
//! The calls here take the fields as they are. If the sums of a type are exact, the calls return `Some` exactly where the lowest terms fit. For
//! other types they form the sum over the least common denominator, and return `None` where a number on the way does not fit. The calls of
//! `reducing`, on any fractions, and of `lowest_sums`, on fractions in lowest terms, are exact for every type.

pub mod lowest_sums;
mod mixed;
pub(crate) mod multiple;
pub mod unreduced_sums;
mod words;

pub use mixed::numerator_of;
pub use multiple::{carried_on, multiple_over, sum_over};
use crate::proved::ratio_integer::{Integer, lowest_terms};

/// The lowest terms of `a/b + c/d`. If `EXACT_SUMS` is true, the call returns `None` exactly if they do
/// not fit the type. If it is false, the call returns `None` exactly if one of these does not fit: the least
/// common denominator, a numerator over it, or the sum of the two numerators. The fields are taken as
/// they are, not reduced. Over `i8`, 1/30 + 1/70 is `None`, since 210 does not fit.
///
/// # Conditions
///
/// The proof requires of the caller:
///
/// - `left_positive`: `pos 0 <ℤ T.value b`
/// - `right_positive`: `pos 0 <ℤ T.value d`
#[inline(always)]
pub fn checked_add<T: Integer>(a: T, b: T, c: T, d: T) -> Option<(T, T)> {
    if !T::EXACT_SUMS {
        let (left, right, common) = scaled(a, b, c, d)?;
        let sum = left.try_plus(right)?;
        return Some(lowest_terms(sum, common));
    }
    if b == d {
        if let Some(sum) = a.try_plus(c) {
            return Some(lowest_terms(sum, b));
        }
    }
    T::exact_sum(a, b, c, d)
}

/// The lowest terms of `a/b - c/d`. If `EXACT_SUMS` is true, the call returns `None` exactly if they do
/// not fit the type. If it is false, the call returns `None` exactly if one of these does not fit: the least
/// common denominator, a numerator over it, or the difference of the two numerators. The fields are taken as
/// they are, not reduced. Over `i8`, 1/30 - 1/70 is `None`, since 210 does not fit.
///
/// # Conditions
///
/// The proof requires of the caller:
///
/// - `left_positive`: `pos 0 <ℤ T.value b`
/// - `right_positive`: `pos 0 <ℤ T.value d`
#[inline(always)]
pub fn checked_sub<T: Integer>(a: T, b: T, c: T, d: T) -> Option<(T, T)> {
    if !T::EXACT_SUMS {
        let (left, right, common) = scaled(a, b, c, d)?;
        let difference = left.try_minus(right)?;
        return Some(lowest_terms(difference, common));
    }
    if b == d {
        if let Some(difference) = a.try_minus(c) {
            return Some(lowest_terms(difference, b));
        }
    }
    T::exact_diff(a, b, c, d)
}

/// The lowest terms of `a/b + c/d`. It requires that `checked_add` returns `Some`.
///
/// # Conditions
///
/// The proof requires of the caller:
///
/// - `left_positive`: `pos 0 <ℤ T.value b`
/// - `right_positive`: `pos 0 <ℤ T.value d`
/// - `answered`: `SumCondition T.EXACT_SUMS T.lo T.hi (T.value a) (T.value b) (T.value c) (T.value d)`
#[inline]
pub fn add<T: Integer>(a: T, b: T, c: T, d: T) -> (T, T) {
    match checked_add(a, b, c, d) {
        Some(sum) => sum,
        None => unreachable!(),
    }
}

/// The lowest terms of `a/b - c/d`. It requires that `checked_sub` returns `Some`.
///
/// # Conditions
///
/// The proof requires of the caller:
///
/// - `left_positive`: `pos 0 <ℤ T.value b`
/// - `right_positive`: `pos 0 <ℤ T.value d`
/// - `answered`: `DifferenceCondition T.EXACT_SUMS T.lo T.hi (T.value a) (T.value b) (T.value c) (T.value d)`
#[inline]
pub fn sub<T: Integer>(a: T, b: T, c: T, d: T) -> (T, T) {
    match checked_sub(a, b, c, d) {
        Some(difference) => difference,
        None => unreachable!(),
    }
}

/// The numerators of `a/b` and `c/d` over their least common denominator, and then this denominator. For 3/4
/// and 1/6 they are 9, 2 and 12. `None` if one of the three does not fit the type.
///
/// The fields are taken as they are, not reduced. Equal denominators cost no
/// division. Those without a common divisor cost only the gcd.
///
/// # Conditions
///
/// The proof requires of the caller:
///
/// - `left_positive`: `pos 0 <ℤ T.value b`
/// - `right_positive`: `pos 0 <ℤ T.value d`
#[inline]
pub(crate) fn scaled<T: Integer>(a: T, b: T, c: T, d: T) -> Option<(T, T, T)> {
    if b == d {
        return Some((a, c, b));
    }
    // Each fraction is expanded by the other's part of b/d in lowest terms. For
    // 3/4 and 1/6, 4/6 is 2/3: 3/4 by 3, and 1/6 by 2.
    let (for_right, for_left) = lowest_terms(b, d);
    Some((
        a.try_times(for_left)?,
        c.try_times(for_right)?,
        b.try_times(for_left)?,
    ))
}
