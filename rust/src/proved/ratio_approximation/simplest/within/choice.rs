// Erased from crates/ratio_approximation/src/simplest/within/choice.rt by rust/erase: not to be edited.
//! The simpler one of what was found within bounds and of an included end.

use crate::proved::ratio_approximation::simplest::within::end::End;
use crate::proved::ratio_core::sign::{have_unlike_signs, is_below_zero};
use crate::proved::ratio_integer::{Integer, lowest_terms};

/// What was found, or an included end if it is simpler or nothing was found.
///
/// # Conditions
///
/// The proof requires of the caller:
///
/// - `pos 0 <ℤ T.value end.now.denom`
#[inline]
pub(crate) fn with_end<T: Integer>(found: Option<(T, T)>, end: &End<T>) -> Option<(T, T)> {
    if end.included {
        Some(simpler_of(found, end.numer, end.denom))
    } else {
        found
    }
}

/// The simpler one of what was found and of `n/d` in lowest terms.
///
/// # Conditions
///
/// The proof requires of the caller:
///
/// - `pos 0 <ℤ T.value d`
#[inline]
fn simpler_of<T: Integer>(found: Option<(T, T)>, n: T, d: T) -> (T, T) {
    let (numer, denom) = lowest_terms(n, d);
    match found {
        None => (numer, denom),
        Some(other) => {
            if is_simpler(numer, denom, other.0, other.1) {
                (numer, denom)
            } else {
                other
            }
        }
    }
}

/// Whether `p/q` is simpler than `a/b`: it has a smaller denominator, or the same one and a numerator nearer to 0.
#[inline]
fn is_simpler<T: Integer>(p: T, q: T, a: T, b: T) -> bool {
    if q == b { is_nearer(p, a) } else { q < b }
}

/// Whether `p` is nearer to 0 than `a`.
#[inline]
fn is_nearer<T: Integer>(p: T, a: T) -> bool {
    if have_unlike_signs(p, a) {
        let sum = p.plus(a);
        if is_below_zero(p) {
            T::ZERO < sum
        } else {
            sum < T::ZERO
        }
    } else if is_below_zero(p) {
        a < p
    } else {
        p < a
    }
}
