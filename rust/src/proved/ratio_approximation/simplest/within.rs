// Erased from crates/ratio_approximation/src/simplest/within.rt by rust/erase: not to be edited.
//! The simplest fraction within two bounds. Each is included, excluded or open.
mod choice;
mod end;

use crate::proved::ratio_approximation::simplest::simplest_between;
use crate::proved::ratio_approximation::simplest::within::choice::with_end;
use crate::proved::ratio_approximation::simplest::within::end::{End, high_end, low_end};
use crate::proved::ratio_core::Steps;
use crate::proved::ratio_core::order::cross_order;
use crate::proved::ratio_integer::{Integer, lowest_terms};
use core::cmp::Ordering;
use core::ops::Bound;

/// Of all fractions within the bounds, the one with the smallest denominator. Of these it is the one whose
/// numerator is nearest to 0. A bound is a numerator and a positive denominator, and an included one may be the
/// result itself. From 1/3 to 1/2, both included, it is 1/2, and above 5/2 without an upper bound it is 3/1.
/// It is in lowest terms. `None` exactly if the type has no fraction within the bounds, as above 127/1 over `i8`.
///
/// # Conditions
///
/// The proof requires of the caller:
///
/// - `low`: `HasPositiveDenominator (numbers_in T.value low)`
/// - `high`: `HasPositiveDenominator (numbers_in T.value high)`
#[inline]
pub fn simplest_within<T: Integer>(low: Bound<(T, T)>, high: Bound<(T, T)>) -> Option<(T, T)> {
    let (numer, denom) = within_ends(&low_end(low), &high_end(high))?;
    Some((numer, denom))
}

// The simplest fraction within two ends. If the low one is below the high one, it is the simplest fraction strictly
// between, or an included end that is simpler.
#[inline]
fn within_ends<T: Integer>(low: &End<T>, high: &End<T>) -> Option<(T, T)> {
    let order = cross_order(
        low.numer,
        low.denom,
        high.numer,
        high.denom,
        &mut Steps::new(),
    );
    match order {
        Ordering::Less => {
            let between = simplest_between(low.numer, low.denom, high.numer, high.denom);
            let from_low = with_end(between, low);
            with_end(from_low, high)
        }
        Ordering::Equal => {
            if low.included && high.included {
                Some(lowest_terms(low.numer, low.denom))
            } else {
                None
            }
        }
        Ordering::Greater => None,
    }
}
