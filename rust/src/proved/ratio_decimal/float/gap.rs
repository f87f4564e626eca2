// Erased from crates/ratio_decimal/src/float/gap.rt by rust/erase: not to be edited.
//! The simplest fraction between two ends over one denominator, such as those halfway to a float's neighbours.

use crate::proved::ratio_decimal::float::exact::signed;
use crate::proved::ratio_approximation::simplest::simplest_between;
use crate::proved::ratio_integer::Primitive;

/// The simplest fraction strictly between `low` and `high` over 2^`down`, or the same below 0. `None` exactly if
/// its numbers do not fit the type.
///
/// # Conditions
///
/// The proof requires of the caller:
///
/// - `low`: `0 < low`
/// - `room`: `low + 2 ≤ high`
/// - `short`: `high < 2 ^ 56`
#[inline]
pub(crate) fn simplest_inside<T: Primitive>(
    is_negative: bool,
    low: u64,
    high: u64,
    down: u64,
) -> Option<(T, T)> {
    let (numer, denom) = simplest_size(low, high, down)?;
    let signed_numer = T::from_i128(signed(is_negative, numer as u64))?;
    Some((signed_numer, T::from_u128(denom)?))
}

// The simplest fraction between the ends. Small ends need a power of two that has more than 128 digits. The numerator is 1 there.
#[inline]
fn simplest_size(low: u64, high: u64, down: u64) -> Option<(u128, u128)> {
    if down < 64 {
        return over_short(low, high, 1 << down);
    }
    if down < 128 {
        return over_long(low, high, 1 << down);
    }
    let denom = first_over(high, down)?;
    Some((1, denom))
}

// The search over a number of 64 digits takes less time.
#[inline]
fn over_short(low: u64, high: u64, denom: u64) -> Option<(u128, u128)> {
    let (numer, denom) = simplest_between::<u64>(low, denom, high, denom)?;
    Some((numer as u128, denom as u128))
}

// Over a number of up to 128 digits, the search is for the reciprocal of the result, which is `whole` or more. What it has above
// `whole` is found with numbers of 64 digits, which takes less time. If `whole + 1` is below the reciprocal of the low end, it is the result's.
#[inline]
fn over_long(low: u64, high: u64, power: u128) -> Option<(u128, u128)> {
    let whole = power / high as u128;
    let high_rest = power - whole * high as u128;
    let low_rest = power - whole * low as u128;
    if (low as u128) < low_rest {
        return Some((1, whole + 1));
    }
    let (more, numer) = simplest_between::<u64>(high_rest as u64, high, low_rest as u64, low)?;
    Some((numer as u128, whole * numer as u128 + more as u128))
}

/// 2^127.
const START: u128 = 0x8000_0000_0000_0000_0000_0000_0000_0000;

// The least number whose product with `high` is above 2^`down`, by long division. `None` if it does not fit.
#[inline]
fn first_over(high: u64, down: u64) -> Option<u128> {
    if 192 <= down {
        return None;
    }
    let divisor = high as u128;
    let more = down - 127;
    let whole = (START / divisor).checked_mul(1 << more)?;
    let last = ((START % divisor) << more) / divisor;
    whole.checked_add(last)?.checked_add(1)
}
