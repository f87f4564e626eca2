// Erased from crates/ratio_approximation/src/simplest/side.rt by rust/erase: not to be edited.
//! A `Side`: in the search for the simplest fraction, one on one side of both ends, the steps that bring two of them nearer, and the
//! fraction beyond these steps.

use crate::proved::ratio_core::order::dividing::divide_right;
use crate::proved::ratio_core::{Counted, Steps};

/// The fraction `numer/denom`, and its distances from both ends. `own` is its distance from the end on
/// its side, times `denom` and the denominator of that end; `other` is the same for the far end. For
/// 0/1 between 1/3 and 1/2 they are 1 and 1.
#[derive(Copy)]
pub(crate) struct Side<T: Counted> {
    pub(crate) numer: T,
    pub(crate) denom: T,
    pub(crate) own: T,
    pub(crate) other: T,
}

impl<T: Counted> Clone for Side<T> {
    #[inline]
    fn clone(&self) -> Side<T> {
        *self
    }
}

/// How often `gap` may be taken from `room` so that something is left: 2 times 3 from 7, and 2 times 3
/// from 9. It takes a division of the right side.
///
/// # Conditions
///
/// The proof requires of the caller:
///
/// - `room`: `pos 0 <ℤ T.value room`
/// - `gap`: `pos 0 <ℤ T.value gap`
#[inline]
pub(crate) fn times_within<T: Counted>(room: T, gap: T, steps: &mut Steps) -> T {
    let (times, rest) = divide_right(room, gap, steps);
    if rest.is_zero() {
        times.minus(T::ONE)
    } else {
        times
    }
}

/// The side `moving` after `times` steps towards `fixed`. Each step adds the numbers of `fixed`. `rest`
/// is what is left to its own end.
///
/// # Conditions
///
/// The proof requires of the caller:
///
/// - `CanMove T.lo T.hi (T.value moving.numer) (T.value moving.denom) (T.value moving.other) (T.value fixed.numer) (T.value fixed.denom) (T.value fixed.own) (T.value times)`
#[inline]
pub(crate) fn stepped<T: Counted>(moving: Side<T>, fixed: Side<T>, times: T, rest: T) -> Side<T> {
    Side {
        numer: moving.numer.plus(fixed.numer.times(times)),
        denom: moving.denom.plus(fixed.denom.times(times)),
        own: rest,
        other: moving.other.minus(fixed.own.times(times)),
    }
}

/// The fraction one step after `times` steps from `moving` towards `fixed`, or `None` if one of its
/// numbers does not fit.
///
/// # Conditions
///
/// The proof requires of the caller:
///
/// - `side`: `IsOnOneSide (T.value moving.numer) (T.value fixed.numer)`
/// - `moving`: `pos 0 <ℤ T.value moving.denom`
/// - `fixed`: `pos 0 <ℤ T.value fixed.denom`
/// - `times`: `pos 0 ≤ℤ T.value times`
#[inline]
pub(crate) fn beyond<T: Counted>(moving: Side<T>, fixed: Side<T>, times: T) -> Option<(T, T)> {
    let more = times.try_plus(T::ONE)?;
    let numer = moving.numer.try_plus(fixed.numer.try_times(more)?)?;
    let denom = moving.denom.try_plus(fixed.denom.try_times(more)?)?;
    Some((numer, denom))
}
