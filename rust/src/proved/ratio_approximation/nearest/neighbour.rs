// Erased from crates/ratio_approximation/src/nearest/neighbour.rt by rust/erase: not to be edited.
//! A `Neighbour`: in the search for the nearest fraction, one close to it, the steps that bring two of them nearer, and which of two comes
//! first.

use crate::proved::ratio_core::order::dividing::{divide_left, divide_right};
use crate::proved::ratio_core::{Counted, Steps};

/// The fraction `numer/denom`, and its distance from the fraction `n/d` that is sought: `gap` is this
/// distance times `d` and `denom`. For 7/5 and 4/3 the distance is 1/15, so `gap` is 1.
#[derive(Copy)]
pub(crate) struct Neighbour<T: Counted> {
    pub(crate) numer: T,
    pub(crate) denom: T,
    pub(crate) gap: T,
}

impl<T: Counted> Clone for Neighbour<T> {
    #[inline]
    fn clone(&self) -> Neighbour<T> {
        *self
    }
}

/// How many steps towards `fixed` the gap of `moving` has room for, and how many the bound `most` of the
/// denominators has room for. The first takes a division of the left side, the second one of the right side.
///
/// # Conditions
///
/// The proof requires of the caller:
///
/// - `gap`: `pos 0 <ℤ T.value fixed.gap`
/// - `denom`: `pos 0 <ℤ T.value fixed.denom`
/// - `room`: `IsHeld T.lo T.hi (T.value most -ℤ T.value moving.denom)`
#[inline]
pub(crate) fn steps_towards<T: Counted>(
    moving: Neighbour<T>,
    fixed: Neighbour<T>,
    most: T,
    steps: &mut Steps,
) -> (T, T) {
    let (whole, _) = divide_left(moving.gap, fixed.gap, steps);
    let (room, _) = divide_right(most.minus(moving.denom), fixed.denom, steps);
    (whole, room)
}

/// The neighbour `moving` after `times` steps towards `fixed`. Each step adds
/// the numbers of `fixed`: two steps from 1/1 towards 0/1 lead to 1/3.
///
/// # Conditions
///
/// The proof requires of the caller:
///
/// - `CanMove T.lo T.hi (T.value moving.numer) (T.value moving.denom) (T.value moving.gap) (T.value fixed.numer) (T.value fixed.denom) (T.value fixed.gap) (T.value times)`
#[inline]
pub(crate) fn moved<T: Counted>(moving: Neighbour<T>, fixed: Neighbour<T>, times: T) -> Neighbour<T> {
    Neighbour {
        numer: moving.numer.plus(fixed.numer.times(times)),
        denom: moving.denom.plus(fixed.denom.times(times)),
        gap: moving.gap.minus(fixed.gap.times(times)),
    }
}

/// The nearer of two fractions. If they are as near, it is the one with the
/// smaller denominator, and then the one with the smaller numerator.
///
/// # Conditions
///
/// The proof requires of the caller:
///
/// - `CanCompare T.lo T.hi (T.value left.gap) (T.value left.denom) (T.value right.gap) (T.value right.denom)`
#[inline]
pub(crate) fn first_of<T: Counted>(left: Neighbour<T>, right: Neighbour<T>) -> Neighbour<T> {
    let left_far = left.gap.times(right.denom);
    let right_far = right.gap.times(left.denom);
    let order = left_far
        .cmp(&right_far)
        .then(left.denom.cmp(&right.denom))
        .then(left.numer.cmp(&right.numer));
    if order.is_le() { left } else { right }
}
