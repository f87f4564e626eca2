//! Amounts split by shares or by weights, so that nothing is lost.
//!
//! The proved calls take lists of the proved types. An element type and the proved one have the same numbers in the same memory, and
//! so have a `Reduced` and the proved one. So the lists are handed on as they are.
use super::integer::{Element, Integer};
use super::reduced::{Proved, Reduced};
#[cfg(feature = "alloc")]
use super::room_sum::{digits_of_room, digits_with_spare, FEWEST_DIGITS};
#[cfg(feature = "alloc")]
use crate::proved::ratio_totals::{split_in, RoomSplitRefusal, WideRefusal, MOST_DIGITS};
use crate::proved::num_rational::{self as proved, SplitRefusal, WeightRefusal};
use crate::proved::ratio_integer::Primitive;
#[cfg(feature = "alloc")]
use alloc::vec;
use core::slice;

/// Splits an amount by shares that add up to 1. The parts add up to the amount exactly, and each is less than 1 away from the amount
/// times its share. A refusal says why the amount is not split, and then no part has changed.
///
/// ```
/// use num_rational::{split, Reduced64, SplitRefusal};
///
/// let third = Reduced64::checked_new(1, 3).unwrap();
/// let mut cents = [0; 3];
/// assert_eq!(split(100, &[third; 3], &mut cents), Ok(()));
/// assert_eq!(cents, [33, 34, 33]);
/// assert_eq!(split(100, &[third; 2], &mut cents[..2]), Err(SplitRefusal::NotOne));
/// ```
///
/// The sums of the first shares, times the amount, are rounded with a half away from 0: 33, 67 and 100. A part is the difference of
/// two neighbours. No product has to fit: 10,000,000,000 is split by shares over 9,999,999,999, too.
///
/// Nor has a sum of the first shares to fit. Where it does not, the sums take memory. So the answer is `NotHeld` only if the common
/// denominator of the shares is 2^(2^20) or more. Without the feature `alloc` there is no such memory: then it is `NotHeld` if a sum of
/// the first shares does not fit, or the amount times it, rounded.
#[doc(alias = "allocate")]
pub fn split<T: Integer>(amount: T, shares: &[Reduced<T>], parts: &mut [T]) -> Result<(), SplitRefusal> {
    let (amount, shares, parts) = (amount.into_proved(), proved_fractions(shares), proved_numbers_mut(parts));
    match proved::split(amount, shares, parts) {
        Err(SplitRefusal::NotHeld) => split_in_memory(amount, shares, parts),
        answer => answer,
    }
}

/// The split with its sums over the common denominator of the shares. Each try has twice the digits for it.
#[cfg(feature = "alloc")]
#[cold]
fn split_in_memory<P: Primitive>(amount: P, shares: &[proved::Reduced<P>], parts: &mut [P]) -> Result<(), SplitRefusal> {
    let mut digits = FEWEST_DIGITS;
    loop {
        let mut memory = vec![0; digits_with_spare(digits)];
        let (room, spare) = memory.split_at_mut(digits_of_room(digits));
        match split_in(amount, shares, parts, digits, room, spare) {
            Ok(()) => return Ok(()),
            Err(RoomSplitRefusal::NotOne) => return Err(SplitRefusal::NotOne),
            Err(RoomSplitRefusal::Room(WideRefusal::MoreDigits)) if digits < MOST_DIGITS => digits *= 2,
            Err(_) => return Err(SplitRefusal::NotHeld),
        }
    }
}

/// There is no memory for the sums.
#[cfg(not(feature = "alloc"))]
#[cold]
fn split_in_memory<P: Primitive>(_: P, _: &[proved::Reduced<P>], _: &mut [P]) -> Result<(), SplitRefusal> {
    Err(SplitRefusal::NotHeld)
}

/// Splits an amount by weights, such as days or votes. The share of a weight is the weight over the sum of all. The parts add up to
/// the amount exactly, and each is less than 1 away from the amount times its share. A refusal says why the amount is not split, and
/// then no part has changed.
///
/// ```
/// use num_rational::{split_by_weights, WeightRefusal};
///
/// let mut seats = [0; 3];
/// assert_eq!(split_by_weights(10, &[53, 24, 23], &mut seats), Ok(()));
/// assert_eq!(seats, [5, 3, 2]);
/// assert_eq!(split_by_weights(10, &[0, 0, 0], &mut seats), Err(WeightRefusal::AllZero));
/// ```
///
/// The marks are as in [`split`]: 5.3, 7.7 and 10 seats, rounded. No product has to fit, only the sum of the weights.
#[doc(alias = "allocate")]
#[doc(alias = "apportion")]
pub fn split_by_weights<T: Integer>(amount: T, weights: &[T], parts: &mut [T]) -> Result<(), WeightRefusal> {
    proved::split_by_weights(amount.into_proved(), proved_numbers(weights), proved_numbers_mut(parts))
}

fn proved_numbers<T: Integer>(numbers: &[T]) -> &[<T as Element>::Proved] {
    // SAFETY: no other crate can have an `Integer`, and each has the size, the alignment and the numbers of its proved type.
    unsafe { slice::from_raw_parts(numbers.as_ptr().cast(), numbers.len()) }
}

fn proved_numbers_mut<T: Integer>(numbers: &mut [T]) -> &mut [<T as Element>::Proved] {
    // SAFETY: as in `proved_numbers`, and each number of the proved type is one of the element type.
    unsafe { slice::from_raw_parts_mut(numbers.as_mut_ptr().cast(), numbers.len()) }
}

fn proved_fractions<T: Integer>(fractions: &[Reduced<T>]) -> &[Proved<T>] {
    // SAFETY: a `Reduced` is transparent, and the proved fraction is its one field.
    unsafe { slice::from_raw_parts(fractions.as_ptr().cast(), fractions.len()) }
}
