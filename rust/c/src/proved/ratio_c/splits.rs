// Erased from crates/ratio_c/src/splits.rt by rust/erase: not to be edited.
//! The calls for C that split an amount by shares or by weights, so that nothing is lost.

use crate::proved::ratio_c::code::{
    ALL_ZERO, ANSWERED, BELOW_ZERO, DENOMINATOR_NOT_POSITIVE, NOT_HELD, NOT_ONE, UNLIKE_LENGTHS,
};
use crate::proved::ratio_c::many::are_positive;
use crate::proved::ratio_c::numbers64::Fraction64;
use bakhsney::proved::num_rational::{Reduced, Share, SplitRefusal, WeightRefusal, split_by_weights, split_shares};
use bakhsney::proved::ratio_integer::Integer;

impl Share<i64> for Fraction64 {
    #[inline(always)]
    fn numer(&self) -> i64 {
        self.numer
    }

    #[inline(always)]
    fn lowest(&self) -> Reduced<i64> {
        lowest_of(self.numer, self.denom)
    }
}

// The lowest terms of a fraction over a positive denominator, and else any fraction.
#[inline]
fn lowest_of<T: Copy + Integer>(n: T, d: T) -> Reduced<T> {
    match Reduced::checked_new(n, d) {
        Some(lowest) => lowest,
        None => Reduced::zero(),
    }
}

// The code of a split by shares that was refused.
#[inline]
fn code_of_shares(why: SplitRefusal) -> u32 {
    match why {
        SplitRefusal::Length => UNLIKE_LENGTHS,
        SplitRefusal::BelowZero => BELOW_ZERO,
        SplitRefusal::NotHeld => NOT_HELD,
        SplitRefusal::NotOne => NOT_ONE,
    }
}

// The code of a split by weights that was refused.
#[inline]
fn code_of_weights(why: WeightRefusal) -> u32 {
    match why {
        WeightRefusal::Length => UNLIKE_LENGTHS,
        WeightRefusal::BelowZero => BELOW_ZERO,
        WeightRefusal::NotHeld => NOT_HELD,
        WeightRefusal::AllZero => ALL_ZERO,
    }
}

/// The amount split by the shares into the parts. The result is the code.
#[no_mangle]
pub unsafe extern "C" fn ratio_split_i64(amount: i64, shares: *const Fraction64, shares_len: usize, parts: *mut i64, parts_len: usize) -> u32 {
    // SAFETY: the header says what the caller owes for each pointer and its length.
    let shares = crate::items(shares, shares_len);
    let parts = crate::items_mut(parts, parts_len);
    if !are_positive(shares) {
        return DENOMINATOR_NOT_POSITIVE;
    }
    match split_shares(amount, shares, parts) {
        Ok(()) => ANSWERED,
        Err(why) => code_of_shares(why),
    }
}

/// The amount split by the weights into the parts. The result is the code.
#[no_mangle]
pub unsafe extern "C" fn ratio_split_by_weights_i64(amount: i64, weights: *const i64, weights_len: usize, parts: *mut i64, parts_len: usize) -> u32 {
    // SAFETY: the header says what the caller owes for each pointer and its length.
    let weights = crate::items(weights, weights_len);
    let parts = crate::items_mut(parts, parts_len);
    match split_by_weights(amount, weights, parts) {
        Ok(()) => ANSWERED,
        Err(why) => code_of_weights(why),
    }
}
