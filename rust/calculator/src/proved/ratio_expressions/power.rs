// Erased from crates/ratio_expressions/src/power.rt by rust/erase: not to be edited.
//! The power of two numbers, if it is not too large to be worth it.

use bakhsney::memory::{AllocError, Global};
use crate::proved::ratio_expressions::refusal::Reason;
use crate::proved::ratio_expressions::size::{MOST_BITS, take_one};
use crate::proved::ratio_expressions::value::Value;
use bakhsney::proved::ratio_big::BigFraction;
use bakhsney::proved::ratio_natural::{bits, compare, is_zero, remainder, used};

use std::cmp::Ordering;

/// The power, or why there is none.
#[inline]
pub(crate) fn power(
    alloc: Global,
    x: &BigFraction,
    y: &BigFraction,
) -> Result<Result<Value, Reason>, AllocError> {
    if !is_whole(alloc, y)? {
        return Ok(Err(Reason::ExponentNotWhole));
    }
    let exponent = short_exponent(alloc, y)?;
    whole_power(alloc, x, exponent)
}

// The exponent, or one of 64 bits with the same powers. A longer exponent has powers of 0, 1 and -1 alone, which depend on its sign and on
// whether it is even.
#[inline]
fn short_exponent(alloc: Global, y: &BigFraction) -> Result<i64, AllocError> {
    if let Some(exponent) = y.to_reduced() {
        return Ok(*exponent.numer());
    }
    let digits = y.numer_digits(alloc)?;
    Ok(large_exponent(y.is_negative(), remainder(&digits, 2)))
}

// An exponent above a million, with this sign: even for 0, and odd for 1.
#[inline]
fn large_exponent(negative: bool, last_bit: u64) -> i64 {
    let size = (MOST_BITS + 2 + last_bit) as i64;
    if negative { -size } else { size }
}

// The power with a whole exponent, or why there is none.
#[inline]
fn whole_power(
    alloc: Global,
    x: &BigFraction,
    exponent: i64,
) -> Result<Result<Value, Reason>, AllocError> {
    if !is_modest(alloc, x, exponent)? {
        return Ok(Err(Reason::PowerTooLarge));
    }
    match x.pow(alloc, exponent)? {
        Some(power) => Ok(Ok(Value::Number(power))),
        None => Ok(Err(Reason::ZeroDivisor)),
    }
}

// Whether the denominator is 1.
#[inline]
fn is_whole(alloc: Global, x: &BigFraction) -> Result<bool, AllocError> {
    let denom = x.denom_digits(alloc)?;
    Ok(is_one(&denom))
}

// Whether the number is 1.
#[inline]
fn is_one(digits: &[u64]) -> bool {
    compare(digits, &[1]) == Ordering::Equal
}

// Whether the power is not too large.
#[inline]
fn is_modest(alloc: Global, x: &BigFraction, exponent: i64) -> Result<bool, AllocError> {
    let size = exponent.unsigned_abs();
    if size == 0 {
        return Ok(true);
    }
    let most = MOST_BITS / size;
    let mut numer = x.numer_digits(alloc)?;
    let mut denom = x.denom_digits(alloc)?;
    Ok(is_at_most(numer.as_mut_slice(), most) && is_at_most(denom.as_mut_slice(), most))
}

// Whether the number is at most 2 to the `most`: one less has at most so many bits. The digits are then those of one less.
#[inline]
fn is_at_most(digits: &mut [u64], most: u64) -> bool {
    if is_zero(digits) {
        return true;
    }
    take_one(digits);
    has_bits(digits, most)
}

// Whether the number has at most so many bits.
#[inline]
fn has_bits(digits: &[u64], most: u64) -> bool {
    let count = used(digits);
    count as u64 <= MOST_BITS / 64 && bits(&digits[..count]) as u64 <= most
}
