// Erased from crates/ratio_decimal/src/reading/terms.rt by rust/erase: not to be edited.
//! The lowest terms of digits behind a point, and of those of a whole number, from the last digit on.
//!
//! Let p/q be the lowest terms of the digits behind a digit `d`. Then the digit and those behind it are
//! `d * q + p` over `10 * q`. What divides both divides 10, since nothing divides `d * q + p` and `q`. So the
//! lowest terms need no search for a common divisor, and their denominators only grow: if one of them does not
//! fit, the last one does not either.

use crate::proved::ratio_decimal::reading::cut::digit_at;

/// The lowest terms of a number that is not below 0.
#[derive(Clone, Copy)]
pub(crate) struct Terms {
    pub numer: u128,
    pub denom: u128,
}

/// The lowest terms of no digits.
pub(crate) const NOTHING: Terms = Terms { numer: 0, denom: 1 };

/// The lowest terms of the digits behind a point, with a part of 1 behind them: 123/1000 for `1` and 23/100. `None` if
/// their denominator is 2^128 or more.
///
/// # Conditions
///
/// The proof requires of the caller:
///
/// - `digits`: `AllDigits 10 digits.now`
/// - `below`: `behind.numer < behind.denom`
/// - `lowest`: `IsLowestTerms (pos behind.numer) (pos behind.denom)`
#[inline]
pub(crate) fn digits_before(digits: &[u8], behind: Terms) -> Option<Terms> {
    let mut terms = behind;
    let mut at = digits.len();
    while at > 0 {
        terms = digit_before(digit_at(digits, at - 1), terms)?;
        at -= 1;
    }
    Some(terms)
}

/// The lowest terms of so many zeros behind a point, with a part of 1 behind them: 1/200 for two zeros and 1/2. `None` if
/// their denominator is 2^128 or more. With each zero the part is ten times smaller, and one with a denominator below
/// 2^128 is above 1/10^39. So at most 39 zeros are ever read, unless the part is 0.
///
/// # Conditions
///
/// The proof requires of the caller:
///
/// - `below`: `behind.numer < behind.denom`
/// - `lowest`: `IsLowestTerms (pos behind.numer) (pos behind.denom)`
#[inline]
pub(crate) fn zeros_before(zeros: u128, behind: Terms) -> Option<Terms> {
    if behind.numer == 0 {
        return Some(NOTHING);
    }
    let mut terms = behind;
    let mut left = zeros;
    while left > 0 {
        terms = digit_before(0, terms)?;
        left -= 1;
    }
    Some(terms)
}

/// The lowest terms of a whole number and a part of 1. `None` if their numerator is 2^128 or more.
///
/// # Conditions
///
/// The proof requires of the caller:
///
/// - `IsLowestTerms (pos behind.numer) (pos behind.denom)`
#[inline]
pub(crate) fn whole_before(whole: u128, behind: Terms) -> Option<Terms> {
    let numer = whole.checked_mul(behind.denom)?.checked_add(behind.numer)?;
    Some(Terms {
        numer,
        denom: behind.denom,
    })
}

// The lowest terms of one digit behind a point, with a part of 1 behind it. Both numbers are divided before they
// are multiplied, since ten times the denominator may not fit where the result does.
#[inline]
fn digit_before(digit: u128, behind: Terms) -> Option<Terms> {
    if behind.denom < 1_000_000_000_000_000_000 {
        return Some(short_digit_before(digit as u64, behind.numer as u64, behind.denom as u64));
    }
    let divisor = divisor_with_ten(digit, behind);
    let denom = behind.denom.checked_mul(10 / divisor)?;
    let numer = digit * (behind.denom / divisor)
        + behind.numer / divisor
        + (digit * (behind.denom % divisor) + behind.numer % divisor) / divisor;
    Some(Terms { numer, denom })
}

// The quick way for a denominator of at most 18 digits, where all numbers fit 64 bits. Each divisor is a constant, and the compiler
// divides by a constant with a product.
#[inline(always)]
fn short_digit_before(digit: u64, numer: u64, denom: u64) -> Terms {
    let all = digit * denom + numer;
    let last = all % 10;
    let (numer, denom) = if last == 0 {
        (all / 10, denom)
    } else if last == 5 {
        (all / 5, denom * 2)
    } else if last % 2 == 0 {
        (all / 2, denom * 5)
    } else {
        (all, denom * 10)
    };
    Terms {
        numer: numer as u128,
        denom: denom as u128,
    }
}

// The greatest common divisor of `digit * denom + numer` and 10, from the last digit of the first.
#[inline]
fn divisor_with_ten(digit: u128, behind: Terms) -> u128 {
    let last = (digit * (behind.denom % 10) + behind.numer % 10) % 10;
    if last == 0 {
        10
    } else if last == 5 {
        5
    } else if last % 2 == 0 {
        2
    } else {
        1
    }
}
