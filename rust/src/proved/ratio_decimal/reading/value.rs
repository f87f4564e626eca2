// Erased from crates/ratio_decimal/src/reading/value.rt by rust/erase: not to be edited.
//! The lowest terms of a decimal whose parts are cut, or of its 100th part, after its point has moved: from one number of 64 bits, if the
//! decimal is short.
//!
//! The digits of a short decimal are a number of 64 bits over a power of 10. What divides both is a product of twos and fives, and there
//! are at most 19 of each. So they are taken out by divisions by 2 and by 5, which the compiler turns into products.

use crate::proved::ratio_decimal::reading::cut::{digit_at, number_after, with_zeros};
use crate::proved::ratio_decimal::reading::terms::{NOTHING, Terms, digits_before, whole_before, zeros_before};

/// The lowest terms of the digits before and behind a point, times 10 to an exponent, which is negated if `down`. `None` if
/// one of them is 2^128 or more.
///
/// # Conditions
///
/// The proof requires of the caller:
///
/// - `whole`: `AllDigits 10 whole.now`
/// - `part`: `AllDigits 10 part.now`
/// - `exponent`: `AllDigits 10 exponent.now`
#[inline]
pub(crate) fn lowest(whole: &[u8], part: &[u8], down: bool, exponent: &[u8]) -> Option<Terms> {
    match number_after(0, exponent) {
        None => only_zero(whole, part),
        Some(tens) => {
            if let Some(terms) = short_lowest(whole, part, down, tens) {
                return Some(terms);
            }
            if down {
                point_moved_left(whole, part, tens)
            } else {
                point_moved_right(whole, part, tens)
            }
        }
    }
}

/// The lowest terms of the decimal by 100, for a percentage: the exponent is 2 lower.
///
/// # Conditions
///
/// The proof requires of the caller:
///
/// - `whole`: `AllDigits 10 whole.now`
/// - `part`: `AllDigits 10 part.now`
/// - `exponent`: `AllDigits 10 exponent.now`
#[inline]
pub(crate) fn lowest_hundredth(
    whole: &[u8],
    part: &[u8],
    down: bool,
    exponent: &[u8],
) -> Option<Terms> {
    match number_after(0, exponent) {
        None => only_zero(whole, part),
        Some(tens) => {
            if down {
                match tens.checked_add(2) {
                    None => only_zero(whole, part),
                    Some(more) => point_moved_left(whole, part, more),
                }
            } else if tens < 2 {
                point_moved_left(whole, part, 2 - tens)
            } else {
                point_moved_right(whole, part, tens - 2)
            }
        }
    }
}

// The lowest terms of the digits for an exponent of 2^128 or more. No number but 0 has one that fits.
#[inline]
fn only_zero(whole: &[u8], part: &[u8]) -> Option<Terms> {
    let first = number_after(0, whole)?;
    let all = number_after(first, part)?;
    if all == 0 { Some(NOTHING) } else { None }
}

// The lowest terms of the digits, times 10 to `tens`.
#[inline]
fn point_moved_right(whole: &[u8], part: &[u8], tens: u128) -> Option<Terms> {
    let first = number_after(0, whole)?;
    if tens < part.len() as u128 {
        let (moved, rest) = part.split_at(tens as usize);
        let number = number_after(first, moved)?;
        let behind = digits_before(rest, NOTHING)?;
        whole_before(number, behind)
    } else {
        let all = number_after(first, part)?;
        let numer = with_zeros(all, tens - part.len() as u128)?;
        Some(Terms { numer, denom: 1 })
    }
}

// The lowest terms of the digits, over 10 to `tens`.
#[inline]
fn point_moved_left(whole: &[u8], part: &[u8], tens: u128) -> Option<Terms> {
    let behind = digits_before(part, NOTHING)?;
    if tens < whole.len() as u128 {
        let (rest, moved) = whole.split_at(whole.len() - tens as usize);
        let number = number_after(0, rest)?;
        let more = digits_before(moved, behind)?;
        whole_before(number, more)
    } else {
        let all = digits_before(whole, behind)?;
        zeros_before(tens - whole.len() as u128, all)
    }
}

// The lowest terms of the digits before and behind a point, times 10 to `tens`, or over it if `down`. `None` says nothing about the
// digits: their number may not fit 64 bits, or the moved point may have more than 19 digits behind it, or zeros before it.
#[inline]
fn short_lowest(whole: &[u8], part: &[u8], down: bool, tens: u128) -> Option<Terms> {
    let places = places_behind(part.len(), down, tens)?;
    let first = short_number(0, whole)?;
    let number = short_number(first, part)?;
    Some(short_terms(number, places))
}

// How many digits are behind a point that is moved by `tens`. `None` says nothing: there may be more than 19, or zeros before it.
#[inline]
fn places_behind(places: usize, down: bool, tens: u128) -> Option<u32> {
    if places > 19 || tens > 19 {
        return None;
    }
    let before = places as u32;
    let moved = tens as u32;
    if down {
        if before + moved > 19 {
            None
        } else {
            Some(before + moved)
        }
    } else if moved > before {
        None
    } else {
        Some(before - moved)
    }
}

// The number of the digits, after those of `first`. `None` says nothing about the digits.
#[inline]
fn short_number(first: u64, digits: &[u8]) -> Option<u64> {
    let mut number = first;
    let mut at = 0;
    while at < digits.len() {
        number = number
            .checked_mul(10)?
            .checked_add(digit_at(digits, at) as u64)?;
        at += 1;
    }
    Some(number)
}

// The lowest terms of a number over a power of 10.
#[inline]
fn short_terms(number: u64, places: u32) -> Terms {
    let (odd, twos) = without(2, number, places);
    let (numer, fives) = without(5, odd, places);
    Terms {
        numer: numer as u128,
        denom: (2u64.pow(twos) * 5u64.pow(fives)) as u128,
    }
}

// The number without its factors `prime`, of which at most `most` are taken out, and how many more could be.
#[inline(always)]
fn without(prime: u64, number: u64, most: u32) -> (u64, u32) {
    let mut rest = number;
    let mut left = most;
    while left > 0 && rest % prime == 0 {
        rest /= prime;
        left -= 1;
    }
    (rest, left)
}
