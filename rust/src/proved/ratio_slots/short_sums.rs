// Erased from crates/ratio_slots/src/short_sums.rt by rust/erase: not to be edited.
//! Sums in machine numbers, where 128 bits are enough on the way: of a table, or of two fractions. Most totals have such a sum.

use crate::proved::ratio_slots::slots::{Slot, denom_at, numer_at};
use crate::proved::ratio_integer::{Integer, lowest_terms};

/// The sum of a table over its common denominator, the numerator first. It is `None` if a number on the way needs more than
/// 128 bits, or if the common denominator is 2^127 or more.
#[inline]
pub(crate) fn short_sum(slots: &[Slot]) -> Option<(i128, u128)> {
    let mut numer = 0;
    let mut common = 1;
    for i in 0..slots.len() {
        let denom = denom_at(slots, i);
        if denom == 0 {
            continue;
        }
        let (sum, next) = add_short(numer, common, numer_at(slots, i), denom)?;
        numer = sum;
        common = next;
    }
    Some((numer, common))
}

/// The mean of so many fractions: the sum divided by the count, not reduced. It is `None` if the count is 0 or less, or if
/// `short_sum` is `None`, or if the new denominator is 2^127 or more.
#[inline]
pub(crate) fn short_mean(slots: &[Slot], count: i64) -> Option<(i128, u128)> {
    if count <= 0 {
        return None;
    }
    let (numer, denom) = short_sum(slots)?;
    let product = denom.checked_mul(count as u128)?;
    if product >= 1 << 127 {
        return None;
    }
    Some((numer, product))
}

/// The lowest terms of a fraction, the numerator with its sign. It is `None` exactly if one is 2^64 or more, without its sign.
///
/// # Conditions
///
/// The proof requires of the caller:
///
/// - `some`: `0 < denom`
/// - `below`: `denom < 2 ^ 127`
#[inline]
pub fn short_pair(numer: i128, denom: u128) -> Option<(i128, u64)> {
    let (p, q) = lowest_terms(numer, denom as i128);
    if p.unsigned_abs() >= 1 << 64 || q >= 1 << 64 {
        return None;
    }
    Some((p, q as u64))
}

/// Adds a fraction to another one. The new denominator is the least common multiple of both: 1/36 plus 1/28 is 16/252. It is
/// `None` if a number on the way needs more than 128 bits, or if the new denominator is 2^127 or more.
///
/// # Conditions
///
/// The proof requires of the caller:
///
/// - `0 < denom`
#[inline]
pub fn add_short(sum: i128, common: u128, numer: i128, denom: u64) -> Option<(i128, u128)> {
    if common == denom as u128 {
        return Some((sum.try_plus(numer)?, common));
    }
    let (share, more) = parts_of(common, denom);
    let old = scaled(sum, more)?;
    let part = numer.try_times(i128::from_u128(share)?)?;
    let next = common.checked_mul(more as u128)?;
    if next >= 1 << 127 {
        return None;
    }
    Some((old.try_plus(part)?, next))
}

// The product with a number that is often 1. It is `None` if it needs more than 128 bits.
#[inline]
fn scaled(sum: i128, more: u64) -> Option<i128> {
    if more == 1 {
        Some(sum)
    } else {
        sum.try_times(more as i128)
    }
}

// Both numbers, divided by their gcd.
#[inline]
fn parts_of(common: u128, denom: u64) -> (u128, u64) {
    let (quotient, rest) = divide_short(common, denom);
    if rest == 0 {
        return (quotient, 1);
    }
    let divisor = denom.gcd(rest);
    if divisor == 1 {
        return (common, denom);
    }
    let (share, _) = divide_short(common, divisor);
    (share, denom / divisor)
}

// The quotient and the rest. A number of 64 bits takes a shorter division.
#[inline]
fn divide_short(n: u128, d: u64) -> (u128, u64) {
    if n < 1 << 64 {
        let short = n as u64;
        ((short / d) as u128, short % d)
    } else {
        // A remainder would take another division.
        let quotient = n / d as u128;
        (quotient, (n - quotient * d as u128) as u64)
    }
}
