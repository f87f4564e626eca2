// Erased from crates/ratio_expressions/src/size.rt by rust/erase: not to be edited.
//! How many bits a number has, up to a limit.

use bakhsney::proved::ratio_natural::{bits, is_zero, subtract_digit, used};

/// How many bits the numbers of an operator or of a call may have together, and the numbers of a power.
pub(crate) const MOST_BITS: u64 = 1_000_000;

/// The least number of bits with the number at most 2 to this power, or one more than the limit if there is none up to it. The digits are
/// then those of one less, unless they are all 0.
#[inline]
pub(crate) fn size_in_bits(digits: &mut [u64]) -> u64 {
    if is_zero(digits) {
        return 0;
    }
    take_one(digits);
    let count = used(digits);
    if count as u64 > MOST_BITS / 64 {
        return MOST_BITS + 1;
    }
    bits(&digits[..count]) as u64
}

/// Takes 1 from a number that is not 0.
///
/// # Conditions
///
/// The proof requires of the caller:
///
/// - `natural_of digits.old ≢ 0`
#[inline]
pub(crate) fn take_one(digits: &mut [u64]) {
    subtract_digit(digits, 1);
}
