// Erased from crates/ratio_decimal/src/exact.rt by rust/erase: not to be edited.
//! Printing a fraction as a decimal with all its places, if they end, and finding how many these are.

use crate::proved::ratio_core::sign::is_below_zero;
use crate::proved::ratio_core::sums::multiple_over;
use crate::proved::ratio_core::text::{DecimalText, magnitude, put_digits, put_word};
use crate::proved::ratio_integer::Primitive;

/// All of the fraction as a decimal, `12.375` for 99/8, or `None` if its digits do not end, as those of 1/3. They end
/// if the denominator has no prime factor but 2 and 5.
///
/// # Conditions
///
/// The proof requires of the caller:
///
/// - `IsLowestTerms (T.value numer) (T.value denom)`
#[inline]
pub fn exact_decimal<T: Primitive>(numer: T, denom: T) -> Option<DecimalText> {
    let (n, d) = (magnitude(numer), magnitude(denom));
    let places = places_of(d)?;
    let mut text = DecimalText::empty();
    text.start = put_exact(n, d, places, is_below_zero(numer), &mut text.bytes);
    Some(text)
}

// How many places the digits of a fraction over d have, or `None` if they do not end.
#[inline]
fn places_of(d: u128) -> Option<usize> {
    let mut left = d;
    let mut places = 0;
    while left != 1 {
        match less_ten(left) {
            Some(smaller) => left = smaller,
            None => return None,
        }
        places += 1;
    }
    Some(places)
}

// The number without one 2 and without one 5, or `None` if neither divides it.
#[inline]
fn less_ten(n: u128) -> Option<u128> {
    if n % 10 == 0 {
        Some(n / 10)
    } else if n % 2 == 0 {
        Some(n / 2)
    } else if n % 5 == 0 {
        Some(n / 5)
    } else {
        None
    }
}

// Writes the digits of n/d at the end of the buffer, cut to so many places, and returns where they start.
#[inline]
fn put_exact(n: u128, d: u128, places: usize, below: bool, buf: &mut [u8]) -> usize {
    let start = put_cut(n, d, places, buf);
    if below {
        buf[start - 1] = b'-';
        return start - 1;
    }
    start
}

// Writes the digits, without a sign.
#[inline]
fn put_cut(n: u128, d: u128, places: usize, buf: &mut [u8]) -> usize {
    if places == 0 {
        return put_digits(n / d, buf, 130);
    }
    put_rest(n % d, d, places, buf);
    let point = 129 - places;
    buf[point] = b'.';
    put_whole(n / d, buf, point)
}

// Writes the digits of rest/d behind the point, so many of them, at the end of the buffer.
#[inline]
fn put_rest(rest: u128, d: u128, places: usize, buf: &mut [u8]) {
    if places == 0 {
        return;
    }
    let (digit, next) = multiple_over(rest, 10, d);
    put_rest(next, d, places - 1, buf);
    let at = buf.len() - places;
    buf[at] = b'0' + digit as u8;
}

// Writes the digits of a number that is below 2^end, so that they end at `end`, and returns where they start.
#[inline]
fn put_whole(n: u128, buf: &mut [u8], end: usize) -> usize {
    if end < 40 {
        put_word(n as u64, buf, end)
    } else {
        put_digits(n, buf, end)
    }
}
