// Erased from crates/ratio_decimal/src/long.rt by rust/erase: not to be edited.
//! Writing a fraction to a formatter with more places than `decimal` has: its sign, the digits before and in the last places, and fill.
//!
//! A denominator of 128 bits is below 2 * 10^39. So no fraction is less than half of 1/10^39 below a whole number, and
//! a carry passes at most 38 nines. All but the last 39 digits are written before the fraction is rounded.

use crate::proved::ratio_decimal::rounding_rule::{Rounding, rounded};
use crate::proved::ratio_core::sign::is_below_zero;
use crate::proved::ratio_core::sums::multiple_over;
use crate::proved::ratio_core::text::{BaseTenText, magnitude, put_digits};
use crate::proved::ratio_integer::Primitive;
use core::fmt;
use core::fmt::{Alignment, Formatter, Write};

// 10^38
const POWER: u128 = 100_000_000_000_000_000_000_000_000_000_000_000_000;

/// Writes the fraction with so many places, at least 39, a half to the even digit. A width, a fill, a plus and zeros
/// work as for an integer: 1/3 has 102 bytes with 100 places. This is promised for a call that returns `Ok`, with a
/// formatter that indents nothing (`IsFlush`).
///
/// # Conditions
///
/// The proof requires of the caller:
///
/// - `positive`: `pos 0 <ℤ T.value denom`
/// - `many`: `39 ≤ places`
#[inline]
pub fn write_places<T: Primitive>(
    numer: T,
    denom: T,
    places: usize,
    f: &mut Formatter<'_>,
) -> fmt::Result {
    write_long(
        magnitude(numer),
        magnitude(denom),
        is_below_zero(numer),
        places,
        f,
    )
}

// Writes n/d, after a minus if `below`.
#[inline]
fn write_long(
    n: u128,
    d: u128,
    below: bool,
    places: usize,
    f: &mut Formatter<'_>,
) -> fmt::Result {
    let fill = f.fill();
    let whole = before_places(n / d);
    let whole = whole.as_str();
    let after = write_front(below, whole.len(), places, f)?;
    f.write_str(whole)?;
    write_digits(n % d, d, places, f)?;
    write_times(fill, after, f)
}

// A number, and the point behind it.
#[inline]
fn before_places(n: u128) -> BaseTenText {
    let mut text = BaseTenText::empty();
    text.start = put_before_places(n, &mut text.bytes);
    text
}

// Writes them at the end of the buffer, and returns where they start.
#[inline]
fn put_before_places(n: u128, buf: &mut [u8]) -> usize {
    buf[80] = b'.';
    put_digits(n, buf, 80)
}

// Writes the digits of rest/d behind the point.
#[inline]
fn write_digits(rest: u128, d: u128, places: usize, f: &mut Formatter<'_>) -> fmt::Result {
    let mut part = rest;
    let mut left = places;
    while left > 39 {
        let (digit, next) = multiple_over(part, 10, d);
        f.write_char((b'0' + digit as u8) as char)?;
        part = next;
        left -= 1;
    }
    f.write_str(last_places(part, d).as_str())
}

// The last 39 of them, rounded.
#[inline]
fn last_places(rest: u128, d: u128) -> BaseTenText {
    let mut text = BaseTenText::empty();
    text.start = put_last_places(rest, d, &mut text.bytes);
    text
}

// Writes them at the end of the buffer, and returns where they start. The last 38 are written after a 1, which keeps
// their leading zeros. The first one overwrites it.
#[inline]
fn put_last_places(rest: u128, d: u128, buf: &mut [u8]) -> usize {
    let (digit, part) = rounded_places(rest, d);
    let start = put_digits(POWER + part, buf, 81);
    buf[start] = b'0' + digit as u8;
    start
}

// The first of them, with the carry of the others, and the other 38 as a number.
#[inline]
fn rounded_places(rest: u128, d: u128) -> (u128, u128) {
    let (digit, next) = multiple_over(rest, 10, d);
    let (carry, part) = rounded(next, d, POWER, Rounding::HalfEven);
    (digit + carry, part)
}

// Writes what stands before a number of so many bytes, and returns how often the fill stands after it.
#[inline]
fn write_front(
    below: bool,
    whole: usize,
    places: usize,
    f: &mut Formatter<'_>,
) -> Result<usize, fmt::Error> {
    let sign = sign_of(below, f.sign_plus());
    let padding = room_left(f, whole, places, sign.len());
    let fill = f.fill();
    let (before, zeros) = sides(padding, f);
    write_times(fill, before, f)?;
    f.write_str(sign)?;
    write_times('0', zeros, f)?;
    Ok(padding.saturating_sub(before).saturating_sub(zeros))
}

// A minus below 0, and else a plus if it is asked for.
#[inline]
fn sign_of(below: bool, plus: bool) -> &'static str {
    if below {
        "-"
    } else if plus {
        "+"
    } else {
        ""
    }
}

// How far the number is short of the width.
#[inline]
fn room_left(f: &Formatter<'_>, whole: usize, places: usize, sign: usize) -> usize {
    f.width()
        .unwrap_or(0)
        .saturating_sub(whole)
        .saturating_sub(places)
        .saturating_sub(sign)
}

// How much fill and how many zeros stand before the number.
#[inline]
fn sides(padding: usize, f: &Formatter<'_>) -> (usize, usize) {
    if f.sign_aware_zero_pad() {
        (0, padding)
    } else {
        (fill_before(padding, f), 0)
    }
}

// How much of the padding stands before the number. A number stands to the right.
#[inline]
fn fill_before(padding: usize, f: &Formatter<'_>) -> usize {
    match f.align() {
        Some(Alignment::Left) => 0,
        Some(Alignment::Center) => padding / 2,
        Some(Alignment::Right) => padding,
        None => padding,
    }
}

// Writes a character so often.
#[inline]
fn write_times(c: char, times: usize, f: &mut Formatter<'_>) -> fmt::Result {
    for _ in 0..times {
        f.write_char(c)?;
    }
    Ok(())
}
