// Erased from crates/ratio_decimal/src/places.rt by rust/erase: not to be edited.
//! Printing a fraction as a decimal with a given number of places, at most 38: its sign, and its magnitude by a rule.

use crate::proved::ratio_decimal::rounding_rule::{Rounding, rounded};
use crate::proved::ratio_core::sign::is_below_zero;
use crate::proved::ratio_core::text::{DecimalText, magnitude, put_digits};
use crate::proved::ratio_integer::Primitive;

/// The fraction as a decimal: the multiple of `1/10^places` that the rule says, with all its places. A fraction that
/// is rounded to 0 has no minus.
///
/// # Conditions
///
/// The proof requires of the caller:
///
/// - `positive`: `pos 0 <ℤ T.value denom`
/// - `few`: `places ≤ 38`
#[inline]
pub fn decimal<T: Primitive>(numer: T, denom: T, places: u32, rule: Rounding) -> DecimalText {
    let below = is_below_zero(numer);
    let power = 10u128.pow(places);
    let (whole, part) = rounded(
        magnitude(numer),
        magnitude(denom),
        power,
        for_magnitude(rule, below),
    );
    let mut text = DecimalText::empty();
    text.start = put_places(whole, part, power, places, below, &mut text.bytes);
    text
}

/// The rule by which the magnitude is rounded.
#[inline]
pub(crate) fn for_magnitude(rule: Rounding, below: bool) -> Rounding {
    if !below {
        return rule;
    }
    match rule {
        Rounding::Floor => Rounding::Ceil,
        Rounding::Ceil => Rounding::Floor,
        Rounding::HalfAway => Rounding::HalfAway,
        Rounding::HalfEven => Rounding::HalfEven,
        Rounding::Down => Rounding::Down,
        Rounding::Up => Rounding::Up,
    }
}

// Writes the number at the end of the buffer, and returns where it starts.
#[inline]
fn put_places(
    whole: u128,
    part: u128,
    power: u128,
    places: u32,
    below: bool,
    buf: &mut [u8],
) -> usize {
    let start = put_unsigned(whole, part, power, places, buf);
    if has_minus(whole, part, below) {
        buf[start - 1] = b'-';
        return start - 1;
    }
    start
}

// Whether the number is below 0, once it is rounded.
#[inline]
fn has_minus(whole: u128, part: u128, below: bool) -> bool {
    below && (whole != 0 || part != 0)
}

// Writes the magnitude. The places are written after a 1, which keeps their leading zeros. The point overwrites it.
#[inline]
fn put_unsigned(whole: u128, part: u128, power: u128, places: u32, buf: &mut [u8]) -> usize {
    if places == 0 {
        return put_digits(whole, buf, 130);
    }
    let point = put_digits(power + part, buf, 130);
    buf[point] = b'.';
    put_digits(whole, buf, point)
}
