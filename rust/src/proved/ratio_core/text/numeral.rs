// Erased from crates/ratio_core/src/text/numeral.rt by rust/erase: not to be edited.
//! A number in base 2, 8 or 16, and its two's complement, written from the last digit to the first.

use crate::proved::ratio_integer::Primitive;

// Writes the digits so that they end at `end`, and returns where they start. A number above 64 bits is
// written in groups of 16 digits. The code is compiled for each base, so it divides by constants.
/// # Conditions
///
/// The proof requires of the caller:
///
/// - `low`: `2 ≤ base`
/// - `high`: `base ≤ 16`
/// - `room`: `128 ≤ end`
/// - `inside`: `end ≤ length buf.old`
#[inline(always)]
pub(crate) fn put_numeral(n: u128, base: u128, upper: bool, buf: &mut [u8], end: usize) -> usize {
    if n == 0 {
        buf[end - 1] = b'0';
        return end - 1;
    }
    let unit = base.pow(16);
    let mut high = n;
    let mut at = end;
    while high > u64::MAX as u128 {
        at -= 16;
        put_group(
            (high % unit) as u64,
            base as u64,
            upper,
            &mut buf[at..at + 16],
        );
        high /= unit;
    }
    let mut left = high as u64;
    while left > 0 {
        at -= 1;
        buf[at] = glyph((left % base as u64) as u8, upper);
        left /= base as u64;
    }
    at
}

// Writes the last 16 digits of a longer number, with leading zeros.
#[inline(always)]
fn put_group(n: u64, base: u64, upper: bool, buf: &mut [u8]) {
    let mut left = n;
    let mut at = 16;
    while at > 0 {
        at -= 1;
        buf[at] = glyph((left % base) as u8, upper);
        left /= base;
    }
}

static LOWER: [u8; 16] = *b"0123456789abcdef";

static UPPER: [u8; 16] = *b"0123456789ABCDEF";

#[inline(always)]
fn glyph(digit: u8, upper: bool) -> u8 {
    if upper {
        UPPER[digit as usize]
    } else {
        LOWER[digit as usize]
    }
}

// The number, and 2 to the width of the type more if it is below 0: 255 for -1 over `i8`.
#[inline]
pub(crate) fn twos_complement<T: Primitive>(t: T) -> u128 {
    match t.to_u128() {
        Some(n) => n,
        None => t.minus(T::MIN).to_u128().unwrap() + T::MAX.to_u128().unwrap() + 1,
    }
}
