// Erased from crates/ratio_decimal/src/naturals/places.rt by rust/erase: not to be edited.
//! The text of a long number as a decimal with places, with its sign and without it.

use crate::proved::ratio_natural::{is_zero, put_decimal, put_last_digits};

/// Writes `a/10^places` with all its places, after a minus if `below` and `a` is not 0, so that the text ends where `buf`
/// ends. It returns where the text starts. `a` is spent.
///
/// # Conditions
///
/// The proof requires of the caller:
///
/// - `room`: `20 * length a.old + places + 2 < length buf.old`
#[inline]
pub fn put_places(a: &mut [u64], places: usize, below: bool, buf: &mut [u8]) -> usize {
    let minus = below && !is_zero(a);
    let start = put_unsigned(a, places, buf);
    if !minus {
        return start;
    }
    buf[start - 1] = b'-';
    start - 1
}

// Writes the magnitude.
#[inline]
fn put_unsigned(a: &mut [u64], places: usize, buf: &mut [u8]) -> usize {
    if places == 0 {
        return put_decimal(a, buf);
    }
    put_last_digits(a, places, buf);
    let point = buf.len() - places - 1;
    buf[point] = b'.';
    put_decimal(a, &mut buf[..point])
}
