// Erased from crates/ratio_c/src/sorting.rt by rust/erase: not to be edited.
//! What sorts as the values do: 24 bytes, and keys of 64 bits from the nearest float, whose order never contradicts that of the values.

use crate::proved::ratio_c::code::{ANSWERED, DENOMINATOR_NOT_POSITIVE};
use crate::proved::ratio_c::each::{Call, each};
use crate::proved::ratio_c::numbers64::Fraction64;
use bakhsney::proved::ratio_decimal::float::nearest::to_f64;

/// The bytes of a fraction. If there are none, the code says why, and each byte is 0.
#[repr(C)]
pub struct Sortable {
    pub code: u32,
    pub bytes: [u8; 24],
}

/// The bytes of a fraction, which sort as its value.
#[derive(Clone, Copy)]
pub struct Sorting;

impl Call<Fraction64, Sortable> for Sorting {
    #[inline(always)]
    fn answer(&self, x: &Fraction64) -> Sortable {
        if x.denom <= 0 {
            return Sortable {
                code: DENOMINATOR_NOT_POSITIVE,
                bytes: [0; 24],
            };
        }
        let (whole, places) = digits(x.numer, x.denom);
        Sortable {
            code: ANSWERED,
            bytes: bytes_of(whole, places),
        }
    }
}

/// The floor of the fraction plus 2^63, and the first 128 binary places behind the point.
///
/// # Conditions
///
/// The proof requires of the caller:
///
/// - `pos 0 <ℤ d`
#[inline(always)]
fn digits(n: i64, d: i64) -> (u64, u128) {
    let (whole, part) = split(n, d);
    let divisor = d.unsigned_abs();
    let (high, rest) = next_places(part, divisor);
    let (low, _) = next_places(rest, divisor);
    (whole, high as u128 * (1 << 64) + low as u128)
}

/// The floor of the fraction plus 2^63, and what is left over the denominator.
///
/// # Conditions
///
/// The proof requires of the caller:
///
/// - `pos 0 <ℤ d`
#[inline(always)]
fn split(n: i64, d: i64) -> (u64, u64) {
    let whole = n.div_euclid(d) as i128 + (1 << 63);
    (whole as u64, n.rem_euclid(d) as u64)
}

/// The next 64 binary places of a part of 1, and what is left.
///
/// # Conditions
///
/// The proof requires of the caller:
///
/// - `part < divisor`
#[inline(always)]
fn next_places(part: u64, divisor: u64) -> (u64, u64) {
    let moved = part as u128 * (1 << 64);
    let places = moved / divisor as u128;
    (places as u64, (moved - places * divisor as u128) as u64)
}

/// The bytes of a number whose upper 64 bits and whose lower 128 are these, the highest byte first.
#[inline(always)]
fn bytes_of(high: u64, low: u128) -> [u8; 24] {
    let mut bytes = [0u8; 24];
    bytes[..8].copy_from_slice(&high.to_be_bytes());
    bytes[8..].copy_from_slice(&low.to_be_bytes());
    bytes
}

/// The bytes of each fraction, for sorting.
#[no_mangle]
pub unsafe extern "C" fn ratio_sortable_i64(asked: *const Fraction64, asked_len: usize, answers: *mut Sortable, answers_len: usize) -> u32 {
    // SAFETY: the header says what the caller owes for each pointer and its length.
    let asked = crate::items(asked, asked_len);
    let answers = crate::items_mut(answers, answers_len);
    each(&Sorting, asked, answers)
}

/// A key. If there is none, the code says why, and the key is 0.
#[repr(C)]
pub struct Key {
    pub code: u32,
    pub key: i64,
}

/// The key of a fraction: the bits of the float nearest to its size, with its sign.
#[derive(Clone, Copy)]
pub struct Keying;

impl Call<Fraction64, Key> for Keying {
    #[inline(always)]
    fn answer(&self, x: &Fraction64) -> Key {
        if x.denom <= 0 {
            return Key {
                code: DENOMINATOR_NOT_POSITIVE,
                key: 0,
            };
        }
        let size = size_key(x.numer.unsigned_abs(), x.denom as u64);
        let key = if x.numer < 0 { -size } else { size };
        Key {
            code: ANSWERED,
            key,
        }
    }
}

/// The bits of the float nearest to `n/d`. Of two floats that are not below 0, the greater one has the greater bits.
///
/// # Conditions
///
/// The proof requires of the caller:
///
/// - `0 < d`
#[inline(always)]
fn size_key(n: u64, d: u64) -> i64 {
    to_f64(n, d).to_bits() as i64
}

/// The key of each fraction.
#[no_mangle]
pub unsafe extern "C" fn ratio_key_i64(asked: *const Fraction64, asked_len: usize, answers: *mut Key, answers_len: usize) -> u32 {
    // SAFETY: the header says what the caller owes for each pointer and its length.
    let asked = crate::items(asked, asked_len);
    let answers = crate::items_mut(answers, answers_len);
    each(&Keying, asked, answers)
}
