// Erased from crates/ratio_core/src/text.rt by rust/erase: not to be edited.
//! Printing a fraction as a text, from the last byte to the first: the forms, their prefixes, the array `FixedText`, decimal digits, and
//! the `magnitude` of a number.
//!
//! `numeral` prints numbers in base 2, 8 and 16, and `reading` reads texts.

mod numeral;
mod reading;

use crate::proved::ratio_core::text::numeral::{put_numeral, twos_complement};
use crate::proved::itoa::write_digits;
use crate::proved::ratio_integer::Primitive;
pub use reading::{from_str, from_str_radix, leading_fields};

/// How the numbers of a fraction are printed.
#[derive(Clone, Copy, PartialEq, Debug)]
pub enum Form {
    /// Decimal digits, after a minus for a number below 0.
    Decimal,
    /// The two's complement in base 2, in the width of the type: `11111111` for -1 over `i8`. Its prefix is `0b`.
    Binary,
    /// The two's complement in base 8: `377` for -1 over `i8`. Its prefix is `0o`.
    Octal,
    /// The two's complement in base 16, with the digits `a` to `f`: `ff` for -1 over `i8`. Its prefix is `0x`.
    LowerHex,
    /// The two's complement in base 16, with the digits `A` to `F`: `FF` for -1 over `i8`. Its prefix is `0x`, too.
    UpperHex,
}

/// The text of a fraction, of at most `ROOM` bytes. Contracts see its bytes.
pub struct FixedText<const ROOM: usize> {
    // The text ends where the array does.
    pub(crate) bytes: [u8; ROOM],
    pub(crate) start: usize,
}

/// The text of a fraction in base 10, of at most 81 bytes: a slash, and two numbers of 39 digits with a minus each.
pub type BaseTenText = FixedText<81>;

/// The text of a fraction as a decimal. The longest one has 129 bytes: that of (2^128-1)/2^127, with 127 places. The array
/// has one byte more, for a minus.
pub type DecimalText = FixedText<130>;

/// The text of a fraction, of at most 261 bytes: a slash, and two numbers of 128 digits with a prefix each.
pub type RatioText = FixedText<261>;

impl<const ROOM: usize> FixedText<ROOM> {
    /// The empty text.
    #[inline(always)]
    pub fn empty() -> FixedText<ROOM> {
        FixedText {
            bytes: [0; ROOM],
            start: ROOM,
        }
    }

    /// The text.
    #[inline]
    pub fn as_str(&self) -> &str {
        let all = &self.bytes[..];
        // SAFETY: the proof of `as_str` shows what `str::from_utf8_unchecked` requires with the invariant `λ t. (t.start ≤ ROOM) × IsAscii (drop t.start t.bytes)`.
        unsafe { core::str::from_utf8_unchecked(&all[self.start..]) }
    }
}

/// The text of a fraction's two numbers, not reduced: the numerator and, unless the denominator is 1, a slash and
/// the denominator. With `alternate`, each number has the prefix of its base: `0x2/0x4`. Decimal has no prefix.
///
/// A text in base 10 with a positive denominator reads back as the fraction's lowest terms. A text in another
/// base does so, read in that base, if it has a slash, no prefix, and no number below 0.
#[inline]
pub fn text<T: Primitive>(numer: T, denom: T, form: Form, alternate: bool) -> RatioText {
    let mut text = RatioText::empty();
    put_text(numer, denom, form, alternate, &mut text);
    text
}

/// Writes that text over the one in `text`, so that no array is moved.
#[inline]
pub fn put_text<T: Primitive>(numer: T, denom: T, form: Form, alternate: bool, text: &mut RatioText) {
    text.start = put_fraction(numer, denom, form, alternate, &mut text.bytes);
}

/// The text in base 10, in an array of 81 bytes, which takes less time to make.
#[inline]
pub fn base_ten_text<T: Primitive>(numer: T, denom: T) -> BaseTenText {
    let mut text = BaseTenText::empty();
    put_base_ten_text(numer, denom, &mut text);
    text
}

/// Writes the text in base 10 over the one in `text`.
#[inline]
pub fn put_base_ten_text<T: Primitive>(numer: T, denom: T, text: &mut BaseTenText) {
    text.start = put_base_ten_fraction(numer, denom, &mut text.bytes);
}

// Writes the fraction at the end of the buffer, and returns where it starts.
#[inline]
fn put_fraction<T: Primitive>(
    numer: T,
    denom: T,
    form: Form,
    alternate: bool,
    buf: &mut [u8],
) -> usize {
    if denom.is_one() {
        return put_prefixed(numer, form, alternate, buf, 261);
    }
    let slash = put_prefixed(denom, form, alternate, buf, 261) - 1;
    buf[slash] = b'/';
    put_prefixed(numer, form, alternate, buf, slash)
}

// Writes the number so that it ends at `end`, after its prefix if `alternate` is set, and returns where it starts.
#[inline]
fn put_prefixed<T: Primitive>(
    t: T,
    form: Form,
    alternate: bool,
    buf: &mut [u8],
    end: usize,
) -> usize {
    let start = put_number(t, form, buf, end);
    if alternate {
        put_prefix(form, buf, start)
    } else {
        start
    }
}

// Writes the prefix of the form so that it ends at `end`, and returns where it starts. A decimal has none.
#[inline]
fn put_prefix(form: Form, buf: &mut [u8], end: usize) -> usize {
    let letter = match form {
        Form::Decimal => return end,
        Form::Binary => b'b',
        Form::Octal => b'o',
        Form::LowerHex => b'x',
        Form::UpperHex => b'x',
    };
    buf[end - 1] = letter;
    buf[end - 2] = b'0';
    end - 2
}

// Writes the number without a prefix so that it ends at `end`, and returns where it starts.
#[inline]
fn put_number<T: Primitive>(t: T, form: Form, buf: &mut [u8], end: usize) -> usize {
    match form {
        Form::Decimal => put_decimal(t, buf, end),
        Form::Binary => put_numeral(twos_complement(t), 2, false, buf, end),
        Form::Octal => put_numeral(twos_complement(t), 8, false, buf, end),
        Form::LowerHex => put_numeral(twos_complement(t), 16, false, buf, end),
        Form::UpperHex => put_numeral(twos_complement(t), 16, true, buf, end),
    }
}

// Writes the fraction in decimal at the end of the buffer, and returns where it starts.
#[inline]
fn put_base_ten_fraction<T: Primitive>(numer: T, denom: T, buf: &mut [u8]) -> usize {
    if denom.is_one() {
        return put_decimal(numer, buf, 81);
    }
    let slash = put_decimal(denom, buf, 81) - 1;
    buf[slash] = b'/';
    put_decimal(numer, buf, slash)
}

// Writes the number in decimal so that it ends at `end`, and returns where it starts.
#[inline]
fn put_decimal<T: Primitive>(t: T, buf: &mut [u8], end: usize) -> usize {
    let start = put_digits(magnitude(t), buf, end);
    if t < T::ZERO {
        buf[start - 1] = b'-';
        return start - 1;
    }
    start
}

/// The distance of the number from 0.
#[inline]
pub fn magnitude<T: Primitive>(t: T) -> u128 {
    match t.to_u128() {
        Some(n) => n,
        None => t.to_i128().unwrap().unsigned_abs(),
    }
}

// 10^19 and 10^18: a group has 19 digits, and 18 of them are written after a 1.
const GROUP: u64 = 10_000_000_000_000_000_000;

const ONE_BEFORE: u64 = 1_000_000_000_000_000_000;

// The quotient of 2^127 by 10^19.
const RECIPROCAL: u128 = 17_014_118_346_046_923_173;

/// Writes the decimal digits so that they end at `end`, and returns where they start. A number above 64 bits
/// is written in groups of 19 digits: the last digit, and the 18 before it after a 1, which keeps their
/// leading zeros. The digits before the group then overwrite the 1.
///
/// # Conditions
///
/// The proof requires of the caller:
///
/// - `room`: `39 ≤ end`
/// - `inside`: `end ≤ length buf.old`
#[inline]
pub fn put_digits(n: u128, buf: &mut [u8], end: usize) -> usize {
    let mut left = n;
    let mut at = end;
    while left > u64::MAX as u128 {
        let high = groups(left);
        let low = (left - high * GROUP as u128) as u64;
        buf[at - 1] = b'0' + (low % 10) as u8;
        let _ = put_word(ONE_BEFORE + low / 10, buf, at - 1);
        left = high;
        at -= 19;
    }
    put_word(left as u64, buf, at)
}

// The quotient by 10^19, without a division in 128 bits. The upper half gives a guess that is at most 4 too
// low. An eighth of what is then left fits 64 bits.
#[inline(always)]
fn groups(n: u128) -> u128 {
    let guess = n / (1 << 64) * RECIPROCAL / (1 << 63);
    let left = n - guess * GROUP as u128;
    guess + ((left / 8) as u64 / (GROUP / 8)) as u128
}

/// Writes a number of 64 bits as `put_digits` does, with divisions of 64 bits. The bounds are tested once for four digits.
///
/// # Conditions
///
/// The proof requires of the caller:
///
/// - `room`: `length (decimal n) ≤ end`
/// - `inside`: `end ≤ length buf.old`
#[inline]
pub fn put_word(n: u64, buf: &mut [u8], end: usize) -> usize {
    let mut left = n;
    let mut at = end;
    while left >= 10_000 {
        at -= 4;
        put_four(left % 10_000, &mut buf[at..at + 4]);
        left /= 10_000;
    }
    write_digits(left, buf, at)
}

// Writes four digits, with leading zeros.
#[inline(always)]
fn put_four(n: u64, place: &mut [u8]) {
    put_two_digits(n % 100, place, 2);
    put_two_digits(n / 100, place, 0);
}

static TWO_DIGITS: [u8; 200] =
    *b"00010203040506070809101112131415161718192021222324252627282930313233343536373839404142434445464748495051525354555657585960616263646566676869707172737475767778798081828384858687888990919293949596979899";

// Writes two digits at a place, with a leading zero.
#[inline(always)]
fn put_two_digits(n: u64, place: &mut [u8], at: usize) {
    let from = n as usize * 2;
    let (tens, ones) = (TWO_DIGITS[from], TWO_DIGITS[from + 1]);
    place[at] = tens;
    place[at + 1] = ones;
}
