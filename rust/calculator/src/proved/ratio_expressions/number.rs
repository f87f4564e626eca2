// Erased from crates/ratio_expressions/src/number.rt by rust/erase: not to be edited.
//! The number that a piece of a text says.
use bakhsney::memory::{AllocError, Global};

mod short_fraction;

use crate::proved::ratio_expressions::number::short_fraction::short_fraction;
use crate::proved::ratio_expressions::refusal::Reason;
use crate::proved::ratio_expressions::spelled::spelled;
use crate::proved::ratio_expressions::value::Value;
use bakhsney::proved::ratio_big::BigFraction;
use bakhsney::proved::ratio_decimal::TextRefusal;

use std::str;

// How many digits the exponent of a number may have, so that a short text takes no long time.
const MOST_EXPONENT_DIGITS: usize = 5;

/// The number that a text says, or why it says none.
#[inline]
pub(crate) fn number_in(alloc: Global, text: &[u8]) -> Result<Result<Value, Reason>, AllocError> {
    if let Some(number) = short_fraction(text) {
        return Ok(Ok(Value::Number(number)));
    }
    match spelled(alloc, text)? {
        Some(slashed) => plain_number_in(alloc, &slashed),
        None => plain_number_in(alloc, text),
    }
}

// The same, if the text has no vulgar fraction.
#[inline]
fn plain_number_in(alloc: Global, text: &[u8]) -> Result<Result<Value, Reason>, AllocError> {
    if digits_of_exponent(text) > MOST_EXPONENT_DIGITS {
        return Ok(Err(Reason::NumberTooLarge));
    }
    match read(alloc, text)? {
        Ok(number) => Ok(Ok(Value::Number(number))),
        Err(TextRefusal::ZeroDenominator) => Ok(Err(Reason::ZeroDenominator)),
        Err(TextRefusal::NotNumber) => Ok(Err(Reason::NotNumeral)),
        Err(TextRefusal::NotHeld) => unreachable!(),
    }
}

// The same, with an exponent of any length.
#[inline]
fn read(alloc: Global, text: &[u8]) -> Result<Result<BigFraction, TextRefusal>, AllocError> {
    match before_percent(text) {
        Some(mixed) => read_share(alloc, mixed),
        None => read_field(alloc, text),
    }
}

// The 100th part of a mixed number.
#[inline]
fn read_share(alloc: Global, mixed: &[u8]) -> Result<Result<BigFraction, TextRefusal>, AllocError> {
    match read_field(alloc, mixed)? {
        Ok(number) => Ok(Ok(hundredth(alloc, &number)?)),
        Err(refusal) => Ok(Err(refusal)),
    }
}

// The mixed number before the percent sign of a text.
#[inline]
fn before_percent(text: &[u8]) -> Option<&[u8]> {
    match text {
        [mixed @ .., b'%'] if text.contains(&b' ') => Some(mixed),
        _ => None,
    }
}

// The number that a person types into one field.
#[inline]
fn read_field(alloc: Global, text: &[u8]) -> Result<Result<BigFraction, TextRefusal>, AllocError> {
    match core::str::from_utf8(text) {
        Err(_) => Ok(Err(TextRefusal::NotNumber)),
        Ok(field) => BigFraction::from_text(alloc, field),
    }
}

// The 100th part of a number.
#[inline]
fn hundredth(alloc: Global, x: &BigFraction) -> Result<BigFraction, AllocError> {
    match x.divide(alloc, &BigFraction::from_integer(100))? {
        Some(part) => Ok(part),
        None => unreachable!(),
    }
}

// How many digits are behind an e.
#[inline]
fn digits_of_exponent(text: &[u8]) -> usize {
    digits_in(&text[before_exponent(text)..])
}

// How many bytes are before the first e.
#[inline]
fn before_exponent(text: &[u8]) -> usize {
    text.iter()
        .take_while(|byte| **byte != b'e' && **byte != b'E')
        .count()
}

// How many of the bytes are digits.
#[inline]
fn digits_in(text: &[u8]) -> usize {
    text.iter().filter(|byte| byte.is_ascii_digit()).count()
}
