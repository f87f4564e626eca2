// Erased from crates/ratio_c/src/decimal.rt by rust/erase: not to be edited.
//! Printing fractions as decimals, and reading them from decimals.

use crate::proved::ratio_c::code::{BAD_OPTION, DENOMINATOR_NOT_POSITIVE, NOT_HELD, PARSE_ERROR};
use crate::proved::ratio_c::crossing::{Digest, Pointed};
use crate::proved::ratio_c::one_fraction::positive;
use crate::proved::ratio_c::printing::{Printer, Text, no_text, put_bytes};
use crate::proved::ratio_c::reading::Reader;
use crate::proved::ratio_c::rounded::rule_of;
use bakhsney::proved::ratio_core::DecimalText;
use bakhsney::proved::ratio_decimal::{DecimalRefusal, decimal, from_decimal};
use core::marker::PhantomData;

/// Prints a fraction as a decimal, with its places and by its rule: 2/3 with 2 places by `RULE_HALF_EVEN` is `0.67`.
#[derive(Clone, Copy)]
pub struct Decimals;

impl<F: Pointed> Printer<F> for Decimals {
    #[inline]
    fn put(&self, x: &F, texts: &mut [u8], at: usize) -> Text {
        match decimal_of(x) {
            Ok(text) => put_bytes(text.as_str().as_bytes(), texts, at),
            Err(code) => no_text(code, at),
        }
    }
}

/// The text of a fraction as a decimal, or the code that says why there is none.
#[inline]
fn decimal_of<F: Pointed>(x: &F) -> Result<DecimalText, u32> {
    let places = x.places();
    match positive(x) {
        Some((n, d)) => match rule_of(x.rule()) {
            Some(rule) if places <= 38 => {
                Ok(decimal(n, d, places, rule))
            }
            _ => Err(BAD_OPTION),
        },
        None => Err(DENOMINATOR_NOT_POSITIVE),
    }
}

/// The reader of decimals such as `12.375` and `-1.5e-3`, over the type `T`.
pub struct DecimalTexts<T> {
    marker: PhantomData<T>,
}

impl<T> DecimalTexts<T> {
    /// The reader of decimals, over the type `T`.
    #[inline(always)]
    pub fn new() -> DecimalTexts<T> {
        DecimalTexts {
            marker: PhantomData,
        }
    }
}

impl<T: Digest> Reader for DecimalTexts<T> {
    type Inside = T;

    #[inline]
    fn read(&self, text: &str) -> Result<(T, T), u32> {
        match from_decimal::<T>(text) {
            Ok(x) => Ok((x.0, x.1)),
            Err(DecimalRefusal::NotDecimal) => Err(PARSE_ERROR),
            Err(DecimalRefusal::NotHeld) => Err(NOT_HELD),
        }
    }
}
