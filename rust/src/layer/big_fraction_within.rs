//! `BigFraction` from texts and powers that are refused where a number has more bits than a bound.
use super::big_fraction::BigFraction;
use super::big_fraction_texts::BigTextRefusal;
use crate::memory::{AllocError, Global};
use crate::proved::ratio_big::{BigFraction as Proved, WithinRefusal};
use crate::proved::ratio_natural::bits;
use core::cmp::max;

impl BigFraction {
    /// The fraction of a decimal, as [`from_decimal`](BigFraction::from_decimal) reads it, if its numerator and its denominator have at most
    /// `max_bits` bits as the text writes them: `1e3` is 1000 over 1, `1.50` is 150 over 100, and `0e-3` is 0 over 1000.
    ///
    /// Read texts that you do not trust by this call: its time and memory depend on the length of the text and on `max_bits`, not on the exponent.
    ///
    /// # Errors
    ///
    /// `NotDecimal` if the text is no decimal, and `TooLong` exactly if one of the two numbers has more bits. `NoMemory` for want of memory.
    ///
    /// ```
    /// use num_rational::{BigFraction, BigTextRefusal};
    ///
    /// assert_eq!(BigFraction::from_decimal_within("1e3", 10), Ok(BigFraction::from(1000)));
    /// assert_eq!(BigFraction::from_decimal_within("1e3", 9), Err(BigTextRefusal::TooLong));
    /// ```
    #[inline]
    pub fn from_decimal_within(text: &str, max_bits: u64) -> Result<BigFraction, BigTextRefusal> {
        match Proved::from_decimal_within(Global, text, max_bits)? {
            Ok(fraction) => Ok(BigFraction(fraction)),
            Err(WithinRefusal::NotNumber) => Err(BigTextRefusal::NotDecimal),
            Err(refusal) => Err(refusal_of(refusal)),
        }
    }

    /// The fraction of what a person types, as [`from_text`](BigFraction::from_text) reads it, if its numerator and its denominator have at most
    /// `max_bits` bits as the text writes them: `12.5%` is 125 over 1000, and `-1 1/2` is -3 over 2.
    ///
    /// Read texts that you do not trust by this call: its time and memory depend on the length of the text and on `max_bits`, not on the exponent.
    ///
    /// # Errors
    ///
    /// `NotNumber` or `ZeroDenominator`, as there. `TooLong` exactly if neither applies and one of the two numbers has more bits. `NoMemory`
    /// for want of memory.
    ///
    /// ```
    /// use num_rational::{BigFraction, BigTextRefusal};
    ///
    /// assert_eq!(BigFraction::from_text_within("12.5%", 10), Ok(BigFraction::new(1, 8)));
    /// assert_eq!(BigFraction::from_text_within("12.5%", 9), Err(BigTextRefusal::TooLong));
    /// assert_eq!(BigFraction::from_text_within("1e999999999999", 4096), Err(BigTextRefusal::TooLong));
    /// ```
    #[inline]
    pub fn from_text_within(text: &str, max_bits: u64) -> Result<BigFraction, BigTextRefusal> {
        Proved::from_text_within(Global, text, max_bits)?.map(BigFraction).map_err(refusal_of)
    }

    /// The power, if each of its two numbers has at most `max_bits` bits. `None` exactly if one has more, or if there is no power: the fraction
    /// is 0 and the exponent negative. Also for want of memory.
    ///
    /// Take powers with exponents that you do not trust by this call: it computes no number of twice as many bits.
    ///
    /// ```
    /// use num_rational::BigFraction;
    ///
    /// let x = BigFraction::new(2, 3);
    /// assert_eq!((x.pow_within(3, 5), x.pow_within(3, 4)), (Some(BigFraction::new(8, 27)), None));
    /// assert_eq!(x.pow_within(i64::MAX, 4096), None); // at once
    /// ```
    #[inline]
    #[must_use]
    pub fn pow_within(&self, exponent: i64, max_bits: u64) -> Option<BigFraction> {
        self.try_pow_within(exponent, max_bits).ok().flatten()
    }

    /// The same, or an error for want of memory.
    ///
    /// ```
    /// use num_rational::BigFraction;
    ///
    /// assert_eq!(BigFraction::from(2).try_pow_within(-64, 64), Ok(None)); // 1 over 2^64, which has 65 bits
    /// ```
    #[inline]
    pub fn try_pow_within(&self, exponent: i64, max_bits: u64) -> Result<Option<BigFraction>, AllocError> {
        Ok(self.0.pow_within(Global, exponent, max_bits)?.map(BigFraction))
    }

    /// How many bits the longer number has.
    pub(super) fn most_bits(&self) -> u64 {
        self.with_digits(|numer, denom| max(bits(numer), bits(denom)) as u64)
    }

    /// How many bits the longer number of the power has at least: a number of k bits is at least 2^(k-1).
    pub(super) fn least_bits_of_power(&self, exponent: i64) -> u128 {
        u128::from(self.most_bits() - 1) * u128::from(exponent.unsigned_abs()) + 1
    }
}

fn refusal_of(refusal: WithinRefusal) -> BigTextRefusal {
    match refusal {
        WithinRefusal::NotNumber => BigTextRefusal::NotNumber,
        WithinRefusal::ZeroDenominator => BigTextRefusal::ZeroDenominator,
        WithinRefusal::TooLong => BigTextRefusal::TooLong,
    }
}
