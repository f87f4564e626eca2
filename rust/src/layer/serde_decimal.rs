//! A fraction as a decimal, for serde's `with`: `"12.375"` or `"5"`. It is for `Ratio`, `Reduced`, `BigFraction`, and an `Option` of one:
//! `#[serde(with = "num_rational::decimal")]`. **To write a fraction without a finite decimal, such as 1/3, is an error**: round it first.
//!
//! ```
//! use num_rational::{decimal, ratio, Reduced64};
//!
//! let write = |x: Reduced64| decimal::serialize(&x, serde_json::value::Serializer);
//! assert_eq!(write(ratio!(99/8)).unwrap(), "12.375");
//! assert_eq!(write(ratio!(1/3)).unwrap_err().to_string(), "the fraction has no finite decimal");
//! let read = |json| decimal::deserialize::<Reduced64, _>(&mut serde_json::Deserializer::from_str(json));
//! assert_eq!(read(r#""-1.5e-3""#).unwrap(), ratio!(-3/2000));
//! assert!(read(r#""1/2""#).is_err());
//! ```
#[cfg(feature = "alloc")]
use super::big_fraction::BigFraction;
use super::integer::Integer;
use super::reduced::Reduced;
#[cfg(feature = "alloc")]
use super::serde_forms::most_bits_of;
use super::serde_forms::{read_text, Decimal, In};
use serde::ser::Error as _;
use serde::{Deserializer, Serializer};

/// Writes all of the decimal.
///
/// # Errors
///
/// If the fraction has no finite decimal, or if a `Ratio` has no lowest terms that fit its type. And those of the format, or for want of
/// memory.
pub fn serialize<F: In<Decimal>, S: Serializer>(fraction: &F, format: S) -> Result<S::Ok, S::Error> {
    fraction.write(format)
}

/// Reads what `from_decimal` of the type reads, such as `"12.375"` or `"-1.5e-3"`, as lowest terms.
///
/// # Errors
///
/// If the value is no text, or if `from_decimal` refuses it: the error has that refusal's text. For a `BigFraction` also if the text has an
/// exponent by which a number gets more bits than 4096 and 4 for each byte of the text. So no short text takes long.
pub fn deserialize<'de, F: In<Decimal>, D: Deserializer<'de>>(format: D) -> Result<F, D::Error> {
    F::read(format)
}

const EXPECTED: &str = "a text such as \"12.375\"";

fn write<S: Serializer>(decimal: Option<impl AsRef<str>>, format: S) -> Result<S::Ok, S::Error> {
    match decimal {
        Some(text) => format.serialize_str(text.as_ref()),
        None => Err(S::Error::custom("the fraction has no finite decimal")),
    }
}

impl<T: Integer> In<Decimal> for Reduced<T> {
    fn write<S: Serializer>(&self, format: S) -> Result<S::Ok, S::Error> {
        write(self.exact_decimal(), format)
    }

    fn read<'de, D: Deserializer<'de>>(format: D) -> Result<Reduced<T>, D::Error> {
        read_text(format, EXPECTED, Reduced::from_decimal)
    }
}

#[cfg(feature = "alloc")]
impl In<Decimal> for BigFraction {
    fn write<S: Serializer>(&self, format: S) -> Result<S::Ok, S::Error> {
        write(big::exact_decimal(self).map_err(S::Error::custom)?, format)
    }

    fn read<'de, D: Deserializer<'de>>(format: D) -> Result<BigFraction, D::Error> {
        read_text(format, EXPECTED, |text| BigFraction::from_decimal_within(text, most_bits_of(text)))
    }
}

#[cfg(feature = "alloc")]
mod big {
    use super::super::big_fraction::BigFraction;
    use super::super::big_fraction_texts::BigTextRefusal;
    use crate::memory::AllocError;
    use crate::proved::ratio_decimal::rounding_rule::Rounding;
    use alloc::string::String;

    /// All of the fraction as a decimal, or `None` if the digits do not end. A decimal is returned only if the proved reader makes the
    /// fraction of it again.
    pub(super) fn exact_decimal(fraction: &BigFraction) -> Result<Option<String>, BigTextRefusal> {
        let places = u32::try_from(fraction.with_digits(|_, denom| most_places(denom))).map_err(|_| AllocError)?;
        let mut text = fraction.try_decimal(places, Rounding::Down)?;
        if BigFraction::from_decimal(&text)? != *fraction {
            return Ok(None);
        }
        text.truncate(text.trim_end_matches('0').trim_end_matches('.').len());
        Ok(Some(text))
    }

    /// As many places as a decimal over this denominator has, or more, and at least one. If the decimal ends, the denominator is 2^a times
    /// 5^b, and it has the greater of `a` and `b` places. 5^b has more than 16/7 of `b` bits.
    fn most_places(denom: &[u64]) -> u64 {
        let zeros = denom.iter().take_while(|digit| **digit == 0).count();
        let twos = 64 * zeros as u64 + u64::from(denom[zeros].trailing_zeros());
        let bits = 64 * denom.len() as u64 - u64::from(denom[denom.len() - 1].leading_zeros());
        twos.max((bits - twos) * 7 / 16 + 1)
    }
}
