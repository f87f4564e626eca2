//! A fraction as a text, for serde's `with`: `"-3/4"` or `"5"`. It is for `Ratio`, `Reduced`, `BigFraction`, and an `Option` of one:
//! `#[serde(with = "num_rational::text")]`. A struct that has one such field, and the attribute `serde(transparent)`, may be the key of a map.
//!
//! ```
//! use num_rational::{text, ratio, Reduced64};
//!
//! let written = text::serialize(&ratio!(-6/8), serde_json::value::Serializer).unwrap();
//! assert_eq!(written, "-3/4");
//! let read = |json| text::deserialize::<Reduced64, _>(&mut serde_json::Deserializer::from_str(json));
//! assert_eq!(read(r#""-1 1/2""#).unwrap(), ratio!(-3/2));
//! let refusal = read(r#""1/0""#).unwrap_err();
//! assert!(refusal.to_string().starts_with("the denominator is 0"));
//! ```
#[cfg(feature = "alloc")]
use super::big_fraction::BigFraction;
use super::integer::Integer;
use super::reduced::Reduced;
#[cfg(feature = "alloc")]
use super::serde_forms::most_bits_of;
use super::serde_forms::{read_text, In, Text};
#[cfg(feature = "alloc")]
use serde::ser::Error as _;
use serde::{Deserializer, Serializer};

/// Writes the text of the lowest terms, as `{}` of a `Reduced` does.
///
/// # Errors
///
/// If a `Ratio` has no lowest terms that fit its type. And those of the format, or for want of memory.
pub fn serialize<F: In<Text>, S: Serializer>(fraction: &F, format: S) -> Result<S::Ok, S::Error> {
    fraction.write(format)
}

/// Reads what `from_text` of the type reads, `"-3/4"`, `"0.75"`, `"-1 1/2"` or `"12.5%"`, as lowest terms.
///
/// # Errors
///
/// If the value is no text, or if `from_text` refuses it: the error has that refusal's text. For a `BigFraction` also if the text has an
/// exponent by which a number gets more bits than 4096 and 4 for each byte of the text. So no short text takes long.
pub fn deserialize<'de, F: In<Text>, D: Deserializer<'de>>(format: D) -> Result<F, D::Error> {
    F::read(format)
}

const EXPECTED: &str = "a text such as \"-3/4\"";

impl<T: Integer> In<Text> for Reduced<T> {
    fn write<S: Serializer>(&self, format: S) -> Result<S::Ok, S::Error> {
        format.serialize_str(&self.base_ten_text())
    }

    fn read<'de, D: Deserializer<'de>>(format: D) -> Result<Reduced<T>, D::Error> {
        read_text(format, EXPECTED, Reduced::from_text)
    }
}

#[cfg(feature = "alloc")]
impl In<Text> for BigFraction {
    fn write<S: Serializer>(&self, format: S) -> Result<S::Ok, S::Error> {
        format.serialize_str(&self.try_to_string().map_err(S::Error::custom)?)
    }

    fn read<'de, D: Deserializer<'de>>(format: D) -> Result<BigFraction, D::Error> {
        read_text(format, EXPECTED, |text| BigFraction::from_text_within(text, most_bits_of(text)))
    }
}
