//! A `BigFraction` in serde's formats as a list of two numbers, or texts.
use super::big_fraction::BigFraction;
use super::big_fraction_texts::BigTextRefusal;
use super::integer::Integer;
use super::reduced::Reduced;
use super::serde_forms::{In, TwoNumbers};
use super::serde_two_numbers::{read, Whole, MOST};
use crate::memory::AllocError;
use num_traits::Signed;
use serde::de::{Deserializer, Error};
use serde::ser::{Error as _, Serialize, Serializer};

/// `deserialize` of a `BigFraction`, where neither number may have more than `MAX_BITS` bits. For values that you do not trust:
/// `#[serde(serialize_with = "two_numbers::serialize", deserialize_with = "two_numbers::deserialize_within::<4096, _>")]`.
///
/// # Errors
///
/// Those of `deserialize`, or if a number as it is written has more bits. A text of more is not computed.
///
/// ```
/// use num_rational::{two_numbers, BigFraction};
///
/// let read = |text| two_numbers::deserialize_within::<4, _>(&mut serde_json::Deserializer::from_str(text));
/// assert_eq!(read("[15,-2]").unwrap(), BigFraction::new(-15, 2));
/// assert!(read("[16,2]").is_err()); // 16 has 5 bits
/// ```
pub fn deserialize_within<'de, const MAX_BITS: u64, D: Deserializer<'de>>(format: D) -> Result<BigFraction, D::Error> {
    read(format, MAX_BITS)
}

impl In<TwoNumbers> for BigFraction {
    fn write<S: Serializer>(&self, format: S) -> Result<S::Ok, S::Error> {
        let is_negative = self.is_negative();
        self.with_digits(|digits, denom| (Size { is_negative, digits }, Size { is_negative: false, digits: denom }).serialize(format))
    }

    fn read<'de, D: Deserializer<'de>>(format: D) -> Result<BigFraction, D::Error> {
        read(format, u64::MAX)
    }
}

/// A whole number as it is written: its sign and its digits of 64 bits.
struct Size<'a> {
    is_negative: bool,
    digits: &'a [u64],
}

impl Serialize for Size<'_> {
    fn serialize<S: Serializer>(&self, format: S) -> Result<S::Ok, S::Error> {
        match *self.digits {
            [] => format.serialize_i64(0),
            [size] if size <= MOST => format.serialize_i64(if self.is_negative { -(size as i64) } else { size as i64 }),
            _ => match BigFraction::try_from_digits(self.is_negative, self.digits, &[1]) {
                Ok(Some(whole)) => format.serialize_str(&whole.try_to_string().map_err(S::Error::custom)?),
                _ => Err(S::Error::custom(AllocError)),
            },
        }
    }
}

impl Whole for BigFraction {
    fn of_number<T: Integer, E: Error>(number: T, max_bits: u64) -> Result<BigFraction, E> {
        let whole = BigFraction::try_from_reduced(Reduced::from_integer(number)).map_err(E::custom)?;
        if whole.most_bits() > max_bits { Err(E::custom(BigTextRefusal::TooLong)) } else { Ok(whole) }
    }

    fn of_digits<E: Error>(text: &str, max_bits: u64) -> Result<BigFraction, E> {
        BigFraction::from_decimal_within(text, max_bits).map_err(E::custom)
    }

    fn over<E: Error>(self, denom: BigFraction) -> Result<Option<BigFraction>, E> {
        self.try_div(&denom).map_err(E::custom)
    }
}
