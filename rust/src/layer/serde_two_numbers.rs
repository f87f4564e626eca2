//! A fraction as a list of two whole numbers, for serde's `with`: `[1,3]` in JSON. A number below -2^53 or above 2^53 is a text, since most
//! programs read such a number as a float. It is for `Ratio`, `Reduced`, `BigFraction`, and an `Option` of one:
//! `#[serde(with = "num_rational::two_numbers")]`. Without `with`, serde writes what num-rational's `Ratio` or `BigRational` has.
//!
//! ```
//! use num_rational::{ratio, two_numbers, Reduced64};
//!
//! let write = |x: Reduced64| two_numbers::serialize(&x, serde_json::value::Serializer).unwrap().to_string();
//! assert_eq!([write(ratio!(-1/3)), write(ratio!(1/9007199254740993))], ["[-1,3]", r#"[1,"9007199254740993"]"#]);
//! let read = |json| two_numbers::deserialize::<Reduced64, _>(&mut serde_json::Deserializer::from_str(json));
//! assert_eq!(read(r#"["-2",6]"#).unwrap(), ratio!(-1/3));
//! assert!(read("[1,0]").is_err() && read("[0.5,2]").is_err());
//! ```
#[cfg(feature = "alloc")]
pub use super::big_fraction_two_numbers::deserialize_within;
use super::casts::CastError;
use super::integer::Integer;
use super::reduced::Reduced;
use super::serde_forms::{In, TwoNumbers};
use crate::proved::ratio_decimal::cuts::{after_sign, are_digits};
use core::fmt;
use core::marker::PhantomData;
use serde::de::{DeserializeSeed, Deserializer, Error, IgnoredAny, SeqAccess, Unexpected, Visitor};
use serde::ser::{Serialize, Serializer};

/// The greatest number that is written as one. A float has room for this number and for all below it.
pub(super) const MOST: u64 = 1 << 53;

/// Writes the list of the numerator and the denominator of the lowest terms. A number below -2^53 or above 2^53 is a text.
///
/// # Errors
///
/// If a `Ratio` has no lowest terms that fit its type. And those of the format, or for want of memory.
pub fn serialize<F: In<TwoNumbers>, S: Serializer>(fraction: &F, format: S) -> Result<S::Ok, S::Error> {
    fraction.write(format)
}

/// Reads a list of two whole numbers, each a number or a text, as the lowest terms. A text is read as `parse` reads it: `"+007"` is 7.
///
/// # Errors
///
/// If the value is no list of two, if one of the two is no whole number, such as `1.0`, or does not fit the type, or if the second one
/// is 0. If the lowest terms do not fit the type, as those of `[1,-128]` over `i8`. And for want of memory.
pub fn deserialize<'de, F: In<TwoNumbers>, D: Deserializer<'de>>(format: D) -> Result<F, D::Error> {
    F::read(format)
}

/// The type that the two numbers are read as.
pub(super) trait Whole: Sized {
    /// The number over 1, or an error if it does not fit, or if it has more bits.
    fn of_number<T: Integer, E: Error>(number: T, max_bits: u64) -> Result<Self, E>;

    /// The same of a sign or none, and digits.
    fn of_digits<E: Error>(text: &str, max_bits: u64) -> Result<Self, E>;

    /// The quotient of two whole numbers, or `None` if the second one is 0.
    fn over<E: Error>(self, denom: Self) -> Result<Option<Self>, E>;
}

/// Reads a list of two, neither of more bits.
pub(super) fn read<'de, W: Whole, D: Deserializer<'de>>(format: D, max_bits: u64) -> Result<W, D::Error> {
    format.deserialize_tuple(2, ListOfTwo { max_bits, of: PhantomData })
}

impl<T: Integer> In<TwoNumbers> for Reduced<T> {
    fn write<S: Serializer>(&self, format: S) -> Result<S::Ok, S::Error> {
        (Number(*self.numer()), Number(*self.denom())).serialize(format)
    }

    fn read<'de, D: Deserializer<'de>>(format: D) -> Result<Reduced<T>, D::Error> {
        read(format, u64::MAX)
    }
}

struct Number<T>(T);

impl<T: Integer> Serialize for Number<T> {
    fn serialize<S: Serializer>(&self, format: S) -> Result<S::Ok, S::Error> {
        match self.0.to_i64() {
            Some(number) if number.unsigned_abs() <= MOST => format.serialize_i64(number),
            _ => format.serialize_str(&Reduced::from_integer(self.0).base_ten_text()),
        }
    }
}

/// A type of numbers below 2^128 has no bound.
impl<T: Integer> Whole for Reduced<T> {
    fn of_number<U: Integer, E: Error>(number: U, _: u64) -> Result<Reduced<T>, E> {
        T::from(number).map(Reduced::from_integer).ok_or_else(|| E::custom(CastError(())))
    }

    fn of_digits<E: Error>(text: &str, _: u64) -> Result<Reduced<T>, E> {
        Reduced::from_decimal(text).map_err(E::custom)
    }

    fn over<E: Error>(self, denom: Reduced<T>) -> Result<Option<Reduced<T>>, E> {
        if denom.is_zero() {
            return Ok(None);
        }
        Reduced::try_from((*self.numer(), *denom.numer())).map(Some).map_err(E::custom)
    }
}

/// Reads a whole number of at most so many bits, over 1.
struct WholeNumber<W> {
    max_bits: u64,
    of: PhantomData<W>,
}

impl<'de, W: Whole> DeserializeSeed<'de> for WholeNumber<W> {
    type Value = W;

    fn deserialize<D: Deserializer<'de>>(self, format: D) -> Result<W, D::Error> {
        format.deserialize_any(self)
    }
}

impl<W: Whole> Visitor<'_> for WholeNumber<W> {
    type Value = W;

    fn expecting(&self, f: &mut fmt::Formatter<'_>) -> fmt::Result {
        f.write_str("a whole number, or a text of one")
    }

    fn visit_i64<E: Error>(self, number: i64) -> Result<W, E> {
        W::of_number(number, self.max_bits)
    }

    fn visit_i128<E: Error>(self, number: i128) -> Result<W, E> {
        W::of_number(number, self.max_bits)
    }

    fn visit_u64<E: Error>(self, number: u64) -> Result<W, E> {
        W::of_number(number, self.max_bits)
    }

    fn visit_u128<E: Error>(self, number: u128) -> Result<W, E> {
        W::of_number(number, self.max_bits)
    }

    fn visit_str<E: Error>(self, text: &str) -> Result<W, E> {
        let (_, digits) = after_sign(text.as_bytes());
        if !are_digits(digits) {
            return Err(E::invalid_value(Unexpected::Str(text), &self));
        }
        W::of_digits(text, self.max_bits)
    }
}

struct ListOfTwo<W> {
    max_bits: u64,
    of: PhantomData<W>,
}

impl<'de, W: Whole> Visitor<'de> for ListOfTwo<W> {
    type Value = W;

    fn expecting(&self, f: &mut fmt::Formatter<'_>) -> fmt::Result {
        f.write_str("a list of two whole numbers")
    }

    fn visit_seq<A: SeqAccess<'de>>(self, mut items: A) -> Result<W, A::Error> {
        let number = || WholeNumber { max_bits: self.max_bits, of: PhantomData };
        let numer = items.next_element_seed(number())?.ok_or_else(|| A::Error::invalid_length(0, &self))?;
        let denom: W = items.next_element_seed(number())?.ok_or_else(|| A::Error::invalid_length(1, &self))?;
        if items.next_element::<IgnoredAny>()?.is_some() {
            return Err(A::Error::invalid_length(3, &self));
        }
        let zero = || A::Error::invalid_value(Unexpected::Signed(0), &"a ratio with non-zero denominator");
        W::over(numer, denom)?.ok_or_else(zero)
    }
}
