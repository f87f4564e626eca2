//! What the forms for serde's `with` share: `text`, `decimal` and `two_numbers`.
#[cfg(feature = "num-bigint")]
use super::big::BigRational;
#[cfg(feature = "num-bigint")]
use super::big_fraction::BigFraction;
use super::integer::Integer;
use super::ratio::Ratio;
use super::reduced::Reduced;
use super::reduced_traits::ReducedError;
use core::fmt::{self, Display};
use core::marker::PhantomData;
use serde::ser::Error as _;
use serde::{de, Deserialize, Deserializer, Serialize, Serializer};

/// The form of the module `text`.
pub enum Text {}

/// The form of the module `decimal`.
pub enum Decimal {}

/// The form of the module `two_numbers`.
pub enum TwoNumbers {}

/// A `Reduced`, a `Ratio` or a `BigFraction` that serde writes and reads in a form, or an `Option` of one. No other crate has such a type.
pub trait In<Form>: Sized {
    fn write<S: Serializer>(&self, format: S) -> Result<S::Ok, S::Error>;

    fn read<'de, D: Deserializer<'de>>(format: D) -> Result<Self, D::Error>;
}

/// The lowest terms. Fractions that are equal are written alike.
impl<Form, T: Integer> In<Form> for Ratio<T>
where
    Reduced<T>: In<Form>,
{
    fn write<S: Serializer>(&self, format: S) -> Result<S::Ok, S::Error> {
        match Reduced::from_ratio(self) {
            Some(lowest) => lowest.write(format),
            None => Err(S::Error::custom(ReducedError(()))),
        }
    }

    fn read<'de, D: Deserializer<'de>>(format: D) -> Result<Ratio<T>, D::Error> {
        Reduced::read(format).map(Ratio::from)
    }
}

/// As a `BigFraction`, in lowest terms.
#[cfg(feature = "num-bigint")]
impl<Form> In<Form> for BigRational
where
    BigFraction: In<Form>,
{
    fn write<S: Serializer>(&self, format: S) -> Result<S::Ok, S::Error> {
        BigFraction::try_from(self).map_err(S::Error::custom)?.write(format)
    }

    fn read<'de, D: Deserializer<'de>>(format: D) -> Result<BigRational, D::Error> {
        BigFraction::read(format).map(BigRational::from)
    }
}

impl<Form, F: In<Form>> In<Form> for Option<F> {
    fn write<S: Serializer>(&self, format: S) -> Result<S::Ok, S::Error> {
        self.as_ref().map(Held::of).serialize(format)
    }

    fn read<'de, D: Deserializer<'de>>(format: D) -> Result<Option<F>, D::Error> {
        let held = <Option<Held<Form, F>>>::deserialize(format)?;
        Ok(held.map(|held| held.fraction))
    }
}

/// A fraction, or a reference to one, that serde writes and reads in a form without a `with`.
pub(super) struct Held<Form, F> {
    pub(super) fraction: F,
    form: PhantomData<Form>,
}

impl<Form, F> Held<Form, F> {
    pub(super) fn of(fraction: F) -> Held<Form, F> {
        Held { fraction, form: PhantomData }
    }
}

impl<Form, F: In<Form>> Serialize for Held<Form, &F> {
    fn serialize<S: Serializer>(&self, format: S) -> Result<S::Ok, S::Error> {
        self.fraction.write(format)
    }
}

impl<'de, Form, F: In<Form>> Deserialize<'de> for Held<Form, F> {
    fn deserialize<D: Deserializer<'de>>(format: D) -> Result<Held<Form, F>, D::Error> {
        F::read(format).map(Held::of)
    }
}

/// Reads a text, and passes it to `read`, whose refusal becomes the format's error.
pub(super) fn read_text<'de, V, R: Display, D: Deserializer<'de>>(
    format: D,
    expected: &'static str,
    read: fn(&str) -> Result<V, R>,
) -> Result<V, D::Error> {
    format.deserialize_str(Reader { expected, read })
}

struct Reader<V, R> {
    expected: &'static str,
    read: fn(&str) -> Result<V, R>,
}

impl<V, R: Display> de::Visitor<'_> for Reader<V, R> {
    type Value = V;

    fn expecting(&self, f: &mut fmt::Formatter<'_>) -> fmt::Result {
        f.write_str(self.expected)
    }

    fn visit_str<E: de::Error>(self, text: &str) -> Result<V, E> {
        (self.read)(text).map_err(E::custom)
    }
}

/// The bits that `BigFraction` may take for a text: those of the digits that it has, and some more for an exponent.
#[cfg(feature = "alloc")]
pub(super) fn most_bits_of(text: &str) -> u64 {
    4 * text.len() as u64 + 4096
}
