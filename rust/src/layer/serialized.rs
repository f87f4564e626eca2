//! Fractions in serde's formats: the pair of the fields. A `Ratio` is not reduced. A `Reduced` is refused if it is not in lowest
//! terms. A `BigFraction` is written as num-rational's `BigRational`, and brought to lowest terms.
use super::integer::Integer;
use super::ratio::Ratio;
use super::reduced::Reduced;
use serde::de::{Error, Unexpected};
use serde::{Deserialize, Deserializer, Serialize, Serializer};

impl<T: Serialize> Serialize for Ratio<T> {
    fn serialize<S: Serializer>(&self, format: S) -> Result<S::Ok, S::Error> {
        (self.numer(), self.denom()).serialize(format)
    }
}

impl<'de, T: Clone + num_integer::Integer + Deserialize<'de>> Deserialize<'de> for Ratio<T> {
    fn deserialize<D: Deserializer<'de>>(format: D) -> Result<Ratio<T>, D::Error> {
        let (numer, denom) = <(T, T)>::deserialize(format)?;
        if denom.is_zero() {
            return Err(D::Error::invalid_value(Unexpected::Signed(0), &"a ratio with non-zero denominator"));
        }
        Ok(Ratio::new_raw(numer, denom))
    }
}

impl<T: Integer + Serialize> Serialize for Reduced<T> {
    fn serialize<S: Serializer>(&self, format: S) -> Result<S::Ok, S::Error> {
        self.into_raw().serialize(format)
    }
}

impl<'de, T: Integer + Deserialize<'de>> Deserialize<'de> for Reduced<T> {
    fn deserialize<D: Deserializer<'de>>(format: D) -> Result<Reduced<T>, D::Error> {
        let (numer, denom) = <(T, T)>::deserialize(format)?;
        match Reduced::checked_new(numer, denom) {
            Some(fraction) if fraction.into_raw() == (numer, denom) => Ok(fraction),
            _ => Err(D::Error::custom("a fraction must be in lowest terms with a positive denominator")),
        }
    }
}

#[cfg(feature = "alloc")]
mod big {
    use super::super::big_fraction::BigFraction;
    use crate::memory::{Global, Vec};
    use core::fmt;
    use num_traits::Signed;
    use serde::de::{Error, SeqAccess, Unexpected, Visitor};
    use serde::{Deserialize, Deserializer, Serialize, Serializer};

    /// Each number is the pair of its sign and its digits of 32 bits, the lowest first: `[[-1,[1]],[1,[3]]]` for -1/3.
    impl Serialize for BigFraction {
        fn serialize<S: Serializer>(&self, format: S) -> Result<S::Ok, S::Error> {
            let sign = i8::from(self.is_positive()) - i8::from(self.is_negative());
            self.with_digits(|numer, denom| ((sign, Digits(numer)), (1i8, Digits(denom))).serialize(format))
        }
    }

    struct Digits<D>(D);

    impl Serialize for Digits<&[u64]> {
        fn serialize<S: Serializer>(&self, format: S) -> Result<S::Ok, S::Error> {
            let is_half = self.0.last().map_or(false, |&last| last < 1 << 32);
            format.collect_seq((0..2 * self.0.len() - usize::from(is_half)).map(|k| (self.0[k / 2] >> (32 * (k % 2))) as u32))
        }
    }

    impl<'de> Deserialize<'de> for BigFraction {
        fn deserialize<D: Deserializer<'de>>(format: D) -> Result<BigFraction, D::Error> {
            type Number = (i8, Digits<Vec<u64>>);
            let ((sign, numer), (under, denom)) = <(Number, Number)>::deserialize(format)?;
            for sign in [sign, under] {
                if !(-1..=1).contains(&sign) {
                    return Err(D::Error::invalid_value(Unexpected::Signed(sign.into()), &"a sign of -1, 0, or 1"));
                }
            }
            // Digits with the sign 0 are 0.
            let of = |sign, digits: Digits<Vec<u64>>| if sign == 0 { Vec::new(Global) } else { digits.0 };
            match BigFraction::try_from_digits(sign != under, &of(sign, numer), &of(under, denom)) {
                Ok(Some(fraction)) => Ok(fraction),
                Ok(None) => Err(D::Error::invalid_value(Unexpected::Signed(0), &"a ratio with non-zero denominator")),
                Err(error) => Err(D::Error::custom(error)),
            }
        }
    }

    impl<'de> Deserialize<'de> for Digits<Vec<u64>> {
        fn deserialize<D: Deserializer<'de>>(format: D) -> Result<Digits<Vec<u64>>, D::Error> {
            format.deserialize_seq(Reader)
        }
    }

    struct Reader;

    impl<'de> Visitor<'de> for Reader {
        type Value = Digits<Vec<u64>>;

        fn expecting(&self, f: &mut fmt::Formatter<'_>) -> fmt::Result {
            f.write_str("a sequence of digits of 32 bits")
        }

        fn visit_seq<A: SeqAccess<'de>>(self, mut sequence: A) -> Result<Digits<Vec<u64>>, A::Error> {
            let mut digits = Vec::new(Global);
            while let Some(low) = sequence.next_element::<u32>()? {
                let high = sequence.next_element::<u32>()?;
                digits.push(u64::from(high.unwrap_or(0)) << 32 | u64::from(low)).map_err(A::Error::custom)?;
                if high.is_none() {
                    // No format has to say twice that a sequence is over.
                    break;
                }
            }
            Ok(Digits(digits))
        }
    }
}
