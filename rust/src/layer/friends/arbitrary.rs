//! `Arbitrary` of the crate arbitrary, for fuzzers: their bytes become two numbers, and these a fraction.
use super::super::big_fraction::BigFraction;
use super::super::integer::Integer;
use super::super::ratio::Ratio;
use super::super::reduced::Reduced;
use super::drawn::{of_digits, of_numbers, Digits, Numbers};
use arbitrary::{Arbitrary, Result, Unstructured};

macro_rules! by_numbers {
    ($($Fraction:ident)*) => {$(
        /// Each fraction in lowest terms can come, over each type.
        impl<'a, T: Integer + Arbitrary<'a>> Arbitrary<'a> for $Fraction<T> {
            fn arbitrary(bytes: &mut Unstructured<'a>) -> Result<$Fraction<T>> {
                Ok(of_numbers(Numbers::arbitrary(bytes)?).into())
            }

            fn size_hint(depth: usize) -> (usize, Option<usize>) {
                Numbers::<T>::size_hint(depth)
            }
        }
    )*};
}

by_numbers! { Ratio Reduced }

/// A fraction of two `i64`, or one with more digits, as many as the bytes say.
impl<'a> Arbitrary<'a> for BigFraction {
    fn arbitrary(bytes: &mut Unstructured<'a>) -> Result<BigFraction> {
        Ok(of_digits(Digits::arbitrary(bytes)?))
    }

    fn size_hint(depth: usize) -> (usize, Option<usize>) {
        Digits::size_hint(depth)
    }
}
