//! `Arbitrary` of the crate proptest: `any::<Reduced64>()`. It shrinks the two numbers of a fraction towards 0.
use super::super::big_fraction::BigFraction;
use super::super::integer::Integer;
use super::super::ratio::Ratio;
use super::super::reduced::Reduced;
use super::drawn::{of_digits, of_numbers, Digits, Numbers};
use proptest::arbitrary::{any, Arbitrary, StrategyFor};
use proptest::strategy::{Map, Strategy};

macro_rules! by_numbers {
    ($($Fraction:ident)*) => {$(
        /// Fractions in lowest terms. Those of small numbers are as common as those of great ones.
        impl<T: Integer + Arbitrary> Arbitrary for $Fraction<T> {
            type Parameters = ();
            type Strategy = Map<StrategyFor<Numbers<T>>, fn(Numbers<T>) -> $Fraction<T>>;

            fn arbitrary_with((): ()) -> Self::Strategy {
                any::<Numbers<T>>().prop_map(|numbers| of_numbers(numbers).into())
            }
        }
    )*};
}

by_numbers! { Ratio Reduced }

/// Half of them are fractions of two `i64`. The others have up to 100 digits of 64 bits more in each number.
impl Arbitrary for BigFraction {
    type Parameters = ();
    type Strategy = Map<StrategyFor<Digits>, fn(Digits) -> BigFraction>;

    fn arbitrary_with((): ()) -> Self::Strategy {
        any::<Digits>().prop_map(of_digits)
    }
}
