//! `Arbitrary` of the crate quickcheck, which shrinks a fraction towards simpler ones.
use super::super::big_fraction::BigFraction;
use super::super::integer::Integer;
use super::super::ratio::Ratio;
use super::super::reduced::Reduced;
use super::drawn::{of_digits, of_numbers, Digits, Numbers};
use alloc::boxed::Box;
use alloc::vec::Vec;
use core::iter::{once, successors};
use num_traits::{Signed, Zero};
use quickcheck::{Arbitrary, Gen};

macro_rules! by_numbers {
    ($($Fraction:ident)*) => {$(
        /// Fractions in lowest terms. Those of small numbers are as common as those of great ones.
        impl<T: Integer + Arbitrary> Arbitrary for $Fraction<T> {
            fn arbitrary(generator: &mut Gen) -> $Fraction<T> {
                of_numbers(Numbers::arbitrary(generator)).into()
            }

            /// Simpler fractions, as of a `BigFraction`. None for a fraction with the denominator 0.
            fn shrink(&self) -> Box<dyn Iterator<Item = $Fraction<T>>> {
                let simpler_ones = BigFraction::try_from(*self).into_iter().flat_map(simpler);
                Box::new(simpler_ones.filter_map(|x| Reduced::try_from(x).ok()).map($Fraction::from))
            }
        }
    )*};
}

by_numbers! { Ratio Reduced }

/// Half of them are fractions of two `i64`. The others have more digits of 64 bits, up to the size of the generator in each number.
impl Arbitrary for BigFraction {
    fn arbitrary(generator: &mut Gen) -> BigFraction {
        of_digits(Digits::arbitrary(generator))
    }

    /// Simpler fractions: 0, the numerator alone, 1 over the denominator, the convergents, the absolute value, and those with one of the two
    /// numbers nearer to 0. Each has a smaller denominator, or the same one and a smaller numerator without its sign, or only the sign is
    /// gone. So shrinking always ends.
    fn shrink(&self) -> Box<dyn Iterator<Item = BigFraction>> {
        Box::new(simpler(self.clone()))
    }
}

fn simpler(x: BigFraction) -> impl Iterator<Item = BigFraction> {
    let (numer, denom) = numbers(&x);
    let size = rank(&x);
    let (over, under) = (denom.clone(), numer.clone());
    [BigFraction::zero(), numer.clone(), denom.recip()]
        .into_iter()
        .chain(convergents(&x))
        .chain(once(x.abs()))
        .chain(towards(numer).map(move |numer| numer / &over))
        .chain(towards(denom).skip(1).map(move |denom| &under / denom))
        .filter(move |y| rank(y) < size)
}

/// The order of simplicity: the denominator, then the numerator without its sign, then the sign.
fn rank(x: &BigFraction) -> (BigFraction, BigFraction, bool) {
    let (numer, denom) = numbers(x);
    (denom, numer.abs(), numer.is_negative())
}

/// The numerator and the denominator.
fn numbers(x: &BigFraction) -> (BigFraction, BigFraction) {
    let whole = |is_negative, digits: Vec<u64>| BigFraction::from_digits(is_negative, &digits, &[1]).expect("memory allocation failed");
    (whole(x.is_negative(), x.numer_digits()), whole(false, x.denom_digits()))
}

/// Whole numbers from 0 towards this one, each half as far from it as the one before: 0, 50, 75, 88, 94, 97 and 99 for 100.
fn towards(number: BigFraction) -> impl Iterator<Item = BigFraction> {
    let steps = successors(Some(number.clone()), |step| Some(BigFraction::trunc(&(step / 2))));
    steps.take_while(|step| !step.is_zero()).map(move |step| &number - step)
}

/// The convergents of its continued fraction. The last one is the fraction.
fn convergents(x: &BigFraction) -> impl Iterator<Item = BigFraction> {
    let [zero, one] = [0, 1].map(BigFraction::from);
    let mut before = (zero.clone(), one.clone());
    let mut last = (one, zero);
    x.continued_fraction().into_iter().map(move |quotient| {
        let next = (&quotient * &last.0 + &before.0, &quotient * &last.1 + &before.1);
        before = core::mem::replace(&mut last, next);
        &last.0 / &last.1
    })
}
