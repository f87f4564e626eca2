//! Conversions between `BigFraction` and whole numbers, `Ratio`s, `Reduced`s and big integers, the sum of a `Total`, and the constants.
use super::big_fraction::{taken, BigFraction};
use super::integer::Integer;
use super::numbers::signed;
use super::ratio::Ratio;
use super::reduced::Reduced;
use super::reduced_traits::ReducedError;
use super::total::{TooLong, Total};
use crate::memory::{AllocError, Global};
use crate::proved::ratio_big::BigFraction as Proved;
use num_traits::{One, Zero};

impl Zero for BigFraction {
    #[inline]
    fn zero() -> BigFraction {
        BigFraction(Proved::zero())
    }

    #[inline]
    fn is_zero(&self) -> bool {
        self.0.is_zero()
    }
}

impl One for BigFraction {
    #[inline]
    fn one() -> BigFraction {
        BigFraction(Proved::one())
    }
}

impl Default for BigFraction {
    /// 0.
    #[inline]
    fn default() -> BigFraction {
        BigFraction::zero()
    }
}

impl<T: Integer> From<T> for BigFraction {
    /// # Panics
    ///
    /// For want of memory. A number of at most 63 bits needs none.
    #[inline]
    #[track_caller]
    fn from(number: T) -> BigFraction {
        BigFraction::from_integer(number)
    }
}

impl<T: Integer> From<Reduced<T>> for BigFraction {
    /// # Panics
    ///
    /// For want of memory. Two numbers that fit an `i64` need none.
    #[inline]
    #[track_caller]
    fn from(fraction: Reduced<T>) -> BigFraction {
        taken(BigFraction::try_from_reduced(fraction))
    }
}

impl<T: Integer> TryFrom<Ratio<T>> for BigFraction {
    type Error = ReducedError;

    /// The lowest terms, or an error if the denominator is 0 or for want of memory.
    #[inline]
    fn try_from(fraction: Ratio<T>) -> Result<BigFraction, ReducedError> {
        let (numer, denom) = fraction.into_raw();
        BigFraction::checked_new(numer, denom).ok_or(ReducedError(()))
    }
}

impl<T: Integer> TryFrom<&BigFraction> for Reduced<T> {
    type Error = ReducedError;

    /// The same fraction, or an error if one of its numbers does not fit the type.
    #[inline]
    fn try_from(fraction: &BigFraction) -> Result<Reduced<T>, ReducedError> {
        let short = fraction.0.to_reduced().and_then(|short| Reduced::<i64>::from_proved(short).cast());
        let wide = || fraction.with_digits(|numer, denom| Some((signed(fraction.0.is_negative(), number(numer)?)?, signed(false, number(denom)?)?)));
        match short {
            Some(short) => Ok(short),
            None => Reduced::try_from(wide().ok_or(ReducedError(()))?),
        }
    }
}

impl<T: Integer> TryFrom<BigFraction> for Reduced<T> {
    type Error = ReducedError;

    /// The same fraction, or an error if one of its numbers does not fit the type.
    #[inline]
    fn try_from(fraction: BigFraction) -> Result<Reduced<T>, ReducedError> {
        Reduced::try_from(&fraction)
    }
}

// One for each type: a `Ratio` of all of them would be in the way of `From` for a `Ratio` of big integers, for rustc 1.63.
macro_rules! to_numbers {
    ($($type:ident)*) => {$(
        to_numbers! { Ratio<$type>: fraction => Reduced::try_from(fraction).map(Ratio::from) }
        to_numbers! { $type: fraction => whole_number(fraction) }
    )*};
    ($To:ty: $fraction:ident => $result:expr) => {
        impl TryFrom<&BigFraction> for $To {
            type Error = ReducedError;

            /// The same value, or an error if the type does not have it: 1/2 is no whole number. `to_integer` cuts it to one.
            #[inline]
            fn try_from($fraction: &BigFraction) -> Result<$To, ReducedError> {
                $result
            }
        }

        impl TryFrom<BigFraction> for $To {
            type Error = ReducedError;

            /// The same value, or an error if the type does not have it.
            #[inline]
            fn try_from(fraction: BigFraction) -> Result<$To, ReducedError> {
                <$To>::try_from(&fraction)
            }
        }
    };
}

to_numbers! { i8 i16 i32 i64 i128 isize u8 u16 u32 u64 u128 usize }

/// The number, if it is whole and fits the type.
fn whole_number<T: Integer>(fraction: &BigFraction) -> Result<T, ReducedError> {
    let number = Reduced::<T>::try_from(fraction)?;
    if number.is_integer() { Ok(*number.numer()) } else { Err(ReducedError(())) }
}

/// The number of these digits, if it is below 2^128.
fn number(digits: &[u64]) -> Option<u128> {
    match *digits {
        [] => Some(0),
        [low] => Some(low.into()),
        [low, high] => Some(u128::from(high) << 64 | u128::from(low)),
        _ => None,
    }
}

#[cfg(feature = "num-bigint")]
mod big {
    use super::super::ratio::Ratio;
    use super::{taken, BigFraction, ReducedError};
    use crate::memory::{self, AllocError, Global};
    use alloc::vec::Vec;
    use num_bigint::{BigInt, BigUint, Sign};
    use num_traits::{One, Zero};

    impl From<&BigFraction> for Ratio<BigInt> {
        /// The same numbers.
        fn from(fraction: &BigFraction) -> Ratio<BigInt> {
            let sign = if fraction.0.is_negative() { Sign::Minus } else { Sign::Plus };
            fraction.with_digits(|numer, denom| Ratio::new_raw(BigInt::from_biguint(sign, whole(numer)), whole(denom).into()))
        }
    }

    impl From<BigFraction> for Ratio<BigInt> {
        /// The same numbers.
        fn from(fraction: BigFraction) -> Ratio<BigInt> {
            Ratio::from(&fraction)
        }
    }

    impl TryFrom<&Ratio<BigInt>> for BigFraction {
        type Error = ReducedError;

        /// The lowest terms, or an error if the denominator is 0 or for want of memory.
        fn try_from(fraction: &Ratio<BigInt>) -> Result<BigFraction, ReducedError> {
            of_numbers(fraction.numer(), fraction.denom()).ok().flatten().ok_or(ReducedError(()))
        }
    }

    impl TryFrom<Ratio<BigInt>> for BigFraction {
        type Error = ReducedError;

        /// The lowest terms, or an error if the denominator is 0 or for want of memory.
        fn try_from(fraction: Ratio<BigInt>) -> Result<BigFraction, ReducedError> {
            BigFraction::try_from(&fraction)
        }
    }

    impl From<BigInt> for BigFraction {
        /// # Panics
        ///
        /// For want of memory.
        #[track_caller]
        fn from(number: BigInt) -> BigFraction {
            taken(of_numbers(&number, &BigInt::one())).unwrap_or_else(|| unreachable!("the denominator is 1"))
        }
    }

    fn of_numbers(numer: &BigInt, denom: &BigInt) -> Result<Option<BigFraction>, AllocError> {
        let is_negative = (numer.sign() == Sign::Minus) != (denom.sign() == Sign::Minus);
        BigFraction::try_from_digits(is_negative, &digits(numer)?, &digits(denom)?)
    }

    /// As num-bigint's `to_u64_digits`, which ends the program for want of memory.
    fn digits(number: &BigInt) -> Result<memory::Vec<u64>, AllocError> {
        let all = number.magnitude().iter_u64_digits();
        let mut digits = memory::Vec::with_capacity(Global, all.len())?;
        for digit in all {
            digits.push(digit)?;
        }
        Ok(digits)
    }

    fn whole(digits: &[u64]) -> BigUint {
        if digits.is_empty() {
            return BigUint::zero();
        }
        let halves: Vec<u32> = digits.iter().flat_map(|&digit| [digit as u32, (digit >> 32) as u32]).collect();
        BigUint::new(halves)
    }
}

impl<T: Integer> Total<T> {
    /// The sum, whether it fits the type or not. Its time grows with the square of the number of denominators, as that of `sum`.
    ///
    /// # Errors
    ///
    /// `TooLong` only after fractions with a number of 2^64 or more, if the least common multiple of their denominators is not below
    /// 2^(2^20).
    ///
    /// # Panics
    ///
    /// For want of memory.
    ///
    /// ```
    /// use num_rational::{BigFraction, Reduced64, Total};
    ///
    /// let total: Total<i64> = (1..=100).map(|denom| Reduced64::checked_new(1, denom).unwrap()).sum();
    /// assert_eq!(total.sum(), Ok(None));
    /// assert_eq!(total.big_sum(), Ok((1..=100).map(|denom| BigFraction::new(1, denom)).sum()));
    /// ```
    #[track_caller]
    pub fn big_sum(&self) -> Result<BigFraction, TooLong> {
        let sum = BigFraction(taken(Proved::from_slots(Global, &self.slots)));
        if self.wide.is_empty() {
            return Ok(sum);
        }
        let [positive, common, negative] = self.wide.numbers()?;
        Ok(taken(with_wide(sum, positive, common, negative)))
    }
}

/// The fraction and `(positive - negative)/common`.
#[inline]
fn with_wide(sum: BigFraction, positive: &[u64], common: &[u64], negative: &[u64]) -> Result<BigFraction, AllocError> {
    let mut sum = sum;
    for (is_negative, numer) in [(false, positive), (true, negative)] {
        if let Some(part) = BigFraction::try_from_digits(is_negative, numer, common)? {
            sum = sum.try_add(&part)?;
        }
    }
    Ok(sum)
}
