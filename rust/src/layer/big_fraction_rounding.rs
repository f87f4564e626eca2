//! The whole numbers near a `BigFraction` and of it, remainders and powers.
use super::big_fraction::{divided, taken, tries, BigFraction};
use super::big_fraction_operand::BigOperand;
use super::big_fraction_operators::{checked, from_left, operators};
use super::integer::{Element, Integer, WholeNumber};
use super::ratio::Ratio;
use super::reduced::Reduced;
use crate::memory::{AllocError, Global, Vec};
use core::ops::{Rem, RemAssign};
use num_traits::{CheckedRem, Pow};

macro_rules! whole_numbers {
    ($($(#[$doc:meta])* $name:ident by $try:ident;)*) => {
        /// Whole numbers over 1, and what cutting leaves. A fraction of `i64` needs no memory.
        impl BigFraction {$(
            $(#[$doc])*
            ///
            /// # Panics
            ///
            /// For want of memory.
            #[inline]
            #[track_caller]
            #[must_use]
            pub fn $name(&self) -> BigFraction {
                taken(self.$try())
            }
        )*}

        tries! {$(
            #[doc = concat!("The call `", stringify!($name), "`, or an error.")]
            $try() by $name;
        )*}
    };
}

whole_numbers! {
    /// The greatest whole number that is not above the fraction.
    ///
    /// ```
    /// use num_rational::BigFraction;
    ///
    /// assert_eq!(BigFraction::new(-7, 2).floor(), BigFraction::from(-4));
    /// ```
    floor by try_floor;

    /// The least whole number that is not below the fraction.
    ///
    /// ```
    /// use num_rational::BigFraction;
    ///
    /// assert_eq!(BigFraction::new(-7, 2).ceil(), BigFraction::from(-3));
    /// ```
    ceil by try_ceil;

    /// The nearest whole number. A half is rounded away from 0.
    ///
    /// ```
    /// use num_rational::BigFraction;
    ///
    /// assert_eq!(BigFraction::new(-7, 2).round(), BigFraction::from(-4));
    /// ```
    round by try_round;

    /// The fraction cut towards 0.
    ///
    /// ```
    /// use num_rational::BigFraction;
    ///
    /// assert_eq!(BigFraction::new(-7, 2).trunc(), BigFraction::from(-3));
    /// ```
    trunc by try_trunc;

    /// What `trunc` leaves.
    ///
    /// ```
    /// use num_rational::BigFraction;
    ///
    /// assert_eq!(BigFraction::new(-7, 2).fract(), BigFraction::new(-1, 2));
    /// ```
    fract by try_fract;

    /// The numerator.
    ///
    /// ```
    /// use num_rational::BigFraction;
    ///
    /// assert_eq!(BigFraction::new(-6, 4).numer(), BigFraction::from(-3));
    /// ```
    numer by try_numer;

    /// The denominator.
    ///
    /// ```
    /// use num_rational::BigFraction;
    ///
    /// assert_eq!(BigFraction::new(1, 1u128 << 64).denom().to_string(), "18446744073709551616");
    /// ```
    denom by try_denom;
}

/// A whole number of any size is a `BigFraction` over 1: this crate has no type for these numbers alone.
impl BigFraction {
    /// The fraction cut towards 0, as `trunc` returns it. num-traits' `to_i64` and the like cut it to a number of a machine type, if that
    /// fits, and `i64::try_from` and the like refuse a fraction that is not whole.
    ///
    /// # Panics
    ///
    /// For want of memory.
    ///
    /// ```
    /// use num_rational::BigFraction;
    /// use num_traits::ToPrimitive;
    ///
    /// let x = BigFraction::new(-7, 2);
    /// assert_eq!((x.to_integer(), x.to_i64()), (BigFraction::from(-3), Some(-3)));
    /// assert_eq!((i64::try_from(x.to_integer()), i64::try_from(&x).is_err()), (Ok(-3), true));
    /// ```
    #[inline]
    #[track_caller]
    pub fn to_integer(&self) -> BigFraction {
        self.trunc()
    }

    /// The numerator and the denominator, as `numer` and `denom` return them. `new` makes the fraction of them again. With the feature
    /// `num-bigint`, `BigRational::from(x).into_raw()` has them as big integers.
    ///
    /// # Panics
    ///
    /// For want of memory.
    ///
    /// ```
    /// use num_rational::BigFraction;
    ///
    /// let (numer, denom) = BigFraction::new(-6, 4).into_raw();
    /// assert_eq!((&numer, &denom), (&BigFraction::from(-3), &BigFraction::from(2)));
    /// assert_eq!(BigFraction::new(numer, denom), BigFraction::new(-3, 2));
    /// ```
    #[inline]
    #[track_caller]
    pub fn into_raw(self) -> (BigFraction, BigFraction) {
        (self.numer(), self.denom())
    }
}

tries! { divisions:
    /// The remainder: the fraction minus the divisor times their quotient cut towards 0.
    ///
    /// ```
    /// use num_rational::BigFraction;
    ///
    /// assert_eq!(BigFraction::new(-3, 4).try_rem(&BigFraction::new(1, 2)), Ok(Some(BigFraction::new(-1, 4))));
    /// assert_eq!(BigFraction::new(-3, 4).try_rem(&BigFraction::from(0)), Ok(None));
    /// ```
    try_rem(other) by remainder;
}

operators! {
    Rem rem RemAssign rem_assign by remainder "attempt to calculate the remainder with a divisor of zero";
}

checked! {
    /// The remainder, or `None` if the divisor is 0 or for want of memory.
    CheckedRem checked_rem: x, y => x.try_rem(y).ok().flatten();
}

impl BigFraction {
    /// The power. It is 1 for the exponent 0.
    ///
    /// Take powers with exponents that you do not trust by [`pow_within`](BigFraction::pow_within): 2 to the 10^7 takes 12 seconds, and an
    /// exponent ten times as great a hundred times as long.
    ///
    /// # Panics
    ///
    /// If the fraction is 0 and the exponent negative, or for want of memory.
    ///
    /// ```
    /// use num_rational::BigFraction;
    ///
    /// assert_eq!(BigFraction::new(-2, 3).pow(-2), BigFraction::new(9, 4));
    /// assert_eq!(BigFraction::from(2).pow(100), BigFraction::from(1u128 << 100));
    /// ```
    #[inline]
    #[track_caller]
    #[must_use]
    pub fn pow(&self, exponent: i32) -> BigFraction {
        power(self, exponent.into())
    }

    /// The power, or `None` if the fraction is 0 and the exponent negative. An error for want of memory: at once, if there is none for the power
    /// itself.
    ///
    /// ```
    /// use num_rational::BigFraction;
    ///
    /// assert_eq!(BigFraction::new(-2, 3).try_pow(3), Ok(Some(BigFraction::new(-8, 27))));
    /// assert_eq!(BigFraction::from(0).try_pow(-1), Ok(None));
    /// ```
    #[inline]
    pub fn try_pow(&self, exponent: i64) -> Result<Option<BigFraction>, AllocError> {
        self.room_for_power(exponent)?;
        Ok(self.0.pow(Global, exponent)?.map(BigFraction))
    }
}

impl BigFraction {
    /// An error if there is no memory for a long power, before anything is computed.
    #[inline]
    fn room_for_power(&self, exponent: i64) -> Result<(), AllocError> {
        let words = usize::try_from(self.least_bits_of_power(exponent) / 64).map_err(|_| AllocError)?;
        if words > 1 << 10 {
            drop(Vec::<u64>::with_capacity(Global, words)?);
        }
        Ok(())
    }
}

/// # Panics
///
/// As `pow`.
#[inline]
#[track_caller]
fn power(base: &BigFraction, exponent: i64) -> BigFraction {
    divided(base.try_pow(exponent), "denominator == 0")
}

/// The exponent. One beyond `i64` becomes the outermost one that is odd or even as it is: no memory has room for either power, and the powers
/// of -1, 0 and 1 are the same.
fn exponent_of<T: Integer>(number: T) -> i64 {
    match number.to_i64() {
        Some(exponent) => exponent,
        None if number < T::NUMBER_0 => i64::MIN + i64::from(number.is_odd()),
        None => i64::MAX - i64::from(number.is_even()),
    }
}

impl<N: WholeNumber> Pow<N> for &BigFraction {
    type Output = BigFraction;

    /// # Panics
    ///
    /// If the fraction is 0 and the exponent negative, or for want of memory.
    #[inline]
    #[track_caller]
    fn pow(self, exponent: N) -> BigFraction {
        power(self, exponent_of(exponent.number()))
    }
}

impl<N: WholeNumber> Pow<N> for BigFraction {
    type Output = BigFraction;

    /// # Panics
    ///
    /// As for a reference.
    #[inline]
    #[track_caller]
    fn pow(self, exponent: N) -> BigFraction {
        Pow::pow(&self, exponent)
    }
}
