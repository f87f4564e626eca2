//! Whole numbers near a fraction, its fractional part, and Euclid's division.
//!
//! A negative denominator is first brought to lowest terms. If these do not fit the type, a call that can returns `None`, and
//! the others panic.
use super::integer::{Element, Integer};
use super::ratio::Ratio;
use super::reduced::Reduced;
use super::same::on_machine;
use super::schoolbook;
use num_traits::{CheckedEuclid, Euclid};

impl<T: Clone + num_integer::Integer> Ratio<T> {
    /// The greatest whole number that is not above this fraction.
    ///
    /// # Panics
    ///
    /// If the denominator is 0, or if it is negative and the lowest terms do not fit the type.
    ///
    /// ```
    /// assert_eq!(num_rational::Ratio::new(-7, 2).floor(), (-4).into());
    /// ```
    #[inline]
    #[track_caller]
    #[must_use]
    pub fn floor(&self) -> Ratio<T> {
        on_machine!(T, same => same.back(Ratio::from_proved(same.fraction(self).expect_positive().floor())));
        Ratio::from_integer(schoolbook::floor(self))
    }

    /// The least whole number that is not below this fraction.
    ///
    /// # Panics
    ///
    /// If the denominator is 0, or if it is negative and the lowest terms do not fit the type.
    ///
    /// ```
    /// assert_eq!(num_rational::Ratio::new(255u8, 2).ceil(), 128.into());
    /// ```
    #[inline]
    #[track_caller]
    #[must_use]
    pub fn ceil(&self) -> Ratio<T> {
        on_machine!(T, same => same.back(Ratio::from_proved(same.fraction(self).expect_positive().ceil())));
        Ratio::from_integer(schoolbook::ceil(self))
    }

    /// The whole number nearest to this fraction. A half is rounded away from zero.
    ///
    /// # Panics
    ///
    /// If the denominator is 0, or if it is negative and the lowest terms do not fit the type.
    ///
    /// ```
    /// assert_eq!(num_rational::Ratio::new(-5, 2).round(), (-3).into());
    /// ```
    #[inline]
    #[track_caller]
    #[must_use]
    pub fn round(&self) -> Ratio<T> {
        on_machine!(T, same => same.back(Ratio::from_proved(same.fraction(self).expect_positive().round())));
        Ratio::from_integer(schoolbook::round(self))
    }

    /// This fraction cut towards zero.
    ///
    /// # Panics
    ///
    /// If the denominator is 0, or if it is negative and the lowest terms do not fit the type.
    ///
    /// ```
    /// assert_eq!(num_rational::Ratio::new(-7, 2).trunc(), (-3).into());
    /// ```
    #[inline]
    #[track_caller]
    #[must_use]
    pub fn trunc(&self) -> Ratio<T> {
        on_machine!(T, same => same.back(Ratio::from_proved(same.fraction(self).expect_positive().trunc())));
        Ratio::from_integer(schoolbook::trunc(self))
    }

    /// This fraction minus its `trunc`.
    ///
    /// # Panics
    ///
    /// If the denominator is 0, or if it is negative and the lowest terms do not fit the type.
    ///
    /// ```
    /// assert_eq!(num_rational::Ratio::new(-7, 2).fract(), num_rational::Ratio::new(-1, 2));
    /// ```
    #[inline]
    #[track_caller]
    #[must_use]
    pub fn fract(&self) -> Ratio<T> {
        on_machine!(T, same => same.back(Ratio::from_proved(same.fraction(self).expect_positive().fract())));
        schoolbook::fract(self)
    }

    /// This fraction cut towards zero.
    ///
    /// # Panics
    ///
    /// If the denominator is 0, or if it is negative and the lowest terms do not fit the type.
    ///
    /// ```
    /// assert_eq!(num_rational::Ratio::new(-7, 2).to_integer(), -3);
    /// ```
    #[inline]
    #[track_caller]
    pub fn to_integer(&self) -> T {
        on_machine!(T, same => same.number_back(Element::from_proved(same.fraction(self).expect_positive().to_integer())));
        schoolbook::trunc(self)
    }
}

impl<T: Integer> Ratio<T> {
    /// The nearest fraction to this one with a denominator from 1 to `most`, in lowest terms. Of two that are as near, it is the
    /// one with the smaller denominator, and of two whole numbers the smaller one. It is `None` if `most` is below 1. It is also
    /// `None` if the denominator is 0, or if it is negative and the lowest terms do not fit the type. num-rational has no such
    /// call.
    ///
    /// ```
    /// use num_rational::Ratio;
    ///
    /// assert_eq!(Ratio::new(314159, 100000).nearest(10), Some(Ratio::new(22, 7)));
    /// assert_eq!(Ratio::new(1, 2).nearest(0), None);
    /// ```
    #[doc(alias = "limit_denominator")]
    #[inline]
    pub fn nearest(&self, most: T) -> Option<Ratio<T>> {
        let fraction = self.positive()?;
        if T::NUMBER_0 < most {
            Some(Ratio::from_proved(fraction.nearest(most.into_proved())))
        } else {
            None
        }
    }
}

// Whole quotients and remainders that are never below 0, by num-traits' `Euclid` and `CheckedEuclid`.

impl<T: Integer> Euclid for Ratio<T> {
    /// The whole number `q` for which `self - q * divisor` is at least 0 and below the magnitude of the divisor.
    ///
    /// # Panics
    ///
    /// If `checked_div_euclid` returns `None`.
    #[inline]
    #[track_caller]
    fn div_euclid(&self, divisor: &Ratio<T>) -> Ratio<T> {
        match self.checked_div_euclid(divisor) {
            Some(quotient) => quotient,
            None => refuse(divisor),
        }
    }

    /// What this quotient leaves.
    ///
    /// # Panics
    ///
    /// If `checked_rem_euclid` returns `None`.
    #[inline]
    #[track_caller]
    fn rem_euclid(&self, divisor: &Ratio<T>) -> Ratio<T> {
        match self.checked_rem_euclid(divisor) {
            Some(rest) => rest,
            None => refuse(divisor),
        }
    }
}

impl<T: Integer> CheckedEuclid for Ratio<T> {
    /// `None` if the divisor is 0, if the quotient does not fit the type, or if the lowest terms of one of the two do not.
    #[inline]
    fn checked_div_euclid(&self, divisor: &Ratio<T>) -> Option<Ratio<T>> {
        Reduced::from_ratio(self)?.checked_div_euclid(&Reduced::from_ratio(divisor)?).map(Ratio::from)
    }

    /// `None` if the divisor is 0, if `checked_rem` of a `Reduced` or the remainder does not fit the type, or if the lowest terms of one
    /// of the two do not.
    #[inline]
    fn checked_rem_euclid(&self, divisor: &Ratio<T>) -> Option<Ratio<T>> {
        Reduced::from_ratio(self)?.checked_rem_euclid(&Reduced::from_ratio(divisor)?).map(Ratio::from)
    }
}

#[cold]
#[inline(never)]
#[track_caller]
fn refuse<T: Integer>(divisor: &Ratio<T>) -> ! {
    panic!("{}", if divisor.numer().is_zero() { "attempt to divide by zero" } else { "attempt to multiply with overflow" })
}
