//! Euclid's division of `BigFraction`s: a whole quotient, and what it leaves, which is never below 0.
use super::big_fraction::{divided, BigFraction};
use crate::memory::AllocError;
use num_traits::{CheckedEuclid, Euclid, Signed};

impl BigFraction {
    /// The quotient of [`div_euclid`](Euclid::div_euclid). `None` if the divisor is 0, and an error for want of memory.
    ///
    /// ```
    /// use num_rational::BigFraction;
    ///
    /// assert_eq!(BigFraction::new(-7, 2).try_div_euclid(&BigFraction::from(2)), Ok(Some(BigFraction::from(-2))));
    /// assert_eq!(BigFraction::new(-7, 2).try_div_euclid(&BigFraction::from(0)), Ok(None));
    /// ```
    #[inline]
    pub fn try_div_euclid(&self, divisor: &BigFraction) -> Result<Option<BigFraction>, AllocError> {
        match self.try_div(divisor)? {
            Some(quotient) if divisor.is_negative() => quotient.try_ceil().map(Some),
            Some(quotient) => quotient.try_floor().map(Some),
            None => Ok(None),
        }
    }

    /// The remainder of [`rem_euclid`](Euclid::rem_euclid). `None` if the divisor is 0, and an error for want of memory.
    ///
    /// ```
    /// use num_rational::BigFraction;
    ///
    /// assert_eq!(BigFraction::new(-7, 2).try_rem_euclid(&BigFraction::from(2)), Ok(Some(BigFraction::new(1, 2))));
    /// assert_eq!(BigFraction::new(-7, 2).try_rem_euclid(&BigFraction::from(0)), Ok(None));
    /// ```
    #[inline]
    pub fn try_rem_euclid(&self, divisor: &BigFraction) -> Result<Option<BigFraction>, AllocError> {
        match self.try_rem(divisor)? {
            Some(rest) if !rest.is_negative() => Ok(Some(rest)),
            Some(rest) if divisor.is_negative() => rest.try_sub(divisor).map(Some),
            Some(rest) => rest.try_add(divisor).map(Some),
            None => Ok(None),
        }
    }
}

impl Euclid for BigFraction {
    /// The whole number `q` for which `self - q * divisor` is at least 0 and below the magnitude of the divisor.
    ///
    /// # Panics
    ///
    /// If the divisor is 0, or for want of memory.
    #[inline]
    #[track_caller]
    fn div_euclid(&self, divisor: &BigFraction) -> BigFraction {
        divided(self.try_div_euclid(divisor), "attempt to divide by zero")
    }

    /// What this quotient leaves.
    ///
    /// # Panics
    ///
    /// If the divisor is 0, or for want of memory.
    #[inline]
    #[track_caller]
    fn rem_euclid(&self, divisor: &BigFraction) -> BigFraction {
        divided(self.try_rem_euclid(divisor), "attempt to calculate the remainder with a divisor of zero")
    }
}

impl CheckedEuclid for BigFraction {
    /// `None` if the divisor is 0 or for want of memory.
    #[inline]
    fn checked_div_euclid(&self, divisor: &BigFraction) -> Option<BigFraction> {
        self.try_div_euclid(divisor).ok().flatten()
    }

    /// `None` if the divisor is 0 or for want of memory.
    #[inline]
    fn checked_rem_euclid(&self, divisor: &BigFraction) -> Option<BigFraction> {
        self.try_rem_euclid(divisor).ok().flatten()
    }
}
