//! Multiples of a step or of 1/parts near a `BigFraction`, the nearest fraction with a bounded denominator, its continued fraction, and the simplest
//! fraction between two.
use super::big_fraction::{divided, taken, BigFraction};
use crate::memory::{self, AllocError, Global};
use crate::proved::ratio_big::BigFraction as Proved;
use crate::proved::ratio_decimal::rounding_rule::Rounding;
use alloc::vec::Vec;

impl BigFraction {
    /// The multiple of `1/parts` that the rule says, such as cents for 100, as `Reduced64::round_to` returns it.
    ///
    /// # Panics
    ///
    /// If `parts` is not above 0, or for want of memory.
    ///
    /// ```
    /// use num_rational::{BigFraction, Rounding};
    ///
    /// let price = BigFraction::from_decimal("19.996").unwrap();
    /// assert_eq!(price.round_to(100, Rounding::HalfEven), BigFraction::from(20));
    /// assert_eq!(BigFraction::new(2, 3).round_to(100, Rounding::HalfEven), BigFraction::new(67, 100));
    /// ```
    #[inline]
    #[track_caller]
    #[must_use]
    pub fn round_to(&self, parts: i64, rule: Rounding) -> BigFraction {
        divided(self.try_round_to(parts, rule), "the number of parts is not above 0")
    }

    /// The same, or `None` if `parts` is not above 0. An error for want of memory.
    ///
    /// ```
    /// use num_rational::{BigFraction, Rounding};
    ///
    /// assert_eq!(BigFraction::new(2, 3).try_round_to(0, Rounding::Up), Ok(None));
    /// ```
    #[inline]
    pub fn try_round_to(&self, parts: i64, rule: Rounding) -> Result<Option<BigFraction>, AllocError> {
        if parts < 1 {
            return Ok(None);
        }
        self.0.round_to(Global, parts, rule).map(|multiple| Some(BigFraction(multiple)))
    }

    /// The multiple of `step` that the rule says, such as dozens for 12. For a step of `1/parts` there is `round_to`.
    ///
    /// # Panics
    ///
    /// If `step` is not above 0, or for want of memory.
    ///
    /// ```
    /// use num_rational::{BigFraction, Rounding};
    ///
    /// assert_eq!(BigFraction::from(100).round_to_multiple_of(&BigFraction::from(12), Rounding::HalfEven), BigFraction::from(96));
    /// assert_eq!(BigFraction::new(2, 3).round_to_multiple_of(&BigFraction::new(2, 5), Rounding::Floor), BigFraction::new(2, 5));
    /// ```
    #[inline]
    #[track_caller]
    #[must_use]
    pub fn round_to_multiple_of(&self, step: &BigFraction, rule: Rounding) -> BigFraction {
        divided(self.try_round_to_multiple_of(step, rule), "the step is not above 0")
    }

    /// The same, or `None` if `step` is not above 0. An error for want of memory.
    ///
    /// ```
    /// use num_rational::{BigFraction, Rounding};
    ///
    /// assert_eq!(BigFraction::new(2, 3).try_round_to_multiple_of(&BigFraction::from(0), Rounding::Up), Ok(None));
    /// ```
    #[inline]
    pub fn try_round_to_multiple_of(&self, step: &BigFraction, rule: Rounding) -> Result<Option<BigFraction>, AllocError> {
        if !step.0.is_positive() {
            return Ok(None);
        }
        self.0.round_to_multiple_of(Global, &step.0, rule).map(|multiple| Some(BigFraction(multiple)))
    }

    /// The nearest fraction to this one with a denominator from 1 to `most`, in lowest terms. Of two that are as near, it is the one with
    /// the smaller denominator, and of two whole numbers the smaller one. `None` if `most` is below 1, or for want of memory.
    ///
    /// ```
    /// use num_rational::BigFraction;
    ///
    /// assert_eq!(BigFraction::new(355, 113).nearest(&BigFraction::from(10)), Some(BigFraction::new(22, 7)));
    /// assert_eq!(BigFraction::new(1, 2).nearest(&BigFraction::from(1)), Some(BigFraction::from(0)));
    /// assert_eq!(BigFraction::new(1, 2).nearest(&BigFraction::from(0)), None);
    /// ```
    #[inline]
    #[must_use]
    pub fn nearest(&self, most: &BigFraction) -> Option<BigFraction> {
        self.try_nearest(most).ok().flatten()
    }

    /// The same, or an error for want of memory.
    ///
    /// ```
    /// use num_rational::BigFraction;
    ///
    /// let most = BigFraction::from(1_000_000);
    /// assert_eq!(BigFraction::new(-7, 3).try_nearest(&most), Ok(Some(BigFraction::new(-7, 3))));
    /// ```
    #[inline]
    pub fn try_nearest(&self, most: &BigFraction) -> Result<Option<BigFraction>, AllocError> {
        Ok(self.0.nearest(Global, &most.0)?.map(BigFraction))
    }

    /// The quotients of the continued fraction, each over 1. The first is the floor, and each later one is at least 1.
    ///
    /// # Panics
    ///
    /// For want of memory.
    ///
    /// ```
    /// use num_rational::BigFraction;
    ///
    /// // 4 + 1/(2 + 1/(6 + 1/7))
    /// assert_eq!(BigFraction::new(415, 93).continued_fraction(), [4, 2, 6, 7].map(BigFraction::from));
    /// ```
    #[inline]
    #[track_caller]
    #[must_use]
    pub fn continued_fraction(&self) -> Vec<BigFraction> {
        taken(self.try_continued_fraction())
    }

    /// The same, or an error for want of memory.
    ///
    /// ```
    /// use num_rational::BigFraction;
    ///
    /// assert_eq!(BigFraction::new(-7, 3).try_continued_fraction(), Ok([-3, 1, 2].map(BigFraction::from).to_vec()));
    /// ```
    #[inline]
    pub fn try_continued_fraction(&self) -> Result<Vec<BigFraction>, AllocError> {
        let mut quotients = memory::Vec::new(Global);
        for quotient in self.0.continued_fraction(Global)?.into_std() {
            quotients.push(BigFraction(quotient))?;
        }
        Ok(quotients.into_std())
    }
}

impl BigFraction {
    /// Of all fractions strictly between `low` and `high`, the one with the smallest denominator, and of these the one whose numerator is
    /// nearest to 0. `None` if `low` is not below `high`, or for want of memory.
    ///
    /// ```
    /// use num_rational::BigFraction;
    ///
    /// let (low, high) = (BigFraction::new(31, 10), BigFraction::new(22, 7));
    /// assert_eq!(BigFraction::simplest_between(&low, &high), Some(BigFraction::new(25, 8)));
    /// assert_eq!(BigFraction::simplest_between(&high, &low), None);
    /// ```
    #[inline]
    #[must_use]
    pub fn simplest_between(low: &BigFraction, high: &BigFraction) -> Option<BigFraction> {
        BigFraction::try_simplest_between(low, high).ok().flatten()
    }

    /// The same, or an error for want of memory.
    ///
    /// ```
    /// use num_rational::BigFraction;
    ///
    /// let (low, high) = (BigFraction::from(0), BigFraction::new(1, i64::MAX));
    /// assert_eq!(BigFraction::try_simplest_between(&low, &high), Ok(Some(BigFraction::new(1, 1u64 << 63))));
    /// ```
    #[inline]
    pub fn try_simplest_between(low: &BigFraction, high: &BigFraction) -> Result<Option<BigFraction>, AllocError> {
        Ok(Proved::simplest_between(Global, &low.0, &high.0)?.map(BigFraction))
    }
}
