//! The greatest common divisor and the least common multiple of `BigFraction`s.
use super::big_fraction::{taken, tries, BigFraction};
use crate::memory::{AllocError, Global};

impl BigFraction {
    /// The greatest fraction that divides both: 1/12 for 1/4 and 1/6, since 1/4 is 3/12 and 1/6 is 2/12. It is never negative, and for a
    /// fraction and 0 it is the fraction's absolute value.
    ///
    /// # Panics
    ///
    /// For want of memory.
    ///
    /// ```
    /// use num_rational::BigFraction;
    ///
    /// assert_eq!(BigFraction::new(1, 4).gcd(&BigFraction::new(1, 6)), BigFraction::new(1, 12));
    /// ```
    #[inline]
    #[doc(alias = "greatest_common_divisor")]
    #[track_caller]
    #[must_use]
    pub fn gcd(&self, other: &BigFraction) -> BigFraction {
        taken(self.try_gcd(other))
    }

    /// The least fraction above 0 that both divide: 1/2 for 1/4 and 1/6. It is never negative, and it is 0 if either fraction is 0.
    ///
    /// # Panics
    ///
    /// For want of memory.
    ///
    /// ```
    /// use num_rational::BigFraction;
    ///
    /// assert_eq!(BigFraction::new(1, 4).lcm(&BigFraction::new(1, 6)), BigFraction::new(1, 2));
    /// ```
    #[inline]
    #[doc(alias = "least_common_multiple")]
    #[track_caller]
    #[must_use]
    pub fn lcm(&self, other: &BigFraction) -> BigFraction {
        taken(self.try_lcm(other))
    }
}

tries! {
    /// The call `gcd`, or an error.
    try_gcd(other) by gcd;

    /// The call `lcm`, or an error.
    try_lcm(other) by lcm;
}
