//! The least and the greatest fraction of a type, negatives that may not fit, distances and middles.
use super::integer::{Element, Integer, Signs};
use super::ratio::Ratio;
use super::reduced::Reduced;
use num_traits::{Bounded, CheckedNeg, Signed};

impl<T: Integer> Bounded for Ratio<T> {
    /// The least number of the type, over 1.
    #[inline]
    fn min_value() -> Ratio<T> {
        Ratio::from_integer(T::min_value())
    }

    /// The greatest number of the type, over 1.
    #[inline]
    fn max_value() -> Ratio<T> {
        Ratio::from_integer(T::max_value())
    }
}

impl<T: Integer + Signed> CheckedNeg for Ratio<T> {
    /// The negative over the same denominator, or `None` if it does not fit the type or the denominator is 0.
    #[inline]
    fn checked_neg(&self) -> Option<Ratio<T>> {
        <T as Element>::Signs::checked_neg(self.checked_proved()?).map(Ratio::from_proved)
    }
}

impl<T: Integer> Ratio<T> {
    /// The distance of two fractions: the greater one minus the other. `None` if it does not fit the type, or if the lowest terms of
    /// one of the two do not. num-rational has no such call.
    ///
    /// ```
    /// use num_rational::Ratio;
    ///
    /// let (third, half) = (Ratio::new(1u8, 3), Ratio::new(1, 2));
    /// assert_eq!(third.checked_abs_diff(&half), Some(Ratio::new(1, 6)));
    /// assert_eq!(Ratio::new(-128i8, 1).checked_abs_diff(&Ratio::new(1, 1)), None);
    /// ```
    #[doc(alias = "distance")]
    #[inline]
    #[must_use]
    pub fn checked_abs_diff(&self, other: &Ratio<T>) -> Option<Ratio<T>> {
        let (x, y) = (Reduced::from_ratio(self)?, Reduced::from_ratio(other)?);
        if x < y { y.checked_sub(x) } else { x.checked_sub(y) }.map(Ratio::from)
    }

    /// The fraction in the middle of two. `None` if it does not fit the type, or if the lowest terms of one of the two do not. Their sum
    /// need not fit. num-rational has no such call.
    ///
    /// ```
    /// use num_rational::Ratio;
    ///
    /// assert_eq!(Ratio::new(1, 3).checked_midpoint(&Ratio::new(1, 2)), Some(Ratio::new(5, 12)));
    /// assert_eq!(Ratio::new(127i8, 1).checked_midpoint(&Ratio::new(125, 1)), Some(Ratio::new(126, 1)));
    /// ```
    #[doc(alias = "average")]
    #[doc(alias = "mean")]
    #[cfg(feature = "alloc")]
    #[inline]
    #[must_use]
    pub fn checked_midpoint(&self, other: &Ratio<T>) -> Option<Ratio<T>> {
        let (x, y) = (Reduced::from_ratio(self)?, Reduced::from_ratio(other)?);
        let middle = x.checked_add(y).and_then(|sum| sum.checked_div(T::from(2)?));
        match middle {
            Some(middle) => Some(middle.into()),
            None => [x, y].iter().sum::<super::total::Total<T>>().mean().ok()?.map(Ratio::from),
        }
    }
}
