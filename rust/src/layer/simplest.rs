//! The simplest fraction between two, and within two bounds.
use super::integer::{Element, Integer};
use super::ratio::Ratio;
use crate::proved::ratio_approximation::simplest;
use core::ops::Bound;

/// The bound with what `then` makes of its fraction. `None` if that is `None`.
#[inline]
pub(super) fn bound_with<A, B>(bound: Bound<A>, then: impl FnOnce(A) -> Option<B>) -> Option<Bound<B>> {
    Some(match bound {
        Bound::Included(fraction) => Bound::Included(then(fraction)?),
        Bound::Excluded(fraction) => Bound::Excluded(then(fraction)?),
        Bound::Unbounded => Bound::Unbounded,
    })
}

impl<T: Integer> Ratio<T> {
    /// Of all fractions strictly between `low` and `high`, the one with the smallest denominator, and of these the one whose
    /// numerator is nearest to 0, in lowest terms. `None` if the type has no fraction between them, so also if `low` is not below
    /// `high`. It is also `None` if a denominator is 0, or if it is negative and the lowest terms do not fit. num-rational has no
    /// such call.
    ///
    /// ```
    /// use num_rational::Ratio;
    ///
    /// let (low, high) = (Ratio::new(31, 10), Ratio::new(22, 7));
    /// assert_eq!(Ratio::simplest_between(&low, &high), Some(Ratio::new(25, 8)));
    /// assert_eq!(Ratio::simplest_between(&high, &low), None);
    /// ```
    #[inline]
    #[must_use]
    pub fn simplest_between(low: &Ratio<T>, high: &Ratio<T>) -> Option<Ratio<T>> {
        let (low, high) = (low.positive()?, high.positive()?);
        let (numer, denom) = simplest::simplest_between(*low.numer(), *low.denom(), *high.numer(), *high.denom())?;
        Some(Ratio::new_raw(T::from_proved(numer), T::from_proved(denom)))
    }

    /// Of all fractions within the bounds, the one with the smallest denominator, and of these the one whose numerator is nearest
    /// to 0, in lowest terms. An included bound may be the result. `None` if the type has no fraction within the bounds. It is also
    /// `None` if a denominator is 0, or if it is negative and the lowest terms do not fit. num-rational has no such call.
    ///
    /// ```
    /// use num_rational::Ratio;
    /// use std::ops::Bound::{Excluded, Included, Unbounded};
    ///
    /// let (low, high) = (Ratio::new(1, 3), Ratio::new(1, 2));
    /// assert_eq!(Ratio::simplest_within(Included(low), Included(high)), Some(high));
    /// assert_eq!(Ratio::simplest_within(Excluded(Ratio::new(5, 2)), Unbounded), Some(Ratio::from(3)));
    /// ```
    #[inline]
    #[must_use]
    pub fn simplest_within(low: Bound<Ratio<T>>, high: Bound<Ratio<T>>) -> Option<Ratio<T>> {
        let fields = |fraction: Ratio<T>| fraction.positive().map(|fraction| (*fraction.numer(), *fraction.denom()));
        let (numer, denom) = simplest::simplest_within(bound_with(low, fields)?, bound_with(high, fields)?)?;
        Some(Ratio::new_raw(T::from_proved(numer), T::from_proved(denom)))
    }
}
