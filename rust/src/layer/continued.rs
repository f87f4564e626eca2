//! Continued fractions: the quotients and the convergents of a fraction, and the fraction of some quotients.
use super::integer::{Element, Integer};
use super::ratio::Ratio;
use super::reduced::Reduced;
use crate::proved::num_rational as proved;
use core::fmt;
use core::iter::FusedIterator;

// A fraction with n quotients has a denominator of at least the nth Fibonacci number. The 187th is above 2^128, so no type
// holds a fraction with as many quotients as this.
const MOST: usize = 192;

/// The quotients of a continued fraction, one after another. `Reduced::continued_fraction` and `Ratio::continued_fraction` return it.
///
/// ```
/// let quotients = num_rational::Reduced64::checked_new(415, 93).unwrap().continued_fraction();
/// assert_eq!(format!("{quotients:?}"), "Quotients { .. }");
/// assert!(quotients.eq([4, 2, 6, 7]));
/// ```
#[must_use]
pub struct Quotients<T: Integer> {
    quotients: Proved<T>,
}

type Proved<T> = proved::Quotients<<T as Element>::Proved>;

impl<T: Integer> Iterator for Quotients<T> {
    type Item = T;

    #[inline]
    fn next(&mut self) -> Option<T> {
        self.quotients.next().map(T::from_proved)
    }
}

impl<T: Integer> FusedIterator for Quotients<T> {}

impl<T: Integer> fmt::Debug for Quotients<T> {
    fn fmt(&self, f: &mut fmt::Formatter<'_>) -> fmt::Result {
        f.debug_struct("Quotients").finish_non_exhaustive()
    }
}

impl<T: Integer> Quotients<T> {
    #[inline]
    pub(super) fn of(quotients: Proved<T>) -> Quotients<T> {
        Quotients { quotients }
    }
}

/// The convergents of a continued fraction, one after another. `Reduced::convergents` and `Ratio::convergents` return it.
///
/// ```
/// let mut convergents = num_rational::Reduced64::checked_new(415, 93).unwrap().convergents();
/// assert_eq!(format!("{convergents:?}"), "Convergents { .. }");
/// assert_eq!(convergents.nth(1).unwrap().to_string(), "9/2");
/// ```
#[must_use]
pub struct Convergents<T: Integer> {
    convergents: ProvedConvergents<T>,
}

type ProvedConvergents<T> = proved::Convergents<<T as Element>::Proved>;

impl<T: Integer> Iterator for Convergents<T> {
    type Item = Reduced<T>;

    #[inline]
    fn next(&mut self) -> Option<Reduced<T>> {
        self.convergents.next().map(Reduced::from_proved)
    }
}

impl<T: Integer> FusedIterator for Convergents<T> {}

impl<T: Integer> fmt::Debug for Convergents<T> {
    fn fmt(&self, f: &mut fmt::Formatter<'_>) -> fmt::Result {
        f.debug_struct("Convergents").finish_non_exhaustive()
    }
}

impl<T: Integer> Convergents<T> {
    #[inline]
    pub(super) fn of(convergents: ProvedConvergents<T>) -> Convergents<T> {
        Convergents { convergents }
    }
}

/// Calls `then` on the quotients as the proved calls see them. `None` if there are more than a fraction that fits can have.
pub(super) fn in_proved<T: Integer, R>(quotients: &[T], then: impl FnOnce(&[<T as Element>::Proved]) -> Option<R>) -> Option<R> {
    let mut list = [T::NUMBER_0.into_proved(); MOST];
    let list = list.get_mut(..quotients.len())?;
    for (place, quotient) in list.iter_mut().zip(quotients) {
        *place = quotient.into_proved();
    }
    then(list)
}

impl<T: Integer> Ratio<T> {
    /// The quotients of this fraction's continued fraction, as `Reduced::continued_fraction` returns them: 4, 2, 6 and 7 for 415/93.
    /// `None` if the denominator is 0, or if it is negative and the lowest terms do not fit the type. num-rational has no such call.
    ///
    /// ```
    /// use num_rational::Ratio;
    ///
    /// assert!(Ratio::new_raw(830, 186).continued_fraction().unwrap().eq([4, 2, 6, 7]));
    /// assert!(Ratio::new_raw(1, 0).continued_fraction().is_none());
    /// ```
    #[must_use]
    pub fn continued_fraction(&self) -> Option<Quotients<T>> {
        Some(Reduced::from_ratio(self)?.continued_fraction())
    }

    /// The convergents of this fraction's continued fraction, as `Reduced::convergents` returns them: 4, 9/2, 58/13 and 415/93 for
    /// 415/93. Each is a `Reduced`. `None` where `continued_fraction` is. num-rational has no such call.
    ///
    /// ```
    /// use num_rational::{Ratio, Reduced};
    ///
    /// let x = Ratio::new_raw(-14i8, 6);
    /// assert!(x.convergents().unwrap().map(Reduced::into_raw).eq([(-3, 1), (-2, 1), (-7, 3)]));
    /// assert!(Ratio::new_raw(1, 0).convergents().is_none());
    /// ```
    #[must_use]
    pub fn convergents(&self) -> Option<Convergents<T>> {
        Some(Reduced::from_ratio(self)?.convergents())
    }

    /// The fraction with these quotients, in lowest terms: 4, 2, 6 and 7 give 415/93, and so do 4, 2, 6, 6 and 1. `None` if there
    /// is no quotient, if one after the first is below 1, or if the fraction does not fit the type. num-rational has no such call.
    ///
    /// ```
    /// use num_rational::Ratio;
    ///
    /// assert_eq!(Ratio::from_continued_fraction(&[4i64, 2, 6, 7]), Some(Ratio::new(415, 93)));
    /// assert_eq!(Ratio::<i64>::from_continued_fraction(&[]), None);
    /// ```
    #[must_use]
    pub fn from_continued_fraction(quotients: &[T]) -> Option<Ratio<T>> {
        Reduced::from_continued_fraction(quotients).map(Ratio::from)
    }
}
