//! A `Total` as the value of its sum: made of one fraction, changed by a number or a `Ratio`, written as a text, and converted.
use super::big_fraction::BigFraction;
use super::integer::Integer;
use super::ratio::Ratio;
use super::reduced::Reduced;
use super::reduced_traits::ReducedError;
use super::total::Total;
use core::fmt;
use core::ops::{AddAssign, SubAssign};

/// The total of one fraction.
///
/// ```
/// use num_rational::{ratio, Total};
///
/// assert_eq!(Total::from(ratio!(1/3)).sum(), Ok(Some(ratio!(1/3))));
/// ```
impl<T: Integer> From<Reduced<T>> for Total<T> {
    #[inline]
    fn from(fraction: Reduced<T>) -> Total<T> {
        Total::from_iter([fraction])
    }
}

// A whole number over 1, and a `Ratio` in its lowest terms.
macro_rules! changes {
    ($($Change:ident $change:ident by $call:ident;)*) => {$(
        impl<T: Integer> $Change<T> for Total<T> {
            /// # Panics
            ///
            #[doc = concat!("If `", stringify!($call), "` panics.")]
            #[inline]
            #[track_caller]
            fn $change(&mut self, number: T) {
                self.$call(Reduced::from_integer(number));
            }
        }

        impl<T: Integer> $Change<Ratio<T>> for Total<T> {
            /// # Panics
            ///
            #[doc = concat!("If the denominator is 0, if the lowest terms do not fit the type, or if `", stringify!($call), "` panics.")]
            #[inline]
            #[track_caller]
            fn $change(&mut self, fraction: Ratio<T>) {
                match Reduced::try_from(fraction) {
                    Ok(fraction) => self.$call(fraction),
                    Err(error) => panic!("{error}"),
                }
            }
        }
    )*};
}

changes! {
    AddAssign add_assign by add;
    SubAssign sub_assign by subtract;
}

/// The text of the sum, as that of a `BigFraction`.
///
/// ```
/// use num_rational::{ratio, Total};
///
/// let mut total = Total::from(ratio!(1/3));
/// total += 1;
/// assert_eq!(format!("{total} {total:.2}"), "4/3 1.33");
/// ```
impl<T: Integer> fmt::Display for Total<T> {
    /// # Panics
    ///
    /// If `big_sum` is `TooLong`, and for want of memory.
    #[track_caller]
    fn fmt(&self, f: &mut fmt::Formatter<'_>) -> fmt::Result {
        BigFraction::from(self).fmt(f)
    }
}

impl<T: Integer> From<&Total<T>> for BigFraction {
    /// The sum.
    ///
    /// # Panics
    ///
    /// If `big_sum` is `TooLong`, and for want of memory.
    #[track_caller]
    fn from(total: &Total<T>) -> BigFraction {
        match total.big_sum() {
            Ok(sum) => sum,
            Err(error) => panic!("{error}"),
        }
    }
}

impl<T: Integer> From<Total<T>> for BigFraction {
    /// The sum.
    ///
    /// # Panics
    ///
    /// If `big_sum` is `TooLong`, and for want of memory.
    #[track_caller]
    fn from(total: Total<T>) -> BigFraction {
        BigFraction::from(&total)
    }
}

impl<T: Integer> TryFrom<&Total<T>> for Reduced<T> {
    type Error = ReducedError;

    /// The sum, or an error where `sum` is `TooLong`, or `None` since the lowest terms do not fit the type.
    fn try_from(total: &Total<T>) -> Result<Reduced<T>, ReducedError> {
        total.sum().ok().flatten().ok_or(ReducedError(()))
    }
}

impl<T: Integer> TryFrom<Total<T>> for Reduced<T> {
    type Error = ReducedError;

    /// The sum, or an error.
    fn try_from(total: Total<T>) -> Result<Reduced<T>, ReducedError> {
        Reduced::try_from(&total)
    }
}
