//! Traits of `Reduced`: conversions from and to pairs, `Ratio`s and numbers, the order beside a `Ratio` or a number, `sum` and `product`, and
//! num-traits' `CheckedNeg`.
use super::integer::Integer;
use super::ratio::Ratio;
use super::reduced::Reduced;
use core::cmp::Ordering;
use core::fmt;
use core::iter::{Product, Sum};
use num_traits::{CheckedNeg, Signed, ToPrimitive};

/// The error of `try_from` for a pair or a fraction: there are no lowest terms that fit the type or the memory. Those of 1/2 fit no type of
/// whole numbers.
///
/// ```
/// use num_rational::{Reduced, ReducedError};
///
/// let x: Result<Reduced<i8>, ReducedError> = (1, 0).try_into();
/// assert_eq!(x.unwrap_err().to_string(), "the denominator is 0, or the lowest terms do not fit the type or the memory");
/// ```
#[derive(Clone, Copy, Debug, PartialEq, Eq, Hash)]
pub struct ReducedError(pub(super) ());

impl fmt::Display for ReducedError {
    fn fmt(&self, f: &mut fmt::Formatter<'_>) -> fmt::Result {
        f.pad("the denominator is 0, or the lowest terms do not fit the type or the memory")
    }
}

#[cfg(feature = "std")]
impl std::error::Error for ReducedError {}

impl<T: Integer> TryFrom<(T, T)> for Reduced<T> {
    type Error = ReducedError;

    /// The lowest terms, or an error if the denominator is 0 or they do not fit the type.
    #[inline]
    fn try_from((numer, denom): (T, T)) -> Result<Reduced<T>, ReducedError> {
        Reduced::checked_new(numer, denom).ok_or(ReducedError(()))
    }
}

impl<T: Integer> TryFrom<Ratio<T>> for Reduced<T> {
    type Error = ReducedError;

    /// The lowest terms, or an error if the denominator is 0 or they do not fit the type.
    #[inline]
    fn try_from(fraction: Ratio<T>) -> Result<Reduced<T>, ReducedError> {
        Reduced::try_from(fraction.into_raw())
    }
}

impl<T: Integer> From<Reduced<T>> for (T, T) {
    #[inline]
    fn from(fraction: Reduced<T>) -> (T, T) {
        fraction.into_raw()
    }
}

/// This fraction cut towards zero, or `None` if that does not fit the integer type. And the nearest float, which is always `Some`.
impl<T: Integer> ToPrimitive for Reduced<T> {
    #[inline]
    fn to_i64(&self) -> Option<i64> {
        self.to_ratio().to_i64()
    }

    #[inline]
    fn to_u64(&self) -> Option<u64> {
        self.to_ratio().to_u64()
    }

    #[inline]
    fn to_i128(&self) -> Option<i128> {
        self.to_ratio().to_i128()
    }

    #[inline]
    fn to_u128(&self) -> Option<u128> {
        self.to_ratio().to_u128()
    }

    #[inline]
    fn to_f32(&self) -> Option<f32> {
        Some(Reduced::to_f32(self))
    }

    #[inline]
    fn to_f64(&self) -> Option<f64> {
        Some(Reduced::to_f64(self))
    }
}

impl<T: Integer + Signed> CheckedNeg for Reduced<T> {
    #[inline]
    fn checked_neg(&self) -> Option<Reduced<T>> {
        Reduced::checked_neg(self)
    }
}

// `Reduced` beside a `Ratio` or a whole number on the right: `x == 2`, `x < Ratio::new(1, 2)`. A `Ratio` with the denominator 0 has no value. It is
// equal to no `Reduced`, and has no order to one. So nothing here panics.
impl<T: Integer> PartialEq<Ratio<T>> for Reduced<T> {
    #[inline]
    fn eq(&self, other: &Ratio<T>) -> bool {
        other.checked_proved().map_or(false, |other| self.to_ratio().proved() == other)
    }
}

impl<T: Integer> PartialOrd<Ratio<T>> for Reduced<T> {
    #[inline]
    fn partial_cmp(&self, other: &Ratio<T>) -> Option<Ordering> {
        self.to_ratio().partial_cmp(other)
    }
}

impl<T: Integer> PartialEq<T> for Reduced<T> {
    #[inline]
    fn eq(&self, other: &T) -> bool {
        *self == Reduced::from_integer(*other)
    }
}

impl<T: Integer> PartialOrd<T> for Reduced<T> {
    #[inline]
    fn partial_cmp(&self, other: &T) -> Option<Ordering> {
        self.partial_cmp(&Reduced::from_integer(*other))
    }
}

// `sum` and `product` return an `Option`: what `checked_sum` and `checked_product` return.
macro_rules! folds {
    ($($Fold:ident $fold:ident $checked:ident;)*) => {$(
        impl<T: Integer> $Fold<Reduced<T>> for Option<Reduced<T>> {
            #[inline]
            fn $fold<I: Iterator<Item = Reduced<T>>>(items: I) -> Option<Reduced<T>> {
                Reduced::$checked(items)
            }
        }

        impl<'a, T: Integer + 'a> $Fold<&'a Reduced<T>> for Option<Reduced<T>> {
            #[inline]
            fn $fold<I: Iterator<Item = &'a Reduced<T>>>(items: I) -> Option<Reduced<T>> {
                Reduced::$checked(items)
            }
        }
    )*};
}

folds! {
    Sum sum checked_sum;
    Product product checked_product;
}
