//! Conversions between fractions, pairs, whole numbers and num-rational's own `Ratio`, and the constants through their traits.
use super::approximations::approximation;
use super::integer::Integer;
use super::ratio::{Proved, Ratio};
use num_traits::{FromPrimitive, One, Zero};

impl<T: Clone + num_integer::Integer> Zero for Ratio<T> {
    #[inline]
    fn zero() -> Ratio<T> {
        Ratio::from_integer(T::zero())
    }

    /// Whether the numerator is 0.
    #[inline]
    fn is_zero(&self) -> bool {
        self.numer().is_zero()
    }
}

impl<T: Clone + num_integer::Integer> One for Ratio<T> {
    #[inline]
    fn one() -> Ratio<T> {
        Ratio::from_integer(T::one())
    }

    /// Whether the fields are equal. 2/2 is 1, too.
    #[inline]
    fn is_one(&self) -> bool {
        self.numer() == self.denom()
    }
}

impl<T: Clone + num_integer::Integer> Default for Ratio<T> {
    #[inline]
    fn default() -> Ratio<T> {
        Ratio::zero()
    }
}

impl<T: Clone + num_integer::Integer> From<T> for Ratio<T> {
    #[inline]
    fn from(number: T) -> Ratio<T> {
        Ratio::from_integer(number)
    }
}

impl<T: Clone + num_integer::Integer> From<(T, T)> for Ratio<T> {
    /// The lowest terms, as by `new`.
    ///
    /// # Panics
    ///
    /// If the denominator is 0, or if the lowest terms do not fit the type.
    #[inline]
    #[track_caller]
    fn from((numer, denom): (T, T)) -> Ratio<T> {
        Ratio::new(numer, denom)
    }
}

impl<T> From<Ratio<T>> for (T, T) {
    #[inline]
    fn from(fraction: Ratio<T>) -> (T, T) {
        fraction.into_raw()
    }
}

/// A fraction of a whole number, or `None` if that does not fit the type. A fraction near a float is as `approximate_float`
/// returns it, and not proved.
impl<T: Integer> FromPrimitive for Ratio<T> {
    #[inline]
    fn from_i64(number: i64) -> Option<Ratio<T>> {
        Proved::<T>::from_i64(number).map(Ratio::from_proved)
    }

    #[inline]
    fn from_u64(number: u64) -> Option<Ratio<T>> {
        Proved::<T>::from_u64(number).map(Ratio::from_proved)
    }

    #[inline]
    fn from_i128(number: i128) -> Option<Ratio<T>> {
        Proved::<T>::from_i128(number).map(Ratio::from_proved)
    }

    #[inline]
    fn from_u128(number: u128) -> Option<Ratio<T>> {
        Proved::<T>::from_u128(number).map(Ratio::from_proved)
    }

    #[inline]
    fn from_f32(float: f32) -> Option<Ratio<T>> {
        approximation(float)
    }

    #[inline]
    fn from_f64(float: f64) -> Option<Ratio<T>> {
        approximation(float)
    }
}

/// Conversions to and from num-rational's own `Ratio`, for programs whose other dependencies expose it.
#[cfg(feature = "num-rational")]
mod original_ratio {
    use super::super::integer::Integer;
    use super::super::ratio::Ratio;
    use super::super::reduced::Reduced;
    use super::super::reduced_traits::ReducedError;
    use original::Ratio as Original;

    impl<T> From<Ratio<T>> for Original<T> {
        /// The same fields.
        #[inline]
        fn from(fraction: Ratio<T>) -> Original<T> {
            let (numer, denom) = fraction.into_raw();
            Original::new_raw(numer, denom)
        }
    }

    impl<T> From<Original<T>> for Ratio<T> {
        /// The same fields.
        #[inline]
        fn from(fraction: Original<T>) -> Ratio<T> {
            let (numer, denom) = fraction.into();
            Ratio::new_raw(numer, denom)
        }
    }

    impl<T: Integer> From<Reduced<T>> for Original<T> {
        /// The same fields.
        #[inline]
        fn from(fraction: Reduced<T>) -> Original<T> {
            fraction.to_ratio().into()
        }
    }

    impl<T: Integer> TryFrom<Original<T>> for Reduced<T> {
        type Error = ReducedError;

        /// The lowest terms, or an error if the denominator is 0 or they do not fit the type.
        #[inline]
        fn try_from(fraction: Original<T>) -> Result<Reduced<T>, ReducedError> {
            Ratio::from(fraction).try_into()
        }
    }
}
