//! The float nearest to a fraction, and fractions with exactly the values of floats.
//!
//! Proved calls find the nearest float. They require a positive denominator. For another one, this module passes on the magnitudes.
#[cfg(feature = "alloc")]
use super::big_fraction::BigFraction;
use super::integer::{Element, Integer};
use super::ratio::Ratio;
use super::reduced::Reduced;
use crate::proved::ratio_core::text::magnitude;
use crate::proved::ratio_decimal::float::nearest;
use crate::proved::ratio_integer::Primitive;
use core::fmt;
use core::ops::Neg;

/// Whether the processor rounds a quotient of two floats once, as the proof of `to_f64` and `to_f32` assumes. Without SSE2, an x86
/// rounds it to 64 digits, and then once more.
const ROUNDS_ONCE: bool = cfg!(any(not(target_arch = "x86"), target_feature = "sse2"));

/// A type of floats.
pub(super) trait Float: Copy + Neg<Output = Self> {
    const INFINITE: Self;

    /// The float nearest to `numer/denom`. The denominator must be positive.
    fn nearest<T: Primitive>(numer: T, denom: T) -> Self;
}

impl Float for f64 {
    const INFINITE: f64 = f64::INFINITY;

    #[inline]
    fn nearest<T: Primitive>(numer: T, denom: T) -> f64 {
        if ROUNDS_ONCE { nearest::to_f64(numer, denom) } else { nearest::by_digits(numer, denom) }
    }
}

impl Float for f32 {
    const INFINITE: f32 = f32::INFINITY;

    #[inline]
    fn nearest<T: Primitive>(numer: T, denom: T) -> f32 {
        if ROUNDS_ONCE { nearest::to_f32(numer, denom) } else { nearest::by_digits(numer, denom) }
    }
}

impl<T: Integer> Ratio<T> {
    /// As in num-rational, `1/0` is infinite, `0/0` is `None`, and `0/-1` is -0.0.
    #[inline]
    pub(super) fn nearest_float<F: Float>(&self) -> Option<F> {
        let (numer, denom) = (self.numer().into_proved(), self.denom().into_proved());
        if T::NUMBER_0 < *self.denom() {
            return Some(F::nearest(numer, denom));
        }
        self.nearest_float_over_others()
    }

    /// The same over a denominator that is not positive. It is a function of its own, so that the other one is short.
    #[cold]
    #[inline(never)]
    fn nearest_float_over_others<F: Float>(&self) -> Option<F> {
        let size = match (magnitude(self.numer().into_proved()), magnitude(self.denom().into_proved())) {
            (0, 0) => return None,
            (_, 0) => F::INFINITE,
            (numer, denom) => F::nearest(numer, denom),
        };
        let is_negative = (*self.numer() < T::NUMBER_0) != (*self.denom() < T::NUMBER_0);
        Some(if is_negative { -size } else { size })
    }
}

// Fractions with exactly the values of floats, by the trait `TryFrom`.

/// The error of `try_from` for a float: it is infinite or no number, or its lowest terms do not fit the type or the memory.
///
/// ```
/// use num_rational::{FloatError, Rational32};
///
/// assert_eq!(Rational32::try_from(0.75), Ok((3, 4).into()));
/// let tenth: Result<Rational32, FloatError> = 0.1.try_into();
/// assert_eq!(tenth.unwrap_err().to_string(), "the float is infinite or no number, or its lowest terms do not fit the type or the memory");
/// ```
#[derive(Clone, Copy, Debug, PartialEq, Eq, Hash)]
pub struct FloatError(());

impl fmt::Display for FloatError {
    fn fmt(&self, f: &mut fmt::Formatter<'_>) -> fmt::Result {
        f.pad("the float is infinite or no number, or its lowest terms do not fit the type or the memory")
    }
}

#[cfg(feature = "std")]
impl std::error::Error for FloatError {}

macro_rules! values {
    ($($Fraction:ty $(where $T:ident)?: $float:ty, $From:ident $from_float:ident;)*) => {$(
        impl$(<$T: Integer>)? TryFrom<$float> for $Fraction {
            type Error = FloatError;

            /// The fraction with exactly the value of the float.
            #[inline]
            fn try_from(float: $float) -> Result<$Fraction, FloatError> {
                $From::$from_float(float).map(Self::from).ok_or(FloatError(()))
            }
        }
    )*};
}

values! {
    Reduced<T> where T: f64, Reduced from_float;
    Reduced<T> where T: f32, Reduced from_float32;
}

#[cfg(feature = "alloc")]
values! {
    BigFraction: f64, BigFraction from_float;
    BigFraction: f32, BigFraction from_float;
}

// One for each type: one for all of them would be in the way of std's own `TryFrom` for rustc 1.63.
macro_rules! ratios {
    ($($type:ident)*) => {$(
        values! {
            Ratio<$type>: f64, Reduced from_float;
            Ratio<$type>: f32, Reduced from_float32;
        }
    )*};
}

ratios! { i8 i16 i32 i64 i128 isize u8 u16 u32 u64 u128 usize }
