//! num-traits' `Num`, `Signed`, `FromPrimitive` and `ToPrimitive` for `BigFraction`.
use super::big_fraction::{taken, BigFraction};
use super::integer::Integer;
use super::reduced::Reduced;
use crate::memory::{AllocError, Global, Vec};
use crate::proved::num_rational::{ParseRatioError, RatioErrorKind};
use crate::proved::ratio_natural::times_plus;
use num_traits::{FromPrimitive, Num, Signed, ToPrimitive, Zero};

impl Num for BigFraction {
    type FromStrRadixErr = ParseRatioError;

    /// The fraction of a text `N/D` in the radix. This call is not proved.
    ///
    /// # Panics
    ///
    /// If the radix is not from 2 to 36, or for want of memory.
    #[inline]
    #[track_caller]
    fn from_str_radix(text: &str, radix: u32) -> Result<BigFraction, ParseRatioError> {
        assert!((2..=36).contains(&radix), "from_str_radix_int: must lie in the range `[2, 36]` - found {}", radix);
        let refusal = |kind| Err(ParseRatioError::new(kind));
        let (numer, denom) = match text.split_once('/') {
            Some(parts) => parts,
            None => return refusal(RatioErrorKind::ParseError),
        };
        let ((is_negative, numer), (is_under_0, denom)) = match (taken(signed_digits(numer, radix)), taken(signed_digits(denom, radix))) {
            (Some(numer), Some(denom)) => (numer, denom),
            _ => return refusal(RatioErrorKind::ParseError),
        };
        match taken(BigFraction::try_from_digits(is_negative != is_under_0, &numer, &denom)) {
            Some(fraction) => Ok(fraction),
            None => refusal(RatioErrorKind::ZeroDenominator),
        }
    }
}

/// Whether the number is below 0, and its digits. `None` if the text is no number.
#[inline]
fn signed_digits(text: &str, radix: u32) -> Result<Option<(bool, Vec<u64>)>, AllocError> {
    let (is_negative, text) = match text.strip_prefix('-') {
        Some(text) => (true, text),
        None => (false, text.strip_prefix('+').unwrap_or(text)),
    };
    let mut digits = Vec::new(Global);
    // A digit of a radix up to 36 has less than 6 bits.
    digits.resize(text.len() / 10 + 1, 0)?;
    for digit in text.chars() {
        match digit.to_digit(radix) {
            Some(digit) => times_plus(&mut digits, radix.into(), digit.into()),
            None => return Ok(None),
        };
    }
    Ok(if text.is_empty() { None } else { Some((is_negative, digits)) })
}

impl Signed for BigFraction {
    /// # Panics
    ///
    /// For want of memory.
    #[inline]
    #[track_caller]
    fn abs(&self) -> BigFraction {
        taken(self.try_abs())
    }

    /// The difference, or 0 if it is below 0.
    ///
    /// # Panics
    ///
    /// For want of memory.
    #[inline]
    #[track_caller]
    fn abs_sub(&self, other: &BigFraction) -> BigFraction {
        if self <= other { BigFraction::zero() } else { self - other }
    }

    #[inline]
    fn signum(&self) -> BigFraction {
        BigFraction(self.0.signum())
    }

    #[inline]
    fn is_positive(&self) -> bool {
        self.0.is_positive()
    }

    #[inline]
    fn is_negative(&self) -> bool {
        self.0.is_negative()
    }
}

/// A whole number, over 1, or the fraction with exactly the value of a float. `None` for want of memory, or if the float is infinite or no number.
impl FromPrimitive for BigFraction {
    #[inline]
    fn from_i64(number: i64) -> Option<BigFraction> {
        BigFraction::checked_new(number, 1)
    }

    #[inline]
    fn from_u64(number: u64) -> Option<BigFraction> {
        BigFraction::checked_new(number, 1)
    }

    #[inline]
    fn from_i128(number: i128) -> Option<BigFraction> {
        BigFraction::checked_new(number, 1)
    }

    #[inline]
    fn from_u128(number: u128) -> Option<BigFraction> {
        BigFraction::checked_new(number, 1)
    }

    #[inline]
    fn from_f32(float: f32) -> Option<BigFraction> {
        BigFraction::from_float(float)
    }

    #[inline]
    fn from_f64(float: f64) -> Option<BigFraction> {
        BigFraction::from_float(float)
    }
}

/// The fraction cut towards 0, or `None` if that does not fit the integer type. And the nearest float, rounded once. num-rational's `to_f32`
/// rounds twice.
impl ToPrimitive for BigFraction {
    #[inline]
    fn to_i64(&self) -> Option<i64> {
        self.whole()
    }

    #[inline]
    fn to_u64(&self) -> Option<u64> {
        self.whole()
    }

    #[inline]
    fn to_i128(&self) -> Option<i128> {
        self.whole()
    }

    #[inline]
    fn to_u128(&self) -> Option<u128> {
        self.whole()
    }

    #[inline]
    fn to_f32(&self) -> Option<f32> {
        self.try_to_f32().ok()
    }

    #[inline]
    fn to_f64(&self) -> Option<f64> {
        self.try_to_f64().ok()
    }
}

impl BigFraction {
    /// The fraction cut towards 0, if that fits the type.
    fn whole<T: Integer>(&self) -> Option<T> {
        let whole = Reduced::<T>::try_from(self.try_trunc().ok()?).ok()?;
        Some(*whole.numer())
    }
}
