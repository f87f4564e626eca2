//! `BigFraction` as texts, decimals and floats, printed and read, and why a text gives none.
use super::big_fraction::{taken, BigFraction};
use super::reduced::Reduced;
use crate::memory::{self, AllocError, Global};
use crate::proved::num_rational::ParseRatioError;
use crate::proved::ratio_big::BigFraction as Proved;
use crate::proved::ratio_decimal::rounding_rule::Rounding;
use crate::proved::ratio_decimal::{DecimalRefusal, TextRefusal};
use alloc::string::String;
use core::fmt;
use core::str::FromStr;

/// The text `n/d`, or `n` for a whole number. With a precision it is a decimal, rounded to the nearest, a half to the even digit.
///
/// ```
/// use num_rational::BigFraction;
///
/// let x = BigFraction::new(-1, 8) * (1u128 << 100);
/// assert_eq!(format!("{x} {:.1} {:>5}", BigFraction::new(1, 4), BigFraction::new(1, 2)), "-158456325028528675187087900672 0.2   1/2");
/// ```
impl fmt::Display for BigFraction {
    /// # Panics
    ///
    /// For want of memory. That is also said of 2^32 places or more.
    #[track_caller]
    fn fmt(&self, f: &mut fmt::Formatter<'_>) -> fmt::Result {
        let text = taken(match f.precision() {
            None => self.0.to_text(Global),
            Some(places) => u32::try_from(places).map_err(|_| AllocError).and_then(|places| self.0.decimal(Global, places, Rounding::HalfEven)),
        });
        pad(f, &text)
    }
}

/// Writes the text as std writes an integer with these digits: with the sign, the fill and the width of the formatter.
fn pad(f: &mut fmt::Formatter<'_>, text: &str) -> fmt::Result {
    match text.strip_prefix('-') {
        Some(digits) => f.pad_integral(false, "", digits),
        None => f.pad_integral(true, "", text),
    }
}

macro_rules! exponent_forms {
    ($($Form:ident $mark:literal;)*) => {$(
        /// The numerator, a slash and the denominator, each with its own exponent, or the numerator alone if the fraction is a whole number.
        /// This is not proved.
        impl fmt::$Form for BigFraction {
            /// # Panics
            ///
            /// For want of memory.
            #[inline]
            #[track_caller]
            fn fmt(&self, f: &mut fmt::Formatter<'_>) -> fmt::Result {
                pad(f, &taken(with_exponents(self, $mark)))
            }
        }
    )*};
}

exponent_forms! {
    LowerExp "e";
    UpperExp "E";
}

/// The text of a fraction in which each number has an exponent: -1.5e3/7e0 for -1500/7.
#[inline]
fn with_exponents(fraction: &BigFraction, mark: &str) -> Result<memory::String, AllocError> {
    let mut text = memory::String::new(Global);
    for number in fraction.0.to_text(Global)?.split('/') {
        let digits = number.trim_start_matches('-');
        let (first, rest) = digits.split_at(1);
        let rest = rest.trim_end_matches('0');
        text.push_str(if text.is_empty() { "" } else { "/" })?;
        text.push_str(if number == digits { "" } else { "-" })?;
        text.push_str(first)?;
        text.push_str(if rest.is_empty() { "" } else { "." })?;
        text.push_str(rest)?;
        text.push_str(mark)?;
        text.push_str(&Reduced::from_integer(digits.len() - 1).base_ten_text())?;
    }
    Ok(text)
}

impl fmt::Debug for BigFraction {
    fn fmt(&self, f: &mut fmt::Formatter<'_>) -> fmt::Result {
        write!(f, "BigFraction({self})")
    }
}

impl FromStr for BigFraction {
    type Err = ParseRatioError;

    /// # Panics
    ///
    /// For want of memory: the error, num-rational's, cannot say so. `try_from_str` does.
    #[inline]
    #[track_caller]
    fn from_str(text: &str) -> Result<BigFraction, ParseRatioError> {
        taken(BigFraction::try_from_str(text))
    }
}

impl BigFraction {
    /// The text that `{}` writes, or an error for want of memory.
    ///
    /// ```
    /// assert_eq!(num_rational::BigFraction::new(6, -4).try_to_string().unwrap(), "-3/2");
    /// ```
    #[inline]
    pub fn try_to_string(&self) -> Result<String, AllocError> {
        Ok(self.0.to_text(Global)?.into_std())
    }

    /// The fraction of a text of any length, as `parse` reads it. An outer error is for want of memory.
    ///
    /// ```
    /// use num_rational::BigFraction;
    ///
    /// assert_eq!(BigFraction::try_from_str("6/-4").unwrap(), Ok(BigFraction::new(-3, 2)));
    /// assert_eq!("340282366920938463463374607431768211456".parse(), Ok(BigFraction::from(1u128 << 127) * 2));
    /// assert!(BigFraction::try_from_str("1/0").unwrap().is_err());
    /// ```
    #[inline]
    pub fn try_from_str(text: &str) -> Result<Result<BigFraction, ParseRatioError>, AllocError> {
        Ok(Proved::from_str(Global, text)?.map(BigFraction))
    }

    /// The decimal with so many places.
    ///
    /// # Panics
    ///
    /// For want of memory.
    ///
    /// ```
    /// use num_rational::{BigFraction, Rounding};
    ///
    /// assert_eq!(BigFraction::new(2, 3).decimal(50, Rounding::HalfEven), format!("0.{}7", "6".repeat(49)));
    /// ```
    #[inline]
    #[track_caller]
    #[must_use]
    pub fn decimal(&self, places: u32, rule: Rounding) -> String {
        taken(self.try_decimal(places, rule))
    }

    /// The same, or an error for want of memory.
    ///
    /// ```
    /// use num_rational::{BigFraction, Rounding};
    ///
    /// assert_eq!(BigFraction::new(2, 3).try_decimal(2, Rounding::Down).unwrap(), "0.66");
    /// ```
    #[inline]
    pub fn try_decimal(&self, places: u32, rule: Rounding) -> Result<String, AllocError> {
        Ok(self.0.decimal(Global, places, rule)?.into_std())
    }

    /// The fraction of a decimal of any length, as `from_decimal` of a `Reduced` reads it.
    ///
    /// Read texts that you do not trust by [`from_decimal_within`](BigFraction::from_decimal_within), since a short one can ask for much:
    /// `1e3000000` takes 24 seconds, `1e10000000` minutes, and `1e1000000000` weeks and 0.42 GB for its digits.
    ///
    /// # Errors
    ///
    /// `NotDecimal` if the text is no decimal, and `NoMemory` for want of memory. It is never `TooLong`.
    ///
    /// ```
    /// use num_rational::BigFraction;
    ///
    /// assert_eq!(BigFraction::from_decimal("12.375"), Ok(BigFraction::new(99, 8)));
    /// assert_eq!(BigFraction::from_decimal("1e30"), Ok(BigFraction::from(10).pow(30)));
    /// ```
    #[inline]
    pub fn from_decimal(text: &str) -> Result<BigFraction, BigTextRefusal> {
        Ok(BigFraction::try_from_decimal(text)??)
    }

    /// The same, with an outer error for want of memory.
    ///
    /// ```
    /// use num_rational::{BigFraction, DecimalRefusal};
    ///
    /// assert_eq!(BigFraction::try_from_decimal("12,5").unwrap(), Err(DecimalRefusal::NotDecimal));
    /// ```
    #[inline]
    pub fn try_from_decimal(text: &str) -> Result<Result<BigFraction, DecimalRefusal>, AllocError> {
        let read = Proved::from_decimal(Global, text)?;
        Ok(read.map(BigFraction).ok_or(DecimalRefusal::NotDecimal))
    }

    /// The fraction of what a person types, of any length, as `from_text` of a `Reduced` reads it. Read texts that you do not trust by
    /// [`from_text_within`](BigFraction::from_text_within): a short one can ask for much, as of [`from_decimal`](BigFraction::from_decimal).
    ///
    /// # Errors
    ///
    /// `NotNumber` or `ZeroDenominator`, as there, and `NoMemory` for want of memory. It is never `TooLong`.
    ///
    /// ```
    /// use num_rational::BigFraction;
    ///
    /// assert_eq!(BigFraction::from_text("-1 1/2"), Ok(BigFraction::new(-3, 2)));
    /// assert_eq!(BigFraction::from_text("12.5%"), Ok(BigFraction::new(1, 8)));
    /// ```
    #[inline]
    pub fn from_text(text: &str) -> Result<BigFraction, BigTextRefusal> {
        Ok(BigFraction::try_from_text(text)??)
    }

    /// The same, with an outer error for want of memory.
    ///
    /// ```
    /// use num_rational::{BigFraction, TextRefusal};
    ///
    /// assert_eq!(BigFraction::try_from_text("1/0").unwrap(), Err(TextRefusal::ZeroDenominator));
    /// ```
    #[inline]
    pub fn try_from_text(text: &str) -> Result<Result<BigFraction, TextRefusal>, AllocError> {
        Ok(Proved::from_text(Global, text)?.map(BigFraction))
    }

    /// The fraction with exactly the value of an `f64` or `f32`. `None` if it is infinite or no number, or for want of memory.
    ///
    /// ```
    /// use num_rational::BigFraction;
    ///
    /// assert_eq!(BigFraction::from_float(-0.75f32), Some(BigFraction::new(-3, 4)));
    /// assert_eq!(BigFraction::from_float(2f64.powi(200)), Some(BigFraction::from(2).pow(200)));
    /// assert_eq!(BigFraction::from_float(f64::NAN), None);
    /// ```
    pub fn from_float<F: Into<f64>>(float: F) -> Option<BigFraction> {
        BigFraction::try_from_float(float).ok().flatten()
    }

    /// The same, or an error for want of memory.
    ///
    /// ```
    /// assert_eq!(num_rational::BigFraction::try_from_float(f64::INFINITY), Ok(None));
    /// ```
    pub fn try_from_float<F: Into<f64>>(float: F) -> Result<Option<BigFraction>, AllocError> {
        Ok(Proved::from_f64(Global, float.into())?.map(BigFraction))
    }

    /// The nearest float, or an error for want of memory. If two are as near, it is the one whose last binary digit is 0.
    ///
    /// ```
    /// use num_rational::BigFraction;
    ///
    /// assert_eq!((BigFraction::new(1, 3).pow(1000) * BigFraction::from(3).pow(999)).try_to_f64(), Ok(1.0 / 3.0));
    /// ```
    #[inline]
    pub fn try_to_f64(&self) -> Result<f64, AllocError> {
        self.0.to_f64(Global)
    }

    /// The nearest `f32`, rounded once, or an error for want of memory.
    ///
    /// ```
    /// use num_rational::BigFraction;
    ///
    /// let above_a_tie = BigFraction::from((1u128 << 64) + (1 << 40) + 1);
    /// assert_eq!(above_a_tie.try_to_f32(), Ok(18446746272732807168.0));
    /// assert_eq!(above_a_tie.try_to_f64().unwrap() as f32, 18446744073709551616.0); // rounded twice
    /// ```
    #[inline]
    pub fn try_to_f32(&self) -> Result<f32, AllocError> {
        self.0.to_f32(Global)
    }
}

/// Why a call that reads a `BigFraction` returns none: the first of these that applies.
///
/// ```
/// use num_rational::{BigFraction, BigTextRefusal};
///
/// assert_eq!(BigFraction::from_decimal("12,5"), Err(BigTextRefusal::NotDecimal));
/// assert_eq!(BigFraction::from_text("12,5"), Err(BigTextRefusal::NotNumber));
/// assert_eq!(BigFraction::from_text("1/0"), Err(BigTextRefusal::ZeroDenominator));
/// assert_eq!(BigFraction::from_text_within("1e1000000000", 4096), Err(BigTextRefusal::TooLong));
/// assert_eq!(BigFraction::from_text("1e999999999999999999"), Err(BigTextRefusal::NoMemory));
/// ```
#[derive(Clone, Copy, Debug, PartialEq, Eq, Hash)]
#[non_exhaustive]
pub enum BigTextRefusal {
    /// The text is no decimal, in `from_decimal` and `from_decimal_within`.
    NotDecimal,
    /// The text is no number, in `from_text` and `from_text_within`.
    NotNumber,
    /// The denominator is 0.
    ZeroDenominator,
    /// The numerator or the denominator, as the text writes them, has more bits than the call may read.
    TooLong,
    /// There is not enough memory.
    NoMemory,
}

impl fmt::Display for BigTextRefusal {
    fn fmt(&self, f: &mut fmt::Formatter<'_>) -> fmt::Result {
        match self {
            BigTextRefusal::NotDecimal => DecimalRefusal::NotDecimal.fmt(f),
            BigTextRefusal::NotNumber => TextRefusal::NotNumber.fmt(f),
            BigTextRefusal::ZeroDenominator => TextRefusal::ZeroDenominator.fmt(f),
            BigTextRefusal::TooLong => f.pad("the numerator or the denominator has more bits than the bound"),
            BigTextRefusal::NoMemory => AllocError.fmt(f),
        }
    }
}

#[cfg(feature = "std")]
impl std::error::Error for BigTextRefusal {}

impl From<AllocError> for BigTextRefusal {
    fn from(_: AllocError) -> BigTextRefusal {
        BigTextRefusal::NoMemory
    }
}

/// `NotHeld` is `TooLong`.
impl From<DecimalRefusal> for BigTextRefusal {
    fn from(refusal: DecimalRefusal) -> BigTextRefusal {
        match refusal {
            DecimalRefusal::NotDecimal => BigTextRefusal::NotDecimal,
            DecimalRefusal::NotHeld => BigTextRefusal::TooLong,
        }
    }
}

/// `NotHeld` is `TooLong`.
impl From<TextRefusal> for BigTextRefusal {
    fn from(refusal: TextRefusal) -> BigTextRefusal {
        match refusal {
            TextRefusal::NotNumber => BigTextRefusal::NotNumber,
            TextRefusal::ZeroDenominator => BigTextRefusal::ZeroDenominator,
            TextRefusal::NotHeld => BigTextRefusal::TooLong,
        }
    }
}
