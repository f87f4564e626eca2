//! The fraction type that is always in lowest terms.
//!
//! Four calls of the proved type require something of a plain number, and this module tests it. `decimal` requires at most 38
//! places, and panics if there are more. `round_to`, `checked_mul_round_to` and `checked_div_round_to` require a positive number of
//! parts, and are `None` if it is not positive. The others require nothing.
use super::continued::{Convergents, Quotients, in_proved};
use super::floats::Float;
use super::integer::{Element, Integer, Signs};
use super::list_sums;
use super::ratio::{refuse_new, Ratio};
use super::simplest::bound_with;
use crate::proved::num_rational as proved;
use crate::proved::num_rational::{Constants, ParseRatioError};
use crate::proved::ratio_decimal::rounding_rule::Rounding;
use crate::proved::ratio_core::{BaseTenText, DecimalText};
use crate::proved::ratio_decimal::{DecimalRefusal, TextRefusal};
use core::cmp::Ordering;
use core::fmt;
use core::hash::{Hash, Hasher};
use core::ops::Bound;
use core::str::FromStr;
use num_traits::{Inv, Signed};

/// A fraction of two integers that is always in lowest terms: the denominator is positive, and no number above 1 divides both.
/// If there is no result, a checked call returns `None`, and an operator, `new`, `recip` or a call of num-traits panics. No other call
/// panics, except `decimal` for more than 38 places. num-rational has no such type.
///
/// ```
/// use num_rational::{ParseRatioError, Reduced64};
///
/// fn total(shares: &[Reduced64]) -> Option<Reduced64> {
///     let mut sum = Reduced64::ZERO;
///     for share in shares {
///         sum = sum.checked_add(share)?;
///     }
///     Some(sum)
/// }
///
/// let shares = ["1/2", "1/3", "1/6"].map(|text| text.parse().unwrap());
/// assert_eq!(total(&shares), Some(Reduced64::ONE));
/// assert_eq!(total(&[Reduced64::from(i64::MAX), Reduced64::ONE]), None);
/// assert_eq!(shares[0] + shares[1] * 2, total(&[shares[0], shares[1], shares[1]]).unwrap());
/// ```
#[doc(alias = "Fraction")]
#[doc(alias = "Rational")]
#[derive(Clone, Copy)]
#[repr(transparent)]
pub struct Reduced<T: Integer> {
    fraction: Proved<T>,
}

/// A fraction of two `i32` in lowest terms.
///
/// ```
/// assert_eq!(num_rational::Reduced32::checked_new(6, -4).unwrap().into_raw(), (-3, 2));
/// ```
pub type Reduced32 = Reduced<i32>;

/// A fraction of two `i64` in lowest terms.
///
/// ```
/// assert_eq!(num_rational::Reduced64::checked_new(1, 0), None);
/// ```
pub type Reduced64 = Reduced<i64>;

pub(super) type Proved<T> = proved::Reduced<<T as Element>::Proved>;

impl<T: Integer> Reduced<T> {
    /// The fraction 0/1.
    ///
    /// ```
    /// assert_eq!(num_rational::Reduced32::ZERO.into_raw(), (0, 1));
    /// ```
    pub const ZERO: Reduced<T> = Reduced { fraction: Proved::<T>::ZERO };

    /// The fraction 1/1.
    ///
    /// ```
    /// assert_eq!(num_rational::Reduced32::ONE.into_raw(), (1, 1));
    /// ```
    pub const ONE: Reduced<T> = Reduced { fraction: Proved::<T>::ONE };

    /// The lowest terms of `numer/denom`.
    ///
    /// # Panics
    ///
    /// If the denominator is 0, or if the lowest terms do not fit the type. `checked_new` tests that.
    ///
    /// ```
    /// assert_eq!(num_rational::Reduced::new(6, -4).into_raw(), (-3, 2));
    /// ```
    #[inline]
    #[track_caller]
    pub fn new(numer: T, denom: T) -> Reduced<T> {
        match Reduced::checked_new(numer, denom) {
            Some(fraction) => fraction,
            None => refuse_new(denom),
        }
    }

    /// The lowest terms of `numer/denom`, or `None` if the denominator is 0 or they do not fit the type.
    ///
    /// ```
    /// use num_rational::Reduced;
    ///
    /// assert_eq!(Reduced::checked_new(2i8, -128).map(Reduced::into_raw), Some((-1, 64)));
    /// assert_eq!(Reduced::checked_new(1i8, -128), None);
    /// ```
    #[inline]
    #[must_use]
    pub fn checked_new(numer: T, denom: T) -> Option<Reduced<T>> {
        Reduced::of(Proved::<T>::checked_new(numer.into_proved(), denom.into_proved()))
    }

    /// The whole number over 1.
    ///
    /// ```
    /// assert_eq!(num_rational::Reduced::from_integer(5).into_raw(), (5, 1));
    /// ```
    #[inline]
    #[must_use]
    pub fn from_integer(number: T) -> Reduced<T> {
        Reduced { fraction: Proved::<T>::from_integer(number.into_proved()) }
    }

    /// The lowest terms of a fraction, or `None` if its denominator is 0 or they do not fit the type.
    ///
    /// ```
    /// use num_rational::{Ratio, Reduced};
    ///
    /// assert_eq!(Reduced::from_ratio(&Ratio::new_raw(4i8, -2)), Some(Reduced::from(-2)));
    /// assert_eq!(Reduced::from_ratio(&Ratio::new_raw(-128i8, -1)), None);
    /// ```
    #[inline]
    #[must_use]
    pub fn from_ratio(fraction: &Ratio<T>) -> Option<Reduced<T>> {
        Reduced::checked_new(*fraction.numer(), *fraction.denom())
    }

    /// The fraction with exactly the value of the float. `None` if the float is infinite or no number, or if its lowest terms do
    /// not fit the type.
    ///
    /// ```
    /// use num_rational::Reduced;
    ///
    /// assert_eq!(Reduced::from_float(-0.75), Reduced::checked_new(-3, 4));
    /// assert_eq!(Reduced::from_float(0.1), Reduced::checked_new(3602879701896397i64, 36028797018963968));
    /// assert_eq!(Reduced::<i32>::from_float(0.1), None);
    /// assert_eq!(Reduced::<i64>::from_float(f64::NAN), None);
    /// ```
    #[inline]
    #[must_use]
    pub fn from_float(float: f64) -> Option<Reduced<T>> {
        Reduced::of(Proved::<T>::from_float(float))
    }

    /// The same for a float of 32 bits.
    ///
    /// ```
    /// use num_rational::Reduced;
    ///
    /// assert_eq!(Reduced::from_float32(0.1), Reduced::checked_new(13421773, 134217728));
    /// ```
    #[inline]
    #[must_use]
    pub fn from_float32(float: f32) -> Option<Reduced<T>> {
        Reduced::of(Proved::<T>::from_float32(float))
    }

    /// The simplest fraction that rounds to the float. A whole float gives itself. `None` if the float is infinite or no number,
    /// or if that fraction does not fit the type. For money, read the text by `from_decimal`: from some 10^11 on, a float may have a
    /// simpler fraction than its cents.
    ///
    /// ```
    /// use num_rational::Reduced;
    ///
    /// assert_eq!(Reduced::rationalize(0.1), Reduced::checked_new(1, 10));
    /// assert_eq!(Reduced::rationalize(1.0 / 3.0), Reduced::checked_new(1, 3));
    /// assert_eq!(Reduced::rationalize(1e16), Some(Reduced::from(10000000000000000i64)));
    /// assert_eq!(Reduced::rationalize(692706350382.67), Reduced::checked_new(67192515987119i64, 97));
    /// assert_eq!(Reduced::<i64>::rationalize(f64::NAN), None);
    /// ```
    #[inline]
    #[must_use]
    pub fn rationalize(float: f64) -> Option<Reduced<T>> {
        Reduced::of(Proved::<T>::rationalize(float))
    }

    /// The same for a float of 32 bits.
    ///
    /// ```
    /// use num_rational::Reduced;
    ///
    /// assert_eq!(Reduced::rationalize32(0.1), Reduced::checked_new(1, 10));
    /// ```
    #[inline]
    #[must_use]
    pub fn rationalize32(float: f32) -> Option<Reduced<T>> {
        Reduced::of(Proved::<T>::rationalize32(float))
    }

    /// The nearest float. If two are as near, it is the one whose last binary digit is 0. num-traits' `ToPrimitive` has a call of
    /// this name that returns an `Option`.
    ///
    /// ```
    /// use num_rational::Reduced;
    ///
    /// assert_eq!(Reduced::checked_new(1, 3).unwrap().to_f64(), 1.0 / 3.0);
    /// ```
    #[inline]
    #[must_use]
    pub fn to_f64(&self) -> f64 {
        Float::nearest(*self.fraction.numer(), *self.fraction.denom())
    }

    /// The same for a float of 32 bits. It is infinite if the magnitude of the fraction is 2^128-2^103 or more.
    ///
    /// ```
    /// use num_rational::Reduced;
    ///
    /// assert_eq!(Reduced::checked_new(1, 3).unwrap().to_f32(), 0.33333334);
    /// assert_eq!(Reduced::from(u128::MAX).to_f32(), f32::INFINITY);
    /// ```
    #[inline]
    #[must_use]
    pub fn to_f32(&self) -> f32 {
        Float::nearest(*self.fraction.numer(), *self.fraction.denom())
    }

    /// The fraction of a decimal. The text is a sign or none, digits with at most one point, and an exponent or none. At least one
    /// digit comes before the exponent. The value is exact for texts of any length. The call takes no memory.
    ///
    /// # Errors
    ///
    /// `NotDecimal` if the text is no decimal, and `NotHeld` if it is one whose lowest terms do not fit the type.
    ///
    /// ```
    /// use num_rational::{DecimalRefusal, Reduced};
    ///
    /// assert_eq!(Reduced::from_decimal("12.375").ok(), Reduced::checked_new(99, 8));
    /// assert_eq!(Reduced::from_decimal("-1.5e-3").ok(), Reduced::checked_new(-3, 2000));
    /// assert_eq!(Reduced::from_decimal("0.500000000000000000000000000").ok(), Reduced::checked_new(1i8, 2));
    /// assert_eq!(Reduced::<i32>::from_decimal("1.2.3"), Err(DecimalRefusal::NotDecimal));
    /// assert_eq!(Reduced::<i32>::from_decimal("1e1000000000"), Err(DecimalRefusal::NotHeld));
    /// ```
    #[inline]
    pub fn from_decimal(text: &str) -> Result<Reduced<T>, DecimalRefusal> {
        Proved::<T>::from_decimal(text).map(|fraction| Reduced { fraction })
    }

    /// The fraction of what a person types into one field. The text is a decimal, as `from_decimal` reads it, a fraction `a/b` of two
    /// whole numbers, or a mixed number `a b/c`, whose sign counts for the whole. A decimal or a fraction with a percent sign right
    /// behind it is divided by 100. The call takes no memory.
    ///
    /// # Errors
    ///
    /// `NotNumber` if the text is none of these, `ZeroDenominator` if a fraction or a mixed number is over 0, and `NotHeld` if the lowest
    /// terms do not fit the type. The whole numbers in a fraction or a mixed number must be below 2^128, else it is `NotHeld`, too.
    ///
    /// ```
    /// use num_rational::{Reduced, TextRefusal};
    ///
    /// assert_eq!(Reduced::from_text("200/400").ok(), Reduced::checked_new(1i8, 2));
    /// assert_eq!(Reduced::from_text("-1 1/2").ok(), Reduced::checked_new(-3, 2));
    /// assert_eq!(Reduced::from_text("12.5%").ok(), Reduced::checked_new(1, 8));
    /// assert_eq!(Reduced::<i32>::from_text("50 %"), Err(TextRefusal::NotNumber));
    /// assert_eq!(Reduced::<i32>::from_text("1 1/0"), Err(TextRefusal::ZeroDenominator));
    /// ```
    #[doc(alias = "mixed number")]
    #[doc(alias = "percent")]
    #[inline]
    pub fn from_text(text: &str) -> Result<Reduced<T>, TextRefusal> {
        Proved::<T>::from_text(text).map(|fraction| Reduced { fraction })
    }

    /// The same fraction as a `Ratio`.
    ///
    /// ```
    /// use num_rational::{Ratio, Reduced};
    ///
    /// assert_eq!(Reduced::checked_new(2, 4).unwrap().to_ratio(), Ratio::new(1, 2));
    /// ```
    #[inline]
    #[must_use]
    pub fn to_ratio(&self) -> Ratio<T> {
        Ratio::from_proved(self.fraction.to_ratio())
    }

    /// The same fraction over the type `U`, or `None` if its numerator or its denominator does not fit that type.
    ///
    /// `Reduced<U>` also has `From<Reduced<T>>` if std has `From<T>` for `U`, as from `u8` to `i64`. If not, it has
    /// `TryFrom<Reduced<T>>`.
    ///
    /// ```
    /// use num_rational::{Reduced, Reduced64};
    ///
    /// let x = Reduced64::checked_new(1, 127).unwrap();
    /// assert_eq!(x.cast::<i8>(), Reduced::checked_new(1, 127));
    /// assert_eq!(Reduced64::checked_new(1, 128).unwrap().cast::<i8>(), None);
    /// assert_eq!(Reduced64::from(Reduced::from(200u8)), Reduced::from(200));
    /// ```
    #[inline]
    #[must_use]
    pub fn cast<U: Integer>(&self) -> Option<Reduced<U>> {
        Reduced::of(self.fraction.cast())
    }

    /// The lowest terms of a text `N/D` in the radix. A text without a slash is an error, and so is each text if the radix is
    /// not from 2 to 36.
    ///
    /// ```
    /// use num_rational::Reduced;
    ///
    /// assert_eq!(Reduced::from_str_radix("f/2", 16).unwrap().into_raw(), (15, 2));
    /// assert!(Reduced::<i32>::from_str_radix("1/2", 37).is_err());
    /// ```
    #[inline]
    pub fn from_str_radix(text: &str, radix: u32) -> Result<Reduced<T>, ParseRatioError> {
        Proved::<T>::from_str_radix(text, radix).map(Reduced::from_proved)
    }

    /// The text that `{}` writes. It needs no formatter, so it takes less time.
    ///
    /// ```
    /// use num_rational::Reduced;
    ///
    /// assert_eq!(Reduced::checked_new(-6, 8).unwrap().base_ten_text().as_str(), "-3/4");
    /// ```
    #[inline]
    #[must_use]
    pub fn base_ten_text(&self) -> BaseTenText {
        self.fraction.base_ten_text()
    }

    /// Writes that text into `text`, in place of what was there. No array is moved, so it takes even less time.
    ///
    /// ```
    /// use num_rational::{BaseTenText, Reduced};
    ///
    /// let mut text = BaseTenText::empty();
    /// Reduced::checked_new(-6, 8).unwrap().put_base_ten_text(&mut text);
    /// assert_eq!(text.as_str(), "-3/4");
    /// ```
    #[inline]
    pub fn put_base_ten_text(&self, text: &mut BaseTenText) {
        self.fraction.put_base_ten_text(text);
    }

    /// The fraction as a decimal with so many places, rounded by the rule. There are always as many digits behind the point, and
    /// without places no point. A fraction that is rounded to 0 has no minus. `{:.2}` writes the decimal by `HalfEven`, and takes any
    /// number of places.
    ///
    /// # Panics
    ///
    /// If there are more than 38 places.
    ///
    /// ```
    /// use num_rational::{Reduced, Rounding};
    ///
    /// let eighth = Reduced::checked_new(1, 8).unwrap();
    /// assert_eq!(eighth.decimal(2, Rounding::HalfEven).as_str(), "0.12");
    /// assert_eq!(eighth.decimal(2, Rounding::HalfAway).as_str(), "0.13");
    /// assert_eq!(format!("{:.2} {:+.50}", eighth, eighth), format!("0.12 +0.125{}", "0".repeat(47)));
    /// ```
    #[inline]
    #[track_caller]
    #[must_use]
    pub fn decimal(&self, places: u32, rule: Rounding) -> DecimalText {
        assert!(places <= 38, "more than 38 places");
        self.fraction.decimal(places, rule)
    }

    /// All of the fraction as a decimal, or `None` if the digits do not end. They end if the denominator has no prime factor but 2
    /// and 5.
    ///
    /// ```
    /// use num_rational::Reduced;
    ///
    /// assert_eq!(Reduced::checked_new(99, 8).unwrap().exact_decimal().unwrap().as_str(), "12.375");
    /// assert!(Reduced::checked_new(1, 3).unwrap().exact_decimal().is_none());
    /// ```
    #[inline]
    #[must_use]
    pub fn exact_decimal(&self) -> Option<DecimalText> {
        self.fraction.exact_decimal()
    }

    /// The multiple of `1/parts` that the rule says, such as cents for 100 and quarters for 4. It is `None` if its lowest terms do
    /// not fit the type, or if `parts` is not above 0.
    ///
    /// ```
    /// use num_rational::{Reduced, Rounding};
    ///
    /// let price = Reduced::checked_new(2, 3).unwrap();
    /// assert_eq!(price.round_to(100, Rounding::HalfEven), Reduced::checked_new(67, 100));
    /// assert_eq!(Reduced::checked_new(100i8, 3).unwrap().round_to(100, Rounding::HalfEven), None);
    /// assert_eq!(price.round_to(0, Rounding::HalfEven), None);
    /// ```
    #[doc(alias = "quantize")]
    #[inline]
    #[must_use]
    pub fn round_to(&self, parts: T, rule: Rounding) -> Option<Reduced<T>> {
        if T::NUMBER_0 < parts {
            Reduced::of(self.fraction.round_to(parts.into_proved(), rule))
        } else {
            None
        }
    }

    /// The numerator and the denominator.
    ///
    /// ```
    /// assert_eq!(num_rational::Reduced::checked_new(2, -4).unwrap().into_raw(), (-1, 2));
    /// ```
    #[inline]
    #[must_use]
    pub fn into_raw(self) -> (T, T) {
        let (numer, denom) = self.fraction.into_raw();
        (T::from_proved(numer), T::from_proved(denom))
    }

    /// The numerator.
    ///
    /// ```
    /// assert_eq!(*num_rational::Reduced::checked_new(6, 8).unwrap().numer(), 3);
    /// ```
    #[doc(alias = "numerator")]
    #[inline]
    #[must_use]
    pub fn numer(&self) -> &T {
        T::of(self.fraction.numer())
    }

    /// The denominator. It is positive.
    ///
    /// ```
    /// assert_eq!(*num_rational::Reduced::checked_new(6, 8).unwrap().denom(), 4);
    /// ```
    #[doc(alias = "denominator")]
    #[inline]
    #[must_use]
    pub fn denom(&self) -> &T {
        T::of(self.fraction.denom())
    }

    /// Whether the fraction is 0.
    ///
    /// ```
    /// assert!(num_rational::Reduced32::ZERO.is_zero());
    /// ```
    #[inline]
    #[must_use]
    pub fn is_zero(&self) -> bool {
        self.fraction.is_zero()
    }

    /// Whether the fraction is a whole number.
    ///
    /// ```
    /// assert!(num_rational::Reduced::checked_new(4, 2).unwrap().is_integer());
    /// ```
    #[inline]
    #[must_use]
    pub fn is_integer(&self) -> bool {
        self.fraction.is_integer()
    }

    #[inline]
    pub(super) fn from_proved(fraction: Proved<T>) -> Reduced<T> {
        Reduced { fraction }
    }

    /// The fraction of lowest terms, for constants.
    #[inline]
    pub(super) const fn of_lowest(ratio: proved::Ratio<<T as Element>::Proved>) -> Reduced<T> {
        Reduced { fraction: Proved::<T> { ratio } }
    }

    #[inline]
    pub(super) fn into_proved(self) -> Proved<T> {
        self.fraction
    }

    #[inline]
    fn of(answer: Option<Proved<T>>) -> Option<Reduced<T>> {
        answer.map(|fraction| Reduced { fraction })
    }
}

macro_rules! checked_calls {
    ($($(#[$alias:meta])* $checked:ident: $what:literal, $example:literal;)*) => {
        impl<T: Integer> Reduced<T> {$(
            #[doc = $what]
            ///
            /// A number may be the right operand, too.
            ///
            /// ```
            /// let half = num_rational::Reduced::checked_new(1i8, 2).unwrap();
            #[doc = $example]
            /// ```
            $(#[$alias])*
            #[inline]
            pub fn $checked<O: Into<Reduced<T>>>(&self, other: O) -> Option<Reduced<T>> {
                Reduced::of(self.fraction.$checked(other.into().fraction))
            }
        )*}
    };
}

checked_calls! {
    checked_add: "The sum, or `None` if its lowest terms do not fit the type.",
        "assert_eq!(half.checked_add(half), Some(1.into()));";
    checked_sub: "The difference, or `None` if its lowest terms do not fit the type.",
        "assert_eq!(half.checked_sub(1), num_rational::Reduced::checked_new(-1, 2));";
    checked_mul: "The product, or `None` if its lowest terms do not fit the type.",
        "assert_eq!(half.checked_mul(-128), Some((-64).into()));";
    checked_div: "The quotient, or `None` if the divisor is 0 or the lowest terms do not fit the type.",
        "assert_eq!(half.checked_div(&half), Some(1.into()));";
    checked_rem: "The remainder of the quotient that is cut to a whole number. `None` if the divisor is 0 or the lowest terms do not fit the type.",
        "assert_eq!(half.checked_rem(1), Some(half));";
    #[doc(alias = "greatest_common_divisor")]
    checked_gcd: "The greatest fraction that divides both: 1/12 for 1/4 and 1/6, since 1/4 is 3/12 and 1/6 is 2/12. It is never negative, and for a fraction and 0 it is the fraction's absolute value. `None` if its lowest terms do not fit the type.",
        "assert_eq!(half.checked_gcd(3), Some(half));";
    #[doc(alias = "least_common_multiple")]
    checked_lcm: "The least fraction above 0 that both divide: 1/2 for 1/4 and 1/6. So what recurs every 1/4 and what recurs every 1/6 meet every 1/2. It is never negative, and it is 0 if either fraction is 0. `None` if its lowest terms do not fit the type.",
        "assert_eq!(half.checked_lcm(3), Some(3.into()));";
}

impl<T: Integer> Reduced<T> {
    /// The product, rounded by the rule to a whole number, or `None` if that number does not fit the type. The product itself need
    /// not fit. A number may be the right operand, too.
    ///
    /// ```
    /// use num_rational::{Reduced64, Rounding};
    ///
    /// let third = Reduced64::checked_new(i64::MAX, 3).unwrap();
    /// let share = Reduced64::checked_new(2, 5).unwrap();
    /// assert_eq!(third.checked_mul_round(share, Rounding::HalfEven), Some(1229782938247303441));
    /// assert_eq!(third.checked_mul_round(6, Rounding::HalfEven), None);
    /// ```
    #[inline]
    #[must_use]
    pub fn checked_mul_round<O: Into<Reduced<T>>>(&self, other: O, rule: Rounding) -> Option<T> {
        self.fraction.checked_mul_round(other.into().fraction, rule).map(T::from_proved)
    }

    /// The product, rounded by the rule to a multiple of `1/parts`, such as cents for 100. It is `None` if the lowest terms of the
    /// multiple do not fit the type, or if `parts` is not above 0. The product itself need not fit. A number may be the right
    /// operand, too.
    ///
    /// ```
    /// use num_rational::{Reduced64, Rounding};
    ///
    /// let price = Reduced64::from_decimal("19.99").unwrap();
    /// let hours = Reduced64::from_decimal("2.25").unwrap();
    /// assert_eq!(price.checked_mul_round_to(hours, 100, Rounding::HalfEven), Reduced64::checked_new(2249, 50)); // 44.98
    /// assert_eq!(price.checked_mul_round_to(3, 0, Rounding::HalfEven), None);
    /// let most = Reduced64::from_decimal("92233720368547758.07").unwrap();
    /// let share = Reduced64::from_decimal("0.999").unwrap();
    /// assert_eq!(most.checked_mul(share), None);
    /// assert_eq!(most.checked_mul_round_to(share, 100, Rounding::HalfEven), Reduced64::checked_new(9214148664817921031, 100));
    /// ```
    #[inline]
    #[must_use]
    pub fn checked_mul_round_to<O: Into<Reduced<T>>>(&self, other: O, parts: T, rule: Rounding) -> Option<Reduced<T>> {
        if T::NUMBER_0 < parts {
            Reduced::of(self.fraction.checked_mul_round_to(other.into().fraction, parts.into_proved(), rule))
        } else {
            None
        }
    }

    /// The quotient, rounded by the rule to a whole number, or `None` if the divisor is 0 or that number does not fit the type. The
    /// quotient itself need not fit. A number may be the divisor, too.
    ///
    /// ```
    /// use num_rational::{Reduced64, Rounding};
    ///
    /// let third = Reduced64::checked_new(i64::MAX, 3).unwrap();
    /// let times = Reduced64::checked_new(5, 2).unwrap();
    /// assert_eq!(third.checked_div_round(times, Rounding::HalfEven), Some(1229782938247303441));
    /// assert_eq!(third.checked_div_round(i64::MIN, Rounding::Floor), Some(-1));
    /// assert_eq!(third.checked_div_round(0, Rounding::Floor), None);
    /// ```
    #[inline]
    #[must_use]
    pub fn checked_div_round<O: Into<Reduced<T>>>(&self, other: O, rule: Rounding) -> Option<T> {
        self.fraction.checked_div_round(other.into().fraction, rule).map(T::from_proved)
    }

    /// The quotient, rounded by the rule to a multiple of `1/parts`, such as cents for 100. It is `None` if the divisor is 0, if the
    /// lowest terms of the multiple do not fit the type, or if `parts` is not above 0. The quotient itself need not fit. A number
    /// may be the divisor, too.
    ///
    /// ```
    /// use num_rational::{Reduced64, Rounding};
    ///
    /// let bill = Reduced64::from_decimal("100").unwrap();
    /// assert_eq!(bill.checked_div_round_to(3, 100, Rounding::HalfEven), Reduced64::checked_new(3333, 100));
    /// assert_eq!(bill.checked_div_round_to(0, 100, Rounding::HalfEven), None);
    /// assert_eq!(bill.checked_div_round_to(3, -100, Rounding::HalfEven), None);
    /// ```
    #[inline]
    #[must_use]
    pub fn checked_div_round_to<O: Into<Reduced<T>>>(&self, other: O, parts: T, rule: Rounding) -> Option<Reduced<T>> {
        if T::NUMBER_0 < parts {
            Reduced::of(self.fraction.checked_div_round_to(other.into().fraction, parts.into_proved(), rule))
        } else {
            None
        }
    }

    /// The sum of the items, or `None` if its lowest terms do not fit the type. A partial sum may fit no type: over `i8`,
    /// 127/1 + 1/127 - 1/127 is 127/1.
    ///
    /// There are two cases in which the call may be `None` though the sum fits. In each of them, some partial sum does not fit:
    ///
    /// - without the feature `alloc`, if a partial sum does not fit. It need not be `None` there: most short lists need no memory;
    /// - if the least common multiple of the denominators is not below 2^(2^20). With at most 16,384 different denominators it always is,
    ///   if one of 2^64 or more counts as two.
    ///
    /// ```
    /// use num_rational::{Reduced, Reduced64};
    ///
    /// assert_eq!(Reduced64::checked_sum([1, 2, 3]), Some(6.into()));
    /// let steps = [(127, 1), (1, 127), (-1, 127)].map(|(n, d)| Reduced::<i8>::checked_new(n, d).unwrap());
    /// assert_eq!(Reduced::checked_sum(steps), Some(127.into()));
    /// ```
    #[inline]
    #[must_use]
    pub fn checked_sum<O: Into<Reduced<T>>, I: IntoIterator<Item = O>>(items: I) -> Option<Reduced<T>> {
        list_sums::checked_sum(items.into_iter().map(Into::into))
    }

    /// The reciprocal.
    ///
    /// # Panics
    ///
    /// If `checked_recip` returns `None`.
    ///
    /// ```
    /// use num_rational::Reduced;
    ///
    /// assert_eq!(Reduced::new(-2, 3).recip(), Reduced::new(-3, 2));
    /// ```
    #[inline]
    #[track_caller]
    pub fn recip(&self) -> Reduced<T> {
        self.inv()
    }

    /// The reciprocal, or `None` if the fraction is 0 or the reciprocal does not fit the type.
    ///
    /// ```
    /// use num_rational::Reduced32;
    ///
    /// assert_eq!(Reduced32::from(-2).checked_recip(), Reduced32::checked_new(-1, 2));
    /// assert_eq!(Reduced32::ZERO.checked_recip(), None);
    /// ```
    #[doc(alias = "reciprocal")]
    #[doc(alias = "inverse")]
    #[inline]
    #[must_use]
    pub fn checked_recip(&self) -> Option<Reduced<T>> {
        Reduced::of(self.fraction.checked_recip())
    }

    /// The power, or `None` if it does not fit the type, or if the fraction is 0 and the exponent negative.
    ///
    /// ```
    /// use num_rational::Reduced;
    ///
    /// assert_eq!(Reduced::from(-2i8).checked_pow(7), Some((-128).into()));
    /// assert_eq!(Reduced::from(-2i8).checked_pow(8), None);
    /// ```
    #[inline]
    #[must_use]
    pub fn checked_pow(&self, exponent: i32) -> Option<Reduced<T>> {
        Reduced::of(self.fraction.checked_pow(exponent))
    }

    /// The nearest fraction to this one with a denominator from 1 to `most`, or `None` if `most` is below 1. Of two that are as
    /// near, it is the one with the smaller denominator, and of two whole numbers the smaller one.
    ///
    /// ```
    /// use num_rational::Reduced64;
    ///
    /// let pi: Reduced64 = "314159/100000".parse().unwrap();
    /// assert_eq!(pi.nearest(10), Reduced64::checked_new(22, 7));
    /// assert_eq!(pi.nearest(0), None);
    /// ```
    #[doc(alias = "limit_denominator")]
    #[inline]
    #[must_use]
    pub fn nearest(&self, most: T) -> Option<Reduced<T>> {
        Reduced::of(self.fraction.nearest(most.into_proved()))
    }

    /// Of all fractions strictly between `low` and `high`, the one with the smallest denominator, and of these the one whose
    /// numerator is nearest to 0. `None` exactly if the type has no fraction between them, so also if `low` is not below `high`.
    ///
    /// ```
    /// use num_rational::Reduced;
    ///
    /// let [low, high] = ["1/3", "1/2"].map(|text| text.parse::<Reduced<i8>>().unwrap());
    /// assert_eq!(Reduced::simplest_between(&low, &high), Reduced::checked_new(2, 5));
    /// assert_eq!(Reduced::simplest_between(&high, &low), None);
    /// let least = Reduced::checked_new(1i8, 127).unwrap();
    /// assert_eq!(Reduced::simplest_between(&Reduced::ZERO, &least), None);
    /// ```
    #[doc(alias = "stern_brocot")]
    #[inline]
    #[must_use]
    pub fn simplest_between(low: &Reduced<T>, high: &Reduced<T>) -> Option<Reduced<T>> {
        Reduced::of(Proved::<T>::simplest_between(&low.fraction, &high.fraction))
    }

    /// Of all fractions within the bounds, the one with the smallest denominator, and of these the one whose numerator is nearest
    /// to 0. An included bound may be the result. `None` exactly if the type has no fraction within the bounds.
    ///
    /// ```
    /// use num_rational::Reduced;
    /// use std::ops::Bound::{Excluded, Included, Unbounded};
    ///
    /// let [low, high] = ["1/3", "1/2"].map(|text| text.parse::<Reduced<i8>>().unwrap());
    /// assert_eq!(Reduced::simplest_within(Included(low), Included(high)), Some(high));
    /// assert_eq!(Reduced::simplest_within(Included(low), Excluded(low)), None);
    /// assert_eq!(Reduced::simplest_within(Excluded(high), Unbounded), Some(Reduced::ONE));
    /// assert_eq!(Reduced::simplest_within(Excluded(Reduced::from(127i8)), Unbounded), None);
    /// ```
    #[inline]
    #[must_use]
    pub fn simplest_within(low: Bound<Reduced<T>>, high: Bound<Reduced<T>>) -> Option<Reduced<T>> {
        let inner = |bound| bound_with(bound, |fraction: Reduced<T>| Some(fraction.fraction));
        Reduced::of(Proved::<T>::simplest_within(inner(low)?, inner(high)?))
    }

    /// The quotients of this fraction's continued fraction, one after another: 4, 2, 6 and 7 for 415/93, which is
    /// 4 + 1/(2 + 1/(6 + 1/7)). The first is the floor, and each later one is at least 1.
    ///
    /// ```
    /// let x = num_rational::Reduced64::checked_new(415, 93).unwrap();
    /// assert!(x.continued_fraction().eq([4, 2, 6, 7]));
    /// ```
    #[inline]
    pub fn continued_fraction(&self) -> Quotients<T> {
        Quotients::of(self.fraction.continued_fraction())
    }

    /// The convergents of this fraction's continued fraction, one after another: 4, 9/2, 58/13 and 415/93 for 415/93. The first is
    /// the floor, and the last is the fraction itself. Each is in lowest terms, and none leaves the type.
    ///
    /// ```
    /// let x = num_rational::Reduced::checked_new(-7i8, 3).unwrap();
    /// assert!(x.convergents().map(|y| y.into_raw()).eq([(-3, 1), (-2, 1), (-7, 3)]));
    /// ```
    #[inline]
    pub fn convergents(&self) -> Convergents<T> {
        Convergents::of(self.fraction.convergents())
    }

    /// The fraction with these quotients: 4, 2, 6 and 7 give 415/93, and so do 4, 2, 6, 6 and 1. `None` if there is no quotient,
    /// if one after the first is below 1, or if the fraction does not fit the type.
    ///
    /// ```
    /// use num_rational::Reduced;
    ///
    /// assert_eq!(Reduced::from_continued_fraction(&[-3i8, 1, 2]), Reduced::checked_new(-7, 3));
    /// assert_eq!(Reduced::from_continued_fraction(&[3i8, 0]), None);
    /// assert_eq!(Reduced::from_continued_fraction(&[127i8, 127]), None);
    /// ```
    #[inline]
    #[must_use]
    pub fn from_continued_fraction(quotients: &[T]) -> Option<Reduced<T>> {
        Reduced::of(in_proved(quotients, Proved::<T>::from_continued_fraction))
    }

    /// This fraction cut towards zero.
    ///
    /// ```
    /// assert_eq!(num_rational::Reduced::checked_new(-7, 2).unwrap().to_integer(), -3);
    /// ```
    #[inline]
    #[must_use]
    pub fn to_integer(&self) -> T {
        T::from_proved(self.fraction.to_integer())
    }
}

macro_rules! rounding_calls {
    ($($call:ident: $what:literal, $example:literal;)*) => {
        impl<T: Integer> Reduced<T> {$(
            #[doc = $what]
            ///
            /// ```
            /// let x = num_rational::Reduced::checked_new(-7, 2).unwrap();
            #[doc = $example]
            /// ```
            #[inline]
            #[must_use]
            pub fn $call(&self) -> Reduced<T> {
                Reduced::from_proved(self.fraction.$call())
            }
        )*}
    };
}

rounding_calls! {
    floor: "The greatest whole number that is not above this fraction.", "assert_eq!(x.floor(), -4);";
    ceil: "The least whole number that is not below this fraction.", "assert_eq!(x.ceil(), -3);";
    round: "The whole number nearest to this fraction; a half is rounded away from zero.", "assert_eq!(x.round(), -4);";
    trunc: "The whole number next to this fraction towards zero.", "assert_eq!(x.trunc(), -3);";
    fract: "What `trunc` leaves of this fraction.", "assert_eq!(x.fract().into_raw(), (-1, 2));";
}

impl<T: Integer + Signed> Reduced<T> {
    /// The negative, or `None` if the numerator is the least number.
    ///
    /// ```
    /// use num_rational::Reduced;
    ///
    /// assert_eq!(Reduced::from(1i8).checked_neg(), Some((-1).into()));
    /// assert_eq!(Reduced::from(-128i8).checked_neg(), None);
    /// ```
    #[inline]
    #[must_use]
    pub fn checked_neg(&self) -> Option<Reduced<T>> {
        Reduced::of(<T as Element>::Signs::checked_neg_lowest(self.fraction))
    }

    /// The value without its sign, or `None` if the numerator is the least number.
    ///
    /// ```
    /// use num_rational::Reduced;
    ///
    /// assert_eq!(Reduced::from(-3i8).checked_abs(), Some(3.into()));
    /// assert_eq!(Reduced::from(-128i8).checked_abs(), None);
    /// ```
    #[inline]
    #[must_use]
    pub fn checked_abs(&self) -> Option<Reduced<T>> {
        Reduced::of(<T as Element>::Signs::checked_abs_lowest(self.fraction))
    }

    /// 1, 0 or -1, as the fraction is above 0, 0 or below 0.
    ///
    /// ```
    /// assert_eq!(num_rational::Reduced::checked_new(-1, 2).unwrap().signum(), -1);
    /// ```
    #[inline]
    #[must_use]
    pub fn signum(&self) -> Reduced<T> {
        Reduced::from_proved(<T as Element>::Signs::signum_lowest(self.fraction))
    }

    /// Whether the fraction is above 0.
    ///
    /// ```
    /// assert!(num_rational::Reduced32::ONE.is_positive());
    /// ```
    #[inline]
    #[must_use]
    pub fn is_positive(&self) -> bool {
        <T as Element>::Signs::is_positive(self.fraction.to_ratio())
    }

    /// Whether the fraction is below 0.
    ///
    /// ```
    /// assert!(num_rational::Reduced32::from(-1).is_negative());
    /// ```
    #[inline]
    #[must_use]
    pub fn is_negative(&self) -> bool {
        <T as Element>::Signs::is_negative(self.fraction.to_ratio())
    }
}

impl<T: Integer> PartialEq for Reduced<T> {
    #[inline]
    fn eq(&self, other: &Reduced<T>) -> bool {
        self.fraction == other.fraction
    }
}

impl<T: Integer> Eq for Reduced<T> {}

impl<T: Integer> PartialOrd for Reduced<T> {
    #[inline]
    fn partial_cmp(&self, other: &Reduced<T>) -> Option<Ordering> {
        Some(self.cmp(other))
    }
}

impl<T: Integer> Ord for Reduced<T> {
    #[inline]
    fn cmp(&self, other: &Reduced<T>) -> Ordering {
        self.fraction.cmp(&other.fraction)
    }
}

impl<T: Integer> Hash for Reduced<T> {
    #[inline]
    fn hash<H: Hasher>(&self, state: &mut H) {
        self.fraction.hash(state);
    }
}

impl<T: Integer> Default for Reduced<T> {
    #[inline]
    fn default() -> Reduced<T> {
        Reduced::ZERO
    }
}

impl<T: Integer> From<T> for Reduced<T> {
    #[inline]
    fn from(number: T) -> Reduced<T> {
        Reduced::from_integer(number)
    }
}

impl<T: Integer> From<&T> for Reduced<T> {
    #[inline]
    fn from(number: &T) -> Reduced<T> {
        Reduced::from_integer(*number)
    }
}

impl<T: Integer> From<&Reduced<T>> for Reduced<T> {
    #[inline]
    fn from(fraction: &Reduced<T>) -> Reduced<T> {
        *fraction
    }
}

impl<T: Integer> From<Reduced<T>> for Ratio<T> {
    #[inline]
    fn from(fraction: Reduced<T>) -> Ratio<T> {
        fraction.to_ratio()
    }
}

impl<T: Integer> FromStr for Reduced<T> {
    type Err = ParseRatioError;

    #[inline]
    fn from_str(text: &str) -> Result<Reduced<T>, ParseRatioError> {
        Proved::<T>::from_str(text).map(Reduced::from_proved)
    }
}

macro_rules! forms {
    ($($Form:ident)*; $x:ident => $printed:expr) => {$(
        impl<T: Integer> fmt::$Form for Reduced<T> {
            #[inline]
            fn fmt(&self, f: &mut fmt::Formatter<'_>) -> fmt::Result {
                let $x = self;
                fmt::$Form::fmt(&$printed, f)
            }
        }
    )*};
}

forms! { Display Binary Octal LowerHex UpperHex; x => x.fraction }
// These two are not proved.
forms! { LowerExp UpperExp; x => x.to_ratio() }

impl<T: Integer> fmt::Debug for Reduced<T> {
    fn fmt(&self, f: &mut fmt::Formatter<'_>) -> fmt::Result {
        f.debug_struct("Reduced").field("numer", self.numer()).field("denom", self.denom()).finish()
    }
}
