//! Calls of `Reduced` for a `Ratio`, too: decimals, multiples, exact floats, and other integer types. The fraction is first brought to
//! lowest terms. If these do not fit the type, a call that returns an `Option` returns `None`, and `decimal` panics. num-rational has
//! no such calls.
use super::integer::Integer;
use super::ratio::Ratio;
use super::reduced::Reduced;
use crate::proved::ratio_decimal::rounding_rule::Rounding;
use crate::proved::ratio_core::DecimalText;

impl<T: Integer> Ratio<T> {
    /// The fraction as a decimal with so many places, as `Reduced::decimal` returns it.
    ///
    /// # Panics
    ///
    /// If there are more than 38 places. If the denominator is 0, or if it is negative and the lowest terms do not fit the type.
    ///
    /// ```
    /// use num_rational::{Ratio, Rounding};
    ///
    /// assert_eq!(Ratio::new_raw(2, -6).decimal(2, Rounding::HalfEven).as_str(), "-0.33");
    /// ```
    #[inline]
    #[track_caller]
    pub fn decimal(&self, places: u32, rule: Rounding) -> DecimalText {
        let lowest = self.reduced();
        match Reduced::from_ratio(&lowest) {
            Some(fraction) => fraction.decimal(places, rule),
            None => unreachable!("these are lowest terms"),
        }
    }

    /// All of the fraction as a decimal, as `Reduced::exact_decimal` returns it. `None` if the digits do not end, or if the
    /// fraction has no lowest terms that fit the type.
    ///
    /// ```
    /// use num_rational::Ratio;
    ///
    /// assert_eq!(Ratio::new_raw(198, 16).exact_decimal().unwrap().as_str(), "12.375");
    /// assert!(Ratio::new(1, 3).exact_decimal().is_none());
    /// assert!(Ratio::new_raw(1, 0).exact_decimal().is_none());
    /// ```
    #[inline]
    pub fn exact_decimal(&self) -> Option<DecimalText> {
        Reduced::from_ratio(self)?.exact_decimal()
    }

    /// The multiple of `1/parts` that the rule says, as `Reduced::round_to` returns it. `None` if `parts` is not above 0, or if
    /// the fraction or the multiple has no lowest terms that fit the type.
    ///
    /// ```
    /// use num_rational::{Ratio, Rounding};
    ///
    /// assert_eq!(Ratio::new(2, 3).round_to(100, Rounding::HalfEven), Some(Ratio::new(67, 100)));
    /// assert_eq!(Ratio::new(2, 3).round_to(0, Rounding::HalfEven), None);
    /// ```
    #[inline]
    pub fn round_to(&self, parts: T, rule: Rounding) -> Option<Ratio<T>> {
        Reduced::from_ratio(self)?.round_to(parts, rule).map(Ratio::from)
    }

    /// The lowest terms over the type `U`, or `None` if they do not fit this type or that one, or if the denominator is 0.
    ///
    /// ```
    /// use num_rational::Ratio;
    ///
    /// assert_eq!(Ratio::new_raw(2i64, 254).cast(), Some(Ratio::new(1i8, 127)));
    /// assert_eq!(Ratio::new(1i64, 128).cast::<i8>(), None);
    /// ```
    #[inline]
    pub fn cast<U: Integer>(&self) -> Option<Ratio<U>> {
        Reduced::from_ratio(self)?.cast().map(Ratio::from)
    }

    /// The fraction with exactly the value of the float, as `Reduced::from_float` returns it. `None` if the float is infinite or no
    /// number, or if its lowest terms do not fit the type. `approximate_float` returns a fraction near the float.
    ///
    /// The name `from_float` is num-rational's, for `BigRational` alone: else `Ratio::from_float(x)` would not say which type it means.
    ///
    /// ```
    /// use num_rational::Ratio;
    ///
    /// assert_eq!(Ratio::from_float64(-0.75), Some(Ratio::new(-3, 4)));
    /// assert_eq!(Ratio::<i32>::from_float64(0.1), None);
    /// ```
    #[inline]
    pub fn from_float64(float: f64) -> Option<Ratio<T>> {
        Reduced::from_float(float).map(Ratio::from)
    }

    /// The fraction with exactly the value of a float of 32 bits, in the same way.
    ///
    /// ```
    /// use num_rational::Ratio;
    ///
    /// assert_eq!(Ratio::from_float32(0.1), Some(Ratio::new(13421773, 134217728)));
    /// ```
    #[inline]
    pub fn from_float32(float: f32) -> Option<Ratio<T>> {
        Reduced::from_float32(float).map(Ratio::from)
    }

    /// The simplest fraction that rounds to the float, as `Reduced::rationalize` returns it.
    ///
    /// ```
    /// use num_rational::Ratio;
    ///
    /// assert_eq!(Ratio::rationalize(0.1), Some(Ratio::new(1, 10)));
    /// ```
    #[inline]
    pub fn rationalize(float: f64) -> Option<Ratio<T>> {
        Reduced::rationalize(float).map(Ratio::from)
    }

    /// The same for a float of 32 bits.
    ///
    /// ```
    /// use num_rational::Ratio;
    ///
    /// assert_eq!(Ratio::rationalize32(0.1), Some(Ratio::new(1, 10)));
    /// ```
    #[inline]
    pub fn rationalize32(float: f32) -> Option<Ratio<T>> {
        Reduced::rationalize32(float).map(Ratio::from)
    }
}
