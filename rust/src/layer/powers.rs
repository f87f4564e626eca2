//! Reciprocals and powers.
//!
//! A negative denominator is first brought to lowest terms. If these do not fit the type, a checked call returns `None`, and
//! the others panic.
use super::integer::{Element, Integer, WholeNumber};
use super::ratio::Ratio;
use super::same::on_machine;
use super::schoolbook;
use crate::proved::num_rational::Exponent;
use crate::proved::ratio_integer::Integer as _;
use num_traits::{Inv, Pow};

impl<T: Clone + num_integer::Integer> Ratio<T> {
    /// The reciprocal.
    ///
    /// # Panics
    ///
    /// If the numerator is 0, or if it is the least number over a positive denominator: its sign cannot be moved. If the
    /// denominator is 0, or if it is negative and the lowest terms do not fit the type: `new_raw(3i8, -128).recip()` panics.
    ///
    /// ```
    /// assert_eq!(num_rational::Ratio::new(-2, 3).recip().into_raw(), (-3, 2));
    /// ```
    #[doc(alias = "reciprocal")]
    #[doc(alias = "inverse")]
    #[inline]
    #[track_caller]
    #[must_use]
    pub fn recip(&self) -> Ratio<T> {
        on_machine!(T, same => same.back(recip_of_machine(same.fraction(self))));
        schoolbook::recip(self.clone())
    }

    /// The power: each field to the exponent. It is 1 for the exponent 0.
    ///
    /// # Panics
    ///
    /// If a field to the exponent's magnitude does not fit the type, even if the power fits. For a negative exponent, also if the
    /// fraction is 0 or its sign cannot be moved. Also if the denominator is negative and the lowest terms do not fit, or 0.
    /// `checked_pow` tests all this.
    ///
    /// ```
    /// use num_rational::Ratio;
    ///
    /// assert_eq!(Ratio::new(-2, 3).pow(3), Ratio::new(-8, 27));
    /// assert_eq!(Ratio::new(-2, 3).pow(-2), Ratio::new(9, 4));
    /// ```
    #[doc(alias = "powi")]
    #[inline]
    #[track_caller]
    #[must_use]
    pub fn pow(&self, exponent: i32) -> Ratio<T> {
        power(self, exponent)
    }
}

impl<T: Integer> Ratio<T> {
    /// The power. It is `None` exactly if `pow` panics. So -1/128 to the -9 is `None` over `i64`: 128^9 does not fit, though the power,
    /// -2^63, does. `checked_pow` of a `Reduced` returns it.
    ///
    /// ```
    /// use num_rational::Ratio;
    ///
    /// assert_eq!(Ratio::new(-2i8, 1).checked_pow(7), Some(Ratio::from_integer(-128)));
    /// assert_eq!(Ratio::new(-2i8, 1).checked_pow(8), None);
    /// assert_eq!(Ratio::new(-1i64, 128).checked_pow(-9), None);
    /// ```
    #[inline]
    #[must_use]
    pub fn checked_pow(&self, exponent: i32) -> Option<Ratio<T>> {
        self.positive()?.checked_pow(exponent).map(Ratio::from_proved)
    }
}

#[inline]
#[track_caller]
pub(super) fn recip_of_machine<T: Integer>(x: &Ratio<T>) -> Ratio<T> {
    // This has no branch on the sign, since no processor can guess the sign if signs vary. Only the least number has no negative.
    let has_reciprocal = (*x.numer() != T::NUMBER_0) & (*x.numer() != T::min_value());
    if has_reciprocal & (T::NUMBER_0 < *x.denom()) {
        return Ratio::from_proved(x.proved().recip());
    }
    recip_of_any(x)
}

#[inline(never)]
#[track_caller]
pub(super) fn recip_of_any<T: Integer>(x: &Ratio<T>) -> Ratio<T> {
    let fraction = x.expect_positive();
    let numer = *fraction.numer();
    if numer.is_zero() || (numer < <T as Element>::Proved::ZERO && <T as Element>::Proved::ZERO.try_minus(numer).is_none()) {
        refuse(x, "attempt to negate with overflow");
    }
    Ratio::from_proved(fraction.recip())
}

#[inline]
#[track_caller]
fn power<T: Clone + num_integer::Integer, E: Exponent>(base: &Ratio<T>, exponent: E) -> Ratio<T> {
    on_machine!(T, same => same.back(power_of_machine(same.fraction(base), exponent)));
    schoolbook::power(base, exponent.is_below_zero(), exponent.magnitude())
}

#[inline]
#[track_caller]
pub(super) fn power_of_machine<T: Integer, E: Exponent>(base: &Ratio<T>, exponent: E) -> Ratio<T> {
    match base.expect_positive().checked_pow_with(exponent) {
        Some(power) => Ratio::from_proved(power),
        None => refuse(base, "attempt to multiply with overflow"),
    }
}

#[cold]
#[inline(never)]
#[track_caller]
fn refuse<T: Integer>(base: &Ratio<T>, overflow: &str) -> ! {
    panic!("{}", if *base.numer() == T::NUMBER_0 { "division by zero" } else { overflow })
}

impl<T: Clone + num_integer::Integer> Inv for Ratio<T> {
    type Output = Ratio<T>;

    /// # Panics
    ///
    /// If `recip` panics.
    #[inline]
    #[track_caller]
    fn inv(self) -> Ratio<T> {
        self.recip()
    }
}

impl<T: Clone + num_integer::Integer> Inv for &Ratio<T> {
    type Output = Ratio<T>;

    /// # Panics
    ///
    /// If `recip` panics.
    #[inline]
    #[track_caller]
    fn inv(self) -> Ratio<T> {
        self.recip()
    }
}

impl<T: Clone + num_integer::Integer, N: WholeNumber> Pow<N> for Ratio<T> {
    type Output = Ratio<T>;

    /// # Panics
    ///
    /// As `Ratio::pow`, such as if a field to the exponent's magnitude does not fit the type.
    #[inline]
    #[track_caller]
    fn pow(self, exponent: N) -> Ratio<T> {
        power(&self, exponent.number().into_proved())
    }
}

impl<T: Clone + num_integer::Integer, N: WholeNumber> Pow<N> for &Ratio<T> {
    type Output = Ratio<T>;

    /// # Panics
    ///
    /// As `Ratio::pow`, such as if a field to the exponent's magnitude does not fit the type.
    #[inline]
    #[track_caller]
    fn pow(self, exponent: N) -> Ratio<T> {
        power(self, exponent.number().into_proved())
    }
}
