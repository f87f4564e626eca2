//! The fraction type, the ways to make a fraction, and how it becomes a fraction of the proved calls.
use super::integer::{Element, Integer};
use super::same::on_machine;
use super::schoolbook;
use crate::proved::num_rational as proved;
use crate::proved::ratio_integer::Integer as _;

/// A fraction of two integers. `new` and most calls return lowest terms with a positive denominator. `new_raw` keeps any two
/// numbers. For the twelve machine types the calls are proved, and for every other type they are tested and not proved. What the
/// documentation says of panics is about the twelve: over another type, a number that does not fit does what the type's own operators do.
///
/// ```
/// use num_rational::Ratio;
///
/// let third = Ratio::new(2, 6);
/// assert_eq!((*third.numer(), *third.denom()), (1, 3));
/// assert_eq!(third + Ratio::new(1, 6), Ratio::new(1, 2));
/// assert!(Ratio::new(1u8, 255) < Ratio::new(1, 254));
/// assert_eq!("7/21".parse(), Ok(third));
/// ```
#[doc(alias = "Fraction")]
#[doc(alias = "Rational")]
#[derive(Clone, Copy, Debug)]
pub struct Ratio<T> {
    numer: T,
    denom: T,
}

/// A fraction of two `isize`.
///
/// ```
/// assert_eq!(num_rational::Rational::new(4, -6), num_rational::Rational::new(-2, 3));
/// ```
pub type Rational = Ratio<isize>;

/// A fraction of two `i32`.
///
/// ```
/// assert_eq!(num_rational::Rational32::new(4, -6), num_rational::Rational32::new(-2, 3));
/// ```
pub type Rational32 = Ratio<i32>;

/// A fraction of two `i64`.
///
/// ```
/// assert_eq!(num_rational::Rational64::new(4, -6), num_rational::Rational64::new(-2, 3));
/// ```
pub type Rational64 = Ratio<i64>;

/// The fraction type of the proved calls.
pub(super) type Proved<T> = proved::Ratio<<T as Element>::Proved>;

impl<T> Ratio<T> {
    /// The fraction with these fields, as they are given. They are not reduced, and the denominator may be negative. It must
    /// not be 0. This call does not test that, since it is a `const fn`. The fraction then has no value. A call that needs the value
    /// returns `None` if it has an `Option`, and panics if not.
    ///
    /// ```
    /// use num_rational::Ratio;
    ///
    /// const HALF: Ratio<i32> = Ratio::new_raw(2, 4);
    /// assert_eq!(HALF.into_raw(), (2, 4));
    /// assert_eq!(HALF, Ratio::new(1, 2));
    /// ```
    #[inline]
    #[must_use]
    pub const fn new_raw(numer: T, denom: T) -> Ratio<T> {
        Ratio { numer, denom }
    }

    /// The numerator and the denominator, as they are.
    ///
    /// ```
    /// assert_eq!(num_rational::Ratio::new_raw(2, -4).into_raw(), (2, -4));
    /// ```
    #[inline]
    #[must_use]
    pub fn into_raw(self) -> (T, T) {
        (self.numer, self.denom)
    }

    /// The numerator, as it is.
    ///
    /// ```
    /// assert_eq!(*num_rational::Ratio::new(6, 8).numer(), 3);
    /// ```
    #[doc(alias = "numerator")]
    #[inline]
    #[must_use]
    pub const fn numer(&self) -> &T {
        &self.numer
    }

    /// The denominator, as it is.
    ///
    /// ```
    /// assert_eq!(*num_rational::Ratio::new(6, 8).denom(), 4);
    /// ```
    #[doc(alias = "denominator")]
    #[inline]
    #[must_use]
    pub const fn denom(&self) -> &T {
        &self.denom
    }
}

impl<T: Clone + num_integer::Integer> Ratio<T> {
    /// The lowest terms of `numer/denom`.
    ///
    /// # Panics
    ///
    /// If the denominator is 0, or if the lowest terms do not fit the type. `checked_new` tests that.
    ///
    /// ```
    /// assert_eq!(num_rational::Ratio::new(4, -6).into_raw(), (-2, 3));
    /// ```
    #[inline(always)]
    #[track_caller]
    #[must_use]
    pub fn new(numer: T, denom: T) -> Ratio<T> {
        // This is always copied to the caller: else the twelve calls here keep rustc from it.
        on_machine!(T, same => same.back(new_of_machine(same.number(&numer), same.number(&denom))));
        schoolbook::new(numer, denom)
    }

    /// The whole number over 1.
    ///
    /// ```
    /// assert_eq!(num_rational::Ratio::from_integer(5).into_raw(), (5, 1));
    /// ```
    #[inline]
    #[must_use]
    pub fn from_integer(number: T) -> Ratio<T> {
        Ratio { numer: number, denom: T::one() }
    }

    /// Whether the denominator is 1. So it is false for 4/2, as `new_raw` makes it.
    ///
    /// ```
    /// use num_rational::Ratio;
    ///
    /// assert!(Ratio::new(4, 2).is_integer());
    /// assert!(!Ratio::new_raw(4, 2).is_integer());
    /// ```
    #[inline]
    #[must_use]
    pub fn is_integer(&self) -> bool {
        self.denom.is_one()
    }

    /// The lowest terms of this fraction.
    ///
    /// # Panics
    ///
    /// If the denominator is 0, or if the lowest terms do not fit the type. `checked_new` of the fields tests that.
    ///
    /// ```
    /// assert_eq!(num_rational::Ratio::new_raw(4, -6).reduced().into_raw(), (-2, 3));
    /// ```
    #[doc(alias = "normalize")]
    #[doc(alias = "simplify")]
    #[inline]
    #[track_caller]
    #[must_use]
    pub fn reduced(&self) -> Ratio<T> {
        Ratio::new(self.numer.clone(), self.denom.clone())
    }
}

impl<T: Integer> Ratio<T> {
    /// The fraction 0/1.
    ///
    /// ```
    /// assert_eq!(num_rational::Rational32::ZERO, num_rational::Ratio::new(0, 5));
    /// ```
    pub const ZERO: Ratio<T> = Ratio { numer: T::NUMBER_0, denom: T::NUMBER_1 };

    /// The fraction 1/1.
    ///
    /// ```
    /// assert_eq!(num_rational::Rational32::ONE, num_rational::Ratio::new(5, 5));
    /// ```
    pub const ONE: Ratio<T> = Ratio { numer: T::NUMBER_1, denom: T::NUMBER_1 };

    /// The lowest terms of `numer/denom`, or `None` if the denominator is 0 or they do not fit the type.
    ///
    /// ```
    /// use num_rational::Ratio;
    ///
    /// assert_eq!(Ratio::checked_new(2i8, -128), Some(Ratio::new(-1, 64)));
    /// assert_eq!(Ratio::checked_new(1i8, -128), None);
    /// assert_eq!(Ratio::checked_new(1i8, 0), None);
    /// ```
    #[inline]
    #[must_use]
    pub fn checked_new(numer: T, denom: T) -> Option<Ratio<T>> {
        Proved::<T>::checked_new(numer.into_proved(), denom.into_proved()).map(Ratio::from_proved)
    }

    /// The fraction that a proved call returned.
    #[inline]
    pub(super) fn from_proved(fraction: Proved<T>) -> Ratio<T> {
        let (numer, denom) = fraction.into_raw();
        Ratio { numer: T::from_proved(numer), denom: T::from_proved(denom) }
    }

    /// The fraction for calls that require a denominator other than 0. It panics if the denominator is 0.
    #[inline]
    #[track_caller]
    pub(super) fn proved(&self) -> Proved<T> {
        match self.checked_proved() {
            Some(fraction) => fraction,
            None => refuse_zero(),
        }
    }

    /// The same, but `None` if the denominator is 0.
    #[inline]
    pub(super) fn checked_proved(&self) -> Option<Proved<T>> {
        let denom = self.denom.into_proved();
        if denom.is_zero() {
            None
        } else {
            Some(Proved::<T>::new_raw(self.numer.into_proved(), denom))
        }
    }

    /// The fraction for calls that require a positive denominator. If the denominator is negative, it is the lowest terms. It is
    /// `None` if these do not fit the type, or if the denominator is 0.
    #[inline]
    pub(super) fn positive(&self) -> Option<Proved<T>> {
        let (numer, denom) = (self.numer.into_proved(), self.denom.into_proved());
        if <T as Element>::Proved::ZERO < denom {
            Some(Proved::<T>::new_raw(numer, denom))
        } else {
            self.turned()
        }
    }

    /// The same, but it panics where that is `None`.
    #[inline]
    #[track_caller]
    pub(super) fn expect_positive(&self) -> Proved<T> {
        match self.positive() {
            Some(fraction) => fraction,
            None => refuse_new(self.denom),
        }
    }

    #[cold]
    fn turned(&self) -> Option<Proved<T>> {
        Proved::<T>::checked_new(self.numer.into_proved(), self.denom.into_proved())
    }
}

#[inline(always)]
#[track_caller]
pub(super) fn new_of_machine<T: Integer>(numer: T, denom: T) -> Ratio<T> {
    match Ratio::checked_new(numer, denom) {
        Some(lowest) => lowest,
        None => refuse_new(denom),
    }
}

#[cold]
#[inline(never)]
#[track_caller]
pub(super) fn refuse_new<T: Integer>(denom: T) -> ! {
    if denom.is_zero() {
        refuse_zero()
    }
    panic!("attempt to negate with overflow")
}

#[cold]
#[inline(never)]
#[track_caller]
fn refuse_zero() -> ! {
    panic!("denominator == 0")
}
