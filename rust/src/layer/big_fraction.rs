//! The type of fractions of any size, and its calls that are no traits.
//!
//! Each result comes from a proved call. A call `try_..` returns an error if there is not enough memory, and the same call without `try_`
//! panics. A call with an `Option` returns `None` then, unless it is one of `try_..`.
use super::big_fraction_operand::BigOperand;
use super::integer::{Element, Integer};
use super::reduced::Reduced;
use crate::memory::{AllocError, Global};
use crate::proved::num_rational::{Constants, Reduced64 as ProvedReduced};
use crate::proved::ratio_big::BigFraction as Proved;
use crate::proved::ratio_natural::used;
use alloc::vec::Vec;
use core::cmp::Ordering;

/// An exact fraction of any size, always in lowest terms. No sum, difference, product or quotient is out of range, so an operator panics
/// only for a divisor 0, for a `Ratio` with the denominator 0, and for want of memory. While both numbers fit an `i64`, it takes no memory.
/// Calls that num-rational's `BigRational` has, too, have the same names.
///
/// ```
/// use num_rational::BigFraction;
///
/// let sum: BigFraction = (1..=100).map(|k| BigFraction::new(1, k)).sum();
/// assert_eq!(sum.denom_digits().len(), 3); // of 64 bits each: 2788815009188499086581352357412492142272
/// let last: BigFraction = (1..100).map(|k| BigFraction::new(1, k)).sum();
/// assert_eq!(sum - last, BigFraction::new(1, 100));
/// ```
///
/// Whole numbers, `Ratio`s and `Reduced`s may be on either side of an operator, and on the right of `==` and `<`. So rustc cannot tell which type
/// `x == 144.into()` and `x == Zero::zero()` mean: write `x == 144`, `x == BigFraction::from(144)` and `x == 0`.
///
/// ```
/// use num_rational::{BigFraction, Ratio, Reduced};
///
/// let x = BigFraction::new(12, 1).pow(2) - Ratio::new(1, 2) + Reduced::from(1u8);
/// assert!(2 * &x == 289 && x > Ratio::new(144, 1) && Reduced::from(144u8) < x);
/// assert_eq!((&x - 144).recip(), BigFraction::from(2));
/// ```
///
/// ```compile_fail
/// assert!(num_rational::BigFraction::from(144) == 144.into()); // type annotations needed
/// ```
///
/// A program that must not stop for want of memory calls `try_add` and the like:
///
/// ```
/// use num_rational::{AllocError, BigFraction};
///
/// fn power(base: &BigFraction, exponent: u32) -> Result<BigFraction, AllocError> {
///     (0..exponent).try_fold(BigFraction::from(1), |power, _| power.try_mul(base))
/// }
///
/// assert_eq!(power(&BigFraction::new(2, 3), 64).unwrap() * 3, power(&BigFraction::new(2, 3), 63).unwrap() * 2);
/// ```
#[doc(alias = "BigRational")]
pub struct BigFraction(pub(super) Proved);

const NO_MEMORY: &str = "memory allocation failed";

/// What a call returns, or a panic for want of memory.
#[inline]
#[track_caller]
pub(super) fn taken<T>(result: Result<T, AllocError>) -> T {
    match result {
        Ok(result) => result,
        Err(_) => refuse(NO_MEMORY),
    }
}

/// What a call returns that is `None` only for a division by 0, or a panic.
#[inline]
#[track_caller]
pub(super) fn divided<T>(result: Result<Option<T>, AllocError>, zero: &str) -> T {
    match result {
        Ok(Some(result)) => result,
        Ok(None) => refuse(zero),
        Err(_) => refuse(NO_MEMORY),
    }
}

#[cold]
#[inline(never)]
#[track_caller]
fn refuse(why: &str) -> ! {
    panic!("{why}")
}

impl BigFraction {
    /// The fraction 0/1, which takes no memory.
    ///
    /// ```
    /// use num_rational::BigFraction;
    ///
    /// const NONE: BigFraction = BigFraction::ZERO;
    /// assert_eq!(NONE.into_raw(), (BigFraction::from(0), BigFraction::from(1)));
    /// ```
    pub const ZERO: BigFraction = BigFraction(Proved::from_reduced(ProvedReduced::ZERO));

    /// The fraction 1/1, which takes no memory.
    ///
    /// ```
    /// assert_eq!(num_rational::BigFraction::ONE, 1);
    /// ```
    pub const ONE: BigFraction = BigFraction(Proved::from_reduced(ProvedReduced::ONE));

    /// The lowest terms of `numer/denom`: of two whole numbers, also of any size, or of two fractions.
    ///
    /// # Panics
    ///
    /// If the denominator is 0, or for want of memory.
    ///
    /// ```
    /// use num_rational::BigFraction;
    ///
    /// assert_eq!(BigFraction::new(6, -4), BigFraction::new(-3, 2));
    /// assert_eq!(BigFraction::new(1u128 << 127, 1 << 100), BigFraction::from(1u32 << 27));
    /// let (two, three) = (BigFraction::from(2).pow(200), BigFraction::from(3).pow(200));
    /// assert_eq!(BigFraction::new(&two, &three), BigFraction::new(2, 3).pow(200));
    /// ```
    #[inline]
    #[track_caller]
    pub fn new<N: BigOperand>(numer: N, denom: N) -> BigFraction {
        divided(BigFraction::try_new(numer, denom), "denominator == 0")
    }

    /// The same, or `None` if the denominator is 0 or for want of memory.
    ///
    /// ```
    /// assert!(num_rational::BigFraction::checked_new(1, 0).is_none());
    /// ```
    #[inline]
    pub fn checked_new<N: BigOperand>(numer: N, denom: N) -> Option<BigFraction> {
        BigFraction::try_new(numer, denom).ok().flatten()
    }

    /// The same, or an error for want of memory.
    ///
    /// ```
    /// assert_eq!(num_rational::BigFraction::try_new(1, 0), Ok(None));
    /// ```
    #[inline]
    pub fn try_new<N: BigOperand>(numer: N, denom: N) -> Result<Option<BigFraction>, AllocError> {
        N::bakhsney_quotient(&numer, &denom)
    }

    /// The whole number over 1.
    ///
    /// # Panics
    ///
    /// For want of memory.
    ///
    /// ```
    /// use num_rational::BigFraction;
    ///
    /// assert_eq!(BigFraction::from_integer(u64::MAX) + 1, BigFraction::from_integer(1u128 << 64));
    /// ```
    #[inline]
    #[track_caller]
    pub fn from_integer<T: Integer>(number: T) -> BigFraction {
        taken(BigFraction::try_from_reduced(Reduced::from_integer(number)))
    }

    /// The same fraction, or an error for want of memory.
    ///
    /// ```
    /// use num_rational::{BigFraction, Reduced};
    ///
    /// assert_eq!(BigFraction::try_from_reduced(Reduced::from(3u8)), Ok(BigFraction::from(3)));
    /// ```
    #[inline]
    pub fn try_from_reduced<T: Integer>(fraction: Reduced<T>) -> Result<BigFraction, AllocError> {
        Proved::from_wide::<<T as Element>::Proved>(Global, &fraction.into_proved()).map(BigFraction)
    }

    /// The lowest terms of a fraction whose numbers have these digits of 64 bits, the lowest first. `None` if the denominator is 0 or
    /// for want of memory.
    ///
    /// ```
    /// use num_rational::BigFraction;
    ///
    /// let x = BigFraction::from_digits(true, &[0, 3], &[1 << 63]).unwrap(); // -3 * 2^64 over 2^63
    /// assert_eq!(x, BigFraction::from(-6));
    /// ```
    #[inline]
    #[must_use]
    pub fn from_digits(is_negative: bool, numer: &[u64], denom: &[u64]) -> Option<BigFraction> {
        BigFraction::try_from_digits(is_negative, numer, denom).ok().flatten()
    }

    /// The same, or an error for want of memory.
    ///
    /// ```
    /// assert_eq!(num_rational::BigFraction::try_from_digits(false, &[1], &[0, 0]), Ok(None));
    /// ```
    #[inline]
    pub fn try_from_digits(is_negative: bool, numer: &[u64], denom: &[u64]) -> Result<Option<BigFraction>, AllocError> {
        Ok(Proved::from_digits(Global, is_negative, numer, denom)?.map(BigFraction))
    }

    /// The digits of 64 bits of the numerator without its sign, the lowest first: none for 0.
    ///
    /// # Panics
    ///
    /// For want of memory.
    ///
    /// ```
    /// use num_rational::BigFraction;
    ///
    /// assert_eq!(BigFraction::new(-5 << 64, 3i128).numer_digits(), [0, 5]);
    /// assert!(BigFraction::from(0).numer_digits().is_empty());
    /// ```
    #[inline]
    #[track_caller]
    #[must_use]
    pub fn numer_digits(&self) -> Vec<u64> {
        taken(self.0.numer_digits(Global)).into_std()
    }

    /// Those of the denominator.
    ///
    /// # Panics
    ///
    /// For want of memory.
    ///
    /// ```
    /// assert_eq!(num_rational::BigFraction::new(1, -3).denom_digits(), [3]);
    /// ```
    #[inline]
    #[track_caller]
    #[must_use]
    pub fn denom_digits(&self) -> Vec<u64> {
        taken(self.0.denom_digits(Global)).into_std()
    }

    /// Hands the digits of both numbers to a call, without leading zeros. It takes no memory.
    #[inline]
    pub(super) fn with_digits<R>(&self, call: impl FnOnce(&[u64], &[u64]) -> R) -> R {
        let own = self.0.short_digits();
        let parts = self.0.parts(&own);
        call(&parts.numer[..used(parts.numer)], &parts.denom[..used(parts.denom)])
    }

    /// Whether the denominator is 1.
    ///
    /// ```
    /// assert!(num_rational::BigFraction::new(4, 2).is_integer());
    /// ```
    #[inline]
    #[must_use]
    pub fn is_integer(&self) -> bool {
        self.with_digits(|_, denom| denom == [1])
    }

    /// The order of the two values, or an error for want of memory. Two fractions of `i64` need none.
    ///
    /// ```
    /// use num_rational::BigFraction;
    /// use std::cmp::Ordering;
    ///
    /// assert_eq!(BigFraction::new(1, 3).try_cmp(&BigFraction::new(1, 2)), Ok(Ordering::Less));
    /// ```
    #[inline]
    pub fn try_cmp(&self, other: &BigFraction) -> Result<Ordering, AllocError> {
        self.0.compare(Global, &other.0)
    }

    /// The reciprocal.
    ///
    /// # Panics
    ///
    /// If the fraction is 0, or for want of memory.
    ///
    /// ```
    /// use num_rational::BigFraction;
    ///
    /// assert_eq!(BigFraction::new(-2, 3).recip(), BigFraction::new(-3, 2));
    /// ```
    #[doc(alias = "reciprocal")]
    #[inline]
    #[track_caller]
    #[must_use]
    pub fn recip(&self) -> BigFraction {
        divided(self.try_recip(), "denominator == 0")
    }
}

// Each proved call that only memory can fail, or a divisor 0, too.
macro_rules! tries {
    ($($(#[$doc:meta])* $try:ident($($other:ident)?) by $proved:ident;)*) => {
        /// These calls return an error for want of memory.
        impl BigFraction {$(
            $(#[$doc])*
            #[inline]
            pub fn $try(&self $(, $other: &BigFraction)?) -> Result<BigFraction, AllocError> {
                Ok(BigFraction(self.0.$proved(Global $(, &$other.0)?)?))
            }
        )*}
    };
    (divisions: $($(#[$doc:meta])* $try:ident($($other:ident)?) by $proved:ident;)*) => {
        /// These calls return an error for want of memory, and `None` for a divisor 0.
        impl BigFraction {$(
            $(#[$doc])*
            #[inline]
            pub fn $try(&self $(, $other: &BigFraction)?) -> Result<Option<BigFraction>, AllocError> {
                Ok(self.0.$proved(Global $(, &$other.0)?)?.map(BigFraction))
            }
        )*}
    };
}
pub(super) use tries;

tries! {
    /// The sum.
    ///
    /// ```
    /// use num_rational::BigFraction;
    ///
    /// assert_eq!(BigFraction::new(1, 2).try_add(&BigFraction::new(1, 3)), Ok(BigFraction::new(5, 6)));
    /// ```
    try_add(other) by add;

    /// The difference.
    ///
    /// ```
    /// use num_rational::BigFraction;
    ///
    /// assert_eq!(BigFraction::new(1, 2).try_sub(&BigFraction::new(1, 3)), Ok(BigFraction::new(1, 6)));
    /// ```
    try_sub(other) by subtract;

    /// The product.
    ///
    /// ```
    /// use num_rational::BigFraction;
    ///
    /// assert_eq!(BigFraction::from(u64::MAX).try_mul(&BigFraction::new(1, u64::MAX)), Ok(BigFraction::from(1)));
    /// ```
    try_mul(other) by multiply;

    /// The same fraction once more.
    ///
    /// ```
    /// use num_rational::BigFraction;
    ///
    /// assert_eq!(BigFraction::new(1, 2).try_clone(), Ok(BigFraction::new(1, 2)));
    /// ```
    try_clone() by copy;

    /// The negative.
    ///
    /// ```
    /// use num_rational::BigFraction;
    ///
    /// assert_eq!(BigFraction::from(i64::MIN).try_neg(), Ok(BigFraction::from(1u64 << 63)));
    /// ```
    try_neg() by negate;

    /// The absolute value.
    ///
    /// ```
    /// use num_rational::BigFraction;
    ///
    /// assert_eq!(BigFraction::new(-1, 2).try_abs(), Ok(BigFraction::new(1, 2)));
    /// ```
    try_abs() by abs;
}

tries! { divisions:
    /// The quotient.
    ///
    /// ```
    /// use num_rational::BigFraction;
    ///
    /// assert_eq!(BigFraction::new(1, 2).try_div(&BigFraction::new(-1, 3)), Ok(Some(BigFraction::new(-3, 2))));
    /// assert_eq!(BigFraction::new(1, 2).try_div(&BigFraction::from(0)), Ok(None));
    /// ```
    try_div(other) by divide;

    /// The reciprocal.
    ///
    /// ```
    /// assert_eq!(num_rational::BigFraction::from(0).try_recip(), Ok(None));
    /// ```
    try_recip() by reciprocal;
}
