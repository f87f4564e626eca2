//! Fractions of big integers, which no number is too long for: `BigRational`.
//!
//! This module is not proved. Tests compare it with num-rational. The float nearest to such a fraction comes from a proved call.
use super::integer::Integer;
use super::ratio::Ratio;
use super::reduced::Reduced;
use super::reduced_traits::ReducedError;
use crate::proved::ratio_decimal::naturals::nearest_f64;
use alloc::vec;
use num_bigint::{BigInt, BigUint, Sign, ToBigInt};
use num_traits::float::FloatCore;
use num_traits::{FromPrimitive, One, Pow, ToPrimitive, Zero};

/// A fraction of two big integers. Its calls are tested, and not proved.
///
/// ```
/// use num_rational::BigRational;
///
/// let x: BigRational = "1/3".parse().unwrap();
/// assert_eq!(x.pow(100).denom().to_string(), "515377520732011331036461129765621272702107522001");
/// ```
pub type BigRational = Ratio<BigInt>;

impl Ratio<BigInt> {
    /// The fraction with exactly the value of the float. `None` if the float is infinite or no number. This call is not proved.
    ///
    /// ```
    /// use num_rational::BigRational;
    ///
    /// assert_eq!(BigRational::from_float(-0.75).unwrap().to_string(), "-3/4");
    /// assert_eq!(BigRational::from_float(f64::NAN), None);
    /// ```
    pub fn from_float<F: FloatCore>(float: F) -> Option<BigRational> {
        if !float.is_finite() {
            return None;
        }
        let (mantissa, exponent, sign) = float.integer_decode();
        let (numer, shift) = (BigInt::from(mantissa) * sign, usize::from(exponent.unsigned_abs()));
        Some(if exponent < 0 { Ratio::new(numer, BigInt::one() << shift) } else { Ratio::from_integer(numer << shift) })
    }
}

/// A whole number, over 1, or the fraction with exactly the value of a float.
impl FromPrimitive for Ratio<BigInt> {
    fn from_i64(number: i64) -> Option<BigRational> {
        Some(Ratio::from_integer(number.into()))
    }

    fn from_u64(number: u64) -> Option<BigRational> {
        Some(Ratio::from_integer(number.into()))
    }

    fn from_i128(number: i128) -> Option<BigRational> {
        Some(Ratio::from_integer(number.into()))
    }

    fn from_u128(number: u128) -> Option<BigRational> {
        Some(Ratio::from_integer(number.into()))
    }

    fn from_f32(float: f32) -> Option<BigRational> {
        Ratio::from_float(float)
    }

    fn from_f64(float: f64) -> Option<BigRational> {
        Ratio::from_float(float)
    }
}

impl<T: Integer> From<Reduced<T>> for Ratio<BigInt> {
    /// The same numbers.
    fn from(fraction: Reduced<T>) -> BigRational {
        let big = |number: &T| number.to_bigint().unwrap_or_else(|| unreachable!("each number is a big one, too"));
        Ratio::new_raw(big(fraction.numer()), big(fraction.denom()))
    }
}

impl<T: Integer> TryFrom<Ratio<BigInt>> for Reduced<T> {
    type Error = ReducedError;

    /// The lowest terms, or an error if the denominator is 0 or they do not fit the type.
    fn try_from(fraction: BigRational) -> Result<Reduced<T>, ReducedError> {
        if fraction.denom().is_zero() {
            return Err(ReducedError(()));
        }
        let (numer, denom) = fraction.reduced().into_raw();
        match (T::from(numer), T::from(denom)) {
            (Some(numer), Some(denom)) => Reduced::try_from((numer, denom)),
            _ => Err(ReducedError(())),
        }
    }
}

/// What `to_integer` gives as a number of another type. `None` if the denominator is 0.
pub(super) fn whole<T: Clone + num_integer::Integer, N>(x: &Ratio<T>, cast: impl Fn(&T) -> Option<N>) -> Option<N> {
    if x.denom().is_zero() { None } else { cast(&x.to_integer()) }
}

/// The nearest float. As in num-rational, `1/0` is infinite, `0/0` is `None`, and `0/-1` is -0.0.
pub(super) fn to_f64<T: Clone + num_integer::Integer + ToBigInt>(x: &Ratio<T>) -> Option<f64> {
    let (numer, denom) = (x.numer().to_bigint()?, x.denom().to_bigint()?);
    let size = match (numer.is_zero(), denom.is_zero()) {
        (true, true) => return None,
        (true, false) => 0.0,
        (false, true) => f64::INFINITY,
        (false, false) => nearest(numer.magnitude(), denom.magnitude()),
    };
    let is_below_0 = (numer.sign() == Sign::Minus) != (denom.sign() == Sign::Minus);
    Some(if is_below_0 { -size } else { size })
}

/// Neither number is 0.
fn nearest(numer: &BigUint, denom: &BigUint) -> f64 {
    let (mut numer, denom) = (numer.to_u64_digits(), denom.to_u64_digits());
    // The proved call requires two digits more than the denominator has.
    let count = numer.len().max(denom.len() + 2);
    numer.resize(count, 0);
    nearest_f64(&mut numer, &denom, false, &mut vec![0; count])
}

// Powers with big exponents. Each way to pass the base and the exponent has a row.
macro_rules! powers {
    ($($Base:ty, $Exponent:ty; $base:ident, $exponent:ident => $left:expr, $is_below_0:expr, $magnitude:expr;)*) => {$(
        impl<T: Clone + num_integer::Integer> Pow<$Exponent> for $Base {
            type Output = Ratio<T>;

            /// # Panics
            ///
            /// If the power does not fit the type or the memory. If the fraction is 0 and the exponent negative.
            #[track_caller]
            fn pow(self, $exponent: $Exponent) -> Ratio<T> {
                let $base = self;
                power($left, $is_below_0, $magnitude)
            }
        }
    )*};
}

powers! {
    Ratio<T>, BigUint; base, exponent => &base, false, &exponent;
    Ratio<T>, &BigUint; base, exponent => &base, false, exponent;
    &Ratio<T>, BigUint; base, exponent => base, false, &exponent;
    &Ratio<T>, &BigUint; base, exponent => base, false, exponent;
    Ratio<T>, BigInt; base, exponent => &base, exponent.sign() == Sign::Minus, exponent.magnitude();
    Ratio<T>, &BigInt; base, exponent => &base, exponent.sign() == Sign::Minus, exponent.magnitude();
    &Ratio<T>, BigInt; base, exponent => base, exponent.sign() == Sign::Minus, exponent.magnitude();
    &Ratio<T>, &BigInt; base, exponent => base, exponent.sign() == Sign::Minus, exponent.magnitude();
}

#[track_caller]
pub(super) fn power<T: Clone + num_integer::Integer>(base: &Ratio<T>, is_below_0: bool, magnitude: &BigUint) -> Ratio<T> {
    let is_unit = |number: &T| number.is_zero() || number.is_one() || (*number < T::zero() && (number.clone() + T::one()).is_zero());
    let power = match magnitude.to_u128() {
        Some(exponent) => Pow::pow(base, exponent),
        // A power of -1, 0 or 1 depends on whether the exponent is odd. No other one fits.
        None if is_unit(base.numer()) && is_unit(base.denom()) => Pow::pow(base, 2 + (magnitude % 2u8).to_u8().unwrap_or(0)),
        None => panic!("attempt to multiply with overflow"),
    };
    if is_below_0 { power.recip() } else { power }
}
