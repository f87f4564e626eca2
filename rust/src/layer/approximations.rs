//! Fractions near a float, found as num-rational finds them, by the float's continued fraction.
//!
//! This module is not proved. Tests compare it with num-rational.
use super::ratio::Ratio;
use num_integer::Integer;
use num_traits::float::FloatCore;
use num_traits::{Bounded, NumCast, Signed, Unsigned};

/// A fraction that is nearer to the float than this ends the search.
const NEAR: f64 = 10e-20;

/// The search takes at most this many quotients of the continued fraction.
const ROUNDS: usize = 30;

impl<T: Clone + Integer + Signed + Bounded + NumCast> Ratio<T> {
    /// A fraction near the float. This call is not proved.
    ///
    /// It is the last convergent of the float's continued fraction that fits the type. An earlier one is returned if its
    /// quotient in floats differs from the float by less than 10e-20, or if it is the thirtieth. The call returns `None` for
    /// NaN, and for a float whose magnitude is above the greatest number of the type.
    ///
    /// ```
    /// use num_rational::{Ratio, Rational32};
    ///
    /// assert_eq!(Rational32::approximate_float(-0.75), Some(Ratio::new(-3, 4)));
    /// assert_eq!(Ratio::<i8>::approximate_float(3.14159), Some(Ratio::new(22, 7)));
    /// assert_eq!(Ratio::<i8>::approximate_float(f64::NAN), None);
    /// ```
    #[must_use]
    pub fn approximate_float<F: FloatCore + NumCast>(float: F) -> Option<Ratio<T>> {
        approximation(float)
    }
}

impl<T: Clone + Integer + Unsigned + Bounded + NumCast> Ratio<T> {
    /// A fraction near the float, as `approximate_float` returns it, for types without numbers below 0. This call is not
    /// proved.
    ///
    /// ```
    /// use num_rational::Ratio;
    ///
    /// assert_eq!(Ratio::<u8>::approximate_float_unsigned(0.75), Some(Ratio::new(3, 4)));
    /// assert_eq!(Ratio::<u8>::approximate_float_unsigned(-0.75), None);
    /// ```
    #[must_use]
    pub fn approximate_float_unsigned<F: FloatCore + NumCast>(float: F) -> Option<Ratio<T>> {
        approximation(float)
    }
}

/// A fraction near the float. If the type has numbers below 0, the search is for the magnitude, and the result gets the sign.
pub(super) fn approximation<T: Clone + Integer + Bounded + NumCast, F: FloatCore + NumCast>(float: F) -> Option<Ratio<T>> {
    if T::min_value() < T::zero() && float < F::zero() {
        let (numer, denom) = last_convergent::<T, F>(float.abs())?.into_raw();
        Some(Ratio::new_raw(T::zero() - numer, denom))
    } else {
        last_convergent(float)
    }
}

fn last_convergent<T: Clone + Integer + Bounded + NumCast, F: FloatCore + NumCast>(float: F) -> Option<Ratio<T>> {
    let near = <F as NumCast>::from(NEAR)?;
    let most = <F as NumCast>::from(T::max_value())?;
    if float < F::zero() || float > most {
        return None;
    }
    let (mut found, mut rest) = (Convergent::<T>::first(), float);
    for _ in 0..ROUNDS {
        let (next, part) = match found.next(rest) {
            Some(step) => step,
            None => break,
        };
        found = next;
        let is_near = found.quotient::<F>().map_or(true, |quotient| (quotient - float).abs() < near);
        if is_near || part < most.recip() {
            break;
        }
        rest = part.recip();
    }
    // Before the first step the denominator is 0. NaN allows no step.
    if found.denom.is_zero() {
        return None;
    }
    Some(Ratio::new(found.numer, found.denom))
}

/// A convergent of a continued fraction, and the one before it.
struct Convergent<T> {
    numer: T,
    denom: T,
    before: (T, T),
}

impl<T: Clone + Integer + Bounded + NumCast> Convergent<T> {
    fn first() -> Convergent<T> {
        Convergent { numer: T::one(), denom: T::zero(), before: (T::zero(), T::one()) }
    }

    /// The next convergent, whose quotient is the whole part of `rest`, and the part of `rest` behind the point.
    fn next<F: FloatCore + NumCast>(&self, rest: F) -> Option<(Convergent<T>, F)> {
        let whole = <T as NumCast>::from(rest)?;
        let part = rest - <F as NumCast>::from(whole.clone())?;
        let numer = times_plus(&whole, &self.numer, &self.before.0)?;
        let denom = times_plus(&whole, &self.denom, &self.before.1)?;
        Some((Convergent { numer, denom, before: (self.numer.clone(), self.denom.clone()) }, part))
    }

    fn quotient<F: FloatCore + NumCast>(&self) -> Option<F> {
        Some(<F as NumCast>::from(self.numer.clone())? / <F as NumCast>::from(self.denom.clone())?)
    }
}

/// `factor * number + more`, or `None` if it is above the greatest number of the type. None of the three is below 0.
fn times_plus<T: Clone + Integer + Bounded>(factor: &T, number: &T, more: &T) -> Option<T> {
    let fits = factor.is_zero() || *number <= (T::max_value() - more.clone()) / factor.clone();
    if fits { Some(factor.clone() * number.clone() + more.clone()) } else { None }
}
