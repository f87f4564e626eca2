//! The calls by num-rational and num-integer.

use crate::answer::{Answer, Number};
use crate::mixing::Mixing;
use crate::proved::Span;
use num_rational::Ratio;
use num_traits::{CheckedAdd, CheckedDiv, CheckedMul, CheckedSub, Num};
use std::hash::{Hash, Hasher};
use std::io::Write;

slices! { Number }

/// The crate has no checked call for `%`. Call this only if `%` is defined.
#[inline(never)]
pub fn checked_rem<T: Number>(pairs: &[Pair<T>], out: &mut [Answer<T>]) {
    each(pairs, out, |pair| answered(Some(pair.0 % pair.1)));
}

#[inline(never)]
pub fn gcd<T: Number>(fractions: &[Ratio<T>], out: &mut [Answer<T>]) {
    each(fractions, out, |x| Answer::some(num_integer::Integer::gcd(x.numer(), x.denom()), T::one()));
}

/// Call this only if the power fits.
#[inline(never)]
pub fn pow<T: Number>(fractions: &[Ratio<T>], exponents: &[i32], out: &mut [Answer<T>]) {
    for ((x, exponent), place) in fractions.iter().zip(exponents).zip(out) {
        *place = answered(Some(T::power(x, *exponent)));
    }
}
