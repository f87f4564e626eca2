//! The same calls by the plain Rust crate.

use crate::answer::{Answer, Number};
use crate::mixing::Mixing;
use crate::proved::Span;
use bakhsney::proved::num_rational as proved;
use bakhsney::proved::ratio_core::Form;
use bakhsney::proved::ratio_integer::{Integer as Proved, Primitive};
use bakhsney::{integer::Integer, BaseTenText, Ratio};
use num_traits::{CheckedAdd, CheckedDiv, CheckedMul, CheckedRem, CheckedSub, Num};
use std::hash::{Hash, Hasher};
use std::io::Write;

slices! { Integer }

#[inline(never)]
pub fn checked_rem<T: Number + Integer>(pairs: &[Pair<T>], out: &mut [Answer<T>]) {
    each(pairs, out, |pair| answered(pair.0.checked_rem(&pair.1)));
}

#[inline(never)]
pub fn gcd<T: Number + Integer + Primitive>(fractions: &[Ratio<T>], out: &mut [Answer<T>]) {
    each(fractions, out, |x| Answer::some(Proved::gcd(*x.numer(), *x.denom()), T::ONE));
}

#[inline(never)]
pub fn pow<T: Number + Integer>(fractions: &[Ratio<T>], exponents: &[i32], out: &mut [Answer<T>]) {
    for ((x, exponent), place) in fractions.iter().zip(exponents).zip(out) {
        *place = answered(x.checked_pow(*exponent));
    }
}

#[inline(always)]
fn put<T: Number>(fractions: &[Ratio<T>], out: &mut [u8], ends: &mut [usize], mut text: impl FnMut(&Ratio<T>, &mut [u8]) -> usize) {
    let mut at = 0;
    for (x, end) in fractions.iter().zip(ends) {
        at += text(x, &mut out[at..]);
        *end = at;
    }
}

#[inline(always)]
fn copied(text: &str, out: &mut [u8]) -> usize {
    out[..text.len()].copy_from_slice(text.as_bytes());
    text.len()
}

/// In decimal, without std's formatter. Each text takes the place of the one before.
#[inline(never)]
pub fn text<T: Number + Integer>(fractions: &[Ratio<T>], out: &mut [u8], ends: &mut [usize]) {
    let mut text = BaseTenText::empty();
    put(fractions, out, ends, |x, out| {
        x.put_base_ten_text(&mut text);
        copied(text.as_str(), out)
    });
}

/// In base 16, without std's formatter and the layer.
#[inline(never)]
pub fn hex_text<T: Number + Integer + Primitive>(fractions: &[Ratio<T>], out: &mut [u8], ends: &mut [usize]) {
    put(fractions, out, ends, |x, out| {
        let fraction = proved::Ratio::new_raw(*x.numer(), *x.denom());
        copied(fraction.text(Form::LowerHex, false).as_str(), out)
    });
}

/// The reciprocal without the tests of the layer.
#[inline(never)]
pub fn bare_recip<T: Number + Integer + Primitive>(fractions: &[Ratio<T>], out: &mut [Answer<T>]) {
    each(fractions, out, |x| {
        let (numer, denom) = x.into_raw();
        let (numer, denom) = proved::Ratio::new_raw(numer, denom).recip().into_raw();
        Answer::some(numer, denom)
    });
}
