// Erased from crates/ratio_totals/src/numbers.rt by rust/erase: not to be edited.
//! The numbers of a fraction as totals take them, with a sign or as a sign and a magnitude, and back.

use crate::proved::ratio_totals::short::Short;
use crate::proved::num_rational::Reduced;
use crate::proved::ratio_integer::Primitive;
use crate::proved::ratio_slots::WideFraction;

/// The numerator and the denominator.
#[inline]
pub(crate) fn parts<T: Short>(x: &Reduced<T>) -> (i128, u64) {
    (wide(*x.numer()), size(*x.denom()))
}

/// The number without its sign.
#[inline]
pub(crate) fn size<T: Short>(t: T) -> u64 {
    wide(t).unsigned_abs() as u64
}

/// The number as an `i128`.
#[inline]
pub(crate) fn wide<T: Short>(t: T) -> i128 {
    match t.to_i128() {
        Some(n) => n,
        None => unreachable!(),
    }
}

/// The fraction of two numbers in lowest terms, or `None` if one of them does not fit the type.
///
/// # Conditions
///
/// The proof requires of the caller:
///
/// - `lowest`: `IsLowestTerms numer (pos denom)`
#[inline]
pub(crate) fn fraction<T: Short>(numer: i128, denom: u64) -> Option<Reduced<T>> {
    let numer = T::from_i128(numer)?;
    let denom = T::from_u128(denom as u128)?;
    Reduced::checked_new(numer, denom)
}

/// The sign of the numerator, the numerator without it, and the denominator.
#[inline]
pub(crate) fn wide_parts<T: Primitive>(x: &Reduced<T>) -> WideFraction {
    wide_of(*x.numer(), *x.denom())
}

/// The fraction of two numbers, with the sign of the first one.
#[inline]
pub(crate) fn wide_of<T: Primitive>(numer: T, denom: T) -> WideFraction {
    let (negative, numer) = magnitude(numer);
    let (_, denom) = magnitude(denom);
    WideFraction {
        negative,
        numer,
        denom,
    }
}

/// Whether the number is below 0, and the number without its sign.
#[inline]
pub(crate) fn magnitude<T: Primitive>(t: T) -> (bool, u128) {
    match t.to_i128() {
        Some(n) => (n < 0, n.unsigned_abs()),
        None => match t.to_u128() {
            Some(n) => (false, n),
            None => unreachable!(),
        },
    }
}

/// The number of this sign and magnitude, or `None` if it does not fit the type.
///
/// # Conditions
///
/// The proof requires of the caller:
///
/// - `negative ≡ true → 0 < size`
#[inline]
pub(crate) fn signed<T: Primitive>(negative: bool, size: u128) -> Option<T> {
    if !negative {
        return T::from_u128(size);
    }
    if size > 1 << 127 {
        return None;
    }
    T::from_i128(below_zero(size))
}

// The negative of a number of at most 2^127, which is not an `i128` itself.
#[inline]
fn below_zero(size: u128) -> i128 {
    -((size - 1) as i128) - 1
}

/// The fraction of two numbers in lowest terms, or `None` if one of them does not fit the type.
///
/// # Conditions
///
/// The proof requires of the caller:
///
/// - `lowest`: `IsLowestTerms (wide_pair terms).0 (pos (wide_pair terms).1)`
/// - `sign`: `HasItsSign terms`
#[inline]
pub(crate) fn wide_fraction<T: Primitive>(terms: WideFraction) -> Option<Reduced<T>> {
    let numer = signed(terms.negative, terms.numer)?;
    let denom = T::from_u128(terms.denom)?;
    Reduced::checked_new(numer, denom)
}
