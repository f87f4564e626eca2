//! The numbers of a fraction, as the proved calls of totals take and return them.
use super::integer::{Element, Integer};
use super::reduced::Reduced;
#[cfg(feature = "alloc")]
use crate::newer::checked_sub_unsigned;
use crate::proved::ratio_integer::Primitive;
#[cfg(feature = "alloc")]
use crate::proved::ratio_slots::WideFraction;

/// Whether the type has at most 64 bits. Then the numbers of each fraction are short.
#[inline]
pub(super) fn is_short<T: Integer>() -> bool {
    <T as Element>::Proved::BITS <= 64
}

/// The numbers of a fraction over a type of at most 64 bits.
#[inline]
pub(super) fn short<T: Integer>(fraction: Reduced<T>) -> (i128, u64) {
    let (numer, denom) = fraction.into_raw();
    match (numer.to_i128(), denom.to_u64()) {
        (Some(numer), Some(denom)) => (numer, denom),
        _ => unreachable!("the type has at most 64 bits, and the denominator is above 0"),
    }
}

/// The fraction of two numbers in lowest terms, if they fit the type.
#[inline]
pub(super) fn of_short<T: Integer>((numer, denom): (i128, u64)) -> Option<Reduced<T>> {
    Reduced::checked_new(T::from(numer)?, T::from(denom)?)
}

/// The two numbers of a fraction. The denominator is above 0.
#[cfg(feature = "alloc")]
pub(super) enum Numbers {
    /// Both are below 2^64, the numerator without its sign.
    Short(i128, u64),
    /// One is 2^64 or more.
    Wide(WideFraction),
}

#[cfg(feature = "alloc")]
impl Numbers {
    #[inline]
    pub(super) fn of<T: Integer>(fraction: Reduced<T>) -> Numbers {
        if is_short::<T>() {
            let (numer, denom) = short(fraction);
            return Numbers::Short(numer, denom);
        }
        let (numer, denom) = fraction.into_raw();
        Numbers::with_sign(numer < T::zero(), magnitude(numer), magnitude(denom))
    }

    /// Those of the product, or `None` if one of its lowest terms is 2^128 or more, the numerator without its sign.
    pub(super) fn of_product<T: Integer>(left: Reduced<T>, right: Reduced<T>) -> Option<Numbers> {
        let over_i128 = || left.cast::<i128>()?.checked_mul(right.cast::<i128>()?);
        if let Some(product) = over_i128() {
            return Some(Numbers::of(product));
        }
        let is_negative = |x: Reduced<T>| *x.numer() < T::zero();
        let (numer, denom) = without_sign(left).checked_mul(without_sign(right))?.into_raw();
        Some(Numbers::with_sign(is_negative(left) != is_negative(right), numer, denom))
    }

    fn with_sign(negative: bool, numer: u128, denom: u128) -> Numbers {
        match (u64::try_from(numer), u64::try_from(denom)) {
            (Ok(numer), Ok(denom)) => Numbers::Short(if negative { -i128::from(numer) } else { numer.into() }, denom),
            _ => Numbers::Wide(WideFraction { negative, numer, denom }),
        }
    }
}

/// The number without its sign.
#[cfg(feature = "alloc")]
pub(super) fn magnitude<T: Integer>(number: T) -> u128 {
    match number.to_i128() {
        Some(number) => number.unsigned_abs(),
        None => number.to_u128().expect("it is 2^127 or more"),
    }
}

/// The fraction without its sign.
#[cfg(feature = "alloc")]
fn without_sign<T: Integer>(fraction: Reduced<T>) -> Reduced<u128> {
    // The numerator -2^127 alone has no negative.
    let negative = || fraction.cast::<i128>()?.checked_neg()?.cast();
    let from_numbers = || Reduced::checked_new(magnitude(*fraction.numer()), magnitude(*fraction.denom()));
    fraction.cast().or_else(negative).or_else(from_numbers).expect("the denominator is not 0")
}

/// The number of this sign and this magnitude, if it fits the type.
#[cfg(feature = "alloc")]
pub(super) fn signed<T: Integer>(negative: bool, magnitude: u128) -> Option<T> {
    if negative {
        T::from(checked_sub_unsigned(0, magnitude)?)
    } else {
        T::from(magnitude)
    }
}

/// The fraction of two numbers in lowest terms, if they fit the type.
#[cfg(feature = "alloc")]
pub(super) fn of_wide<T: Integer>(terms: WideFraction) -> Option<Reduced<T>> {
    Reduced::checked_new(signed(terms.negative, terms.numer)?, T::from(terms.denom)?)
}
