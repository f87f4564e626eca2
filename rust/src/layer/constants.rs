//! Constants that the compiler brings to lowest terms: `const_new` of `Ratio` and of `Reduced`, and the macro `ratio`.
//!
//! This module is not proved, since a `const fn` calls no trait. Tests compare it with `checked_new`.
use super::integer::Element;
use super::ratio::Ratio;
use super::reduced::Reduced;
use crate::proved::num_rational as proved;

/// A [`Reduced`] that the compiler brings to lowest terms: `ratio!(1/3)`, `ratio!(-7/2)` or `ratio!(5)`, over `i64`. Another type comes
/// behind a comma. num-rational has no such macro.
///
/// ```
/// use num_rational::{ratio, Reduced, Reduced64};
///
/// const RATE: Reduced64 = ratio!(19/100);
/// assert_eq!(RATE + ratio!(-7/2), ratio!(-331/100));
/// assert_eq!(ratio!(5), 5);
/// assert_eq!(ratio!(6/-4, i8), Reduced::checked_new(-3i8, 2).unwrap());
/// ```
///
/// A denominator of 0, a number that does not fit the type, and lowest terms that do not fit it, are errors of the compiler:
///
/// ```compile_fail
/// num_rational::ratio!(1/0);
/// ```
///
/// ```compile_fail
/// #![allow(overflowing_literals)]
/// num_rational::ratio!(9223372036854775808/3);
/// ```
///
/// ```compile_fail
/// num_rational::ratio!(1/-128, i8);
/// ```
///
/// ```compile_fail
/// num_rational::ratio!(-1/2, u8);
/// ```
///
/// ```compile_fail
/// num_rational::ratio!(0.5);
/// ```
#[macro_export]
macro_rules! ratio {
    ($numer:literal $(/ $denom:literal)?) => {
        $crate::ratio!($numer $(/ $denom)?, i64)
    };
    ($numer:literal, $type:ty) => {
        $crate::ratio!($numer / 1, $type)
    };
    ($numer:literal / $denom:literal, $type:ty) => {{
        // In a program that allows them, numbers that do not fit would wrap.
        #[deny(overflowing_literals)]
        const FRACTION: $crate::Reduced<$type> = $crate::Reduced::<$type>::const_new($numer, $denom);
        FRACTION
    }};
}

macro_rules! constants {
    ($($type:ident: $numer:ident, $denom:ident => $lowest:expr;)*) => {$(
        impl Ratio<$type> {
            /// The lowest terms of `numer/denom`, as a constant: the compiler computes them. This call is not proved. num-rational has
            /// no such call.
            ///
            /// # Panics
            ///
            /// If `new` panics. In a constant, that is an error of the compiler.
            ///
            /// ```
            /// use num_rational::Ratio;
            ///
            #[doc = concat!("const QUARTER: Ratio<", stringify!($type), "> = Ratio::<", stringify!($type), ">::const_new(25, 100);")]
            /// assert_eq!(QUARTER.into_raw(), (1, 4));
            /// ```
            #[inline]
            #[track_caller]
            #[must_use]
            pub const fn const_new($numer: $type, $denom: $type) -> Ratio<$type> {
                let (numer, denom) = $lowest;
                Ratio::new_raw(numer, denom)
            }
        }

        impl Reduced<$type> {
            /// The lowest terms of `numer/denom`, as a constant: the compiler computes them. This call is not proved.
            ///
            /// # Panics
            ///
            /// If `checked_new` is `None`. In a constant, that is an error of the compiler.
            ///
            /// ```
            /// use num_rational::Reduced;
            ///
            #[doc = concat!("const QUARTER: Reduced<", stringify!($type), "> = Reduced::<", stringify!($type), ">::const_new(25, 100);")]
            /// assert_eq!(QUARTER.into_raw(), (1, 4));
            /// ```
            ///
            /// ```compile_fail
            #[doc = concat!("const NONE: num_rational::Reduced<", stringify!($type), "> = num_rational::Reduced::<", stringify!($type), ">::const_new(1, 0);")]
            /// ```
            #[inline]
            #[track_caller]
            #[must_use]
            pub const fn const_new($numer: $type, $denom: $type) -> Reduced<$type> {
                let lowest = Ratio::<$type>::const_new($numer, $denom);
                let (numer, denom) = (*lowest.numer(), *lowest.denom());
                type Proved = <$type as Element>::Proved;
                Reduced::of_lowest(proved::Ratio { numer: numer as Proved, denom: denom as Proved })
            }
        }
    )*};
}

macro_rules! with_numbers_below_0 {
    ($($type:ident)*) => { constants! {$(
        $type: numer, denom => {
            let (top, bottom) = lowest(numer.unsigned_abs() as u128, denom.unsigned_abs() as u128);
            let is_below_0 = (numer < 0) != (denom < 0);
            let most = <$type>::MAX as u128;
            assert!(bottom <= most && top <= most + is_below_0 as u128, "attempt to negate with overflow");
            (if is_below_0 { (top as $type).wrapping_neg() } else { top as $type }, bottom as $type)
        };
    )*} };
}

macro_rules! from_0_on {
    ($($type:ident)*) => { constants! {$(
        $type: numer, denom => {
            let (top, bottom) = lowest(numer as u128, denom as u128);
            (top as $type, bottom as $type)
        };
    )*} };
}

with_numbers_below_0! { i8 i16 i32 i64 i128 isize }
from_0_on! { u8 u16 u32 u64 u128 usize }

/// Both numbers divided by their greatest common divisor, which Euclid's algorithm finds.
///
/// # Panics
///
/// If the denominator is 0.
#[track_caller]
const fn lowest(numer: u128, denom: u128) -> (u128, u128) {
    assert!(denom != 0, "denominator == 0");
    let (mut divisor, mut rest) = (numer, denom);
    while rest != 0 {
        (divisor, rest) = (rest, divisor % rest);
    }
    (numer / divisor, denom / divisor)
}
