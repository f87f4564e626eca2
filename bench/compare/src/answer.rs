//! Results, as both libraries write them, and the integer types.

use num_integer::Integer;
use num_rational::Ratio;
use num_traits::{CheckedAdd, CheckedDiv, CheckedMul, CheckedSub};
use std::fmt::{Debug, Display, LowerHex};
use std::hash::Hash;
use std::str::FromStr;

/// Two numbers if the code is 1. The other codes say why there are none: 0 for `None`, and 2 and 3 for a text
/// that is refused.
#[repr(C)]
#[derive(Clone, Copy, Debug, PartialEq)]
pub struct Answer<T> {
    pub code: u64,
    pub numer: T,
    pub denom: T,
}

impl<T: Number> Answer<T> {
    pub fn some(numer: T, denom: T) -> Answer<T> {
        Answer {
            code: 1,
            numer,
            denom,
        }
    }

    pub fn none(code: u64) -> Answer<T> {
        Answer {
            code,
            numer: T::zero(),
            denom: T::zero(),
        }
    }
}

/// What the bench requires of an integer type.
pub trait Number:
    Copy
    + Integer
    + CheckedAdd
    + CheckedSub
    + CheckedMul
    + CheckedDiv
    + Hash
    + Display
    + LowerHex
    + Debug
    + FromStr
{
    const WIDTH: u32;

    fn narrow(n: i128) -> Self;

    /// A power by the crate, which requires a trait of references to the type.
    fn power(x: &Ratio<Self>, exponent: i32) -> Ratio<Self>;
}

macro_rules! number {
    ($($t:ty),*) => {$(
        impl Number for $t {
            const WIDTH: u32 = <$t>::BITS;

            fn narrow(n: i128) -> $t {
                n as $t
            }

            fn power(x: &Ratio<$t>, exponent: i32) -> Ratio<$t> {
                x.pow(exponent)
            }
        }
    )*};
}

number!(i32, i64, i128);
