// Erased from crates/ratio_c/src/crossing.rt by rust/erase: not to be edited.
//! The traits of inputs and answers, as they cross from a caller and back, the answers of checked calls and of refusals, and the numbers
//! that a hash takes.

use crate::proved::ratio_c::code::{ANSWERED, NOT_HELD};
use bakhsney::proved::ratio_integer::{Primitive, SignedInteger};

/// A number of at most 128 bits, with its sign. A hash takes its lowest 64 bits.
pub trait Digest: Copy + Primitive + SignedInteger {
    /// The number modulo 2^64.
    fn residue(self) -> u64;

    /// The number in 128 bits.
    fn wide(self) -> i128;
}

impl Digest for i32 {
    #[inline(always)]
    fn residue(self) -> u64 {
        (self as i128).rem_euclid(1 << 64) as u64
    }

    #[inline(always)]
    fn wide(self) -> i128 {
        self as i128
    }
}

impl Digest for i64 {
    #[inline(always)]
    fn residue(self) -> u64 {
        (self as i128).rem_euclid(1 << 64) as u64
    }

    #[inline(always)]
    fn wide(self) -> i128 {
        self as i128
    }
}

impl Digest for i128 {
    #[inline(always)]
    fn residue(self) -> u64 {
        self.rem_euclid(1 << 64) as u64
    }

    #[inline(always)]
    fn wide(self) -> i128 {
        self
    }
}

/// A fraction.
pub trait OneFraction {
    /// The type of its two numbers in the library.
    type Inside: Digest;

    /// Its two numbers, as the library takes them.
    fn fraction(&self) -> (Self::Inside, Self::Inside);
}

/// A fraction and the exponent of its power.
pub trait Raised: OneFraction {
    /// The exponent.
    fn exponent(&self) -> i32;
}

/// A fraction and the place of one of its convergents.
pub trait Placed: OneFraction {
    /// The place.
    fn place(&self) -> u32;
}

/// A fraction and a bound of denominators.
pub trait Bounded: OneFraction {
    /// The bound, as the library takes it.
    fn most(&self) -> Self::Inside;
}

/// Two fractions.
pub trait TwoFractions {
    /// The type of their numbers in the library.
    type Inside: Primitive;

    /// The first one.
    fn left(&self) -> (Self::Inside, Self::Inside);

    /// The second one.
    fn right(&self) -> (Self::Inside, Self::Inside);
}

/// Two bounds, and flags that say which of them is included, and which is open.
pub trait FlaggedBounds: TwoFractions {
    /// The flags.
    fn flags(&self) -> u32;
}

/// Two fractions and the number of a rule by which their product is rounded.
pub trait RuledPair: TwoFractions {
    /// The number of the rule.
    fn rule(&self) -> u32;
}

/// Two fractions, the number of a rule, and the parts of 1 to a multiple of which their product or quotient is rounded.
pub trait PartedPair: RuledPair {
    /// The parts, as the library takes them.
    fn parts(&self) -> Self::Inside;
}

/// A fraction and the number of a rule by which it is rounded.
pub trait Ruled: OneFraction {
    /// The number of the rule.
    fn rule(&self) -> u32;
}

/// A fraction, the number of a rule, and the parts of 1 to a multiple of which it is rounded.
pub trait Parted: Ruled {
    /// The parts, as the library takes them.
    fn parts(&self) -> Self::Inside;
}

/// A fraction, the number of a rule, and the decimal places to which it is rounded.
pub trait Pointed: Ruled {
    /// The places.
    fn places(&self) -> u32;
}

/// An answer: a code, and the two numbers of a fraction over `T`.
pub trait Reply<T: Primitive> {
    /// The answer with this code and these numbers.
    fn reply(code: u32, numer: T, denom: T) -> Self;
}

/// An answer without numbers: the code says why.
#[inline(always)]
pub fn refused<T: Copy + Primitive, A: Reply<T>>(code: u32) -> A {
    A::reply(code, T::ZERO, T::ZERO)
}

/// The answer for a whole number: the number over 1.
#[inline(always)]
pub fn whole<T: Copy + Primitive, A: Reply<T>>(number: T) -> A {
    A::reply(ANSWERED, number, T::ONE)
}

/// The answer for the two numbers that a checked call returned.
#[inline(always)]
pub fn checked<T: Copy + Primitive, A: Reply<T>>(answer: Option<(T, T)>) -> A {
    match answer {
        Some((numer, denom)) => A::reply(ANSWERED, numer, denom),
        None => refused::<T, A>(NOT_HELD),
    }
}
