// Erased from crates/ratio_big/src/fraction.rt by rust/erase: not to be edited.
//! The struct `BigFraction`, an exact fraction of any size in lowest terms: from a whole number or a `Reduced64`, and back to one.

use crate::memory::Vec;
use crate::proved::num_rational::Reduced64;

/// An exact fraction of any size, always in lowest terms: its denominator is positive, and no number above 1 divides both numbers.
///
/// A contract sees it as the pair of these two numbers, by `big_numbers`: `(1, 2)` for 1/2.
pub struct BigFraction {
    pub(crate) form: Form,
}

// A fraction is `Small` exactly if both numbers fit an `i64`, and a `Large` one has no leading zeros. So each value has one form.
pub(crate) enum Form {
    Small(Reduced64),
    Large(LongFraction),
}

// A sign, and the digits of both numbers, without leading zeros.
pub(crate) struct LongFraction {
    pub(crate) negative: bool,
    pub(crate) numer: Vec<u64>,
    pub(crate) denom: Vec<u64>,
}

impl BigFraction {
    /// The fraction 0/1, which takes no memory.
    #[inline]
    pub fn zero() -> BigFraction {
        BigFraction::from_integer(0)
    }

    /// The fraction 1/1, which takes no memory.
    #[inline]
    pub fn one() -> BigFraction {
        BigFraction::from_integer(1)
    }

    /// The whole number over 1, which takes no memory.
    #[inline]
    pub fn from_integer(n: i64) -> BigFraction {
        BigFraction::from_reduced(Reduced64::from_integer(n))
    }

    /// The same fraction.
    #[inline(always)]
    pub const fn from_reduced(x: Reduced64) -> BigFraction {
        BigFraction {
            form: Form::Small(x),
        }
    }

    /// The same fraction, or `None` exactly if one of its numbers does not fit an `i64`.
    #[inline(always)]
    pub fn to_reduced(&self) -> Option<Reduced64> {
        match &self.form {
            Form::Small(x) => {
                Some(*x)
            }
            Form::Large(_) => None,
        }
    }
}
