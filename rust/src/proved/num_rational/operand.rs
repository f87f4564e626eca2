// Erased from crates/num_rational/src/operand.rt by rust/erase: not to be edited.
//! The traits `Operand` and `ReducedOperand`: the right operand of a symbol or of a checked call, a fraction or a whole number.

use crate::proved::num_rational::ratio::Ratio;
use crate::proved::num_rational::reduced::Reduced;
use crate::proved::ratio_integer::Integer;

/// What an operator's symbol takes on its right: a fraction, or a whole number over 1. It may be a
/// value or a reference.
pub trait Operand<T: Copy + Integer> {
    /// The operand as a fraction, its fields as they are.
    fn ratio(self) -> Ratio<T>;
}

impl<T: Copy + Integer> Operand<T> for Ratio<T> {
    #[inline]
    fn ratio(self) -> Ratio<T> {
        self
    }
}

impl<T: Copy + Integer> Operand<T> for &Ratio<T> {
    #[inline]
    fn ratio(self) -> Ratio<T> {
        *self
    }
}

impl<T: Copy + Integer> Operand<T> for T {
    #[inline]
    fn ratio(self) -> Ratio<T> {
        Ratio::from_integer(self)
    }
}

impl<T: Copy + Integer> Operand<T> for &T {
    #[inline]
    fn ratio(self) -> Ratio<T> {
        Ratio::from_integer(*self)
    }
}

/// What a checked call of `Reduced` takes on its right: a fraction in lowest terms, or a whole number
/// over 1. It may be a value or a reference.
pub trait ReducedOperand<T: Copy + Integer> {
    /// The operand as a fraction.
    fn reduced(self) -> Reduced<T>;
}

impl<T: Copy + Integer> ReducedOperand<T> for Reduced<T> {
    #[inline]
    fn reduced(self) -> Reduced<T> {
        self
    }
}

impl<T: Copy + Integer> ReducedOperand<T> for &Reduced<T> {
    #[inline]
    fn reduced(self) -> Reduced<T> {
        *self
    }
}

impl<T: Copy + Integer> ReducedOperand<T> for T {
    #[inline]
    fn reduced(self) -> Reduced<T> {
        Reduced::from_integer(self)
    }
}

impl<T: Copy + Integer> ReducedOperand<T> for &T {
    #[inline]
    fn reduced(self) -> Reduced<T> {
        Reduced::from_integer(*self)
    }
}
