// Erased from crates/ratio_core/src/counted.rt by rust/erase: not to be edited.
//! `Counted`: the numbers of an integer type, with no division that takes no step.
//!
//! A function that knows its numbers by this trait alone cannot divide but by its calls. So these divisions are at most the steps that it
//! takes, over each integer type. What a type does inside its own calls, such as a product by repeated sums, is not seen here.

use crate::proved::ratio_core::steps::{Side, Steps};
use crate::proved::ratio_integer::Integer;

/// The numbers of an integer type. Its calls are those of `Integer`, but each of the three that divide takes a step of a side.
pub trait Counted: Copy + Ord {
    /// The number 0.
    const ZERO: Self;

    /// The number 1.
    const ONE: Self;

    /// The least number.
    const MIN: Self;

    /// The greatest number.
    const MAX: Self;

    /// The sum. It requires that `try_plus` returns `Some`.
    ///
    /// # Conditions
    ///
    /// The proof requires of the caller:
    ///
    /// - `IsHeld lo hi (value self +ℤ value o)`
    fn plus(self, o: Self) -> Self;

    /// The difference. It requires that `try_minus` returns `Some`.
    ///
    /// # Conditions
    ///
    /// The proof requires of the caller:
    ///
    /// - `IsHeld lo hi (value self -ℤ value o)`
    fn minus(self, o: Self) -> Self;

    /// The product. It requires that `try_times` returns `Some`.
    ///
    /// # Conditions
    ///
    /// The proof requires of the caller:
    ///
    /// - `IsHeld lo hi (value self *ℤ value o)`
    fn times(self, o: Self) -> Self;

    /// The product, or `None` if it does not fit the type.
    fn try_times(self, o: Self) -> Option<Self>;

    /// The sum, or `None` if it does not fit the type.
    fn try_plus(self, o: Self) -> Option<Self>;

    /// The difference, or `None` if it does not fit the type.
    fn try_minus(self, o: Self) -> Option<Self>;

    /// Whether the number is 0.
    fn is_zero(self) -> bool;

    /// Whether the number is 1.
    fn is_one(self) -> bool;

    /// Always true. The contract says that the number fits the type.
    fn held(self) -> bool;

    /// The value with the number `n`, or `None` if `n` does not fit the type.
    fn from_i128(n: i128) -> Option<Self>;

    /// The half base of `Integer`, if the type has one.
    fn half_base() -> Option<Self>;

    /// The floored quotient, and the remainder, which is 0 or has the sign of `o`.
    ///
    /// # Conditions
    ///
    /// The proof requires of the caller:
    ///
    /// - `nonzero`: `value o ≢ pos 0`
    /// - `held`: `¬ (IsAboveMax hi (value self) (value o))`
    fn div_mod_floor(self, o: Self, side: Side, steps: &mut Steps) -> (Self, Self);

    /// The quotient cut towards zero, and the remainder, which is 0 or has the sign of `self`.
    ///
    /// # Conditions
    ///
    /// The proof requires of the caller:
    ///
    /// - `nonzero`: `value o ≢ pos 0`
    /// - `held`: `¬ (IsAboveMax hi (value self) (value o))`
    fn div_rem(self, o: Self, side: Side, steps: &mut Steps) -> (Self, Self);

    /// The high and the low half.
    ///
    /// # Conditions
    ///
    /// The proof requires of the caller:
    ///
    /// - `pos 0 <ℤ value base`
    fn halves(self, base: Self, side: Side, steps: &mut Steps) -> (Self, Self);
}

impl<T: Integer> Counted for T {
    const ZERO: T = T::ZERO;

    const ONE: T = T::ONE;

    const MIN: T = T::MIN;

    const MAX: T = T::MAX;

    #[inline(always)]
    fn plus(self, o: T) -> T {
        Integer::plus(self, o)
    }

    #[inline(always)]
    fn minus(self, o: T) -> T {
        Integer::minus(self, o)
    }

    #[inline(always)]
    fn times(self, o: T) -> T {
        Integer::times(self, o)
    }

    #[inline(always)]
    fn try_times(self, o: T) -> Option<T> {
        Integer::try_times(self, o)
    }

    #[inline(always)]
    fn try_plus(self, o: T) -> Option<T> {
        Integer::try_plus(self, o)
    }

    #[inline(always)]
    fn try_minus(self, o: T) -> Option<T> {
        Integer::try_minus(self, o)
    }

    #[inline(always)]
    fn is_zero(self) -> bool {
        Integer::is_zero(self)
    }

    #[inline(always)]
    fn is_one(self) -> bool {
        Integer::is_one(self)
    }

    #[inline(always)]
    fn held(self) -> bool {
        Integer::held(self)
    }

    #[inline(always)]
    fn from_i128(n: i128) -> Option<T> {
        <T as Integer>::from_i128(n)
    }

    #[inline(always)]
    fn half_base() -> Option<T> {
        <T as Integer>::half_base()
    }

    #[inline(always)]
    fn div_mod_floor(self, o: T, side: Side, steps: &mut Steps) -> (T, T) {
        tick(side, steps);
        Integer::div_mod_floor(self, o)
    }

    #[inline(always)]
    fn div_rem(self, o: T, side: Side, steps: &mut Steps) -> (T, T) {
        tick(side, steps);
        Integer::div_rem(self, o)
    }

    #[inline(always)]
    fn halves(self, base: T, side: Side, steps: &mut Steps) -> (T, T) {
        tick(side, steps);
        Integer::halves(self, base)
    }
}

/// One more step of the side.
#[inline]
fn tick(side: Side, steps: &mut Steps) {
    match side {
        Side::Left => steps.tick_left(),
        Side::Right => steps.tick_right(),
    }
}
