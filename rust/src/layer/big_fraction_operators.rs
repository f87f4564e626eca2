//! The operators of `BigFraction` in all forms, the checked traits, and `sum` and `product`. A whole number, a `Ratio` or a `Reduced` may be on
//! either side.
use super::big_fraction::{divided, taken, BigFraction};
use super::big_fraction_operand::BigOperand;
use super::integer::Integer;
use super::ratio::Ratio;
use super::reduced::Reduced;
use crate::memory::Global;
use core::iter::{Product, Sum};
use core::ops::{Add, AddAssign, Div, DivAssign, Mul, MulAssign, Neg, Sub, SubAssign};
use num_traits::{CheckedAdd, CheckedDiv, CheckedMul, CheckedSub, Inv};

macro_rules! operators {
    ($($Op:ident $op:ident $OpAssign:ident $op_assign:ident by $proved:ident $($zero:literal)?;)*) => {$(
        impl<O: BigOperand> $Op<O> for &BigFraction {
            type Output = BigFraction;

            /// The right side may be a fraction or a whole number, or a reference to one.
            ///
            /// # Panics
            ///
            #[doc = concat!("For want of memory, or if the right side is a `Ratio` with the denominator 0.", $(" With `", $zero, "` if it is 0.")?)]
            #[inline]
            #[track_caller]
            fn $op(self, other: O) -> BigFraction {
                BigFraction(divided(other.bakhsney_to(|other| self.0.$proved(Global, &other.0)), "denominator == 0")$(.expect($zero))?)
            }
        }

        impl<O: BigOperand> $Op<O> for BigFraction {
            type Output = BigFraction;

            /// # Panics
            ///
            /// As for a reference.
            #[inline]
            #[track_caller]
            fn $op(self, other: O) -> BigFraction {
                $Op::$op(&self, other)
            }
        }

        impl<O: BigOperand> $OpAssign<O> for BigFraction {
            /// # Panics
            ///
            /// As for a reference.
            #[inline]
            #[track_caller]
            fn $op_assign(&mut self, other: O) {
                *self = $Op::$op(&*self, other);
            }
        }

        /// The same with any operand on the left.
        ///
        /// # Panics
        ///
        /// As for a reference, or if the left side is a `Ratio` with the denominator 0.
        #[inline]
        #[track_caller]
        fn $op(left: impl BigOperand, right: impl BigOperand) -> BigFraction {
            let result = left.bakhsney_to(|left| right.bakhsney_to(|right| left.0.$proved(Global, &right.0)));
            BigFraction(divided(result.map(Option::flatten), "denominator == 0")$(.expect($zero))?)
        }

        from_left! { $Op $op; Ratio<T>, Reduced<T>, i8, i16, i32, i64, i128, isize, u8, u16, u32, u64, u128, usize }
    )*};
}

// The left sides, and references to them. Rust takes no impl for all `T: Integer` there, since `Add` and the like are not of this crate.
macro_rules! from_left {
    ($Op:ident $op:ident; $Ratio:ty, $Reduced:ty, $($type:ty),*) => {
        from_left! { $Op $op <T: Integer>: $Ratio }
        from_left! { $Op $op <T: Integer>: $Reduced }
        $(from_left! { $Op $op: $type })*
    };
    ($Op:ident $op:ident $(<$T:ident: $Bound:ident>)?: $Left:ty) => {
        from_left! { $Op $op $(<$T: $Bound>)?; $Left, BigFraction }
        from_left! { $Op $op $(<$T: $Bound>)?; $Left, &BigFraction }
        from_left! { $Op $op $(<$T: $Bound>)?; &$Left, BigFraction }
        from_left! { $Op $op $(<$T: $Bound>)?; &$Left, &BigFraction }
    };
    ($Op:ident $op:ident $(<$T:ident: $Bound:ident>)?; $Left:ty, $Right:ty) => {
        impl$(<$T: $Bound>)? $Op<$Right> for $Left {
            type Output = BigFraction;

            /// # Panics
            ///
            /// As for a `BigFraction` on the left, or if a `Ratio` there has the denominator 0.
            #[inline]
            #[track_caller]
            fn $op(self, other: $Right) -> BigFraction {
                $op(self, other)
            }
        }
    };
}
pub(super) use {from_left, operators};

operators! {
    Add add AddAssign add_assign by add;
    Sub sub SubAssign sub_assign by subtract;
    Mul mul MulAssign mul_assign by multiply;
    Div div DivAssign div_assign by divide "denominator == 0";
}

impl Neg for &BigFraction {
    type Output = BigFraction;

    /// # Panics
    ///
    /// For want of memory.
    #[inline]
    #[track_caller]
    fn neg(self) -> BigFraction {
        taken(self.try_neg())
    }
}

impl Neg for BigFraction {
    type Output = BigFraction;

    /// # Panics
    ///
    /// For want of memory.
    #[inline]
    #[track_caller]
    fn neg(self) -> BigFraction {
        -&self
    }
}

impl Inv for &BigFraction {
    type Output = BigFraction;

    /// # Panics
    ///
    /// If the fraction is 0, or for want of memory.
    #[inline]
    #[track_caller]
    fn inv(self) -> BigFraction {
        self.recip()
    }
}

impl Inv for BigFraction {
    type Output = BigFraction;

    /// # Panics
    ///
    /// If the fraction is 0, or for want of memory.
    #[inline]
    #[track_caller]
    fn inv(self) -> BigFraction {
        self.recip()
    }
}

macro_rules! checked {
    ($($(#[$doc:meta])* $Checked:ident $checked:ident: $x:ident, $y:ident => $result:expr;)*) => {$(
        impl $Checked for BigFraction {
            $(#[$doc])*
            #[inline]
            fn $checked(&self, $y: &BigFraction) -> Option<BigFraction> {
                let $x = self;
                $result
            }
        }
    )*};
}
pub(super) use checked;

checked! {
    /// The sum, or `None` for want of memory.
    CheckedAdd checked_add: x, y => x.try_add(y).ok();

    /// The difference, or `None` for want of memory.
    CheckedSub checked_sub: x, y => x.try_sub(y).ok();

    /// The product, or `None` for want of memory.
    CheckedMul checked_mul: x, y => x.try_mul(y).ok();

    /// The quotient, or `None` if the divisor is 0 or for want of memory.
    CheckedDiv checked_div: x, y => x.try_div(y).ok().flatten();
}

// Each fold is a loop: a panic in a closure would name a line of this file.
macro_rules! folds {
    ($($Fold:ident $fold:ident $start:literal $op:tt;)*) => {$(
        impl<O: BigOperand> $Fold<O> for BigFraction {
            /// # Panics
            ///
            /// For want of memory, or if a `Ratio` has the denominator 0.
            #[inline]
            #[track_caller]
            #[allow(clippy::assign_op_pattern)]
            fn $fold<I: Iterator<Item = O>>(items: I) -> BigFraction {
                let mut total = BigFraction::from($start);
                for item in items {
                    total = total $op item;
                }
                total
            }
        }
    )*};
}

folds! {
    Sum sum 0 +;
    Product product 1 *;
}
