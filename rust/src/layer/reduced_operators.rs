//! The operators of `Reduced`, its sums, products and powers, and num-traits' traits for numbers. Each panics exactly where the checked call of
//! its name returns `None`.
use super::integer::{Element, Integer, WholeNumber};
use super::ratio::Ratio;
use super::reduced::Reduced;
use crate::proved::ratio_core::ParseRatioError;
use crate::proved::ratio_decimal::rounding_rule::Rounding;
use core::iter::{Product, Sum};
use core::ops::{Add, AddAssign, Div, DivAssign, Mul, MulAssign, Neg, Rem, RemAssign, Sub, SubAssign};
use num_traits::{
    Bounded, CheckedAdd, CheckedDiv, CheckedEuclid, CheckedMul, CheckedRem, CheckedSub, Euclid, FromPrimitive, Inv, Num, One, Pow, Signed, Zero,
};

// Each operator with its checked call, and its two panics: the first for a divisor of 0, the second for all else.
macro_rules! operators {
    ($($Op:ident $op:ident $OpAssign:ident $op_assign:ident $Checked:ident $checked:ident: $zero:literal, $overflow:literal;)*) => {$(
        impl<T: Integer, O: Into<Reduced<T>>> $Op<O> for Reduced<T> {
            type Output = Reduced<T>;

            /// The right side may be a fraction or a whole number, or a reference to one.
            ///
            /// # Panics
            ///
            #[doc = concat!("If `", stringify!($checked), "` returns `None`.")]
            #[inline]
            #[track_caller]
            fn $op(self, other: O) -> Reduced<T> {
                $op(self, other.into())
            }
        }

        /// The operator, over two fractions.
        ///
        /// # Panics
        ///
        #[doc = concat!("If `", stringify!($checked), "` returns `None`.")]
        #[inline]
        #[track_caller]
        fn $op<T: Integer>(x: Reduced<T>, other: Reduced<T>) -> Reduced<T> {
            match x.$checked(other) {
                Some(answer) => answer,
                None => refuse(other, $zero, $overflow),
            }
        }

        impl<T: Integer, O: Into<Reduced<T>>> $Op<O> for &Reduced<T> {
            type Output = Reduced<T>;

            /// # Panics
            ///
            #[doc = concat!("If `", stringify!($checked), "` returns `None`.")]
            #[inline]
            #[track_caller]
            fn $op(self, other: O) -> Reduced<T> {
                $Op::$op(*self, other)
            }
        }

        impl<T: Integer, O: Into<Reduced<T>>> $OpAssign<O> for Reduced<T> {
            /// # Panics
            ///
            #[doc = concat!("If `", stringify!($checked), "` returns `None`.")]
            #[inline]
            #[track_caller]
            fn $op_assign(&mut self, other: O) {
                *self = $Op::$op(*self, other);
            }
        }

        impl<T: Integer> $Checked for Reduced<T> {
            #[inline]
            fn $checked(&self, other: &Reduced<T>) -> Option<Reduced<T>> {
                Reduced::$checked(self, other)
            }
        }
    )*};
}

operators! {
    Add add AddAssign add_assign CheckedAdd checked_add: "attempt to add with overflow", "attempt to add with overflow";
    Sub sub SubAssign sub_assign CheckedSub checked_sub: "attempt to subtract with overflow", "attempt to subtract with overflow";
    Mul mul MulAssign mul_assign CheckedMul checked_mul: "attempt to multiply with overflow", "attempt to multiply with overflow";
    Div div DivAssign div_assign CheckedDiv checked_div: "denominator == 0", "attempt to multiply with overflow";
    Rem rem RemAssign rem_assign CheckedRem checked_rem: "attempt to calculate the remainder with a divisor of zero", "attempt to multiply with overflow";
}

#[cold]
#[inline(never)]
#[track_caller]
fn refuse<T: Integer>(divisor: Reduced<T>, zero: &str, overflow: &str) -> ! {
    panic!("{}", if divisor.is_zero() { zero } else { overflow })
}

// Numbers on the left of an operator: `2 * x` and `1 - &x`.
macro_rules! from_left {
    ($($type:ident)*) => {$(
        from_left! { $type; Add add Sub sub Mul mul Div div Rem rem }
    )*};
    ($type:ident; $($Op:ident $op:ident)*) => {$(
        from_left! { $Op $op $type; $type, Reduced<$type>; number, x => number, x }
        from_left! { $Op $op $type; $type, &Reduced<$type>; number, x => number, *x }
        from_left! { $Op $op $type; &$type, Reduced<$type>; number, x => *number, x }
        from_left! { $Op $op $type; &$type, &Reduced<$type>; number, x => *number, *x }
    )*};
    ($Op:ident $op:ident $type:ident; $Left:ty, $Right:ty; $number:ident, $x:ident => $left:expr, $right:expr) => {
        impl $Op<$Right> for $Left {
            type Output = Reduced<$type>;

            /// # Panics
            ///
            #[doc = concat!("If `checked_", stringify!($op), "` of the number over 1 returns `None`.")]
            #[inline]
            #[track_caller]
            fn $op(self, $x: $Right) -> Reduced<$type> {
                let $number = self;
                $op(Reduced::from_integer($left), $right)
            }
        }
    };
}

from_left! { i8 i16 i32 i64 i128 isize u8 u16 u32 u64 u128 usize }

impl<T: Integer + Signed> Neg for Reduced<T> {
    type Output = Reduced<T>;

    /// # Panics
    ///
    /// If `checked_neg` returns `None`.
    #[inline]
    #[track_caller]
    fn neg(self) -> Reduced<T> {
        self.checked_neg().expect("attempt to negate with overflow")
    }
}

impl<T: Integer + Signed> Neg for &Reduced<T> {
    type Output = Reduced<T>;

    /// # Panics
    ///
    /// If `checked_neg` returns `None`.
    #[inline]
    #[track_caller]
    fn neg(self) -> Reduced<T> {
        -*self
    }
}

// `sum` and `product` need a step to fit no more than `checked_sum` and `checked_product` do.
macro_rules! folds {
    ($($Fold:ident $fold:ident $checked:ident $overflow:literal;)*) => {$(
        impl<T: Integer, O: Into<Reduced<T>>> $Fold<O> for Reduced<T> {
            /// # Panics
            ///
            #[doc = concat!("If `", stringify!($checked), "` returns `None`.")]
            #[inline]
            #[track_caller]
            fn $fold<I: Iterator<Item = O>>(items: I) -> Reduced<T> {
                Reduced::$checked(items).expect($overflow)
            }
        }
    )*};
}

folds! {
    Sum sum checked_sum "attempt to add with overflow";
    Product product checked_product "attempt to multiply with overflow";
}

impl<T: Integer> Zero for Reduced<T> {
    #[inline]
    fn zero() -> Reduced<T> {
        Reduced::ZERO
    }

    #[inline]
    fn is_zero(&self) -> bool {
        Reduced::is_zero(self)
    }
}

impl<T: Integer> One for Reduced<T> {
    #[inline]
    fn one() -> Reduced<T> {
        Reduced::ONE
    }
}

impl<T: Integer> Num for Reduced<T> {
    type FromStrRadixErr = ParseRatioError;

    #[inline]
    fn from_str_radix(text: &str, radix: u32) -> Result<Reduced<T>, ParseRatioError> {
        Reduced::from_str_radix(text, radix)
    }
}

impl<T: Integer> Bounded for Reduced<T> {
    /// The least number of the type, over 1.
    #[inline]
    fn min_value() -> Reduced<T> {
        Reduced::from_integer(T::min_value())
    }

    /// The greatest number of the type, over 1.
    #[inline]
    fn max_value() -> Reduced<T> {
        Reduced::from_integer(T::max_value())
    }
}

impl<T: Integer + Signed> Signed for Reduced<T> {
    /// # Panics
    ///
    /// If `checked_abs` returns `None`.
    #[inline]
    #[track_caller]
    fn abs(&self) -> Reduced<T> {
        self.checked_abs().expect("attempt to negate with overflow")
    }

    /// # Panics
    ///
    /// If the difference is above 0 and does not fit the type.
    #[inline]
    #[track_caller]
    fn abs_sub(&self, other: &Reduced<T>) -> Reduced<T> {
        if self <= other {
            Reduced::ZERO
        } else {
            self - other
        }
    }

    #[inline]
    fn signum(&self) -> Reduced<T> {
        Reduced::signum(self)
    }

    #[inline]
    fn is_positive(&self) -> bool {
        Reduced::is_positive(self)
    }

    #[inline]
    fn is_negative(&self) -> bool {
        Reduced::is_negative(self)
    }
}

impl<T: Integer> Inv for Reduced<T> {
    type Output = Reduced<T>;

    /// # Panics
    ///
    /// If `checked_recip` returns `None`.
    #[inline]
    #[track_caller]
    fn inv(self) -> Reduced<T> {
        match self.checked_recip() {
            Some(reciprocal) => reciprocal,
            None => refuse(self, "division by zero", "attempt to negate with overflow"),
        }
    }
}

impl<T: Integer> Inv for &Reduced<T> {
    type Output = Reduced<T>;

    /// # Panics
    ///
    /// If `checked_recip` returns `None`.
    #[inline]
    #[track_caller]
    fn inv(self) -> Reduced<T> {
        (*self).inv()
    }
}

impl<T: Integer, N: WholeNumber> Pow<N> for Reduced<T> {
    type Output = Reduced<T>;

    /// # Panics
    ///
    /// If the power does not fit the type, or if the fraction is 0 and the exponent negative.
    #[inline]
    #[track_caller]
    fn pow(self, exponent: N) -> Reduced<T> {
        match self.into_proved().checked_pow_with(exponent.number().into_proved()) {
            Some(power) => Reduced::from_proved(power),
            None => refuse(self, "division by zero", "attempt to multiply with overflow"),
        }
    }
}

impl<T: Integer, N: WholeNumber> Pow<N> for &Reduced<T> {
    type Output = Reduced<T>;

    /// # Panics
    ///
    /// If the power does not fit the type, or if the fraction is 0 and the exponent negative.
    #[inline]
    #[track_caller]
    fn pow(self, exponent: N) -> Reduced<T> {
        Pow::pow(*self, exponent)
    }
}

/// The whole number over 1, or `None` if it does not fit the type. A fraction near a float is that of `Ratio`.
impl<T: Integer> FromPrimitive for Reduced<T> {
    #[inline]
    fn from_i64(number: i64) -> Option<Reduced<T>> {
        Ratio::from_i64(number).as_ref().and_then(Reduced::from_ratio)
    }

    #[inline]
    fn from_u64(number: u64) -> Option<Reduced<T>> {
        Ratio::from_u64(number).as_ref().and_then(Reduced::from_ratio)
    }

    #[inline]
    fn from_i128(number: i128) -> Option<Reduced<T>> {
        Ratio::from_i128(number).as_ref().and_then(Reduced::from_ratio)
    }

    #[inline]
    fn from_u128(number: u128) -> Option<Reduced<T>> {
        Ratio::from_u128(number).as_ref().and_then(Reduced::from_ratio)
    }

    #[inline]
    fn from_f32(float: f32) -> Option<Reduced<T>> {
        <Ratio<T> as FromPrimitive>::from_f32(float).as_ref().and_then(Reduced::from_ratio)
    }

    #[inline]
    fn from_f64(float: f64) -> Option<Reduced<T>> {
        <Ratio<T> as FromPrimitive>::from_f64(float).as_ref().and_then(Reduced::from_ratio)
    }
}

impl<T: Integer> Euclid for Reduced<T> {
    /// The whole number `q` for which `self - q * divisor` is at least 0 and below the magnitude of the divisor.
    ///
    /// # Panics
    ///
    /// If `checked_div_euclid` returns `None`.
    #[inline]
    #[track_caller]
    fn div_euclid(&self, divisor: &Reduced<T>) -> Reduced<T> {
        match self.checked_div_euclid(divisor) {
            Some(quotient) => quotient,
            None => refuse(*divisor, "attempt to divide by zero", "attempt to multiply with overflow"),
        }
    }

    /// What this quotient leaves.
    ///
    /// # Panics
    ///
    /// If `checked_rem_euclid` returns `None`.
    #[inline]
    #[track_caller]
    fn rem_euclid(&self, divisor: &Reduced<T>) -> Reduced<T> {
        match self.checked_rem_euclid(divisor) {
            Some(rest) => rest,
            None => refuse(*divisor, "attempt to divide by zero", "attempt to multiply with overflow"),
        }
    }
}

impl<T: Integer> CheckedEuclid for Reduced<T> {
    /// `None` if the divisor is 0 or the quotient does not fit the type.
    #[inline]
    fn checked_div_euclid(&self, divisor: &Reduced<T>) -> Option<Reduced<T>> {
        let rule = if *divisor < Reduced::ZERO { Rounding::Ceil } else { Rounding::Floor };
        self.checked_div_round(divisor, rule).map(Reduced::from_integer)
    }

    /// `None` if the divisor is 0, or if `checked_rem` or the remainder does not fit the type.
    #[inline]
    fn checked_rem_euclid(&self, divisor: &Reduced<T>) -> Option<Reduced<T>> {
        let rest = Reduced::checked_rem(self, divisor)?;
        match (rest < Reduced::ZERO, *divisor < Reduced::ZERO) {
            (false, _) => Some(rest),
            (true, false) => Reduced::checked_add(&rest, divisor),
            (true, true) => Reduced::checked_sub(&rest, divisor),
        }
    }
}
