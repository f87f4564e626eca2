//! Sums, differences, products, quotients and remainders: the checked traits, the operators, also with a number on the left, and the folds.
use super::integer::{Element, Integer};
use super::ratio::Ratio;
use super::same::on_machine;
use super::schoolbook;
use core::iter::{Product, Sum};
use core::ops::{Add, AddAssign, Div, DivAssign, Mul, MulAssign, Rem, RemAssign, Sub, SubAssign};
use num_traits::{CheckedAdd, CheckedDiv, CheckedMul, CheckedRem, CheckedSub};

macro_rules! checked_calls {
    ($($Checked:ident $checked:ident $($Bound:ident)*;)*) => {$(
        impl<T: Clone + num_integer::Integer $(+ $Bound)*> $Checked for Ratio<T> {
            #[inline]
            fn $checked(&self, other: &Ratio<T>) -> Option<Ratio<T>> {
                on_machine!(T, same => Some(same.back(machine::$checked(same.fraction(self), same.fraction(other))?)));
                schoolbook::$checked(self, other)
            }
        }
    )*};
}

checked_calls! {
    CheckedAdd checked_add CheckedMul CheckedAdd;
    CheckedSub checked_sub CheckedMul CheckedSub;
    CheckedMul checked_mul CheckedMul;
    CheckedDiv checked_div CheckedMul;
}

/// num-rational has no such trait.
impl<T: Integer> CheckedRem for Ratio<T> {
    #[inline]
    fn checked_rem(&self, other: &Ratio<T>) -> Option<Ratio<T>> {
        machine::checked_rem(self, other)
    }
}

/// The proved calls, for the machine types.
mod machine {
    use super::{refuse, Integer, Ratio};

    // Each operator has its checked call, and its two panics if that returns `None`: the first for a divisor of 0, the second for all
    // else. A denominator of 0 has the same panic in each operator.
    macro_rules! calls {
        ($($op:ident $checked:ident $zero:literal $overflow:literal;)*) => {$(
            #[inline]
            pub(super) fn $checked<T: Integer>(x: &Ratio<T>, other: &Ratio<T>) -> Option<Ratio<T>> {
                x.positive()?.$checked(&other.positive()?).map(Ratio::from_proved)
            }

            #[inline]
            #[track_caller]
            pub(super) fn $op<T: Integer>(x: &Ratio<T>, other: &Ratio<T>) -> Ratio<T> {
                match $checked(x, other) {
                    Some(answer) => answer,
                    None => refuse(x, other, $zero, $overflow),
                }
            }
        )*};
    }

    calls! {
        add checked_add "attempt to add with overflow" "attempt to add with overflow";
        sub checked_sub "attempt to subtract with overflow" "attempt to subtract with overflow";
        mul checked_mul "attempt to multiply with overflow" "attempt to multiply with overflow";
        div checked_div "denominator == 0" "attempt to multiply with overflow";
        rem checked_rem "attempt to calculate the remainder with a divisor of zero" "attempt to multiply with overflow";
    }
}

macro_rules! operators {
    ($($Op:ident $op:ident $OpAssign:ident $op_assign:ident;)*) => {$(
        impl<T: Clone + num_integer::Integer> $Op for Ratio<T> {
            type Output = Ratio<T>;

            /// # Panics
            ///
            #[doc = concat!("If `checked_", stringify!($op), "` returns `None`.")]
            #[inline]
            #[track_caller]
            fn $op(self, other: Ratio<T>) -> Ratio<T> {
                on_machine!(T, same => same.back(machine::$op(same.fraction(&self), same.fraction(&other))));
                schoolbook::$op(self, other)
            }
        }

        forms! { $Op $op; Ratio<T>, &Ratio<T>; self, other => self, other.clone() }
        forms! { $Op $op; &Ratio<T>, Ratio<T>; self, other => self.clone(), other }
        forms! { $Op $op; &Ratio<T>, &Ratio<T>; self, other => self.clone(), other.clone() }
        forms! { $Op $op; Ratio<T>, T; self, other => self, Ratio::from_integer(other) }
        forms! { $Op $op; Ratio<T>, &T; self, other => self, Ratio::from_integer(other.clone()) }
        forms! { $Op $op; &Ratio<T>, T; self, other => self.clone(), Ratio::from_integer(other) }
        forms! { $Op $op; &Ratio<T>, &T; self, other => self.clone(), Ratio::from_integer(other.clone()) }

        assigning! { $OpAssign $op_assign $Op $op; Ratio<T> }
        assigning! { $OpAssign $op_assign $Op $op; &Ratio<T> }
        assigning! { $OpAssign $op_assign $Op $op; T }
        assigning! { $OpAssign $op_assign $Op $op; &T }
    )*};
}

macro_rules! forms {
    ($Op:ident $op:ident; $Left:ty, $Right:ty; $self:ident, $other:ident => $left:expr, $right:expr) => {
        impl<T: Clone + num_integer::Integer> $Op<$Right> for $Left {
            type Output = Ratio<T>;

            /// # Panics
            ///
            #[doc = concat!("If `checked_", stringify!($op), "` returns `None`.")]
            #[inline]
            #[track_caller]
            fn $op($self, $other: $Right) -> Ratio<T> {
                $Op::$op($left, $right)
            }
        }
    };
}

macro_rules! assigning {
    ($OpAssign:ident $op_assign:ident $Op:ident $op:ident; $Right:ty) => {
        impl<T: Clone + num_integer::Integer> $OpAssign<$Right> for Ratio<T> {
            /// # Panics
            ///
            #[doc = concat!("If `checked_", stringify!($op), "` returns `None`.")]
            #[inline]
            #[track_caller]
            fn $op_assign(&mut self, other: $Right) {
                *self = $Op::$op(self.clone(), other);
            }
        }
    };
}

operators! {
    Add add AddAssign add_assign;
    Sub sub SubAssign sub_assign;
    Mul mul MulAssign mul_assign;
    Div div DivAssign div_assign;
    Rem rem RemAssign rem_assign;
}

#[cold]
#[inline(never)]
#[track_caller]
fn refuse<T: Integer>(x: &Ratio<T>, other: &Ratio<T>, zero: &str, overflow: &str) -> ! {
    let has_values = *x.denom() != T::NUMBER_0 && *other.denom() != T::NUMBER_0;
    let cause = match (has_values, *other.numer() == T::NUMBER_0) {
        (false, _) => "denominator == 0",
        (true, true) => zero,
        (true, false) => overflow,
    };
    panic!("{cause}")
}

// Each fold is a loop over an operator. A closure has no caller, so a panic in it would name a line of this file.
// `Sum::sum(items)` names the caller's line. `items.sum()` names a line of core, which calls this.
//
// The assigning operators would clone the total.
macro_rules! folds {
    ($($Fold:ident $fold:ident $start:ident $op:tt;)*) => {$(
        impl<T: Clone + num_integer::Integer> $Fold for Ratio<T> {
            /// # Panics
            ///
            /// If a step panics.
            #[inline]
            #[track_caller]
            #[allow(clippy::assign_op_pattern)]
            fn $fold<I: Iterator<Item = Ratio<T>>>(items: I) -> Ratio<T> {
                let mut total = Ratio::from_integer(T::$start());
                for item in items {
                    total = total $op item;
                }
                total
            }
        }

        impl<'a, T: Clone + num_integer::Integer + 'a> $Fold<&'a Ratio<T>> for Ratio<T> {
            /// # Panics
            ///
            /// If a step panics.
            #[inline]
            #[track_caller]
            #[allow(clippy::assign_op_pattern)]
            fn $fold<I: Iterator<Item = &'a Ratio<T>>>(items: I) -> Ratio<T> {
                let mut total = Ratio::from_integer(T::$start());
                for item in items {
                    total = total $op item;
                }
                total
            }
        }
    )*};
}

folds! {
    Sum sum zero +;
    Product product one *;
}

// Numbers on the left of an operator: `2 * x` and `1 - x`.

// Each operator for the left sides `T` and `&T`, and the right sides `Ratio<T>` and `&Ratio<T>`.
macro_rules! from_left {
    ($type:ident: $($Op:ident $op:ident)*) => {$(
        from_left! { $type $Op $op; $type, Ratio<$type>; number, x => number, &x }
        from_left! { $type $Op $op; $type, &Ratio<$type>; number, x => number, x }
        from_left! { $type $Op $op; &$type, Ratio<$type>; number, x => *number, &x }
        from_left! { $type $Op $op; &$type, &Ratio<$type>; number, x => *number, x }
    )*};
    ($type:ident $Op:ident $op:ident; $Left:ty, $Right:ty; $number:ident, $x:ident => $left:expr, $right:expr) => {
        impl $Op<$Right> for $Left {
            type Output = Ratio<$type>;

            /// # Panics
            ///
            #[doc = concat!("If `checked_", stringify!($op), "` of the number over 1 returns `None`.")]
            #[inline]
            #[track_caller]
            fn $op(self, $x: $Right) -> Ratio<$type> {
                let $number = self;
                machine::$op(&Ratio::from_integer($left), $right)
            }
        }
    };
}

macro_rules! left_numbers {
    ($($type:ident)*) => {$(
        from_left! { $type: Add add Sub sub Mul mul Div div Rem rem }
    )*};
}

left_numbers! { i8 i16 i32 i64 i128 isize u8 u16 u32 u64 u128 usize }
