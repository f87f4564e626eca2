//! The element types: the twelve primitive integer types.
use crate::proved::num_rational::{Exponent, Ratio, Reduced};
use crate::proved::ratio_integer::{Integer as ProvedInteger, Primitive, SignedInteger};
use core::fmt::{Binary, Debug, Display, LowerExp, LowerHex, Octal, UpperExp, UpperHex};
use core::hash::Hash;
use core::str::FromStr;
use num_traits::{NumAssign, PrimInt};

/// One of the twelve primitive integer types, from `i8` to `u128`, with `isize` and `usize`.
///
/// The proofs need only the laws of the integer type, and these laws are proved of the twelve types. So no other type can have
/// this trait. It is for code that needs `Reduced` or `Total`: a `Ratio` takes other types, too.
///
/// ```
/// use num_rational::{integer::Integer, Ratio};
///
/// fn half<T: Integer>() -> Ratio<T> {
///     Ratio::new(T::one(), T::one() + T::one())
/// }
///
/// assert_eq!(half::<u8>(), Ratio::new(1, 2));
/// ```
///
/// ```compile_fail
/// #[derive(Clone, Copy)]
/// struct Mine(i32);
///
/// impl num_rational::integer::Integer for Mine {}
/// ```
pub trait Integer:
    Hidden + PrimInt + num_integer::Integer + NumAssign + FromStr + Hash + Debug + Display + Binary + Octal + LowerHex + UpperHex + LowerExp + UpperExp
{
}

/// What the feature `num-bigint` requires of a type, in generic code, too.
#[cfg(feature = "num-bigint")]
pub trait Big: num_bigint::ToBigInt {}

#[cfg(feature = "num-bigint")]
impl<T: num_bigint::ToBigInt> Big for T {}

#[cfg(not(feature = "num-bigint"))]
pub trait Big {}

#[cfg(not(feature = "num-bigint"))]
impl<T> Big for T {}

/// What the feature `alloc` requires of a type: that it may stand beside a `BigFraction`.
#[cfg(feature = "alloc")]
pub use super::big_fraction_operand::Hidden as Beside;

#[cfg(not(feature = "alloc"))]
pub trait Beside {}

#[cfg(not(feature = "alloc"))]
impl<T> Beside for T {}

/// What `Element` says of a type, under names that no other trait has. As a supertrait of `Integer`, it brings its names into
/// generic code of this crate's users. So a user's own trait may have a call `of`.
pub trait Hidden: Copy + Big + Beside {
    type BakhsneyProved: Primitive + Exponent;

    type BakhsneySigns: Signs<Self::BakhsneyProved>;

    const BAKHSNEY_0: Self;

    const BAKHSNEY_1: Self;

    fn bakhsney_into_proved(self) -> Self::BakhsneyProved;

    fn bakhsney_from_proved(number: Self::BakhsneyProved) -> Self;

    fn bakhsney_of(number: &Self::BakhsneyProved) -> &Self;
}

/// An element as the proved calls see it, for this crate alone. It is a trait of its own, so that the names of the proved trait
/// do not hide num-traits' names in generic code.
pub(crate) trait Element: Copy {
    /// The same type.
    type Proved: Primitive + Exponent;

    /// The calls that only a type with numbers below 0 has.
    type Signs: Signs<Self::Proved>;

    const NUMBER_0: Self;

    const NUMBER_1: Self;

    fn into_proved(self) -> Self::Proved;

    fn from_proved(number: Self::Proved) -> Self;

    fn of(number: &Self::Proved) -> &Self;
}

impl<T: Hidden> Element for T {
    type Proved = T::BakhsneyProved;

    type Signs = T::BakhsneySigns;

    const NUMBER_0: T = T::BAKHSNEY_0;

    const NUMBER_1: T = T::BAKHSNEY_1;

    #[inline]
    fn into_proved(self) -> T::BakhsneyProved {
        self.bakhsney_into_proved()
    }

    #[inline]
    fn from_proved(number: T::BakhsneyProved) -> T {
        T::bakhsney_from_proved(number)
    }

    #[inline]
    fn of(number: &T::BakhsneyProved) -> &T {
        T::bakhsney_of(number)
    }
}

/// A number of one of the twelve types, or a reference to one. With this trait one operator serves all of them.
pub trait WholeNumber: Copy {
    type Number: Integer;

    fn number(self) -> Self::Number;
}

// Each type with the one that the proved calls compute with. The two have the same numbers, and `$of` takes a reference to one for
// a reference to the other.
macro_rules! elements {
    ($signs:ident by $of:ident: $($type:ident as $proved:ident)*) => {$(
        impl Hidden for $type {
            type BakhsneyProved = $proved;

            type BakhsneySigns = $signs;

            const BAKHSNEY_0: $type = <$proved as ProvedInteger>::ZERO as $type;

            const BAKHSNEY_1: $type = <$proved as ProvedInteger>::ONE as $type;

            #[inline]
            fn bakhsney_into_proved(self) -> $proved {
                self as $proved
            }

            #[inline]
            fn bakhsney_from_proved(number: $proved) -> $type {
                number as $type
            }

            #[inline]
            fn bakhsney_of(number: &$proved) -> &$type {
                $of(number)
            }
        }

        impl Integer for $type {}

        impl WholeNumber for $type {
            type Number = $type;

            #[inline]
            fn number(self) -> $type {
                self
            }
        }

        impl WholeNumber for &$type {
            type Number = $type;

            #[inline]
            fn number(self) -> $type {
                *self
            }
        }
    )*};
}

elements! { Below0 by itself: i8 as i8 i16 as i16 i32 as i32 i64 as i64 i128 as i128 }
elements! { From0 by itself: u8 as u8 u16 as u16 u32 as u32 u64 as u64 u128 as u128 }

// The proofs of `isize` and `usize` are of 64 bits. Where a pointer has 32 bits, the proofs of `i32` and `u32` say the same of them.
#[cfg(target_pointer_width = "64")]
elements! { Below0 by itself: isize as isize }
#[cfg(target_pointer_width = "64")]
elements! { From0 by itself: usize as usize }
#[cfg(target_pointer_width = "32")]
elements! { Below0 by isize_of: isize as i32 }
#[cfg(target_pointer_width = "32")]
elements! { From0 by usize_of: usize as u32 }

#[inline]
fn itself<T>(number: &T) -> &T {
    number
}

#[cfg(target_pointer_width = "32")]
#[inline]
fn isize_of(number: &i32) -> &isize {
    // SAFETY: where a pointer has 32 bits, `isize` and `i32` have the same size, alignment and numbers.
    unsafe { &*(number as *const i32).cast() }
}

#[cfg(target_pointer_width = "32")]
#[inline]
fn usize_of(number: &u32) -> &usize {
    // SAFETY: where a pointer has 32 bits, `usize` and `u32` have the same size, alignment and numbers.
    unsafe { &*(number as *const u32).cast() }
}

/// The calls on signs. Each kind of type, with and without numbers below 0, has its own.
pub trait Signs<P: Primitive> {
    fn checked_neg(x: Ratio<P>) -> Option<Ratio<P>>;

    fn checked_abs(x: Ratio<P>) -> Option<Ratio<P>>;

    fn signum(x: Ratio<P>) -> Ratio<P>;

    fn is_positive(x: Ratio<P>) -> bool;

    fn is_negative(x: Ratio<P>) -> bool;

    fn checked_neg_lowest(x: Reduced<P>) -> Option<Reduced<P>>;

    fn checked_abs_lowest(x: Reduced<P>) -> Option<Reduced<P>>;

    fn signum_lowest(x: Reduced<P>) -> Reduced<P>;
}

/// The type has numbers below 0.
pub struct Below0;

impl<P: Primitive + SignedInteger> Signs<P> for Below0 {
    #[inline]
    fn checked_neg(x: Ratio<P>) -> Option<Ratio<P>> {
        x.numer().try_negate().map(|_| -x)
    }

    #[inline]
    fn checked_abs(x: Ratio<P>) -> Option<Ratio<P>> {
        if x.is_negative() && x.numer().try_negate().is_none() {
            None
        } else {
            Some(x.abs())
        }
    }

    #[inline]
    fn signum(x: Ratio<P>) -> Ratio<P> {
        x.signum()
    }

    #[inline]
    fn is_positive(x: Ratio<P>) -> bool {
        x.is_positive()
    }

    #[inline]
    fn is_negative(x: Ratio<P>) -> bool {
        x.is_negative()
    }

    #[inline]
    fn checked_neg_lowest(x: Reduced<P>) -> Option<Reduced<P>> {
        x.checked_neg()
    }

    #[inline]
    fn checked_abs_lowest(x: Reduced<P>) -> Option<Reduced<P>> {
        x.checked_abs()
    }

    #[inline]
    fn signum_lowest(x: Reduced<P>) -> Reduced<P> {
        x.signum()
    }
}

/// The type has no numbers below 0. These calls are never reached: `Neg` and `Signed` require the same traits of the element
/// type, and no unsigned type has them.
pub struct From0;

impl<P: Primitive> Signs<P> for From0 {
    fn checked_neg(_: Ratio<P>) -> Option<Ratio<P>> {
        unreachable!()
    }

    fn checked_abs(_: Ratio<P>) -> Option<Ratio<P>> {
        unreachable!()
    }

    fn signum(_: Ratio<P>) -> Ratio<P> {
        unreachable!()
    }

    fn is_positive(_: Ratio<P>) -> bool {
        unreachable!()
    }

    fn is_negative(_: Ratio<P>) -> bool {
        unreachable!()
    }

    fn checked_neg_lowest(_: Reduced<P>) -> Option<Reduced<P>> {
        unreachable!()
    }

    fn checked_abs_lowest(_: Reduced<P>) -> Option<Reduced<P>> {
        unreachable!()
    }

    fn signum_lowest(_: Reduced<P>) -> Reduced<P> {
        unreachable!()
    }
}
