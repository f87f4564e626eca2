//! num-traits' `ToPrimitive`: a fraction cut towards zero, as a number of another type, and the nearest float.
//!
//! With the feature `num-bigint`, fractions of each type with num-bigint's `ToBigInt` have this trait, as in num-rational. These calls are
//! not proved for other types than the machine types, but that the nearest float comes from a proved call.
#[cfg(feature = "num-bigint")]
use super::big;
#[cfg(not(feature = "num-bigint"))]
use super::integer::Integer;
use super::ratio::Ratio;
#[cfg(feature = "num-bigint")]
use super::same::on_machine;
use num_traits::ToPrimitive;

// Each call, with what it is for the machine types, and what it is for the others.
macro_rules! to_primitive {
    ($($(#[$doc:meta])* $name:ident $Number:ty: $x:ident => $machine:expr, $any:expr;)*) => {
        /// This fraction cut towards zero, or `None` if that does not fit the integer type, or if the denominator is 0. And the nearest
        /// float.
        #[cfg(not(feature = "num-bigint"))]
        impl<T: Integer> ToPrimitive for Ratio<T> {$(
            $(#[$doc])*
            #[inline]
            fn $name(&self) -> Option<$Number> {
                let $x = self;
                $machine
            }
        )*}

        /// This fraction cut towards zero, or `None` if that does not fit the integer type, or if the denominator is 0. And the nearest
        /// float.
        #[cfg(feature = "num-bigint")]
        impl<T: Clone + num_integer::Integer + ToPrimitive + num_bigint::ToBigInt> ToPrimitive for Ratio<T> {$(
            $(#[$doc])*
            #[inline]
            fn $name(&self) -> Option<$Number> {
                on_machine!(T, same => {
                    let $x = same.fraction(self);
                    $machine
                });
                let $x = self;
                $any
            }
        )*}
    };
}

to_primitive! {
    to_i64 i64: x => x.positive()?.to_i64(), big::whole(x, T::to_i64);
    to_u64 u64: x => x.positive()?.to_u64(), big::whole(x, T::to_u64);
    to_i128 i128: x => x.positive()?.to_i128(), big::whole(x, T::to_i128);
    to_u128 u128: x => x.positive()?.to_u128(), big::whole(x, T::to_u128);

    /// The nearest `f32`. If two are as near, it is the one whose last binary digit is 0. As in num-rational, a denominator of
    /// 0 makes it infinite, and 0/0 is `None`. num-rational rounds to an `f64` first, and can return another `f32`. So does this call for
    /// other types than the machine types.
    ///
    /// ```
    /// use num_traits::ToPrimitive;
    ///
    /// assert_eq!(num_rational::Ratio::new(1, 3).to_f32(), Some(0.33333334));
    /// ```
    to_f32 f32: x => x.nearest_float(), Some(big::to_f64(x)? as f32);

    /// The nearest `f64`, by the same rules.
    ///
    /// ```
    /// use num_traits::ToPrimitive;
    ///
    /// assert_eq!(num_rational::Ratio::new(1, 3).to_f64(), Some(1.0 / 3.0));
    /// ```
    to_f64 f64: x => x.nearest_float(), big::to_f64(x);
}
