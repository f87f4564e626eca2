//! The same fraction over another integer type, by the traits `From` and `TryFrom`. A `Ratio` keeps its fields.
use super::integer::Integer;
use super::ratio::Ratio;
use super::reduced::Reduced;
use core::fmt;

/// The error of `try_from`: the numerator or the denominator does not fit the type.
///
/// ```
/// use num_rational::{CastError, Reduced, Reduced64};
///
/// let x: Result<Reduced<i8>, CastError> = Reduced64::from(128).try_into();
/// assert_eq!(x.unwrap_err().to_string(), "the numerator or the denominator does not fit the type");
/// ```
#[derive(Clone, Copy, Debug, PartialEq, Eq, Hash)]
pub struct CastError(pub(super) ());

impl fmt::Display for CastError {
    fn fmt(&self, f: &mut fmt::Formatter<'_>) -> fmt::Result {
        f.pad("the numerator or the denominator does not fit the type")
    }
}

#[cfg(feature = "std")]
impl std::error::Error for CastError {}

#[inline]
fn widened<T: Integer, U: Integer>(fraction: Reduced<T>) -> Reduced<U> {
    match fraction.cast() {
        Some(same) => same,
        None => unreachable!("each number fits"),
    }
}

#[inline]
fn widened_fields<T, U: From<T>>(fraction: Ratio<T>) -> Ratio<U> {
    let (numer, denom) = fraction.into_raw();
    Ratio::new_raw(numer.into(), denom.into())
}

#[inline]
fn cast<T: Integer, U: Integer>(fraction: Reduced<T>) -> Result<Reduced<U>, CastError> {
    fraction.cast().ok_or(CastError(()))
}

#[inline]
fn cast_fields<T, U: TryFrom<T>>(fraction: Ratio<T>) -> Result<Ratio<U>, CastError> {
    let (numer, denom) = fraction.into_raw();
    match (numer.try_into(), denom.try_into()) {
        (Ok(numer), Ok(denom)) => Ok(Ratio::new_raw(numer, denom)),
        _ => Err(CastError(())),
    }
}

// One row for each type. It has `From` to each type to which std converts its numbers by `From`, and these are 35 pairs. It has
// `TryFrom` to each other type, and these are 97 pairs.
macro_rules! casts {
    ($($type:ident: From to $($wide:ident)*, TryFrom to $($other:ident)*;)*) => {$(
        $(
            impl From<Reduced<$type>> for Reduced<$wide> {
                #[inline]
                fn from(fraction: Reduced<$type>) -> Reduced<$wide> {
                    widened(fraction)
                }
            }

            impl From<Ratio<$type>> for Ratio<$wide> {
                #[inline]
                fn from(fraction: Ratio<$type>) -> Ratio<$wide> {
                    widened_fields(fraction)
                }
            }
        )*
        $(
            impl TryFrom<Reduced<$type>> for Reduced<$other> {
                type Error = CastError;

                #[inline]
                fn try_from(fraction: Reduced<$type>) -> Result<Reduced<$other>, CastError> {
                    cast(fraction)
                }
            }

            impl TryFrom<Ratio<$type>> for Ratio<$other> {
                type Error = CastError;

                #[inline]
                fn try_from(fraction: Ratio<$type>) -> Result<Ratio<$other>, CastError> {
                    cast_fields(fraction)
                }
            }
        )*
    )*};
}

casts! {
    i8: From to i16 i32 i64 i128 isize, TryFrom to u8 u16 u32 u64 u128 usize;
    i16: From to i32 i64 i128 isize, TryFrom to i8 u8 u16 u32 u64 u128 usize;
    i32: From to i64 i128, TryFrom to i8 i16 isize u8 u16 u32 u64 u128 usize;
    i64: From to i128, TryFrom to i8 i16 i32 isize u8 u16 u32 u64 u128 usize;
    i128: From to, TryFrom to i8 i16 i32 i64 isize u8 u16 u32 u64 u128 usize;
    isize: From to, TryFrom to i8 i16 i32 i64 i128 u8 u16 u32 u64 u128 usize;
    u8: From to i16 i32 i64 i128 isize u16 u32 u64 u128 usize, TryFrom to i8;
    u16: From to i32 i64 i128 u32 u64 u128 usize, TryFrom to i8 i16 isize u8;
    u32: From to i64 i128 u64 u128, TryFrom to i8 i16 i32 isize u8 u16 usize;
    u64: From to i128 u128, TryFrom to i8 i16 i32 i64 isize u8 u16 u32 usize;
    u128: From to, TryFrom to i8 i16 i32 i64 i128 isize u8 u16 u32 u64 usize;
    usize: From to, TryFrom to i8 i16 i32 i64 i128 isize u8 u16 u32 u64 u128;
}
