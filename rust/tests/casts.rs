//! Each pair of types, at the ends of all types, against std's conversions of the fields.

use bakhsney::{integer::Integer, CastError, Ratio, Reduced};
use std::collections::BTreeSet;
use std::convert::Infallible;
use std::num::TryFromIntError;

/// The numbers of the type beside 0 and beside each end of each type.
fn numbers<T: Integer + TryFrom<i128> + TryFrom<u128>>() -> BTreeSet<T> {
    let mut all = BTreeSet::new();
    for bits in [0, 1, 7, 8, 15, 16, 31, 32, 63, 64, 127] {
        let (above, below) = (1u128 << bits, i128::MIN >> (127 - bits));
        all.extend([above - 1, above, above + 1].into_iter().filter_map(|n| T::try_from(n).ok()));
        all.extend([below.saturating_sub(1), below, below + 1].into_iter().filter_map(|n| T::try_from(n).ok()));
    }
    all.extend([u128::MAX - 1, u128::MAX].into_iter().filter_map(|n| T::try_from(n).ok()));
    all
}

/// The fractions of these numbers.
fn fractions<T: Integer + TryFrom<i128> + TryFrom<u128>>() -> Vec<Reduced<T>> {
    let all = numbers::<T>();
    let pairs = all.iter().flat_map(|&numer| all.iter().map(move |&denom| (numer, denom)));
    pairs.filter_map(|(numer, denom)| Reduced::checked_new(numer, denom)).collect()
}

/// What std makes of the two fields.
fn by_std<A: Integer, B: Integer + TryFrom<A>>(x: Reduced<A>) -> Option<(B, B)> {
    let (numer, denom) = x.into_raw();
    Some((B::try_from(numer).ok()?, B::try_from(denom).ok()?))
}

/// How many of the fractions fit the other type.
fn compared<A, B>() -> usize
where
    A: Integer + TryFrom<i128> + TryFrom<u128>,
    B: Integer + TryFrom<A>,
    Reduced<B>: TryFrom<Reduced<A>>,
    Ratio<B>: TryFrom<Ratio<A>>,
{
    let mut fitting = 0;
    for x in fractions::<A>() {
        let want = by_std::<A, B>(x);
        assert_eq!(x.cast::<B>().map(Reduced::into_raw), want, "{x}");
        assert_eq!(Reduced::<B>::try_from(x).ok().map(Reduced::into_raw), want, "{x}");
        assert_eq!(Ratio::<B>::try_from(x.to_ratio()).ok().map(Ratio::into_raw), want, "{x}");
        fitting += usize::from(want.is_some());
    }
    fitting
}

/// Both std and this crate have `From`, so each fraction fits.
fn has_from<A, B>()
where
    A: Integer + TryFrom<i128> + TryFrom<u128>,
    B: Integer + From<A>,
    Reduced<B>: From<Reduced<A>> + TryFrom<Reduced<A>, Error = Infallible>,
    Ratio<B>: From<Ratio<A>> + TryFrom<Ratio<A>, Error = Infallible>,
{
    assert_eq!(compared::<A, B>(), fractions::<A>().len());
}

/// Neither std nor this crate has `From`, and both have `TryFrom`.
fn has_try_from<A, B>()
where
    A: Integer + TryFrom<i128> + TryFrom<u128>,
    B: Integer + TryFrom<A, Error = TryFromIntError>,
    Reduced<B>: TryFrom<Reduced<A>, Error = CastError>,
    Ratio<B>: TryFrom<Ratio<A>, Error = CastError>,
{
    assert!(compared::<A, B>() > 0);
}

macro_rules! checks {
    ($check:ident: $($from:ident to $($to:ident)*;)*) => {
        [$($($check::<$from, $to>),*),*]
    };
}

#[test]
fn by_from() {
    let checks: [fn(); 35] = checks! { has_from:
        i8 to i16 i32 i64 i128 isize;
        i16 to i32 i64 i128 isize;
        i32 to i64 i128;
        i64 to i128;
        u8 to i16 i32 i64 i128 isize u16 u32 u64 u128 usize;
        u16 to i32 i64 i128 u32 u64 u128 usize;
        u32 to i64 i128 u64 u128;
        u64 to i128 u128;
    };
    checks.iter().for_each(|check| check());
}

#[test]
fn by_try_from() {
    let checks: [fn(); 97] = checks! { has_try_from:
        i8 to u8 u16 u32 u64 u128 usize;
        i16 to i8 u8 u16 u32 u64 u128 usize;
        i32 to i8 i16 isize u8 u16 u32 u64 u128 usize;
        i64 to i8 i16 i32 isize u8 u16 u32 u64 u128 usize;
        i128 to i8 i16 i32 i64 isize u8 u16 u32 u64 u128 usize;
        isize to i8 i16 i32 i64 i128 u8 u16 u32 u64 u128 usize;
        u8 to i8;
        u16 to i8 i16 isize u8;
        u32 to i8 i16 i32 isize u8 u16 usize;
        u64 to i8 i16 i32 i64 isize u8 u16 u32 usize;
        u128 to i8 i16 i32 i64 i128 isize u8 u16 u32 u64 usize;
        usize to i8 i16 i32 i64 i128 isize u8 u16 u32 u64 u128;
    };
    checks.iter().for_each(|check| check());
}

#[test]
fn to_the_same_type() {
    assert_eq!(compared::<i8, i8>(), fractions::<i8>().len());
    assert_eq!(compared::<u128, u128>(), fractions::<u128>().len());
}

fn cast<A: Integer, B: Integer>(numer: A, denom: A) -> Option<(B, B)> {
    Reduced::checked_new(numer, denom)?.cast::<B>().map(Reduced::into_raw)
}

#[test]
fn rows_at_the_ends() {
    assert_eq!(cast(1i64, 127), Some((1i8, 127)));
    assert_eq!(cast(-128i64, 1), Some((-128i8, 1)));
    assert_eq!(cast::<i64, i8>(1, 128), None);
    assert_eq!(cast::<u8, i8>(1, 200), None);
    assert_eq!(cast::<i8, u8>(-1, 2), None);
    assert_eq!(cast::<u128, i128>(u128::MAX, 1), None);
    assert_eq!(cast(i128::MAX, 1), Some((170141183460469231731687303715884105727u128, 1)));
}

#[test]
fn mixed_operands() {
    let half = Reduced::checked_new(1u8, 2).unwrap();
    assert_eq!(Reduced::from(300i64).checked_add(half), Reduced::checked_new(601, 2));
}

#[test]
fn the_error_is_an_error() {
    let error: Box<dyn std::error::Error> = Box::new(Reduced::<i8>::try_from(Reduced::from(128i64)).unwrap_err());
    assert_eq!(error.to_string(), "the numerator or the denominator does not fit the type");
}
