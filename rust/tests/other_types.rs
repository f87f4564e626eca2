//! Fractions beside other types: numbers on the left, other widths, floats, generic code over bounds and Euclid's division, constants, and
//! num-rational's own `Ratio`.

// The tests are about these forms.
#![allow(clippy::op_ref, clippy::unnecessary_fallible_conversions)]

use bakhsney::integer::Integer;
use bakhsney::{CastError, FloatError, Ratio, Rational32, Rational64, Reduced};
use num_traits::{Bounded, CheckedEuclid, CheckedNeg, Euclid};
use std::convert::Infallible;
use std::error::Error;
use std::panic::catch_unwind;

// Each operator in each form, with a number on the left.
macro_rules! left {
    ($op:tt: $(($number:expr, $x:expr, $want:expr))*) => {
        $(assert_eq!([$number $op $x, $number $op &$x, &$number $op $x, &$number $op &$x], [Ratio::from($want); 4]);)*
    };
}

#[test]
fn numbers_on_the_left() {
    let third = Ratio::new(1i64, 3);
    left! { +: (2, third, (7, 3)) (-2, third, (-5, 3)) }
    left! { -: (1, third, (2, 3)) (0, third, (-1, 3)) }
    left! { *: (2, third, (2, 3)) (6, third, (2, 1)) }
    left! { /: (2, third, (6, 1)) (-1, third, (-3, 1)) }
    left! { %: (2, Ratio::new(3, 4), (1, 2)) (-2, Ratio::new(3, 4), (-1, 2)) }
    left! { +: (255u8, Ratio::new(0, 1), (255, 1)) }
    assert!(catch_unwind(|| 255u8 + Ratio::new(1, 2)).is_err());
    assert!(catch_unwind(|| 1u8 - Ratio::new(3, 2)).is_err());
    assert!(catch_unwind(|| 1 / Ratio::new(0i8, 2)).is_err());
}

#[test]
fn wider_types_keep_the_fields() {
    assert_eq!(Rational64::from(Rational32::new_raw(2, -4)).into_raw(), (2, -4));
    assert_eq!(Ratio::<u128>::from(Ratio::<u8>::new_raw(255, 0)).into_raw(), (255, 0));
    let never: Result<Rational64, Infallible> = Rational32::new(1, 2).try_into();
    assert_eq!(never, Ok(Ratio::new(1, 2)));
}

#[test]
fn other_types_keep_the_fields_or_refuse() {
    let as_i8 = |numer: i64, denom: i64| Ratio::<i8>::try_from(Ratio::new_raw(numer, denom)).map(Ratio::into_raw);
    assert_eq!([as_i8(-128, 127), as_i8(2, -4)], [Ok((-128, 127)), Ok((2, -4))]);
    let refused: [Result<(i8, i8), CastError>; 3] = [as_i8(128, 1), as_i8(1, 128), as_i8(256, 2)];
    assert!(refused.iter().all(Result::is_err));
    assert!(Ratio::<usize>::try_from(Ratio::new(-1i64, 2)).is_err());
}

#[test]
fn exact_floats() {
    let sum = |x: f64, y: f32| -> Result<Rational64, Box<dyn Error>> { Ok(Ratio::try_from(x)? + Ratio::try_from(y)?) };
    assert_eq!(sum(0.75, -0.5).unwrap(), Ratio::new(1, 4));
    for float in [f64::NAN, f64::INFINITY, 1e300, 1e-300] {
        let refused: Result<Rational64, FloatError> = Ratio::try_from(float);
        assert!(refused.is_err() && Reduced::<i64>::try_from(float).is_err() && sum(float, 0.0).is_err(), "{float}");
    }
    assert_eq!(Reduced::<i64>::try_from(0.1).ok(), Reduced::from_float(0.1));
    assert_eq!(Reduced::<i64>::try_from(0.1f32).ok(), Reduced::from_float32(0.1));
    assert!(Rational32::try_from(0.1).is_err());
}

/// The greatest fraction of the list, or the least one of the type.
fn greatest<F: Bounded + Ord>(items: Vec<F>) -> F {
    items.into_iter().max().unwrap_or_else(F::min_value)
}

#[test]
fn bounds() {
    assert_eq!([greatest(vec![Ratio::new(1i8, 3), Ratio::new(1, 2)]), greatest(vec![])], [(1, 2), (-128, 1)].map(Ratio::from));
    assert_eq!([Ratio::<u8>::min_value(), Ratio::max_value()], [Ratio::new(0u8, 1), Ratio::new(255, 1)]);
    assert_eq!(Ratio::new(5, 2).clamp(Ratio::new(1, 3), Ratio::new(3, 2)), Ratio::new(3, 2));
}

#[test]
fn negatives() {
    let negative = |numer: i8, denom: i8| Ratio::new_raw(numer, denom).checked_neg().map(Ratio::into_raw);
    assert_eq!([negative(3, 4), negative(2, -4), negative(127, 1)], [Some((-3, 4)), Some((-2, -4)), Some((-127, 1))]);
    assert_eq!([negative(-128, 3), negative(1, 0)], [None; 2]);
}

fn by_euclid(x: (i8, i8), y: (i8, i8)) -> [Option<Ratio<i8>>; 2] {
    let (x, y) = (Ratio::new_raw(x.0, x.1), Ratio::new_raw(y.0, y.1));
    let checked = [x.checked_div_euclid(&y), x.checked_rem_euclid(&y)];
    assert_eq!(checked, [catch_unwind(|| x.div_euclid(&y)).ok(), catch_unwind(|| x.rem_euclid(&y)).ok()], "{x:?} by {y:?}");
    checked
}

#[test]
fn euclid() {
    let rows = [((7, 2), (3, 4), 4, (1, 2)), ((-7, 2), (3, 4), -5, (1, 4)), ((7, 2), (-3, 4), -4, (1, 2)), ((-7, 2), (-3, 4), 5, (1, 4))];
    for (x, y, quotient, rest) in rows {
        assert_eq!(by_euclid(x, y), [Some(Ratio::from(quotient)), Some(Ratio::from(rest))], "{x:?} by {y:?}");
    }
    assert_eq!(by_euclid((-1, 1), (-128, 1)), [Some(Ratio::from(1)), Some(Ratio::from(127))]);
    assert_eq!(by_euclid((127, 1), (1, 2)), [None, Some(Ratio::from(0))]);
    assert_eq!([by_euclid((1, 2), (0, 1)), by_euclid((1, 0), (1, 2)), by_euclid((1, 2), (1, 0))], [[None; 2]; 3]);
}

/// Each pair of fields of a type of 8 bits, beside `checked_new`.
macro_rules! constants {
    ($type:ident) => {
        for numer in $type::MIN..=$type::MAX {
            for denom in [$type::MIN, $type::MIN + 1, 0, 1, 2, 3, 12, 64, 100, 126, $type::MAX] {
                let want = Ratio::<$type>::checked_new(numer, denom).map(Ratio::into_raw);
                assert_eq!(catch_unwind(|| Ratio::<$type>::const_new(numer, denom).into_raw()).ok(), want, "{numer}/{denom}");
            }
        }
    };
}

#[test]
fn constants() {
    const RATES: [Ratio<i64>; 2] = [Ratio::<i64>::const_new(-254, 100), Ratio::<i64>::const_new(i64::MIN, i64::MIN)];
    const LEAST: Ratio<i128> = Ratio::<i128>::const_new(i128::MAX - 1, 2 - i128::MAX - 1);
    assert_eq!(RATES.map(Ratio::into_raw), [(-127, 50), (1, 1)]);
    assert_eq!(Some(LEAST), Ratio::checked_new(i128::MAX - 1, 1 - i128::MAX));
    assert_eq!(Ratio::<u128>::const_new(u128::MAX, 5).into_raw(), (u128::MAX / 5, 1));
    constants!(i8);
    constants!(u8);
}

/// Generic code over this crate's trait has all of these traits of a fraction.
fn in_generic_code<T: Integer>(x: Ratio<T>) -> (Ratio<T>, bool) {
    (x.rem_euclid(&Ratio::ONE), x <= Bounded::max_value())
}

#[test]
fn over_each_type() {
    assert_eq!(in_generic_code(Ratio::new(-7, 2)), (Ratio::new(1, 2), true));
    assert_eq!(in_generic_code(Ratio::new(7u128, 2)), (Ratio::new(1, 2), true));
}

/// The same rows for each type.
macro_rules! each_type {
    ($($type:ident)*) => {
        #[test]
        fn rows_over_each_type() {
            $({
                const HALF: Ratio<$type> = Ratio::new_raw(1, 2);
                const MOST: Ratio<$type> = Ratio::new_raw($type::MAX, 1);
                let results = [2 + HALF, 1 - HALF, 3 * HALF, 1 / HALF, 2 % Ratio::<$type>::new(3, 4)];
                assert_eq!(results.map(Ratio::into_raw), [(5, 2), (1, 2), (3, 2), (2, 1), (1, 2)]);
                let [long, short] = [Ratio::new(7, 2), Ratio::new(3, 4)];
                assert_eq!([long.div_euclid(&short), long.rem_euclid(&short)].map(Ratio::into_raw), [(4, 1), (1, 2)]);
                assert_eq!([HALF.checked_pow(3), HALF.checked_pow(-3), MOST.checked_pow(2)], [Some(Ratio::new(1, 8)), Some(Ratio::new(8, 1)), None]);
                assert_eq!([HALF.checked_abs_diff(&long), long.checked_abs_diff(&HALF)], [Some(Ratio::new(3, 1)); 2]);
                assert_eq!([HALF.checked_midpoint(&long), MOST.checked_midpoint(&MOST)], [Some(Ratio::new(2, 1)), Some(MOST)]);
                assert_eq!([Bounded::min_value(), Bounded::max_value()].map(Ratio::<$type>::into_raw), [($type::MIN, 1), ($type::MAX, 1)]);
                assert_eq!([Ratio::try_from(0.5f64), Ratio::try_from(0.5f32)], [Ok(HALF); 2]);
                assert_eq!([long, HALF].map(|x| x.clamp(short, Ratio::new(3, 1))), [Ratio::new(3, 1), short]);
                let half = Reduced::<$type>::checked_new(1, 2).unwrap();
                assert!(half < 1 && half > 0 && half != 1 && half < MOST && half == HALF);
            })*
        }
    };
}

each_type! { i8 i16 i32 i64 i128 isize u8 u16 u32 u64 u128 usize }

#[cfg(feature = "num-rational")]
mod original_ratio {
    use bakhsney::{Ratio, Reduced, ReducedError};
    use original::Ratio as Original;

    #[test]
    fn the_fields_stay() {
        for (numer, denom) in [(1, 2), (2, 4), (-1, 2), (1, -2), (i8::MIN, i8::MIN), (1, 0)] {
            let raw = Ratio::new_raw(numer, denom);
            let original = Original::from(raw);
            assert_eq!((*original.numer(), *original.denom()), (numer, denom));
            assert_eq!(Ratio::from(original).into_raw(), (numer, denom));
        }
    }

    #[test]
    fn lowest_terms_or_an_error() {
        let reduced = |numer: i8, denom: i8| Reduced::try_from(Original::new_raw(numer, denom)).map(Reduced::into_raw);
        assert_eq!([reduced(2, 4), reduced(2, -128), reduced(0, -5)], [Ok((1, 2)), Ok((-1, 64)), Ok((0, 1))]);
        let refused: [Result<(i8, i8), ReducedError>; 2] = [reduced(1, 0), reduced(1, -128)];
        assert!(refused.iter().all(Result::is_err));
        assert_eq!(Original::from(Reduced::checked_new(6, -4).unwrap()), Original::new(-3, 2));
    }
}
