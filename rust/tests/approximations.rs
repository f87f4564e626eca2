//! Fractions near floats: rows, and sweeps that compare them with num-rational.

mod support;

use bakhsney::{integer::Integer, Ratio, Rational32, Rational64};
use num_traits::{Bounded, FromPrimitive, ToPrimitive};
use support::Numbers;

type Fields<T> = Option<(T, T)>;

fn from_f64<T: Integer>(float: f64) -> Fields<T> {
    Ratio::from_f64(float).map(Ratio::into_raw)
}

fn from_f32<T: Integer>(float: f32) -> Fields<T> {
    Ratio::from_f32(float).map(Ratio::into_raw)
}

#[test]
fn rows() {
    // The convergents of pi, up to the last one that fits each type, or to the first one whose quotient is this float.
    let pi = std::f64::consts::PI;
    assert_eq!([pi, -pi].map(from_f64), [Some((22i8, 7)), Some((-22, 7))]);
    assert_eq!([pi, -pi].map(from_f64), [Some((355u16, 113)), None]);
    assert_eq!((from_f64(pi), from_f64(pi)), (Some((245850922i32, 78256779)), Some((245850922i128, 78256779))));
    assert_eq!(245850922.0 / 78256779.0, pi);
    // The thirtieth convergent of the golden ratio, whose convergents approach it most slowly.
    assert_eq!(from_f64(1.618033988749895), Some((1346269i64, 832040)));
    // An error of 10e-20 does not end the search, and a smaller one does.
    assert_eq!([2e-19, 10e-20, 9e-20].map(from_f64), [Some((1i128, 5000000000000000000)), Some((1, 10000000000000000000)), Some((0, 1))]);
    // If the rest is below 1/127, there is no further step.
    assert_eq!([1.0 / 127.0, 0.007874015748031494].map(from_f64), [Some((1i8, 127)), Some((0, 1))]);
    // 0.1 is near enough to 1/10, though it is another number.
    assert_eq!((from_f64(0.1), from_f32(0.1)), (Some((1i64, 10)), Some((1i64, 10))));
    assert_eq!((from_f64(-0.75), from_f32(-0.75)), (Some((-3i128, 4)), Some((-3i128, 4))));
    assert_eq!([0.75, -0.75].map(from_f64), [Some((3u8, 4)), None]);
    assert_eq!(([0.0, -0.0].map(from_f64), [0.0, -0.0].map(from_f32)), ([Some((0u8, 1)); 2], [Some((0i8, 1)); 2]));
}

#[test]
fn ends() {
    let none = [f64::NAN, -f64::NAN, f64::INFINITY, f64::NEG_INFINITY, f64::MAX, 128.0, -128.0, 127.00001];
    assert_eq!(none.map(from_f64), [None::<(i8, i8)>; 8]);
    assert_eq!(none.map(|float| from_f32(float as f32)), [None::<(i8, i8)>; 8]);
    assert_eq!([127.0, -127.0].map(from_f64), [Some((127i8, 1)), Some((-127, 1))]);
    // As an `f64`, the greatest `i64` is 2^63, which does not fit an `i64`.
    assert_eq!(from_f64::<i64>(i64::MAX as f64), None);
    assert_eq!(from_f64(9007199254740993f64), Some((9007199254740992u64, 1)));
    assert_eq!([from_f32::<u128>(f32::MAX), from_f32(f32::INFINITY)], [Some((u128::MAX - (u128::MAX >> 24), 1)), None]);
    assert_eq!(from_f64(f64::MIN_POSITIVE), Some((0i64, 1)));
}

#[test]
fn under_its_own_names() {
    assert_eq!(Rational64::approximate_float(0.1f32), Rational64::from_f32(0.1));
    assert_eq!(Rational32::approximate_float(-1.5f64), Some(Ratio::new(-3, 2)));
    assert_eq!(Rational32::approximate_float(f64::NAN), None);
    assert_eq!(Ratio::<u32>::approximate_float_unsigned(1.5f32), Some(Ratio::new(3, 2)));
    assert_eq!(Ratio::<u32>::approximate_float_unsigned(-1.5f64), None);
}

/// A float of any bits, or one between 0 and 1000, or one near the end of the type, or a small fraction.
fn float<T: Bounded + ToPrimitive>(numbers: &mut Numbers) -> f64 {
    let most = T::max_value().to_f64().unwrap();
    let part = numbers.word() as f64 / 2f64.powi(64);
    let magnitude = match numbers.below(6) {
        0 => f64::from_bits(numbers.word()),
        1 => 1000.0 * part,
        2 => most * part,
        3 => most * (1.0 + (part - 0.5) / 2f64.powi(40)),
        4 => 1.0 / (most * part),
        _ => numbers.below(1000) as f64 / (1 + numbers.below(1000)) as f64,
    };
    if numbers.below(2) == 0 { magnitude } else { -magnitude }
}

#[test]
fn beside_num_rational() {
    macro_rules! sweep {
        ($($T:ty)*) => {$(
            let mut numbers = Numbers(3);
            for _ in 0..5000 {
                let double = float::<$T>(&mut numbers);
                let single = double as f32;
                let theirs: Fields<$T> = original::Ratio::<$T>::from_f64(double).map(Into::into);
                assert_eq!(from_f64::<$T>(double), theirs, "{double}");
                let theirs: Fields<$T> = original::Ratio::<$T>::from_f32(single).map(Into::into);
                assert_eq!(from_f32::<$T>(single), theirs, "{single}");
            }
        )*};
    }
    sweep! { i8 i16 i32 i64 i128 isize u8 u16 u32 u64 u128 usize }
}
