//! `to_f64` and `to_f32`: rows, and sweeps that compare them with fractions of big integers and with num-rational's own
//! `to_f64`.

mod support;

use bakhsney::{integer::Integer, Ratio};
use num_traits::{FromPrimitive, PrimInt, Signed, ToPrimitive};
use original::BigRational;
use support::Numbers;

type Floats = (Option<f64>, Option<f32>);

fn floats<T: Integer>(numer: T, denom: T) -> Floats {
    let x = Ratio::new_raw(numer, denom);
    (x.to_f64(), x.to_f32())
}

/// The bits of the floats. They also show the sign of -0.0.
fn bits((double, single): Floats) -> (Option<u64>, Option<u32>) {
    (double.map(f64::to_bits), single.map(f32::to_bits))
}

/// Python's `Fraction` computed these floats: the `f64` by its division, the `f32` by comparing the candidates.
#[test]
fn rows_of_signed_numbers() {
    const P24: i128 = 1 << 24;
    const P53: i128 = 1 << 53;
    const P60: i128 = 1 << 60;
    let rows: [(i128, i128, f64, f32); 23] = [
        (1, 3, 0.3333333333333333, 0.33333334),
        (-1, 10, -0.1, -0.1),
        (7, 2, 3.5, 3.5),
        (P24 + 1, 1, 16777217.0, 16777216.0),
        (P24 + 3, 1, 16777219.0, 16777220.0),
        (P53 + 1, 1, 9007199254740992.0, 9007199000000000.0),
        (P53 + 3, 1, 9007199254740996.0, 9007199000000000.0),
        (2 * P53 + 2, 1, 18014398509481984.0, 18014399000000000.0),
        (2 * P53 + 6, 1, 18014398509481992.0, 18014399000000000.0),
        (P60 + 1, P60 - 1, 1.0, 1.0),
        // As an `f64`, the first number of each three is a tie of two `f32`s.
        (P60 + (1 << 36) + 1, P60, 1.0000000596046448, 1.0000001),
        (P60 + (1 << 36), P60, 1.0000000596046448, 1.0),
        (P60 + (1 << 36) - 1, P60, 1.0000000596046448, 1.0),
        (178956969, 536870915, 0.3333333283662796, 0.33333334),
        (553648160, 553648127, 1.0000000596046448, 1.0000001),
        (i64::MAX.into(), 1, 9.223372036854776e18, 9.223372e18),
        (i64::MIN.into(), 1, -9.223372036854776e18, -9.223372e18),
        (1, i64::MAX.into(), 1.0842021724855044e-19, 1.0842022e-19),
        (i128::MAX, 1, 1.7014118346046923e38, 1.7014118e38),
        (i128::MIN, 1, -1.7014118346046923e38, -1.7014118e38),
        (i128::MIN, i128::MAX, -1.0, -1.0),
        (-1, i128::MAX, -5.877471754111438e-39, -5.877472e-39),
        (i128::MAX, 3, 5.671372782015641e37, 5.671373e37),
    ];
    for (numer, denom, double, single) in rows {
        assert_eq!(floats(numer, denom), (Some(double), Some(single)), "{numer}/{denom}");
        if numer != i128::MIN {
            assert_eq!(floats(-numer, denom), (Some(-double), Some(-single)), "-{numer}/{denom}");
        }
    }
}

/// Above the greatest `f32`, and among the `f32`s with fewer digits.
#[test]
fn rows_of_unsigned_numbers() {
    let tie = u128::MAX - (1 << 103) + 1;
    let rows = [
        (u128::MAX, 1, 3.402823669209385e38, f32::INFINITY),
        (tie, 1, 3.4028235677973366e38, f32::INFINITY),
        (tie - 1, 1, 3.4028235677973366e38, f32::MAX),
        (1, u128::MAX, 2.938735877055719e-39, 2.938736e-39),
        (1, 340282285791009906802947897009828003675, 2.938736577707624e-39, 2.938737e-39),
        (u128::MAX, u128::MAX - 1, 1.0, 1.0),
    ];
    for (numer, denom, double, single) in rows {
        assert_eq!(floats(numer, denom), (Some(double), Some(single)), "{numer}/{denom}");
    }
}

#[test]
fn zeros_and_signs() {
    let both = |float: f32| (Some(f64::from(float)), Some(float));
    let rows = [
        ((0, 5), both(0.0)),
        ((0, i128::MAX), both(0.0)),
        ((0, -5), both(-0.0)),
        ((0, i128::MIN), both(-0.0)),
        ((2, -4), both(-0.5)),
        ((-2, -4), both(0.5)),
        ((i128::MIN / 2, i128::MIN), both(0.5)),
        ((3, 0), both(f32::INFINITY)),
        ((-3, 0), both(f32::NEG_INFINITY)),
        ((0, 0), (None, None)),
    ];
    for ((numer, denom), want) in rows {
        assert_eq!(bits(floats(numer, denom)), bits(want), "{numer}/{denom}");
    }
}

/// Each fraction of 8 bits. The processor rounds its quotient once.
#[test]
fn all_fractions_of_8_bits() {
    for numer in i8::MIN..=i8::MAX {
        for denom in (i8::MIN..=i8::MAX).filter(|denom| (numer, *denom) != (0, 0)) {
            let want = (Some(f64::from(numer) / f64::from(denom)), Some(f32::from(numer) / f32::from(denom)));
            assert_eq!(bits(floats(numer, denom)), bits(want), "{numer}/{denom}");
        }
    }
}

/// A number of any length, or one next to a tie of two floats: a float's digits, a 1 and zeros, plus or minus 1.
fn number<T: PrimInt>(numbers: &mut Numbers) -> T {
    let wide = match numbers.below(3) {
        0 => {
            let digits = if numbers.below(2) == 0 { 24 } else { 53 };
            let tie = 2 * (numbers.wide() >> (128 - digits)) + 1;
            (tie << numbers.below(128 - digits)) + u128::from(numbers.below(3)) - 1
        }
        _ => numbers.of_any_length(),
    };
    let size = T::zero().count_zeros();
    let kept = wide >> numbers.below(u64::from(129 - size));
    let low = T::from(kept & (T::max_value().to_u128().unwrap())).unwrap();
    if T::min_value() < T::zero() && numbers.below(2) == 0 {
        T::zero() - low
    } else {
        low
    }
}

fn big(numer: &impl ToPrimitive, denom: &impl ToPrimitive) -> BigRational {
    let whole = |x: Option<i128>, y: Option<u128>| x.and_then(BigRational::from_i128).or_else(|| BigRational::from_u128(y?)).unwrap();
    whole(numer.to_i128(), numer.to_u128()) / whole(denom.to_i128(), denom.to_u128())
}

/// Whether the float at this place, counted from 0 on, is the nearest one to the magnitude; if two are as near, the even one.
fn is_nearest(magnitude: &BigRational, place: u64, float: impl Fn(u64) -> BigRational) -> bool {
    let half = |a: u64, b: u64| (float(a) + float(b)) / BigRational::from_u8(2).unwrap();
    let is_even = place % 2 == 0;
    let above_lower = place == 0 || match magnitude.cmp(&half(place - 1, place)) {
        std::cmp::Ordering::Equal => is_even,
        order => order.is_gt(),
    };
    above_lower && match magnitude.cmp(&half(place, place + 1)) {
        std::cmp::Ordering::Equal => is_even,
        order => order.is_lt(),
    }
}

/// The `f32` at this place. The one after the greatest is infinite, and counts as 2^128.
fn single(place: u64) -> BigRational {
    let float = f32::from_bits(u32::try_from(place).unwrap());
    BigRational::from_float(if float.is_infinite() { 2f64.powi(128) } else { float.into() }).unwrap()
}

fn double(place: u64) -> BigRational {
    BigRational::from_float(f64::from_bits(place)).unwrap()
}

macro_rules! sweeps {
    ($($name:ident $T:ty;)*) => {$(
        #[test]
        fn $name() {
            let mut numbers = Numbers(1);
            for _ in 0..1000 {
                let (numer, denom) = (number::<$T>(&mut numbers), number::<$T>(&mut numbers));
                if denom == 0 {
                    continue;
                }
                let (exact, found) = (big(&numer, &denom), floats(numer, denom));
                let (to_f64, to_f32) = (found.0.unwrap(), found.1.unwrap());
                assert_eq!((to_f64 < 0.0, to_f32 < 0.0), (exact.is_negative(), exact.is_negative()), "{numer}/{denom}");
                assert!(is_nearest(&exact.abs(), to_f64.abs().to_bits(), double), "{numer}/{denom} is not {to_f64}");
                assert!(is_nearest(&exact.abs(), to_f32.abs().to_bits().into(), single), "{numer}/{denom} is not {to_f32}");
            }
        }
    )*};
}

sweeps! {
    big_i8 i8; big_i16 i16; big_i32 i32; big_i64 i64; big_i128 i128; big_isize isize;
    big_u8 u8; big_u16 u16; big_u32 u32; big_u64 u64; big_u128 u128; big_usize usize;
}

/// num-rational's `to_f64` is the nearest float, too, for either sign of the denominator and for 0. Not so on an x86 without SSE2,
/// which rounds a quotient twice.
#[cfg(any(not(target_arch = "x86"), target_feature = "sse2"))]
#[test]
fn beside_num_rational() {
    macro_rules! sweep {
        ($($T:ty)*) => {$(
            let mut numbers = Numbers(2);
            for _ in 0..5000 {
                let (numer, denom) = (number::<$T>(&mut numbers), number::<$T>(&mut numbers));
                let (ours, theirs) = (Ratio::new_raw(numer, denom).to_f64(), original::Ratio::new_raw(numer, denom).to_f64());
                assert_eq!(ours.map(f64::to_bits), theirs.map(f64::to_bits), "{numer}/{denom}");
            }
        )*};
    }
    sweep! { i8 i16 i32 i64 i128 isize u8 u16 u32 u64 u128 usize }
}
