//! `Reduced::from_float` and `from_float32`, compared with fractions of big integers, and `rationalize`: each fraction with a small denominator comes
//! back from its float.

mod support;

use bakhsney::{integer::Integer, Ratio, Reduced};
use num_traits::ToPrimitive;
use original::BigRational;
use support::Numbers;

/// The float's fields if both fit the type.
fn fields<T: Integer>(float: f64) -> Option<(T, T)> {
    let exact = BigRational::from_float(float)?;
    let field = |x: &original::BigRational| x.to_i128().and_then(|x| T::from(x)).or_else(|| T::from(x.to_u128()?));
    Some((field(&exact.numer().clone().into())?, field(&exact.denom().clone().into())?))
}

/// A float with few or many digits, near 1 or far from it, of either sign.
fn float(numbers: &mut Numbers) -> f64 {
    let digits = numbers.word() >> 12 >> numbers.below(52) << numbers.below(52);
    let exponent = match numbers.below(4) {
        0 => numbers.below(0x800),
        1 => numbers.below(2) * 0x7ff,
        _ => 1023 - 140 + numbers.below(280),
    };
    f64::from_bits(numbers.below(2) << 63 | exponent << 52 | (digits & ((1 << 52) - 1)))
}

/// The floats that num-rational's own tests of `from_float` have. There the fields are big integers.
#[test]
fn rows() {
    const P100: i128 = 1 << 100;
    let doubles = [
        (std::f64::consts::PI, (884279719003555, 281474976710656)),
        (684729.48391, (367611342500051, 536870912)),
        (-8573.5918555, (-4713381968463931, 549755813888)),
        (2f64.powi(100), (P100, 1)),
        (-2f64.powi(100), (-P100, 1)),
        (2f64.powi(-100), (1, P100)),
    ];
    for (double, want) in doubles {
        assert_eq!(Reduced::from_float(double).map(Reduced::into_raw), Some(want), "{double}");
        assert_eq!(fields(double), Some(want), "{double}");
    }
    let singles = [
        (std::f32::consts::PI, (13176795, 4194304)),
        (684729.5, (1369459, 2)),
        (-8573.592, (-4389679, 512)),
        (2f32.powi(100), (P100, 1)),
        (-2f32.powi(100), (-P100, 1)),
        (2f32.powi(-100), (1, P100)),
    ];
    for (single, want) in singles {
        assert_eq!(Reduced::from_float32(single).map(Reduced::into_raw), Some(want), "{single}");
        assert_eq!(fields(single.into()), Some(want), "{single}");
    }
    assert_eq!([f64::NAN, f64::INFINITY, f64::NEG_INFINITY].map(Reduced::<i128>::from_float), [None; 3]);
    assert_eq!([f32::NAN, f32::INFINITY, f32::NEG_INFINITY].map(Reduced::<i128>::from_float32), [None; 3]);
}

macro_rules! sweeps {
    ($($name:ident $T:ty;)*) => {$(
        #[test]
        fn $name() {
            let mut numbers = Numbers(3);
            for _ in 0..3000 {
                let double = float(&mut numbers);
                let single = double as f32;
                assert_eq!(Reduced::<$T>::from_float(double).map(Reduced::into_raw), fields(double), "{double:e}");
                assert_eq!(Reduced::<$T>::from_float32(single).map(Reduced::into_raw), fields(single.into()), "{single:e}");
            }
        }
    )*};
}

sweeps! {
    big_i8 i8; big_i16 i16; big_i32 i32; big_i64 i64; big_i128 i128; big_isize isize;
    big_u8 u8; big_u16 u16; big_u32 u32; big_u64 u64; big_u128 u128; big_usize usize;
}

/// Each float of 16 bits of digits and signs near 1, over a small type: some fit, some do not.
#[test]
fn some_fit_and_some_do_not() {
    let eighths = (-1100..1100).filter(|n| Reduced::<i8>::from_float(f64::from(*n) / 8.0).is_some()).count();
    // -128 to 127 whole numbers; -127/2 to 127/2, 128 of them; 128/4 in the same way; and 128/8.
    assert_eq!(eighths, 256 + 128 + 128 + 128);
}

#[test]
fn small_fractions_come_back() {
    for denom in 1..=1000i64 {
        for numer in 1..denom {
            let fraction = Reduced::checked_new(numer, denom).unwrap();
            assert_eq!(Reduced::rationalize(fraction.to_f64()), Some(fraction), "{fraction}");
        }
    }
}

// No fraction with a smaller denominator has more quotients than `approximate_float` has rounds.
#[test]
fn differs_from_approximate_float() {
    let (numer, denom) = (1346269i64, 2178309);
    let float = numer as f64 / denom as f64;
    assert_eq!(Ratio::rationalize(float), Some(Ratio::new(numer, denom)));
    assert_eq!(Ratio::approximate_float(float), Some(Ratio::new(514229i64, 832040)));
    assert_eq!(Reduced::rationalize(1e-5), Reduced::checked_new(1i64, 100000));
    assert_eq!(Ratio::rationalize(0.30000000000000004), Some(Ratio::new(415716888680356i64, 1385722962267853)));
}

// Where the last bit of a float is coarse, the two differ at small denominators, too.
#[test]
fn differs_where_the_last_bit_is_coarse() {
    let float = 2f64.powi(50) + 0.25;
    assert_eq!(Ratio::rationalize(float), Some(Ratio::new(3377699720527873i64, 3)));
    assert_eq!(Ratio::approximate_float(float), Some(Ratio::new(4503599627370497i64, 4)));
    assert_eq!((Ratio::new(3377699720527873i64, 3).to_f64(), Ratio::new(4503599627370497i64, 4).to_f64()), (Some(float), Some(float)));
}

/// Below 1,000 and next to 10^11, each amount of cents is the simplest fraction that rounds to its float. Further on, some floats have a
/// simpler one, and `from_decimal` reads the text.
#[test]
fn cents() {
    let amount = |cents: i64| Reduced::checked_new(cents, 100).unwrap();
    for cents in (0..100_000).chain(10_000_000_000_000..10_000_000_100_000) {
        assert_eq!(Reduced::rationalize(cents as f64 / 100.0), Some(amount(cents)), "{}", amount(cents));
    }
    assert_eq!(Reduced::rationalize(692706350382.67), Reduced::checked_new(67192515987119i64, 97));
    assert_eq!(Reduced::from_decimal("692706350382.67").ok(), Some(amount(69270635038267)));
}
