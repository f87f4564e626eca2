//! Each form of an operator and of a power, each integer type, and the numbers at the ends of the types.

// The tests are about these forms.
#![allow(clippy::op_ref)]

use bakhsney::{integer::Integer, Ratio, Rational, Rational32, Rational64, Reduced, Reduced32, Reduced64};
use num_traits::{FromPrimitive, One, Pow, Signed, ToPrimitive, Zero};

#[test]
fn operators_with_each_kind_of_operand() {
    let (x, y, k) = (Ratio::new(17i64, 4), Ratio::new(3, 5), 2);
    macro_rules! rows {
        ($($op:tt $op_assign:tt $by_fraction:expr, $by_number:expr;)*) => {$(
            let (fraction, number) = (Ratio::from($by_fraction), Ratio::from($by_number));
            assert_eq!([x $op y, x $op &y, &x $op y, &x $op &y], [fraction; 4], stringify!($op));
            assert_eq!([x $op k, x $op &k, &x $op k, &x $op &k], [number; 4], stringify!($op));
            let mut assigned = [x; 4];
            assigned[0] $op_assign y;
            assigned[1] $op_assign &y;
            assigned[2] $op_assign k;
            assigned[3] $op_assign &k;
            assert_eq!(assigned, [fraction, fraction, number, number], stringify!($op_assign));
        )*};
    }
    rows! {
        + += (97, 20), (25, 4);
        - -= (73, 20), (9, 4);
        * *= (51, 20), (17, 2);
        / /= (85, 12), (17, 8);
        % %= (1, 20), (1, 4);
    }
}

/// The power in the four forms of `Pow`.
macro_rules! powers {
    ($x:expr, $exponent:expr) => {
        [Pow::pow($x, $exponent), Pow::pow($x, &$exponent), Pow::pow(&$x, $exponent), Pow::pow(&$x, &$exponent)]
    };
}

#[test]
fn powers_by_each_exponent_type() {
    let (half, zero) = (Ratio::new(1i64, 2), Rational64::ZERO);
    macro_rules! rows {
        ($($E:ty)*) => {$(
            assert_eq!(powers!(half, 3 as $E), [Ratio::new(1, 8); 4], stringify!($E));
            // A power of 2. In fewer bits it is 0, and 0 to the 0 is 1.
            let wide = <$E>::MAX - <$E>::MAX / 2;
            assert_eq!(powers!(zero, wide), [zero; 4], stringify!($E));
        )*};
    }
    rows! { i8 i16 i32 i64 i128 isize u8 u16 u32 u64 u128 usize }
    assert_eq!([powers!(half, -3i8), powers!(half, -3i32), powers!(half, -3i128)], [[Ratio::from_integer(8); 4]; 3]);
    assert_eq!((Ratio::pow(&zero, 1 << 30), zero.checked_pow(1 << 30)), (zero, Some(zero)));
    assert_eq!((half.checked_pow(-3), zero.checked_pow(-3)), (Some(Ratio::from_integer(8)), None));
    assert_eq!(Reduced64::ZERO.checked_pow(1 << 30), Some(Reduced64::ZERO));
    assert_eq!(Ratio::new_raw(1i8, -128).checked_pow(2), None);
}

#[test]
fn each_element_type() {
    macro_rules! rows {
        ($($T:ty)*) => {$(
            let (x, most) = (Ratio::new(<$T>::MAX, 2), <$T>::MAX);
            assert_eq!((x.into_raw(), x.to_string()), ((most, 2), format!("{most}/2")));
            let lowest = Reduced::from_ratio(&x).unwrap();
            assert_eq!((*lowest.numer(), *lowest.denom(), lowest.into_raw()), (most, 2, (most, 2)));
            assert_eq!(Ratio::<$T>::from_integer(<$T>::MIN).to_string(), <$T>::MIN.to_string());
        )*};
    }
    rows! { i8 i16 i32 i64 i128 isize u8 u16 u32 u64 u128 usize }
    let _: (Rational, Rational32, Rational64) = (Ratio::<isize>::ONE, Ratio::<i32>::ONE, Ratio::<i64>::ONE);
    let _: (Reduced32, Reduced64) = (Reduced::<i32>::ONE, Reduced::<i64>::ONE);
}

#[test]
fn reciprocals_of_negative_denominators() {
    let rows = [((4, -6), (-3, 2)), ((-4, -6), (3, 2)), ((-128, -2), (1, 64))];
    for ((numer, denom), want) in rows {
        assert_eq!(Ratio::<i8>::new_raw(numer, denom).recip().into_raw(), want);
    }
}

type Wholes = (Option<i64>, Option<u64>, Option<i128>, Option<u128>);

fn wholes<T: Integer>(x: Ratio<T>) -> Wholes {
    (x.to_i64(), x.to_u64(), x.to_i128(), x.to_u128())
}

#[test]
fn to_whole_numbers_at_the_ends() {
    let of = Ratio::<i128>::from_integer;
    assert_eq!(wholes(Ratio::new(7i8, 2)), (Some(3), Some(3), Some(3), Some(3)));
    assert_eq!(wholes(Ratio::new(-7i8, 2)), (Some(-3), None, Some(-3), None));
    assert_eq!(wholes(Ratio::new(-1i8, 2)), (Some(0), Some(0), Some(0), Some(0)));
    assert_eq!(wholes(of(1 << 63)), (None, Some(1 << 63), Some(1 << 63), Some(1 << 63)));
    assert_eq!(wholes(of(1 << 64)), (None, None, Some(1 << 64), Some(1 << 64)));
    assert_eq!(wholes(of((-1 << 63) - 1)), (None, None, Some(-9223372036854775809), None));
    assert_eq!(wholes(of(i128::MIN)), (None, None, Some(i128::MIN), None));
    assert_eq!(wholes(Ratio::from_integer(u128::MAX)), (None, None, None, Some(u128::MAX)));
    assert_eq!(wholes(Ratio::new_raw(1i8, -128)), (None, None, None, None));
}

/// The fields over `T` of whole numbers of the four types.
fn fields<T: Integer>(a: i64, b: u64, c: i128, d: u128) -> [Option<(T, T)>; 4] {
    let made = [Ratio::from_i64(a), Ratio::from_u64(b), Ratio::from_i128(c), Ratio::from_u128(d)];
    made.map(|x| x.map(Ratio::into_raw))
}

#[test]
fn from_whole_numbers_at_the_ends() {
    let (low, high) = (i128::from(i64::MIN), u64::MAX);
    assert_eq!(fields(0, 0, 0, 0), [Some((0i8, 1)); 4]);
    assert_eq!(fields(-1, 127, -128, 127), [Some((-1i8, 1)), Some((127, 1)), Some((-128, 1)), Some((127, 1))]);
    assert_eq!(fields::<i8>(1 << 32, 1 << 32, 1 << 64, 1 << 64), [None; 4]);
    assert_eq!(fields::<i8>(i64::MAX, high, i128::MAX, u128::MAX), [None; 4]);
    assert_eq!(fields::<u8>(-1, 256, -1, 256), [None; 4]);
    assert_eq!(fields(i64::MIN, high, i128::MIN, 1 << 126), [Some((low, 1)), Some((high.into(), 1)), Some((i128::MIN, 1)), Some((1 << 126, 1))]);
    assert_eq!(Ratio::from_u128(u128::MAX), Some(Ratio::from_integer(u128::MAX)));
}

#[test]
fn signs_of_each_kind_of_fields() {
    let raw = Ratio::<i8>::new_raw;
    let rows = [((0, 5), 0, (0, 5)), ((0, -5), 0, (0, -5)), ((1, 2), 1, (1, 2)), ((-1, 2), -1, (1, 2)), ((1, -2), -1, (1, 2)), ((-1, -2), 1, (1, 2)), ((-128, -1), 1, (-128, -1))];
    for ((numer, denom), sign, (n, d)) in rows {
        let x = raw(numer, denom);
        assert_eq!((x.signum(), x.abs()), (Ratio::from_integer(sign), raw(n, d)), "{x:?}");
        assert_eq!((x.is_positive(), x.is_negative(), x.is_zero()), (sign == 1, sign == -1, sign == 0), "{x:?}");
    }
    assert_eq!(raw(126, 126).abs_sub(&raw(127, 127)), Ratio::ZERO);
    let ones = [(1, 1), (2, 2), (-3, -3), (1, 2), (2, 1), (0, 1)].map(|(n, d)| raw(n, d).is_one());
    assert_eq!(ones, [true, true, true, false, false, false]);
}
