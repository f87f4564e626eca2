//! Fractions over a type that is no machine type: a program's own, which has a lifetime and the size of an `i64`. Each call returns what it
//! returns over `i64`. And code that is generic over num-integer's trait.

// The tests are about these forms, and the type has the traits that num-integer requires.
#![allow(clippy::op_ref, clippy::suspicious_arithmetic_impl)]

use bakhsney::{ParseRatioError, Ratio, RatioErrorKind};
use num_integer::Integer;
use num_traits::{Bounded, CheckedAdd, CheckedDiv, CheckedMul, CheckedSub, Inv, Num, NumCast, One, Pow, Signed, ToPrimitive, Zero};
use std::collections::hash_map::DefaultHasher;
use std::fmt;
use std::hash::{Hash, Hasher};
use std::marker::PhantomData;
use std::num::ParseIntError;
use std::ops::{Add, Div, Mul, Neg, Rem, Sub};
use std::panic::catch_unwind;
use std::str::FromStr;

#[derive(Clone, Debug, PartialEq, Eq, PartialOrd, Ord, Hash)]
struct Own<'a>(i64, PhantomData<&'a str>);

fn own<'a>(number: i64) -> Own<'a> {
    Own(number, PhantomData)
}

macro_rules! operators {
    ($($Op:ident $op:ident $Checked:ident $checked:ident;)*) => {$(
        impl $Op for Own<'_> {
            type Output = Self;

            fn $op(self, other: Self) -> Self {
                own($Op::$op(self.0, other.0))
            }
        }

        impl $Checked for Own<'_> {
            fn $checked(&self, other: &Self) -> Option<Self> {
                self.0.$checked(other.0).map(own)
            }
        }
    )*};
}

operators! {
    Add add CheckedAdd checked_add;
    Sub sub CheckedSub checked_sub;
    Mul mul CheckedMul checked_mul;
    Div div CheckedDiv checked_div;
}

impl Rem for Own<'_> {
    type Output = Self;

    fn rem(self, other: Self) -> Self {
        own(self.0 % other.0)
    }
}

impl Neg for Own<'_> {
    type Output = Self;

    fn neg(self) -> Self {
        own(-self.0)
    }
}

impl Zero for Own<'_> {
    fn zero() -> Self {
        own(0)
    }

    fn is_zero(&self) -> bool {
        self.0 == 0
    }
}

impl One for Own<'_> {
    fn one() -> Self {
        own(1)
    }
}

impl Num for Own<'_> {
    type FromStrRadixErr = ParseIntError;

    fn from_str_radix(text: &str, radix: u32) -> Result<Self, ParseIntError> {
        i64::from_str_radix(text, radix).map(own)
    }
}

impl FromStr for Own<'_> {
    type Err = ParseIntError;

    fn from_str(text: &str) -> Result<Self, ParseIntError> {
        text.parse().map(own)
    }
}

impl Signed for Own<'_> {
    fn abs(&self) -> Self {
        own(self.0.abs())
    }

    fn abs_sub(&self, other: &Self) -> Self {
        own(Signed::abs_sub(&self.0, &other.0))
    }

    fn signum(&self) -> Self {
        own(self.0.signum())
    }

    fn is_positive(&self) -> bool {
        self.0 > 0
    }

    fn is_negative(&self) -> bool {
        self.0 < 0
    }
}

impl Integer for Own<'_> {
    fn div_floor(&self, other: &Self) -> Self {
        own(Integer::div_floor(&self.0, &other.0))
    }

    fn mod_floor(&self, other: &Self) -> Self {
        own(Integer::mod_floor(&self.0, &other.0))
    }

    fn gcd(&self, other: &Self) -> Self {
        own(self.0.gcd(&other.0))
    }

    fn lcm(&self, other: &Self) -> Self {
        own(self.0.lcm(&other.0))
    }

    fn divides(&self, other: &Self) -> bool {
        self.is_multiple_of(other)
    }

    fn is_multiple_of(&self, other: &Self) -> bool {
        self.0 % other.0 == 0
    }

    fn is_even(&self) -> bool {
        self.0 % 2 == 0
    }

    fn is_odd(&self) -> bool {
        self.0 % 2 != 0
    }

    fn div_rem(&self, other: &Self) -> (Self, Self) {
        (own(self.0 / other.0), own(self.0 % other.0))
    }
}

impl Bounded for Own<'_> {
    fn min_value() -> Self {
        own(i64::MIN)
    }

    fn max_value() -> Self {
        own(i64::MAX)
    }
}

impl ToPrimitive for Own<'_> {
    fn to_i64(&self) -> Option<i64> {
        Some(self.0)
    }

    fn to_u64(&self) -> Option<u64> {
        self.0.to_u64()
    }
}

impl NumCast for Own<'_> {
    fn from<N: ToPrimitive>(number: N) -> Option<Self> {
        number.to_i64().map(own)
    }
}

macro_rules! forms {
    ($($Form:ident)*) => {$(
        impl fmt::$Form for Own<'_> {
            fn fmt(&self, f: &mut fmt::Formatter<'_>) -> fmt::Result {
                fmt::$Form::fmt(&self.0, f)
            }
        }
    )*};
}

forms! { Display Binary Octal LowerHex UpperHex LowerExp UpperExp }

/// The fraction over the other type.
fn owned<'a>(x: Ratio<i64>) -> Ratio<Own<'a>> {
    Ratio::new_raw(own(*x.numer()), own(*x.denom()))
}

fn fields<'a>(x: Ratio<Own<'a>>) -> (i64, i64) {
    (x.numer().0, x.denom().0)
}

const NUMBERS: [i64; 13] = [-60, -12, -7, -4, -2, -1, 0, 1, 2, 3, 6, 35, 64];

fn fractions() -> impl Iterator<Item = Ratio<i64>> {
    NUMBERS.iter().flat_map(|&numer| NUMBERS.iter().filter(|denom| **denom != 0).map(move |&denom| Ratio::new_raw(numer, denom)))
}

// Each operator in each form, and the assigning ones.
macro_rules! operator {
    ($op:tt $assign:tt: $x:ident, $y:ident) => {
        let want = ($x $op $y).into_raw();
        let (left, right) = (&owned($x), &owned($y));
        let mut assigned = left.clone();
        assigned $assign right;
        let all = [left $op right, left.clone() $op right, left $op right.clone(), left.clone() $op right.clone(), assigned];
        assert_eq!(all.map(fields), [want; 5], "{} {} {}", $x, stringify!($op), $y);
        let (want, number) = ($x $op *$y.numer(), right.numer());
        let mut assigned = left.clone();
        assigned $assign number.clone();
        assert_eq!([left $op number, left.clone() $op number.clone(), assigned].map(fields), [want.into_raw(); 3]);
    };
}

#[test]
fn arithmetic_on_two() {
    for x in fractions() {
        for y in fractions() {
            operator! { + +=: x, y }
            operator! { - -=: x, y }
            operator! { * *=: x, y }
            let (left, right) = (owned(x), owned(y));
            assert_eq!(left.checked_add(&right).map(fields), x.checked_add(&y).map(Ratio::into_raw), "{x} + {y}");
            assert_eq!(left.checked_sub(&right).map(fields), x.checked_sub(&y).map(Ratio::into_raw), "{x} - {y}");
            assert_eq!(left.checked_mul(&right).map(fields), x.checked_mul(&y).map(Ratio::into_raw), "{x} * {y}");
            assert_eq!(left.checked_div(&right).map(fields), x.checked_div(&y).map(Ratio::into_raw), "{x} / {y}");
            assert_eq!(fields(left.abs_sub(&right)), x.abs_sub(&y).into_raw());
            if !y.is_zero() {
                operator! { / /=: x, y }
                operator! { % %=: x, y }
            }
        }
    }
}

/// Results that fit though a product on the way does not, and checked calls without a result.
#[test]
fn at_the_ends() {
    let raw = |numer, denom| Ratio::new_raw(own(numer), own(denom));
    assert_eq!([Ratio::new(own(i64::MIN), own(i64::MIN)), Ratio::new(own(0), own(i64::MIN))].map(fields), [(1, 1), (0, 1)]);
    let (part, two_thirds, three_halves) = (raw(1, 4611686018427387902), raw(2, 3), raw(3, 2));
    let products = [&part * &two_thirds, &part / &three_halves, part.checked_mul(&two_thirds).unwrap(), part.checked_div(&three_halves).unwrap()];
    assert_eq!(products.map(fields), [(1, 6917529027641081853); 4]);
    let (most, one, zero) = (raw(i64::MAX, 1), raw(1, 1), raw(0, 1));
    let too_large = [most.checked_add(&one), raw(i64::MIN, 1).checked_sub(&one), most.checked_mul(&raw(2, 1)), most.checked_div(&raw(1, 2)), one.checked_div(&zero)];
    assert_eq!(too_large.map(|x| x.map(fields)), [None; 5]);
    // The least number has no common divisor that fits with itself, or with 0.
    let least = [raw(1, i64::MIN) + raw(1, i64::MIN), raw(i64::MIN, 1).checked_mul(&raw(1, i64::MIN)).unwrap(), zero.checked_mul(&raw(1, i64::MIN)).unwrap()];
    assert_eq!(least.map(fields), [(-1, 4611686018427387904), (1, 1), (0, 1)]);
    // The denominator has no positive negative, and a denominator of 0 gives no value.
    for refused in [raw(1, i64::MIN), raw(1, 0), raw(0, 0)] {
        let results = [refused.checked_add(&zero), zero.checked_sub(&refused), refused.checked_mul(&one), one.checked_mul(&refused), refused.checked_div(&one)];
        assert_eq!(results.map(|x| x.map(fields)), [None; 5], "{refused:?}");
    }
}

fn hash_of(x: impl Hash) -> u64 {
    let mut state = DefaultHasher::new();
    x.hash(&mut state);
    state.finish()
}

#[test]
fn order_and_hash() {
    for x in fractions() {
        for y in fractions() {
            let (left, right) = (owned(x), owned(y));
            assert_eq!((left.cmp(&right), left == right, left < right, left.partial_cmp(&right)), (x.cmp(&y), x == y, x < y, x.partial_cmp(&y)), "{x} and {y}");
        }
        assert_eq!(hash_of(owned(x)), hash_of(x), "{x}");
    }
}

#[test]
fn calls_on_one() {
    for x in fractions() {
        let y = owned(x);
        assert_eq!([y.reduced(), y.floor(), y.ceil(), y.round(), y.trunc()].map(fields), [x.reduced(), x.floor(), x.ceil(), x.round(), x.trunc()].map(Ratio::into_raw), "{x:?}");
        assert_eq!((y.to_integer().0, y.is_integer(), y.is_zero(), y.is_one()), (x.to_integer(), x.is_integer(), x.is_zero(), x.is_one()), "{x:?}");
        assert_eq!([y.abs(), y.signum(), -&y, -y.clone()].map(fields), [x.abs(), x.signum(), -x, -x].map(Ratio::into_raw), "{x:?}");
        assert_eq!((y.is_positive(), y.is_negative()), (x.is_positive(), x.is_negative()), "{x:?}");
        assert_eq!(Ratio::fract(&y), owned(x.fract()), "{x:?}");
        assert_eq!([Ratio::pow(&y, 0), Ratio::pow(&y, 1), Ratio::pow(&y, 2), Pow::pow(&y, 7u8), Pow::pow(y.clone(), &3i64)], [x.pow(0), x.pow(1), x.pow(2), x.pow(7), x.pow(3)].map(owned), "{x:?}");
        if !x.is_zero() {
            assert_eq!([y.recip(), Inv::inv(&y), Ratio::pow(&y, -3)], [x.recip(), x.recip(), x.pow(-3)].map(owned), "{x:?}");
        }
    }
    assert!([0, 1].iter().all(|&n| catch_unwind(|| Ratio::new_raw(own(n), own(0)).reduced()).is_err()));
    assert!(catch_unwind(|| Ratio::new(own(0), own(5)).recip()).is_err());
    let halves = [owned(Ratio::new(1, 2)), owned(Ratio::new(3, 2))];
    assert_eq!([halves.iter().sum(), halves.iter().product(), halves.iter().cloned().sum()].map(fields), [(2, 1), (3, 4), (2, 1)]);
    assert_eq!([Ratio::default(), Ratio::zero(), Ratio::one(), Ratio::from(own(7)), Ratio::from((own(2), own(-4)))].map(fields), [(0, 1), (0, 1), (1, 1), (7, 1), (-1, 2)]);
}

#[test]
fn texts() {
    for x in fractions() {
        let y = owned(x);
        assert_eq!(format!("{y} {y:+} {y:>9} {y:<+9}| {y:*^11} {y:012}"), format!("{x} {x:+} {x:>9} {x:<+9}| {x:*^11} {x:012}"));
        assert_eq!(format!("{y:b} {y:#b} {y:o} {y:#x} {y:X} {y:#010x}"), format!("{x:b} {x:#b} {x:o} {x:#x} {x:X} {x:#010x}"));
        assert_eq!(format!("{y:e} {y:+E}"), format!("{x:e} {x:+E}"));
    }
    for text in ["3/4", "-6/8", "5", "+1/2", "1/-2", "0/5", "", "1/", "/2", "1/2/3", "1/0", "x", "9223372036854775808"] {
        assert_eq!(text.parse::<Ratio<Own>>().map(fields), text.parse::<Ratio<i64>>().map(Ratio::into_raw), "{text}");
        let radix: Result<Ratio<Own>, ParseRatioError> = Ratio::from_str_radix(text, 16);
        assert_eq!(radix.map(fields), Ratio::<i64>::from_str_radix(text, 16).map(Ratio::into_raw), "{text}");
    }
    assert_eq!("1/0".parse::<Ratio<Own>>().unwrap_err().kind(), RatioErrorKind::ZeroDenominator);
}

#[test]
fn floats() {
    for float in [0.5, -0.75, 22.7182, 1e18, 1e19, f64::NAN, 0.1, -29.97] {
        assert_eq!(Ratio::<Own>::approximate_float(float).map(fields), Ratio::<i64>::approximate_float(float).map(Ratio::into_raw), "{float}");
    }
}

/// Code that names num-integer's trait, as num-rational's users write it.
fn mean<T: Clone + Integer>(items: &[Ratio<T>]) -> Option<Ratio<T>> {
    let count = items.iter().fold(T::zero(), |count, _| count + T::one());
    if items.is_empty() { None } else { Some(items.iter().sum::<Ratio<T>>() / count) }
}

#[test]
fn generic_code() {
    assert_eq!(mean(&[Ratio::new(1, 2), Ratio::new(1, 3)]), Some(Ratio::new(5, 12)));
    assert_eq!(mean(&[Ratio::new(1u8, 2), Ratio::new(1, 3)]), Some(Ratio::new(5, 12)));
    assert_eq!(mean(&[owned(Ratio::new(1, 2)), owned(Ratio::new(1, 3))]), Some(owned(Ratio::new(5, 12))));
    assert_eq!(mean::<i64>(&[]), None);
    // The proved calls are behind it: num-rational's sum over `i8` wraps here in a release build.
    assert!(catch_unwind(|| mean(&[Ratio::new(1i8, 1), Ratio::new(1, 127)])).is_err());
}
