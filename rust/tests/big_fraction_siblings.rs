//! `BigFraction` beside whole numbers, `Ratio`s and `Reduced`s of the twelve types: each form of an operator gives what it gives of two
//! `BigFraction`s, comparisons are those of cross products, and conversions refuse exactly what does not fit. The numbers are at the ends of
//! the types and of `i64`, and drawn.
#![cfg(feature = "alloc")]

// The tests are about these forms.
#![allow(clippy::op_ref)]

#[path = "support/outcomes.rs"]
mod outcomes;
#[macro_use]
mod support;

use bakhsney::integer::Integer;
use bakhsney::{BigFraction, BigOperand, FloatError, Ratio, Reduced, ReducedError};
use num_traits::{Num, NumAssignRef, NumRef, Pow, RefNum, Signed, ToPrimitive, Zero};
use original::BigRational;
use outcomes::{outcome, quietly};
use std::cmp::Ordering;
use support::Numbers;

/// Fractions at the ends of `i64`, of 128 bits, and beyond.
const TEXTS: [&str; 11] = [
    "0", "1", "-1/2", "7/6", "9223372036854775807", "-9223372036854775808", "9223372036854775808", "-5/18446744073709551616",
    "-170141183460469231731687303715884105728", "340282366920938463463374607431768211455/7", "-10000000000000000000000000000000000000000/3",
];

fn bigs() -> Vec<BigFraction> {
    TEXTS.iter().map(|text| text.parse().unwrap()).collect()
}

/// Numbers at the ends of the type and of `i64`, small ones, and drawn ones.
fn numbers<T: Integer>(drawn: &mut Numbers) -> Vec<T> {
    let ends = [T::min_value(), T::min_value() + T::one(), T::max_value() - T::one(), T::max_value()];
    let others = [-3, -1, 0, 1, 2, 6, i64::MIN.into(), 1 << 63, 1i128 << 64].into_iter().filter_map(T::from);
    let any: Vec<T> = (0..9).filter_map(|_| T::from(drawn.of_any_length())).collect();
    others.chain(ends).chain(any).collect()
}

/// Fractions of these numbers with each kind of fields: also not in lowest terms, and over 0.
fn ratios<T: Integer>(drawn: &mut Numbers) -> Vec<Ratio<T>> {
    let numbers = numbers::<T>(drawn);
    let denoms = numbers.clone();
    let any = |drawn: &mut Numbers| denoms[drawn.below(denoms.len() as u64) as usize];
    numbers.iter().flat_map(|&numer| [T::zero(), T::one(), any(drawn), any(drawn)].map(|denom| Ratio::new_raw(numer, denom))).collect()
}

fn reduceds<T: Integer>(drawn: &mut Numbers) -> Vec<Reduced<T>> {
    ratios(drawn).iter().filter_map(Reduced::from_ratio).collect()
}

/// The same value by way of a text. `None` if it has none.
fn big<T: Integer>(x: Ratio<T>) -> Option<BigFraction> {
    format!("{}/{}", x.numer(), x.denom()).parse().ok()
}

fn original<T: Integer>(x: Ratio<T>) -> Option<BigRational> {
    format!("{}/{}", x.numer(), x.denom()).parse().ok()
}

// ---- operators

// Each form of an operator, with the operand on either side. `$y` is that operand, and `$big` the same one as a `BigFraction`.
macro_rules! forms {
    ($x:ident $y:ident $big:ident: $($op:tt $assign:tt;)*) => {$(
        let want = outcome(|| &$x $op $big.as_ref().expect("denominator == 0"));
        let assigned = [outcome(|| { let mut z = $x.clone(); z $assign $y; z }), outcome(|| { let mut z = $x.clone(); z $assign &$y; z })];
        let right = [outcome(|| &$x $op $y), outcome(|| $x.clone() $op $y), outcome(|| &$x $op &$y), outcome(|| $x.clone() $op &$y)];
        for found in assigned.into_iter().chain(right) {
            assert_eq!(found, want, "{} {} {:?}", $x, stringify!($op), $y);
        }
        let want = outcome(|| $big.as_ref().expect("denominator == 0") $op &$x);
        let left = [outcome(|| $y $op &$x), outcome(|| $y $op $x.clone()), outcome(|| &$y $op &$x), outcome(|| &$y $op $x.clone())];
        for found in left {
            assert_eq!(found, want, "{:?} {} {}", $y, stringify!($op), $x);
        }
    )*};
}

macro_rules! operators {
    ($($name:ident $T:ident;)*) => {
        mod operators {
            use super::*;
            $(
                #[test]
                fn $name() {
                    quietly(|| {
                        let mut drawn = Numbers(1);
                        for x in bigs() {
                            for y in numbers::<$T>(&mut drawn) {
                                let big = big(Ratio::from_integer(y));
                                forms! { x y big: + +=; - -=; * *=; / /=; % %=; }
                            }
                            for y in ratios::<$T>(&mut drawn) {
                                let big = big(y);
                                forms! { x y big: + +=; - -=; * *=; / /=; % %=; }
                            }
                            for y in reduceds::<$T>(&mut drawn) {
                                let big = big(y.to_ratio());
                                forms! { x y big: + +=; - -=; * *=; / /=; % %=; }
                            }
                        }
                    });
                }
            )*
        }
    };
}

each_type! { operators }

#[test]
fn two_big_fractions() {
    for x in bigs() {
        for y in bigs() {
            let mut sum = x.clone();
            sum += &y;
            assert_eq!([x.clone() + &y, &x + y.clone(), x.clone() + y.clone(), &x + &&y], [(); 4].map(|_| sum.clone()));
            assert_eq!(BigFraction::checked_new(&x, &y), if y.is_zero() { None } else { Some(&x / &y) });
            assert_eq!(BigFraction::checked_new(x.clone(), y.clone()), BigFraction::try_new(&x, &y).unwrap());
        }
    }
}

#[test]
fn new_of_each_operand() {
    let sixth = BigFraction::new(1, 6);
    assert_eq!(BigFraction::new(Ratio::new_raw(2i8, -4), Ratio::new_raw(-9, 3)), sixth);
    assert_eq!(BigFraction::new(&Ratio::new(1u8, 2), &Ratio::new(3, 1)), sixth);
    assert_eq!(BigFraction::new(Reduced::from(1i8), Reduced::from(6)), sixth);
    assert_eq!([BigFraction::new(&1, &6), BigFraction::new(&&-128i8, &&-128) / 6], [sixth.clone(), sixth.clone()]);
    assert_eq!(BigFraction::new(BigFraction::from(1), BigFraction::from(6)), sixth);
    for refused in [(1, 1, 0, 1), (1, 0, 1, 1), (1, 1, 1, 0), (0, 0, 0, 0)] {
        let (a, b, c, d) = refused;
        assert_eq!(BigFraction::try_new(Ratio::new_raw(a, b), Ratio::new_raw(c, d)), Ok(None), "{refused:?}");
    }
    quietly(|| {
        assert_eq!(outcome(|| BigFraction::new(&sixth, &BigFraction::zero())), Err("denominator == 0".into()));
        assert_eq!(outcome(|| BigFraction::new(1u8, 0)), Err("denominator == 0".into()));
    });
}

#[test]
fn sums_and_products() {
    assert_eq!([1u8, 2, 3].iter().sum::<BigFraction>(), 6);
    assert_eq!([i64::MAX; 3].into_iter().product::<BigFraction>(), BigFraction::from(i64::MAX).pow(3));
    assert_eq!([Ratio::new(1i8, 127), Ratio::new(1, 126)].into_iter().sum::<BigFraction>(), BigFraction::new(253, 16002));
    assert_eq!([Reduced::from(u128::MAX); 2].iter().sum::<BigFraction>(), BigFraction::from(u128::MAX) * 2);
    assert_eq!(bigs().iter().product::<BigFraction>(), bigs().into_iter().product::<BigFraction>());
    quietly(|| assert_eq!(outcome(|| [Ratio::new_raw(1, 0)].iter().sum::<BigFraction>()), Err("denominator == 0".into())));
}

/// The type of what an operator gives is known before that of a number on its right.
#[test]
fn results_have_a_known_type() {
    let b = BigFraction::new(7, 2);
    assert_eq!((&b - 2).recip(), BigFraction::new(2, 3));
    assert_eq!((b.clone() * 2 + 1 - &3 / &b).floor(), 7);
    assert_eq!((&b / Ratio::new(1, 2)).to_string(), "7");
    assert_eq!(Pow::pow(&b, 2).to_string(), "49/4");
    assert_eq!([(1, 2), (3, 4)].map(|(n, d)| BigFraction::new(n, d).numer()), [1, 3]);
}

/// Code that is generic over numbers, or over the types of integers.
#[test]
fn generic_code() {
    fn sum_of_squares<N: Clone + NumRef + NumAssignRef>(items: &[N]) -> N
    where
        for<'a> &'a N: RefNum<N>,
    {
        let mut sum = N::zero();
        for item in items {
            sum += &(item * item);
        }
        sum
    }
    fn middle<T: Integer>(x: &BigFraction, n: T, y: Ratio<T>) -> BigFraction {
        (x + n + y + BigFraction::new(n, n)) / T::from(4).unwrap()
    }
    fn twice<N: BigOperand + Copy>(n: N) -> BigFraction {
        BigFraction::zero() + n + n
    }
    assert_eq!(sum_of_squares(&[BigFraction::new(3, 5), BigFraction::new(4, 5)]), 1);
    assert_eq!(middle(&BigFraction::new(1, 2), 1u8, Ratio::new(1, 2)), Ratio::new(3, 4));
    assert_eq!([twice(i8::MIN), twice(Ratio::new(-128i8, 1)), twice(&BigFraction::from(-128))], [(); 3].map(|_| BigFraction::from(-256)));
}

// ---- comparisons

/// The order of two fractions of at most 64 bits, by their cross products.
fn cross([a, b]: [i128; 2], [c, d]: [i128; 2]) -> Ordering {
    let order = (a * d).cmp(&(c * b));
    if (b < 0) != (d < 0) { order.reverse() } else { order }
}

// Each comparison with `$y` on the right, which has this order.
macro_rules! compared {
    ($x:expr, $y:expr, $order:expr) => {{
        let (x, y, order): (_, _, Option<Ordering>) = ($x, $y, $order);
        let is = |wanted: &[Ordering]| order.map_or(false, |order| wanted.contains(&order));
        let want = [is(&[Ordering::Equal]), !is(&[Ordering::Equal]), is(&[Ordering::Less]), is(&[Ordering::Less, Ordering::Equal])];
        let above = [is(&[Ordering::Greater]), is(&[Ordering::Greater, Ordering::Equal])];
        assert_eq!((x.partial_cmp(y), [x == y, x != y, x < y, x <= y], [x > y, x >= y]), (order, want, above), "{x:?} and {y:?}");
    }};
}

fn comparisons<T: Integer>() {
    let mut drawn = Numbers(2);
    for text in TEXTS {
        let (x, old): (BigFraction, BigRational) = (text.parse().unwrap(), text.parse().unwrap());
        for y in numbers::<T>(&mut drawn) {
            compared!(&x, &y, Some(old.cmp(&original(Ratio::from_integer(y)).unwrap())));
        }
        for y in ratios::<T>(&mut drawn) {
            compared!(&x, &y, original(y).map(|y| old.cmp(&y)));
        }
        for y in reduceds::<T>(&mut drawn) {
            let order = old.cmp(&original(y.to_ratio()).unwrap());
            compared!(&x, &y, Some(order));
            compared!(&y, &x, Some(order.reverse()));
        }
    }
}

/// Both fractions have at most 64 bits, so that the products fit an `i128`.
fn comparisons_by_cross_products<T: Integer>() {
    let mut drawn = Numbers(3);
    let wide = |number: T| number.to_i128().unwrap();
    for y in ratios::<T>(&mut drawn) {
        let same = || (i64::try_from(wide(*y.numer())).ok(), i64::try_from(wide(*y.denom())).ok());
        let others = [same(), (Some(drawn.word() as i64), Some(drawn.word() as i64)), (Some(i64::MIN), Some(1)), (Some(i64::MAX), Some(-1)), (Some(0), Some(1))];
        for other in others {
            if let (Some(numer), Some(denom @ 1..=i64::MAX)) = other {
                let order = cross([numer.into(), denom.into()], [wide(*y.numer()), wide(*y.denom())]);
                compared!(&BigFraction::new(numer, denom), &y, if y.denom().is_zero() { None } else { Some(order) });
                if let Some(y) = Reduced::from_ratio(&y) {
                    compared!(&BigFraction::new(numer, denom), &y, Some(order));
                    compared!(&y, &BigFraction::new(numer, denom), Some(order.reverse()));
                }
            }
        }
    }
}

#[test]
fn orders_of_each_type() {
    macro_rules! each {
        ($($name:ident $T:ident;)*) => {{ $(comparisons::<$T>();)* }};
    }
    each_type! { each }
}

#[test]
fn orders_by_cross_products() {
    comparisons_by_cross_products::<i8>();
    comparisons_by_cross_products::<u8>();
    comparisons_by_cross_products::<i32>();
    comparisons_by_cross_products::<i64>();
    comparisons_by_cross_products::<u64>();
}

// ---- conversions

/// The numbers of a fraction in lowest terms, if both fit the type.
fn fields<T: Integer>(x: &BigRational) -> Option<(T, T)> {
    Some((x.numer().to_string().parse().ok()?, x.denom().to_string().parse().ok()?))
}

macro_rules! conversions {
    ($($name:ident $T:ident;)*) => {
        mod conversions {
            use super::*;
            $(
                #[test]
                fn $name() {
                    let mut drawn = Numbers(4);
                    let one = BigRational::from_integer(1.into());
                    let near = ratios::<$T>(&mut drawn).into_iter().filter_map(original).flat_map(|x| [&x - &one, &x + &one, x]);
                    for x in near.chain(TEXTS.iter().map(|text| text.parse().unwrap())) {
                        let (found, want) = (x.to_string().parse::<BigFraction>().unwrap(), fields::<$T>(&x));
                        let whole: Option<$T> = want.filter(|_| x.is_integer()).map(|(numer, _)| numer);
                        assert_eq!([$T::try_from(&found).ok(), $T::try_from(found.clone()).ok()], [whole; 2], "{x}");
                        assert_eq!(Ratio::<$T>::try_from(&found).ok().map(Ratio::into_raw), want, "{x}");
                        assert_eq!(Ratio::<$T>::try_from(found.clone()).ok().map(Ratio::into_raw), want, "{x}");
                        assert_eq!(Reduced::<$T>::try_from(&found).ok().map(Reduced::into_raw), want, "{x}");
                        assert_eq!(Reduced::<$T>::try_from(found).ok().map(Reduced::into_raw), want, "{x}");
                    }
                }
            )*
        }
    };
}

each_type! { conversions }

#[test]
fn conversions_have_texts() {
    let refused: Result<i8, ReducedError> = BigFraction::new(1, 2).try_into();
    assert_eq!(refused.unwrap_err().to_string(), "the denominator is 0, or the lowest terms do not fit the type or the memory");
    let none: Result<BigFraction, FloatError> = f64::NAN.try_into();
    assert_eq!(none.unwrap_err().to_string(), "the float is infinite or no number, or its lowest terms do not fit the type or the memory");
}

#[test]
fn floats() {
    let mut drawn = Numbers(5);
    let any = (0..500).map(|_| f64::from_bits(drawn.word()));
    for float in any.chain([0.0, -0.0, 0.1, -2.5, f64::MAX, 5e-324, f64::INFINITY, f64::NEG_INFINITY, f64::NAN]) {
        let want = |x: Option<BigRational>| x.map(|x| x.to_string().parse().unwrap());
        assert_eq!(BigFraction::try_from(float).ok(), want(BigRational::from_float(float)), "{float:e}");
        assert_eq!(BigFraction::try_from(float as f32).ok(), want(BigRational::from_float(float as f32)), "{float:e}");
    }
    assert_eq!(BigFraction::try_from(0.75), Ok(BigFraction::new(3, 4)));
}

#[test]
fn whole_numbers_and_fields() {
    for x in bigs() {
        let (numer, denom) = x.clone().into_raw();
        assert_eq!((&numer, &denom), (&x.numer(), &x.denom()));
        assert_eq!(BigFraction::new(numer, denom), x);
        assert_eq!(x.to_integer(), x.trunc());
        assert_eq!(i64::try_from(x.to_integer()).ok(), x.to_i64());
        assert_eq!(x.abs().to_integer(), &x.abs() - x.abs().fract());
    }
}

// ---- printing

/// Numbers of 128 bits are printed as `Ratio` prints them.
#[test]
fn forms_with_an_exponent() {
    let mut drawn = Numbers(6);
    let rows = [(0, 1), (10, 1), (-1500, 7), (i128::MIN, 1), (i128::MAX, 10), (1, i128::MAX), (100, 99)];
    let any = (0..500).map(|_| (drawn.of_any_length() as i128, (drawn.of_any_length() >> 1).max(1) as i128));
    for (numer, denom) in rows.into_iter().chain(any.collect::<Vec<_>>()) {
        let (x, y) = (BigFraction::new(numer, denom), Ratio::new(numer, denom));
        assert_eq!(format!("{x:e}|{x:E}|{x:+e}|{x:>90e}|{x:<90E}|{x:^9e}|{x:090e}"), format!("{y:e}|{y:E}|{y:+e}|{y:>90e}|{y:<90E}|{y:^9e}|{y:090e}"));
    }
    let long = BigFraction::from(10).pow(50);
    assert_eq!(format!("{long:e} {:E} {:e}", -long.recip(), long.clone() + 1), format!("1e50 -1E0/1E50 1.{}1e50", "0".repeat(49)));
    assert_eq!(<BigFraction as Num>::from_str_radix("-1/1", 2).map(|x| format!("{:e}", x * long * 12)), Ok("-1.2e51".to_string()));
}
