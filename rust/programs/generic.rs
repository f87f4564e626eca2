//! Code that is generic over num-traits, with fractions and with floats.
use num_rational::{Ratio, Rational32, Rational64};
use num_traits::{CheckedAdd, CheckedMul, FromPrimitive, Inv, Num, NumAssign, One, Pow, Signed, ToPrimitive, Zero};
use std::fmt::Debug;

/// The polynomial with these coefficients, the highest first.
fn polynomial<T: Num + Copy>(coefficients: &[T], x: T) -> T {
    coefficients.iter().fold(T::zero(), |sum, &c| sum * x + c)
}

fn mean<T: NumAssign + FromPrimitive + Copy>(items: &[T]) -> Option<T> {
    let mut total = T::zero();
    for &item in items {
        total += item;
    }
    if items.is_empty() { None } else { Some(total / T::from_usize(items.len())?) }
}

/// A root by Newton's steps.
fn root<T: Num + Signed + PartialOrd + Copy>(x: T, near: T) -> T {
    let two = T::one() + T::one();
    let mut guess = x;
    while (guess * guess - x).abs() > near {
        guess = (guess + x / guess) / two;
    }
    guess
}

/// 1 + x + x^2 + .. , or `None` where a step has no result.
fn geometric<T: CheckedAdd + CheckedMul + One + Zero>(x: &T, terms: u32) -> Option<T> {
    (0..terms).try_fold(T::zero(), |sum, _| sum.checked_mul(x)?.checked_add(&T::one()))
}

/// The value of a continued fraction.
fn continued<T: Num + Inv<Output = T> + Copy>(quotients: &[T]) -> T {
    quotients.iter().rev().skip(1).fold(quotients[quotients.len() - 1], |x, &quotient| quotient + x.inv())
}

fn read<T: Num + Debug>(text: &str) -> String
where
    T::FromStrRadixErr: Debug,
{
    format!("{:?}", T::from_str_radix(text, 16).ok())
}

fn main() {
    let of = |pairs: &[(i64, i64)]| pairs.iter().map(|&pair| Ratio::from(pair)).collect::<Vec<_>>();
    println!("{} {}", polynomial(&of(&[(1, 2), (-1, 3), (1, 1)]), Ratio::new(3, 4)), polynomial(&[0.5, -0.25, 1.0], 0.75));
    println!("{:?} {:?}", mean(&of(&[(1, 2), (1, 3), (1, 6)])).map(|x| x.to_string()), mean(&[1.0, 2.0, 4.5]));
    println!("{:?}", mean::<Rational64>(&[]));
    println!("{} {:.9}", root(Rational64::from_integer(2), Ratio::new(1, 1000)), root(2.0, 1e-9));
    println!("{:?} {:?}", geometric(&Rational32::new(2, 3), 6).map(|x| x.to_string()), geometric(&Ratio::new(100i8, 1), 3));
    println!("{} {}", continued(&of(&[(3, 1), (7, 1), (15, 1), (1, 1)])), continued(&[3.0, 7.0, 16.0]));
    println!("{} {} {}", read::<Rational32>("a/1E"), read::<Rational32>("g/2"), read::<Rational32>("1/0"));
    let x = Rational64::new(-9, 6);
    println!("{} {} {} {} {}", x.abs(), x.signum(), Pow::pow(x, 3u8), Pow::pow(x, -2i32), x.is_negative());
    println!("{:?} {:?} {:?} {:?}", x.to_i32(), x.to_u64(), x.to_f32(), Rational64::from_f64(0.15625).map(|x| x.to_string()));
    println!("{:?} {}", Rational64::from_i128(1 << 70), of(&[(1, 2), (2, 3), (3, 4)]).iter().product::<Rational64>());
}
