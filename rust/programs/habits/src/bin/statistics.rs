//! Mean, variance and median, generic over floats and fractions.

use num_rational::{BigFraction, Ratio, Reduced64};
use num_traits::{FromPrimitive, Num, NumRef, RefNum};
use std::iter::Sum;

fn mean<T: Num + FromPrimitive + for<'a> Sum<&'a T>>(values: &[T]) -> Option<T> {
    if values.is_empty() {
        return None;
    }
    Some(values.iter().sum::<T>() / T::from_usize(values.len())?)
}

fn variance<T>(values: &[T]) -> Option<T>
where
    T: NumRef + FromPrimitive + Sum + for<'a> Sum<&'a T>,
    for<'a> &'a T: RefNum<T>,
{
    let center = mean(values)?;
    let squares = values.iter().map(|value| {
        let off = value - &center;
        &off * &off
    });
    Some(squares.sum::<T>() / T::from_usize(values.len())?)
}

fn median<T: Clone + Num + PartialOrd + FromPrimitive>(values: &[T]) -> Option<T> {
    let mut sorted = values.to_vec();
    sorted.sort_by(|a, b| a.partial_cmp(b).expect("comparable"));
    let upper = sorted.get(sorted.len() / 2)?.clone();
    if sorted.len() % 2 == 1 {
        return Some(upper);
    }
    Some((sorted[sorted.len() / 2 - 1].clone() + upper) / T::from_i32(2)?)
}

fn main() {
    let plain = [Ratio::new(1i64, 2), Ratio::new(2, 3), Ratio::new(5, 6), Ratio::from(4)];
    assert_eq!(mean(&plain), Some(Ratio::new(3, 2)));
    assert_eq!(variance(&plain), Some(Ratio::new(151, 72)));
    assert_eq!(median(&plain), Some(Ratio::new(3, 4)));

    // Typed: `let reduced = plain.map(Reduced64::from);`. A `Ratio` may have the denominator 0, so it is converted by `try_from`.
    let reduced = plain.map(|x| Reduced64::try_from(x).unwrap());
    assert_eq!(variance(&reduced), Some(Reduced64::new(151, 72)));
    // Typed: `let big = plain.map(BigFraction::from);`. The same.
    let big = reduced.map(BigFraction::from);
    assert_eq!(variance(&big), Some(BigFraction::new(151, 72)));
    assert_eq!(median(&big[1..]), Some(BigFraction::new(5, 6)));

    assert_eq!(mean(&[0.5, 1.5, 4.0]), Some(2.0));
    assert_eq!(mean::<Reduced64>(&[]), None);
    println!("{:?} {:?}", variance(&plain), median(&reduced));
}
