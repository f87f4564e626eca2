//! `Total::to_f64`: rows, and random totals beside exact sums of big integers. The answers of the rows are from Python's `fractions`.

mod support;

use bakhsney::{Reduced, Reduced64, Total};
use num_integer::Integer;
use original::BigRational;
use support::Numbers;

fn of(numer: i64, denom: i64) -> Reduced64 {
    Reduced64::checked_new(numer, denom).unwrap()
}

/// The exact value of a float without a sign.
fn value(bits: u64) -> BigRational {
    BigRational::from_float(f64::from_bits(bits)).unwrap()
}

/// Whether the float is the nearest one: the number lies between the points halfway to the float's neighbours, and at such a point
/// the float's last bit is 0.
fn is_nearest(x: f64, exact: &BigRational) -> bool {
    let zero = value(0);
    let is_negative = *exact < zero;
    let size = if is_negative { -exact } else { exact.clone() };
    let bits = x.to_bits() & !(1 << 63);
    let halfway = |bits| (value(bits) + value(bits + 1)) / value(2f64.to_bits());
    let above = halfway(bits);
    let below = if bits == 0 { -halfway(0) } else { halfway(bits - 1) };
    let is_inside = if bits % 2 == 0 { below <= size && size <= above } else { below < size && size < above };
    x.is_sign_negative() == is_negative && is_inside
}

fn exact_sum(fractions: &[(i64, i64)]) -> BigRational {
    fractions.iter().fold(value(0), |sum, (numer, denom)| sum + BigRational::new((*numer).into(), (*denom).into()))
}

fn total_of(fractions: &[(i64, i64)]) -> Total<i64> {
    fractions.iter().map(|(numer, denom)| of(*numer, *denom)).sum()
}

/// Adds fractions that cancel, so that the sum stays and its common denominator has thousands of bits.
fn lengthen(total: &mut Total<i64>) {
    for i in 0..100 {
        let part = of(1, i64::MAX - 2 * i);
        total.add(part);
        total.subtract(part);
    }
}

#[test]
fn rows() {
    let most = 1 << 53;
    let rows: [(&[(i64, i64)], f64); 12] = [
        (&[], 0.0),
        (&[(1, 3)], 0.3333333333333333),
        (&[(-1, 3)], -0.3333333333333333),
        (&[(1, 36), (1, 28)], 0.06349206349206349),
        (&[(most, 1), (1, 1)], 9007199254740992.0),
        (&[(most, 1), (3, 1)], 9007199254740996.0),
        (&[(most, 1), (1, 1), (1, i64::MAX)], 9007199254740994.0),
        (&[(most, 1), (1, 1), (-1, i64::MAX)], 9007199254740992.0),
        (&[(-most, 1), (-1, 1), (-1, i64::MAX)], -9007199254740994.0),
        (&[(i64::MAX, 1), (i64::MAX, 1)], 18446744073709551616.0),
        (&[(1, 7), (-1, 7)], 0.0),
        (&[(1, 1 << 62), (1, i64::MAX)], 3.2526065174565133e-19),
    ];
    for (fractions, answer) in rows {
        let mut total = total_of(fractions);
        assert_eq!(total.to_f64().unwrap().to_bits(), answer.to_bits(), "{fractions:?}");
        lengthen(&mut total);
        assert_eq!(total.to_f64().unwrap().to_bits(), answer.to_bits(), "{fractions:?}, through long numbers");
    }
    let harmonic: Total<i64> = (1..=1000).map(|denom| of(1, denom)).sum();
    assert_eq!(harmonic.to_f64(), Ok(7.485470860550345));
}

#[test]
fn random_totals() {
    let mut numbers = Numbers(5);
    for _ in 0..4000 {
        let (length, bits) = (numbers.below(20), numbers.below(63));
        let fractions: Vec<(i64, i64)> = (0..length)
            .map(|_| (numbers.word() as i64 >> numbers.below(64), 1 + (numbers.word() >> 1 >> bits) as i64))
            .filter(|(numer, denom)| *numer != i64::MIN && *denom > 0)
            .collect();
        let x = total_of(&fractions).to_f64().unwrap();
        assert!(is_nearest(x, &exact_sum(&fractions)), "{fractions:?}: {x:e}");
    }
}

/// Fractions of 128 bits that go in, and products of two that go in.
#[test]
fn random_wide_totals() {
    let mut numbers = Numbers(8);
    for _ in 0..1000 {
        let (mut total, mut exact) = (Total::<i128>::new(), value(0));
        for _ in 0..1 + numbers.below(5) {
            let (numer, denom) = ((numbers.of_any_length() as i128) >> 1, (numbers.of_any_length() >> 1) as i128);
            if let Some(x) = Reduced::checked_new(numer, denom) {
                total.add(x);
                exact += BigRational::new(numer.into(), denom.into());
            }
        }
        let x = total.to_f64().unwrap();
        assert!(is_nearest(x, &exact), "{exact}: {x:e}");
    }
}

/// Fractions over denominators without common divisors, whose sum is `numer` over the product of all denominators.
fn parts_of(numer: u64, denoms: &[i64]) -> Vec<(i64, i64)> {
    let mut parts = Vec::new();
    let mut sum = value(0);
    for denom in denoms {
        let modulus = i128::from(*denom);
        let others = denoms.iter().filter(|d| *d != denom).fold(1, |product, d| product * i128::from(*d) % modulus);
        let inverse = others.extended_gcd(&modulus).x.rem_euclid(modulus);
        let part = (i128::from(numer) % modulus * inverse % modulus) as i64;
        sum += BigRational::new(part.into(), (*denom).into());
        parts.push((part, *denom));
    }
    let mut whole = 0;
    while sum >= value(1f64.to_bits()) {
        sum -= value(1f64.to_bits());
        whole += 1;
    }
    parts.push((-whole, 1));
    parts
}

fn random_coprimes(numbers: &mut Numbers, count: u64) -> Vec<i64> {
    let mut denoms: Vec<i64> = Vec::new();
    while (denoms.len() as u64) < count {
        let denom = (numbers.word() >> 1 | 1) as i64;
        if denoms.iter().all(|d| d.gcd(&denom) == 1) {
            denoms.push(denom);
        }
    }
    denoms
}

/// Great terms that cancel but for a number near the least float above 0: normal floats, subnormal ones and 0.
#[test]
fn totals_near_zero() {
    let mut numbers = Numbers(6);
    let (mut normal, mut subnormal, mut zero) = (0, 0, 0);
    for _ in 0..200 {
        let count = 15 + numbers.below(5);
        let denoms = random_coprimes(&mut numbers, count);
        let numer = numbers.word() >> numbers.below(64);
        let mut parts = parts_of(numer.max(1), &denoms);
        if numbers.below(2) == 0 {
            parts.iter_mut().for_each(|(numer, _)| *numer = -*numer);
        }
        let x = total_of(&parts).to_f64().unwrap();
        assert!(is_nearest(x, &exact_sum(&parts)), "{parts:?}: {x:e}");
        *if x == 0.0 { &mut zero } else if x.is_normal() { &mut normal } else { &mut subnormal } += 1;
    }
    assert!(normal > 19 && subnormal > 19 && zero > 19, "{normal} normal, {subnormal} subnormal, {zero} zero");
}

/// A point halfway between two floats, and numbers beside it that differ by one over a product of long denominators.
#[test]
fn totals_near_ties() {
    let mut numbers = Numbers(7);
    for _ in 0..150 {
        let digits = ((1 << 53 | numbers.word() >> 11) as i64, 1i64 << numbers.below(63));
        let count = 1 + numbers.below(30);
        let denoms = random_coprimes(&mut numbers, count);
        for (sign, numer) in [(1, 0), (1, 1), (-1, 1)] {
            let mut parts: Vec<(i64, i64)> = parts_of(numer, &denoms).iter().map(|(numer, denom)| (sign * numer, *denom)).collect();
            parts.push(digits);
            let x = total_of(&parts).to_f64().unwrap();
            assert!(is_nearest(x, &exact_sum(&parts)), "{parts:?}: {x:e}");
        }
    }
}
