//! `BigFraction` from texts and powers with a bound of bits, beside num-bigint: each is refused exactly where a number as it is written has more
//! bits, and at once. `BAKHSNEY_PAIRS` says how many are drawn.
#![cfg(feature = "num-bigint")]

mod support;

use bakhsney::{BigFraction, BigRational, BigTextRefusal};
use num_bigint::BigInt;
use num_traits::{Pow, Zero};
use std::time::{Duration, Instant};
use support::Numbers;

fn drawn() -> u64 {
    std::env::var("BAKHSNEY_PAIRS").map_or(2000, |pairs| pairs.parse().unwrap())
}

/// Up to so many digits, some of which begin with zeros, and their number.
fn digits(numbers: &mut Numbers, most: u64) -> (String, BigInt) {
    let mut text = "0".repeat([0, 0, 0, 1, 25][numbers.below(5) as usize]);
    let highest = if numbers.below(4) == 0 { 2 } else { 10 };
    text.extend((0..=numbers.below(most)).map(|_| char::from(b'0' + numbers.below(highest) as u8)));
    let number = text.parse().unwrap();
    (text, number)
}

fn sign(numbers: &mut Numbers) -> (&'static str, i8) {
    [("", 1), ("+", 1), ("-", -1)][numbers.below(3) as usize]
}

fn tens(count: u64) -> BigInt {
    Pow::pow(BigInt::from(10), count)
}

/// A decimal, and its numerator and denominator as they are written.
fn decimal(numbers: &mut Numbers) -> (String, BigInt, BigInt) {
    let (sign, factor) = sign(numbers);
    let (mut text, mut numer) = digits(numbers, 30);
    let mut denom = BigInt::from(1);
    if numbers.below(2) == 0 {
        let (part, number) = digits(numbers, 30);
        (numer, denom) = (numer * tens(part.len() as u64) + number, tens(part.len() as u64));
        text = format!("{text}.{part}");
    }
    let exponent = numbers.below(90);
    match numbers.below(4) {
        0 => (text, numer) = (format!("{text}e{exponent}"), numer * tens(exponent)),
        1 => (text, denom) = (format!("{text}E-000{exponent}"), denom * tens(exponent)),
        _ => {}
    }
    (format!("{sign}{text}"), numer * factor, denom)
}

/// What a person types, and its numerator and denominator as they are written.
fn typed(numbers: &mut Numbers) -> (String, BigInt, BigInt) {
    let (text, numer, denom) = match numbers.below(4) {
        0 => {
            let ((sign, factor), (whole, w), (over, n), (under, d)) = (sign(numbers), digits(numbers, 40), digits(numbers, 40), digits(numbers, 40));
            return (format!("{sign}{whole} {over}/{under}"), (w * &d + n) * factor, d);
        }
        1 => {
            let ((first, s), (over, n), (second, t), (under, d)) = (sign(numbers), digits(numbers, 60), sign(numbers), digits(numbers, 60));
            (format!("{first}{over}/{second}{under}"), n * s, d * t)
        }
        _ => decimal(numbers),
    };
    if numbers.below(3) == 0 { (format!("{text}%"), numer, denom * 100) } else { (text, numer, denom) }
}

/// As many bits as the text needs are enough, and one less is not.
fn is_exact(text: &str, numer: BigInt, denom: BigInt, read: impl Fn(&str, u64) -> Result<BigFraction, BigTextRefusal>) {
    if denom.is_zero() {
        assert_eq!([0, 64, u64::MAX].map(|bits| read(text, bits)), [(); 3].map(|_| Err(BigTextRefusal::ZeroDenominator)), "{text}");
        return;
    }
    let bits = numer.bits().max(denom.bits());
    let fraction = Ok(BigFraction::try_from(&BigRational::new(numer, denom)).unwrap());
    assert_eq!([bits, bits + 1, u64::MAX].map(|bits| read(text, bits)), [(); 3].map(|_| fraction.clone()), "{text} in {bits} bits");
    assert_eq!([bits - 1, bits / 2, 0].map(|bits| read(text, bits)), [(); 3].map(|_| Err(BigTextRefusal::TooLong)), "{text} in less than {bits} bits");
}

#[test]
fn texts() {
    let mut numbers = Numbers(11);
    for _ in 0..drawn() {
        let (text, numer, denom) = decimal(&mut numbers);
        is_exact(&text, numer, denom, BigFraction::from_decimal_within);
        let (text, numer, denom) = typed(&mut numbers);
        is_exact(&text, numer, denom, BigFraction::from_text_within);
    }
}

#[test]
fn texts_of_examples() {
    for (text, numer, denom) in [("-1.50e3", -150_000, 100), ("12.5%", 125, 1000), ("1 1/2", 3, 2), ("0", 0, 1), ("0e1000000000000", 0, 1), ("0e-3", 0, 1000), ("-3/-4%", -3, -400)] {
        is_exact(text, numer.into(), denom.into(), BigFraction::from_text_within);
    }
    for text in ["", "1,5", "x/0", "1 1/2%", "1e", "1e1000000000000x", "1/2/3"] {
        assert_eq!(BigFraction::from_text_within(text, 0), Err(BigTextRefusal::NotNumber), "{text}");
        assert_eq!(BigFraction::from_decimal_within(text, 0), Err(BigTextRefusal::NotDecimal), "{text}");
    }
}

/// The time of the call must not grow with the exponent.
#[track_caller]
fn at_once<R>(call: impl FnOnce() -> R) -> R {
    let start = Instant::now();
    let result = call();
    assert!(start.elapsed() < Duration::from_secs(5));
    result
}

#[test]
fn short_texts_of_long_numbers() {
    for exponent in ["1234", "3000000", "999999999999", "9223372036854775807", "18446744073709551616", "100000000000000000000000000000"] {
        for text in [format!("1e{exponent}"), format!("-0.1e{exponent}%"), format!("7e-{exponent}"), format!("0e-{exponent}")] {
            assert_eq!(at_once(|| BigFraction::from_text_within(&text, 4096)), Err(BigTextRefusal::TooLong), "{text}");
        }
        assert_eq!(at_once(|| BigFraction::from_text_within(&format!("-0e{exponent}"), 1)), Ok(BigFraction::from(0)));
    }
    for text in ["1e18446744073709551616", "1e-18446744073709551616", "1e100000000000000000000"] {
        assert_eq!(BigFraction::from_text_within(text, u64::MAX), Err(BigTextRefusal::TooLong), "{text}");
    }
    let long = "9".repeat(3_000_000);
    for text in [long.clone(), format!("1/{long}"), format!("{long}/1"), format!("1 1/{long}"), format!("{long} 1/2"), format!("1.{long}")] {
        assert_eq!(at_once(|| BigFraction::from_text_within(&text, 4096)), Err(BigTextRefusal::TooLong));
    }
    assert_eq!(at_once(|| BigFraction::from_text_within(&format!("{}1/2", "0".repeat(3_000_000)), 2)), Ok(BigFraction::new(1, 2)));
}

#[test]
fn no_memory_is_an_error() {
    for text in ["1e999999999999999999", "1e-999999999999999999", "1e99999999999999999999"] {
        assert_eq!(BigFraction::from_text(text), Err(BigTextRefusal::NoMemory));
        assert_eq!(BigFraction::from_decimal(text), Err(BigTextRefusal::NoMemory));
    }
    for exponent in [1 << 62, i64::MIN, i64::MAX] {
        assert!(at_once(|| BigFraction::from(2).try_pow(exponent)).is_err());
    }
}

fn bits_of(digits: &[u64]) -> u64 {
    digits.last().map_or(0, |highest| digits.len() as u64 * 64 - u64::from(highest.leading_zeros()))
}

#[test]
fn powers() {
    let mut numbers = Numbers(12);
    for _ in 0..drawn() {
        let (numer, denom) = (numbers.word() as i64 >> numbers.below(64), 1 + (numbers.word() >> numbers.below(63)) as i64 / 2);
        let (x, exponent) = (BigFraction::new(numer, denom.max(1)), numbers.below(25) as i64 - 12);
        if numer == 0 && exponent < 0 {
            assert_eq!(x.try_pow_within(exponent, u64::MAX), Ok(None));
            continue;
        }
        let power = x.try_pow(exponent).unwrap().unwrap();
        let bits = [power.numer_digits(), power.denom_digits()].iter().map(|digits| bits_of(digits)).max().unwrap();
        assert_eq!([bits, u64::MAX].map(|bits| x.try_pow_within(exponent, bits)), [(); 2].map(|_| Ok(Some(power.clone()))), "{x} to the {exponent} in {bits} bits");
        assert_eq!([bits - 1, 0].map(|bits| x.try_pow_within(exponent, bits)), [Ok(None), Ok(None)], "{x} to the {exponent} in less than {bits} bits");
    }
    for exponent in [i64::MIN, i64::MAX, 1 << 33, 1 << 40] {
        assert_eq!(at_once(|| BigFraction::new(3, 2).try_pow_within(exponent, 1 << 20)), Ok(None));
        assert_eq!(BigFraction::from(-1).pow_within(exponent, 1), Some(BigFraction::from(if exponent == i64::MAX { -1 } else { 1 })));
    }
}
