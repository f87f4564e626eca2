//! A panic of the layer names the line of the program that called it.

// The tests are about these forms. A function instead of a closure would be called through a pointer, which has no caller.
#![allow(clippy::op_ref, clippy::redundant_closure)]

use bakhsney::integer::Integer;
use bakhsney::{BigFraction, Ratio, Reduced, Rounding, Total};
use num_traits::{Euclid, Inv, Num, Pow, Signed};
use std::cell::RefCell;
use std::collections::hash_map::DefaultHasher;
use std::hash::Hash;
use std::iter::{Product, Sum};
use std::panic::{catch_unwind, set_hook, take_hook};

thread_local! {
    static PLACE: RefCell<(String, u32)> = RefCell::default();
}

type Fraction = Ratio<i32>;
type Row = (&'static str, u32, fn());

fn done<R>(_: R) {}

/// A fraction with the denominator 0, which has no value.
fn none() -> Fraction {
    Ratio::new_raw(1, 0)
}

fn zero() -> Fraction {
    Ratio::ZERO
}

fn one() -> Fraction {
    Ratio::ONE
}

fn most() -> Fraction {
    Ratio::from_integer(i32::MAX)
}

fn least() -> Fraction {
    Ratio::from_integer(i32::MIN)
}

/// A fraction whose lowest terms do not fit.
fn refused() -> Fraction {
    Ratio::new_raw(1, i32::MIN)
}

/// A total of 2^62 additions. Twice as many are too many.
fn half_full<T: Integer>() -> Total<T> {
    let mut total: Total<T> = [Reduced::ONE].iter().sum();
    for _ in 0..62 {
        total.merge(&total.clone());
    }
    total
}

/// A total of 2^63-1 additions.
fn full<T: Integer>() -> Total<T> {
    let mut total = Total::new();
    let mut part: Total<T> = [Reduced::ONE].iter().sum();
    for _ in 0..63 {
        total.merge(&part);
        if total.count() < 1 << 62 {
            part.merge(&part.clone());
        }
    }
    total
}

/// The file and the line that the panic of this call names.
fn place_of(call: fn()) -> (String, u32) {
    PLACE.with(|place| *place.borrow_mut() = (String::new(), 0));
    let old = take_hook();
    set_hook(Box::new(|panic| {
        let place = panic.location().unwrap();
        PLACE.with(|found| *found.borrow_mut() = (place.file().to_owned(), place.line()));
    }));
    done(catch_unwind(call));
    set_hook(old);
    PLACE.with(|place| place.borrow().clone())
}

const MAKING: &[Row] = &[
    ("new", line!(), || done(Ratio::new(1, 0))),
    ("new of what does not fit", line!(), || done(Ratio::new(1, i32::MIN))),
    ("const_new", line!(), || done(Fraction::const_new(1, 0))),
    ("const_new of what does not fit", line!(), || done(Fraction::const_new(1, i32::MIN))),
    ("reduced", line!(), || done(refused().reduced())),
    ("from a pair", line!(), || done(Ratio::from((1, 0)))),
    ("from_str_radix", line!(), || done(Fraction::from_str_radix("1/1", 37))),
];

const ARITHMETIC: &[Row] = &[
    ("+", line!(), || done(most() + one())),
    ("-", line!(), || done(least() - one())),
    ("*", line!(), || done(most() * most())),
    ("/", line!(), || done(one() / zero())),
    ("%", line!(), || done(one() % zero())),
    ("&x + y", line!(), || done(&most() + one())),
    ("x + &y", line!(), || done(most() + &one())),
    ("&x + &y", line!(), || done(&most() + &one())),
    ("x + 1", line!(), || done(most() + 1)),
    ("x + &1", line!(), || done(most() + &1)),
    ("&x + 1", line!(), || done(&most() + 1)),
    ("&x + &1", line!(), || done(&most() + &1)),
    ("+=", line!(), || done({ let mut x = most(); x += one(); x })),
    ("+= &y", line!(), || done({ let mut x = most(); x += &one(); x })),
    ("+= 1", line!(), || done({ let mut x = most(); x += 1; x })),
    ("+= &1", line!(), || done({ let mut x = most(); x += &1; x })),
    ("1 + x", line!(), || done(1 + most())),
    ("1 + &x", line!(), || done(1 + &most())),
    ("&1 + x", line!(), || done(&1 + most())),
    ("&1 + &x", line!(), || done(&1 + &most())),
    ("div_euclid", line!(), || done(one().div_euclid(&zero()))),
    ("rem_euclid", line!(), || done(one().rem_euclid(&zero()))),
    ("+ of no value", line!(), || done(one() + none())),
    ("sum", line!(), || done(Fraction::sum([most(), one()].into_iter()))),
    ("sum of references", line!(), || done(Fraction::sum([most(), one()].iter()))),
    ("product", line!(), || done(Fraction::product([most(), most()].into_iter()))),
    ("product of references", line!(), || done(Fraction::product([most(), most()].iter()))),
];

const POWERS_AND_SIGNS: &[Row] = &[
    ("recip", line!(), || done(zero().recip())),
    ("recip of the least", line!(), || done(least().recip())),
    ("recip of no lowest terms", line!(), || done(refused().recip())),
    ("inv", line!(), || done(zero().inv())),
    ("inv of a reference", line!(), || done(Inv::inv(&zero()))),
    ("pow", line!(), || done(Ratio::pow(&most(), 2))),
    ("Pow", line!(), || done(Pow::pow(most(), 2u8))),
    ("Pow of a reference", line!(), || done(Pow::pow(&most(), 2i128))),
    ("Pow to a reference", line!(), || done(Pow::pow(most(), &2usize))),
    ("Pow of a reference to one", line!(), || done(Pow::pow(&most(), &2i64))),
    ("neg", line!(), || done(-least())),
    ("neg of a reference", line!(), || done(-&least())),
    ("abs", line!(), || done(least().abs())),
    ("abs_sub", line!(), || done(most().abs_sub(&-one()))),
    ("abs_sub of no value", line!(), || done(none().abs_sub(&one()))),
    ("signum", line!(), || done(none().signum())),
    ("is_positive", line!(), || done(none().is_positive())),
    ("is_negative", line!(), || done(none().is_negative())),
];

const COMPARING: &[Row] = &[
    ("==", line!(), || done(none() == one())),
    ("!=", line!(), || done(one() != none())),
    ("<", line!(), || done(one() < none())),
    ("<=", line!(), || done(one() <= none())),
    (">", line!(), || done(one() > none())),
    (">=", line!(), || done(one() >= none())),
    ("cmp", line!(), || done(none().cmp(&one()))),
    ("hash", line!(), || none().hash(&mut DefaultHasher::new())),
];

const ROUNDING: &[Row] = &[
    ("floor", line!(), || done(none().floor())),
    ("ceil", line!(), || done(none().ceil())),
    ("round", line!(), || done(none().round())),
    ("trunc", line!(), || done(none().trunc())),
    ("fract", line!(), || done(none().fract())),
    ("to_integer", line!(), || done(none().to_integer())),
    ("floor of no lowest terms", line!(), || done(refused().floor())),
    ("decimal", line!(), || done(Reduced::from(1).decimal(39, Rounding::Up))),
    ("new of a Reduced", line!(), || done(Reduced::new(1, i32::MIN))),
    ("recip of a Reduced", line!(), || done(Reduced::<i32>::ZERO.recip())),
    ("decimal of a ratio", line!(), || done(one().decimal(39, Rounding::Up))),
    ("decimal of no value", line!(), || done(none().decimal(2, Rounding::Up))),
    ("decimal of no lowest terms", line!(), || done(refused().decimal(2, Rounding::Up))),
];

fn big() -> BigFraction {
    BigFraction::from(1)
}

fn big_zero() -> BigFraction {
    BigFraction::from(0)
}

const ANY_SIZE: &[Row] = &[
    ("BigFraction::round_to", line!(), || done(BigFraction::from(1).round_to(0, Rounding::Up))),
    ("BigFraction::round_to_multiple_of", line!(), || done(BigFraction::from(1).round_to_multiple_of(&BigFraction::from(0), Rounding::Up))),
    ("BigFraction::new", line!(), || done(BigFraction::new(1, 0))),
    ("BigFraction::new of two", line!(), || done(BigFraction::new(&big(), &big_zero()))),
    ("BigFraction / 0", line!(), || done(big() / 0)),
    ("&BigFraction % &0", line!(), || done(&big() % &0)),
    ("BigFraction / BigFraction", line!(), || done(big() / big_zero())),
    ("BigFraction + no value", line!(), || done(big() + none())),
    ("&BigFraction - &no value", line!(), || done(&big() - &none())),
    ("BigFraction /= 0", line!(), || done({ let mut x = big(); x /= 0; x })),
    ("BigFraction *= no value", line!(), || done({ let mut x = big(); x *= none(); x })),
    ("1 / BigFraction", line!(), || done(1 / big_zero())),
    ("&1 % &BigFraction", line!(), || done(&1 % &big_zero())),
    ("a ratio / BigFraction", line!(), || done(one() / big_zero())),
    ("no value * &BigFraction", line!(), || done(none() * &big())),
    ("a reduced / BigFraction", line!(), || done(Reduced::from(1) / big_zero())),
    ("sum of no values", line!(), || done(BigFraction::sum([none()].into_iter()))),
    ("product of references to no values", line!(), || done(BigFraction::product([none()].iter()))),
    ("Pow of BigFraction", line!(), || done(Pow::pow(big_zero(), -1))),
    ("BigFraction::div_euclid", line!(), || done(big().div_euclid(&big_zero()))),
    ("BigFraction::rem_euclid", line!(), || done(big().rem_euclid(&big_zero()))),
];

/// A fraction that no slot of a total takes.
fn wide() -> Reduced<u128> {
    Reduced::from(1 << 64)
}

const TOTALS: &[Row] = &[
    ("Total::add", line!(), || full::<i8>().add(Reduced::ONE)),
    ("Total::subtract", line!(), || full::<i8>().subtract(Reduced::ONE)),
    ("Total::add, without a slot", line!(), || full().add(wide())),
    ("Total::subtract, without a slot", line!(), || full().subtract(wide())),
    ("extend, without a slot", line!(), || full().extend([wide()])),
    ("Total::merge", line!(), || half_full::<i8>().merge(&half_full())),
    ("+= of a total", line!(), || done({ let mut x = full::<i8>(); x += Reduced::ONE; x })),
    ("-= of a total", line!(), || done({ let mut x = full::<i8>(); x -= Reduced::ONE; x })),
    ("+= of two totals", line!(), || done({ let mut x = half_full::<i8>(); x += &half_full(); x })),
    ("+= of a number", line!(), || done({ let mut x = full::<i8>(); x += 1; x })),
    ("-= of a ratio", line!(), || done({ let mut x = Total::new(); x -= none(); x })),
    ("extend", line!(), || full::<i8>().extend([Reduced::ONE])),
    ("extend by references", line!(), || full::<i8>().extend(&[Reduced::ONE])),
    ("sum of totals", line!(), || done(<Total<i8> as Sum>::sum([half_full(), half_full()].into_iter()))),
];

#[test]
fn the_callers_line_is_named() {
    for (name, line, call) in [MAKING, ARITHMETIC, POWERS_AND_SIGNS, COMPARING, ROUNDING, ANY_SIZE, TOTALS].concat() {
        assert_eq!(place_of(call), (file!().to_owned(), line), "{name}");
    }
}

/// Without memory for an order, `x < y` must not be false.
const PARTIAL_CMP: [&str; 2] = ["fn partial_cmp(&self, other: &BigFraction)", "fn partial_cmp(&self, other: &$Other)"];

/// The layer's functions that only the layer calls.
const OWN: [&str; 8] = ["pub(super) fn ", "fn recip_of_any(", "fn refuse", "fn power<", "fn put", "fn pour(", PARTIAL_CMP[0], PARTIAL_CMP[1]];

/// A call that can panic has `#[track_caller]` and says when it panics. A call that returns an `Option` never panics.
#[test]
fn each_call_that_panics_says_when() {
    let folders = [concat!(env!("CARGO_MANIFEST_DIR"), "/src/layer"), concat!(env!("CARGO_MANIFEST_DIR"), "/src/layer/friends")];
    let mut calls = 0;
    for path in folders.iter().flat_map(|folder| std::fs::read_dir(folder).unwrap()).map(|file| file.unwrap().path()).filter(|path| path.is_file()) {
        let source = std::fs::read_to_string(path).unwrap();
        let lines: Vec<&str> = source.lines().map(str::trim).collect();
        for at in (0..lines.len()).filter(|&at| lines[at].contains("fn ") && !OWN.iter().any(|own| lines[at].starts_with(own))) {
            let above: Vec<_> = lines[..at].iter().rev().take_while(|line| line.starts_with("///") || line.starts_with("#[")).collect();
            let has = |words: &str| above.iter().any(|line| **line == words);
            let (panics, names_the_line) = (has("/// # Panics"), has("#[track_caller]"));
            assert_eq!(panics, names_the_line, "{}", lines[at]);
            assert!(!(panics && lines[at].contains("-> Option<")), "{}", lines[at]);
            calls += usize::from(panics);
        }
    }
    assert!(calls > 30, "{calls}");
}
