//! Each call on fractions of big integers beside num-rational's, by drawn numbers: short ones, of 64 to 300 binary digits, and of any length up
//! to 384. `BAKHSNEY_PAIRS` says how many pairs. Each pair gets some 25 calls on two fractions, and each fraction some 50 on one.
#![cfg(feature = "num-bigint")]

// The tests are about these forms.
#![allow(clippy::op_ref, clippy::nonminimal_bool, clippy::clone_on_copy)]

mod support;

use bakhsney::{BigRational, Ratio, Reduced, Reduced64, ReducedError};
use num_bigint::{BigInt, BigUint};
use num_traits::{CheckedAdd, CheckedDiv, CheckedMul, CheckedSub, FromPrimitive, Inv, Num, One, Pow, Signed, ToPrimitive, Zero};
use original::Ratio as Original;
use std::collections::hash_map::DefaultHasher;
use std::hash::{Hash, Hasher};
use std::panic::catch_unwind;
use support::Numbers;

type Pair = (BigRational, Original<BigInt>);
type Fields = (BigInt, BigInt);

/// A number of so many words, and of the binary digits before them.
fn long(numbers: &mut Numbers, first: impl Into<BigInt>, words: u64) -> BigInt {
    (0..words).fold(first.into(), |number, _| (number << 64) + numbers.word())
}

fn number(numbers: &mut Numbers) -> BigInt {
    let size = match numbers.below(4) {
        0 => numbers.below(13).into(),
        1 => {
            let (first, words) = (numbers.word() >> numbers.below(64), 1 + numbers.below(4));
            long(numbers, first, words) >> 20
        }
        _ => {
            let (first, words) = (numbers.of_any_length() >> numbers.below(128), numbers.below(6).saturating_sub(1));
            long(numbers, first, words)
        }
    };
    if numbers.below(2) == 0 { -size } else { size }
}

fn of_both((numer, denom): Fields, is_raw: bool) -> Pair {
    let (x, y) = ((numer.clone(), denom.clone()), (numer, denom));
    if is_raw { (Ratio::new_raw(x.0, x.1), Original::new_raw(y.0, y.1)) } else { (Ratio::from(x), Original::from(y)) }
}

/// A fraction of both crates: in lowest terms, or as it comes over a denominator of either sign.
fn fraction(numbers: &mut Numbers) -> Pair {
    let numer = if numbers.below(16) == 0 { BigInt::zero() } else { number(numbers) };
    let denom = Some(number(numbers)).filter(|denom| !denom.is_zero()).unwrap_or_else(BigInt::one);
    let is_raw = numbers.below(2) == 0;
    of_both((numer, if numbers.below(2) == 0 { denom.abs() } else { denom }), is_raw)
}

/// A fraction to go with another one: the same value in other terms, one over the same denominator, or any.
fn beside((x, _): &Pair, numbers: &mut Numbers) -> Pair {
    let factor = number(numbers);
    match numbers.below(6) {
        0 if !factor.is_zero() => of_both((x.numer() * &factor, x.denom() * factor), true),
        1 => of_both((factor, x.denom().clone()), true),
        _ => fraction(numbers),
    }
}

fn fields(x: BigRational) -> Fields {
    x.into_raw()
}

fn original(x: Original<BigInt>) -> Fields {
    x.into()
}

fn hash_of(x: impl Hash) -> u64 {
    let mut state = DefaultHasher::new();
    x.hash(&mut state);
    state.finish()
}

fn pairs() -> u64 {
    std::env::var("BAKHSNEY_PAIRS").map_or(300, |pairs| pairs.parse().unwrap())
}

/// Each operator: by a fraction and by a number, in one of the four forms, assigning, and checked.
macro_rules! operators {
    ($form:ident, $x:ident, $y:ident: $($op:tt $assign:tt $($checked:ident)?,)*) => {{
        let mut results: Vec<(&str, Fields)> = vec![];
        let number = $y.numer();
        $(
            let (mut by_fraction, mut by_number) = ($x.clone(), $x.clone());
            let [fraction, whole] = match $form {
                0 => { by_fraction $assign $y; by_number $assign number; [$x $op $y, $x $op number] }
                1 => { by_fraction $assign $y.clone(); by_number $assign number.clone(); [$x.clone() $op $y, $x.clone() $op number] }
                2 => { by_fraction $assign $y; by_number $assign number.clone(); [$x $op $y.clone(), $x $op number.clone()] }
                _ => { by_fraction $assign $y.clone(); by_number $assign number; [$x.clone() $op $y.clone(), $x.clone() $op number.clone()] }
            };
            let checked = [$($x.$checked($y).unwrap())?];
            results.extend([fraction, whole, by_fraction, by_number].into_iter().chain(checked).map(|result| (stringify!($op), result.into())));
        )*
        results
    }};
}

macro_rules! arithmetic {
    ($form:ident, $x:ident, $y:ident) => {{
        let mut results = operators! { $form, $x, $y: + += checked_add, - -= checked_sub, * *= checked_mul, };
        if !$y.is_zero() {
            results.extend(operators! { $form, $x, $y: / /= checked_div, % %=, });
        }
        results
    }};
}

macro_rules! comparisons {
    ($x:expr, $y:expr) => {
        ($x.cmp($y), $x.partial_cmp($y), [$x == $y, $x != $y, $x < $y, $x <= $y, $x > $y, $x >= $y])
    };
}

#[test]
fn calls_on_two() {
    let (mut numbers, mut calls) = (Numbers(1), 0);
    for _ in 0..pairs() {
        let left = fraction(&mut numbers);
        let (right, form) = (beside(&left, &mut numbers), numbers.below(4));
        let ((x, old), (y, other)) = ((&left.0, &left.1), (&right.0, &right.1));
        let (ours, theirs) = (arithmetic!(form, x, y), arithmetic!(form, old, other));
        assert_eq!(ours, theirs, "{x:?} and {y:?}");
        if y.is_zero() {
            assert_eq!((x.checked_div(y), old.checked_div(other)), (None, None), "{x:?}");
        }
        // num-rational's order is wrong for negative denominators.
        let (old, other) = (&old.reduced(), &other.reduced());
        assert_eq!(comparisons!(x, y), comparisons!(old, other), "{x:?} and {y:?}");
        assert_eq!(hash_of(x) == hash_of(y), x == y, "{x:?} and {y:?}");
        let (least, most) = if old <= other { (old, other) } else { (other, old) };
        assert_eq!([x.min(y), x.max(y)].map(|x| fields(x.reduced())), [least, most].map(|x| original(x.clone())));
        assert_eq!(fields(x.abs_sub(y).reduced()), original(old.abs_sub(other)), "{x:?} and {y:?}");
        calls += ours.len() + 12;
    }
    println!("{calls} calls on two fractions");
}

/// The fractions that a crate gives for one: signs, powers and reciprocals.
macro_rules! fractions_of {
    ($Ratio:ident, $x:ident, $e:ident) => {{
        let mut all = vec![$x.abs(), $x.signum(), -$x, -$x.clone(), $x.reduced(), $Ratio::<BigInt>::pow($x, $e), Pow::pow($x, $e as u8), Pow::pow($x.clone(), &i64::from($e))];
        all.extend([Pow::pow($x, &BigUint::from($e as u8)), Pow::pow($x.clone(), BigInt::from($e)), $x.fract(), $x.trunc(), $x.to_integer().into()]);
        if !$x.is_zero() {
            all.extend([$x.recip(), $x.inv(), $x.clone().inv(), $Ratio::<BigInt>::pow($x, -$e), Pow::pow($x, -BigInt::from($e))]);
        }
        all.into_iter().map(|result| result.into()).collect::<Vec<Fields>>()
    }};
}

macro_rules! facts {
    ($x:ident) => {{
        let whole = ($x.to_i64(), $x.to_u64(), $x.to_i128(), $x.to_u128(), $x.to_i8(), $x.to_u32(), $x.to_usize());
        let floats = ($x.to_f64().map(f64::to_bits), $x.to_f32().map(f32::to_bits));
        let truths = ($x.is_integer(), $x.is_zero(), $x.is_one(), $x.is_positive(), $x.is_negative(), hash_of($x));
        (whole, floats, truths, [$x.numer().clone(), $x.denom().clone()])
    }};
}

macro_rules! texts {
    ($Ratio:ident, $x:ident) => {{
        let decimal = [format!("{}", $x), format!("{:+}", $x), format!("{:>200}", $x), format!("{:<+90}|{:^9}|{:020}|{:?}", $x, $x, $x, $x)];
        let others = [format!("{:b}", $x), format!("{:#o}", $x), format!("{:#x}", $x), format!("{:+X}", $x), format!("{:x}", $x)];
        let read: [Option<Fields>; 2] =
            [decimal[0].parse::<$Ratio<BigInt>>().ok().map(|x| x.into()), $Ratio::<BigInt>::from_str_radix(&others[4], 16).ok().map(|x| x.into())];
        (decimal, others, read)
    }};
}

#[test]
fn calls_on_one() {
    let (mut numbers, mut calls) = (Numbers(2), 0);
    for _ in 0..pairs() {
        let (x, y) = &fraction(&mut numbers);
        let exponent = numbers.below(4) as i32;
        let ours = fractions_of!(Ratio, x, exponent);
        assert_eq!(ours, fractions_of!(Original, y, exponent), "{x:?}");
        assert_eq!(facts!(x), facts!(y), "{x:?}");
        assert_eq!(texts!(Ratio, x), texts!(Original, y));
        // num-rational's order, which these call, is wrong for negative denominators.
        let lowest = y.reduced();
        assert_eq!([x.floor(), x.ceil(), x.round()].map(fields), [lowest.floor(), lowest.ceil(), lowest.round()].map(original), "{x:?}");
        calls += ours.len() + 29;
    }
    println!("{calls} calls on one fraction");
}

/// The signs of a fraction over 0, which has no value.
#[test]
fn signs_over_0() {
    for numer in [-2, -1, 0, 1, 2].map(BigInt::from) {
        let (x, y) = of_both((numer, BigInt::zero()), true);
        assert_eq!((x.is_positive(), x.is_negative(), fields(x.abs())), (y.is_positive(), y.is_negative(), original(y.abs())), "{x:?}");
    }
}

/// The ways to make a fraction from numbers.
macro_rules! made {
    ($Ratio:ident, $whole:ident, $word:ident) => {{
        let primitive = [$Ratio::<BigInt>::from_i64($word as i64), FromPrimitive::from_u64($word as u64), FromPrimitive::from_i128($word as i128), FromPrimitive::from_u128($word)];
        let mut all = vec![$Ratio::from_integer($whole.clone()), $whole.clone().into(), Zero::zero(), One::one(), Default::default()];
        all.extend(primitive.into_iter().flatten().chain([$whole.clone().into(), $whole.clone().into()]));
        let count = all.len();
        all[count - 2].set_zero();
        all[count - 1].set_one();
        all.into_iter().map(|result| result.into()).collect::<Vec<Fields>>()
    }};
}

#[test]
fn made_from_numbers() {
    let mut numbers = Numbers(5);
    for _ in 0..100 {
        let (whole, word) = (number(&mut numbers), numbers.of_any_length());
        assert_eq!(made!(Ratio, whole, word), made!(Original, whole, word), "{whole} and {word}");
    }
}

/// Each type of an exponent, by values and references.
macro_rules! powers {
    ($x:ident, $e:literal: $($Exponent:ty)*) => {{
        let all = [$(Pow::pow($x, $e as $Exponent), Pow::pow($x.clone(), $e as $Exponent), Pow::pow($x, &($e as $Exponent)), Pow::pow($x.clone(), &($e as $Exponent))),*];
        all.map(|result| -> Fields { result.into() })
    }};
}

#[test]
fn powers_by_each_exponent() {
    let mut numbers = Numbers(6);
    for _ in 0..20 {
        let (x, y) = &fraction(&mut numbers);
        let above = [powers!(x, 5: i8 i16 i32 i64 isize u8 u16 u32 u64 usize), powers!(y, 5: i8 i16 i32 i64 isize u8 u16 u32 u64 usize)];
        assert_eq!(above[0], above[1], "{x:?}");
        if !x.is_zero() {
            assert_eq!(powers!(x, -5: i8 i16 i32 i64 isize), powers!(y, -5: i8 i16 i32 i64 isize), "{x:?}");
        }
    }
}

#[test]
fn folds() {
    let mut numbers = Numbers(3);
    for _ in 0..20 {
        let (ours, theirs): (Vec<_>, Vec<_>) = (0..10).map(|_| fraction(&mut numbers)).unzip();
        assert_eq!(fields(ours.iter().sum()), original(theirs.iter().sum()));
        assert_eq!(fields(ours.into_iter().product()), original(theirs.into_iter().product()));
    }
}

#[test]
fn negative_denominators_are_ordered_by_value() {
    let raw = |numer: i8, denom: i8| Ratio::new_raw(BigInt::from(numer), BigInt::from(denom));
    let ascending = [(3, -2), (1, -1), (1, -2), (0, -3), (-1, -3), (1, 2), (-1, -1), (3, 2)].map(|(numer, denom)| raw(numer, denom));
    for (i, x) in ascending.iter().enumerate() {
        for (j, y) in ascending.iter().enumerate() {
            assert_eq!(x.cmp(y), i.cmp(&j), "{x:?} and {y:?}");
        }
    }
}

#[test]
fn floats() {
    for float in [0.0, -0.75, 0.1, 1e300, 1e-300, f64::MIN_POSITIVE, 5e-324, f64::MAX, f64::NAN, f64::INFINITY] {
        assert_eq!(Ratio::from_float(float).map(fields), Original::from_float(float).map(original), "{float}");
        assert_eq!(BigRational::from_f64(float).map(fields), Original::<BigInt>::from_f64(float).map(original), "{float}");
        if float.is_finite() {
            assert_eq!(Ratio::from_float(float).unwrap().to_f64(), Some(float));
        }
    }
    assert_eq!(Ratio::from_float(-0.1f32).map(fields), Original::from_float(-0.1f32).map(original));
    let zero_below = |numer: i8| BigRational::new_raw(numer.into(), BigInt::zero());
    assert_eq!([1, -1, 0].map(|numer| zero_below(numer).to_f64()), [Some(f64::INFINITY), Some(f64::NEG_INFINITY), None]);
    assert_eq!((zero_below(1).to_i64(), BigRational::new_raw(BigInt::zero(), (-1).into()).to_f64().map(f64::to_bits)), (None, Some((-0.0f64).to_bits())));
    assert_eq!(BigRational::from_u128(u128::MAX).unwrap().to_u128(), Some(u128::MAX));
    // Between two floats, one bit above the middle, and the middle itself.
    let [one, bit]: [BigInt; 2] = [BigInt::one() << 200, BigInt::one() << 147];
    assert_eq!([0, 1].map(|more| Ratio::new(&one + &bit + more, one.clone()).to_f64()), [Some(1.0), Some(1.0 + f64::EPSILON)]);
}

#[test]
fn reduced() {
    let mut numbers = Numbers(4);
    for _ in 0..200 {
        let (x, _) = fraction(&mut numbers);
        let lowest = x.reduced();
        let fits = (lowest.numer().to_i64(), lowest.denom().to_i64());
        let reduced: Result<Reduced64, ReducedError> = x.try_into();
        assert_eq!(reduced.ok().map(|x| (Some(*x.numer()), Some(*x.denom()))), Some(fits).filter(|(numer, denom)| numer.and(*denom).is_some()));
        assert_eq!(reduced.ok().map(|x| BigRational::from(x) == lowest), reduced.ok().map(|_| true));
    }
    assert!(Reduced64::try_from(BigRational::new_raw(BigInt::one(), BigInt::zero())).is_err());
    assert_eq!(BigRational::from(Reduced::from(u128::MAX)).to_u128(), Some(u128::MAX));
    assert_eq!(Reduced::try_from(BigRational::from(Reduced::from(i128::MIN))).ok(), Some(Reduced::from(i128::MIN)));
}

#[test]
fn big_exponents() {
    let (x, y) = (BigRational::new((-2).into(), 3.into()), Original::<BigInt>::new((-2).into(), 3.into()));
    for exponent in [0u8, 1, 2, 9, 100] {
        let (above, below) = (BigUint::from(exponent), -BigInt::from(exponent));
        let want = [Pow::pow(&y, &above), Pow::pow(&y, &below)].map(original);
        assert_eq!([Pow::pow(&x, &above), Pow::pow(&x, &below)].map(fields), want);
        assert_eq!([Pow::pow(x.clone(), above.clone()), Pow::pow(x.clone(), below.clone())].map(fields), want);
        assert_eq!([Pow::pow(x.clone(), &above), Pow::pow(x.clone(), &below)].map(fields), want);
        assert_eq!([Pow::pow(&x, above), Pow::pow(&x, below)].map(fields), want);
    }
    let long = BigUint::one() << 200u8;
    assert_eq!([1, 0, -1].map(|n| Pow::pow(Ratio::from_integer(n), &long)), [1, 0, 1].map(Ratio::from_integer));
    assert_eq!([1, -1].map(|n| Pow::pow(Ratio::from_integer(n), -BigInt::from(&long + 1u8))), [1, -1].map(Ratio::from_integer));
    assert!(catch_unwind(|| Pow::pow(Ratio::from_integer(2i64), BigUint::one() << 200u8)).is_err());
}

#[test]
fn machine_types_keep_their_calls() {
    assert_eq!(Ratio::new(178956969, 536870915).to_f32(), Some(0.33333334));
    assert_eq!((Ratio::new(-31, 8).to_i64(), Ratio::new_raw(1i8, 0).to_i64(), Ratio::new(u128::MAX, 2).to_u128()), (Some(-3), None, Some(u128::MAX / 2)));
    assert_eq!(Reduced64::from_float(0.5), Reduced64::checked_new(1, 2));
    assert_eq!((Ratio::<i64>::try_from(0.5), Ratio::from_float64(0.5)), (Ok(Ratio::new(1, 2)), Some(Ratio::new(1u8, 2))));
}

/// serde's `with` writes and reads fractions of big integers as those of any size.
#[cfg(feature = "serde")]
#[test]
fn forms_of_serde() {
    use bakhsney::{decimal, text, two_numbers, BigFraction};
    use serde_json::{json, value::Serializer};
    let mut numbers = Numbers(12);
    for _ in 0..pairs() / 10 {
        let (x, _) = fraction(&mut numbers);
        let lowest = BigFraction::try_from(&x).unwrap();
        let written = [text::serialize(&x, Serializer), two_numbers::serialize(&x, Serializer)].map(Result::unwrap);
        assert_eq!(written, [text::serialize(&lowest, Serializer), two_numbers::serialize(&lowest, Serializer)].map(Result::unwrap));
        let [by_text, by_list] = written;
        let back: [BigRational; 2] = [text::deserialize(by_text).unwrap(), two_numbers::deserialize(by_list).unwrap()];
        assert_eq!(back.map(fields), [(); 2].map(|_| fields(x.reduced())));
    }
    let wide: BigRational = "-1/1267650600228229401496703205376".parse().unwrap();
    let exact = json!("-0.0000000000000000000000000000007888609052210118054117285652827862296732064351090230047702789306640625");
    assert_eq!(decimal::serialize(&Some(wide.clone()), Serializer).unwrap(), exact);
    assert_eq!(decimal::deserialize::<Option<BigRational>, _>(exact).unwrap(), Some(wide));
    let no_value = BigRational::new_raw(1.into(), 0.into());
    assert!(text::serialize(&no_value, Serializer).is_err() && two_numbers::serialize(&no_value, Serializer).is_err());
    let refusals = [json!("1/0"), json!("x"), json!(1), json!("1e1000000000")].map(|json| text::deserialize::<BigRational, _>(json).is_err());
    assert_eq!(refusals, [true; 4]);
}
