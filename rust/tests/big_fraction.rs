//! Each call of `BigFraction` beside num-rational's `BigRational`, by drawn numbers: most are short or next to the ends of an `i64`, and some
//! have up to 5,000 decimal digits. `BAKHSNEY_PAIRS` says how many pairs.
#![cfg(feature = "num-bigint")]

// The tests are about these forms.
#![allow(clippy::op_ref, clippy::nonminimal_bool, clippy::clone_on_copy)]

mod support;

use bakhsney::{AllocError, BigFraction, BigRational, BigTextRefusal, Ratio, Reduced, Reduced64, ReducedError, Rounding, Total};
use num_bigint::{BigInt, Sign};
use num_integer::Integer as _;
use num_traits::{CheckedAdd, CheckedDiv, CheckedEuclid, CheckedMul, CheckedRem, CheckedSub, Euclid, FromPrimitive, Inv, Num, One, Pow, Signed, ToPrimitive, Zero};
use original::Ratio as Original;
use std::collections::hash_map::DefaultHasher;
use std::hash::{Hash, Hasher};
#[cfg(panic = "unwind")]
use std::panic::catch_unwind;
use support::Numbers;

type Fields = (BigInt, BigInt);
type Pair = (BigFraction, Original<BigInt>);

/// Each call and what it must return.
macro_rules! rows {
    ($about:expr; $($ours:expr => $theirs:expr;)*) => {
        $(assert_eq!($ours, $theirs, "{} of {:?}", stringify!($ours), $about);)*
    };
}

fn pairs() -> u64 {
    std::env::var("BAKHSNEY_PAIRS").map_or(300, |pairs| pairs.parse().unwrap())
}

/// The words of a number: one next to the ends of an `i64`, or of any length.
fn words(numbers: &mut Numbers) -> Vec<u64> {
    let most = match numbers.below(256) {
        0 => 260,
        1..=15 => 32,
        16..=95 => 4,
        _ => 1,
    };
    let count = 1 + numbers.below(most);
    let mut words: Vec<u64> = (1..count).map(|_| if numbers.below(8) == 0 { 0 } else { numbers.word() }).collect();
    words.push(match numbers.below(4) {
        0 => numbers.below(13),
        1 => (1 << 63) + numbers.below(3) - 1,
        _ => numbers.word() >> numbers.below(64),
    });
    words
}

fn number(words: &[u64]) -> BigInt {
    words.iter().rev().fold(BigInt::zero(), |number, word| (number << 64) + word)
}

/// A fraction of both, from the same words.
fn fraction(numbers: &mut Numbers) -> Pair {
    let (is_negative, numer, mut denom) = (numbers.below(2) == 0, words(numbers), words(numbers));
    if denom.iter().all(|&word| word == 0) {
        denom = vec![1];
    }
    let size = number(&numer);
    let theirs = Original::new(if is_negative { -size } else { size }, number(&denom));
    (BigFraction::from_digits(is_negative, &numer, &denom).unwrap(), theirs)
}

/// A fraction to go with another one: the same, its negative, one next to it, or any.
fn beside((x, y): &Pair, numbers: &mut Numbers) -> Pair {
    match numbers.below(8) {
        0 => (x.clone(), y.clone()),
        1 => (-x, -y),
        2 => {
            let (step, other) = fraction(numbers);
            (x + step, y + other)
        }
        3 if !y.is_zero() => {
            let (factor, other) = fraction(numbers);
            (x.recip() * factor, y.recip() * other)
        }
        _ => fraction(numbers),
    }
}

fn fields(x: BigFraction) -> Fields {
    BigRational::from(x).into_raw()
}

fn original(x: Original<BigInt>) -> Fields {
    x.into()
}

/// A float as it is, so that -0.0 is not 0.0.
fn bits(float: Option<f64>) -> Option<u64> {
    float.map(f64::to_bits)
}

fn tried(x: Result<Option<BigFraction>, AllocError>) -> Option<Fields> {
    x.unwrap().map(fields)
}

fn hash_of(x: impl Hash) -> u64 {
    let mut state = DefaultHasher::new();
    x.hash(&mut state);
    state.finish()
}

/// An operator in each form: all that it gives must be the same.
macro_rules! forms {
    ($x:ident $op:tt $y:ident, $assign:tt) => {{
        let (mut by_value, mut by_reference) = ($x.clone(), $x.clone());
        by_value $assign $y.clone();
        by_reference $assign $y;
        let all = [$x $op $y, $x.clone() $op $y, $x $op $y.clone(), $x.clone() $op $y.clone(), by_value, by_reference];
        all.map(fields)
    }};
}

/// An operator with a whole number on either side.
macro_rules! with_number {
    ($x:ident $op:tt $n:ident, $assign:tt) => {{
        let (mut by_value, mut by_reference) = ($x.clone(), $x.clone());
        by_value $assign $n;
        by_reference $assign &$n;
        [$x $op $n, $x.clone() $op $n, $x $op &$n, $x.clone() $op &$n, by_value, by_reference].map(fields)
    }};
    ($n:ident $op:tt $x:ident) => {
        [$n $op $x, $n $op $x.clone(), &$n $op $x, &$n $op $x.clone()].map(fields)
    };
}

fn all<const N: usize>(x: Original<BigInt>) -> [Fields; N] {
    [(); N].map(|_| original(x.clone()))
}

macro_rules! comparisons {
    ($x:expr, $y:expr) => {
        ($x.cmp($y), $x.partial_cmp($y), [$x == $y, $x != $y, $x < $y, $x <= $y, $x > $y, $x >= $y])
    };
}

/// The whole number that leaves a remainder from 0 to below the magnitude of the divisor.
fn quotient_of_euclid(x: &Original<BigInt>, divisor: &Original<BigInt>) -> Option<Original<BigInt>> {
    let quotient = x.checked_div(divisor)?;
    Some(if divisor.is_negative() { quotient.ceil() } else { quotient.floor() })
}

#[test]
fn calls_on_two() {
    let mut numbers = Numbers(1);
    for _ in 0..pairs() {
        let left = fraction(&mut numbers);
        let right = beside(&left, &mut numbers);
        let ((x, old), (y, other)) = ((&left.0, &left.1), (&right.0, &right.1));
        rows! { (x, y);
            forms!(x + y, +=) => all(old + other);
            forms!(x - y, -=) => all(old - other);
            forms!(x * y, *=) => all(old * other);
            [x.try_add(y), x.try_sub(y), x.try_mul(y)].map(|x| fields(x.unwrap())) => [old + other, old - other, old * other].map(original);
            [x.checked_add(y), x.checked_sub(y), x.checked_mul(y)].map(|x| x.map(fields)) => [old + other, old - other, old * other].map(|x| Some(original(x)));
            [x.checked_div(y).map(fields), tried(x.try_div(y))] => [(); 2].map(|_| old.checked_div(other).map(original));
            [x.checked_rem(y).map(fields), tried(x.try_rem(y))] => [(); 2].map(|_| if other.is_zero() { None } else { Some(original(old % other)) });
            comparisons!(x, y) => comparisons!(old, other);
            x.try_cmp(y) => Ok(old.cmp(other));
            hash_of(x) == hash_of(y) => x == y;
            [x.checked_div_euclid(y).map(fields), tried(x.try_div_euclid(y))] => [(); 2].map(|_| quotient_of_euclid(old, other).map(original));
            [x.checked_rem_euclid(y).map(fields), tried(x.try_rem_euclid(y))] => [(); 2].map(|_| quotient_of_euclid(old, other).map(|quotient| original(old - quotient * other)));
            BigFraction::try_new(x, y) => x.try_div(y);
            [x.gcd(y), x.try_gcd(y).unwrap()].map(fields) => all(Original::new(old.numer().gcd(other.numer()), old.denom().lcm(other.denom())));
            [x.lcm(y), x.try_lcm(y).unwrap()].map(fields) => all(Original::new(old.numer().lcm(other.numer()), old.denom().gcd(other.denom())));
            fields(x.abs_sub(y)) => original(old.abs_sub(other));
        };
        if !other.is_zero() {
            rows! { (x, y);
                forms!(x / y, /=) => all(old / other);
                forms!(x % y, %=) => all(old % other);
                Some([x.div_euclid(y), x.rem_euclid(y)]) => x.checked_div_euclid(y).and_then(|quotient| Some([quotient, x.checked_rem_euclid(y)?]));
                x.rem_euclid(y).is_negative() || x.rem_euclid(y) >= y.abs() => false;
            };
        }
    }
}

#[test]
fn calls_with_a_number() {
    let mut numbers = Numbers(7);
    for _ in 0..pairs() {
        let (x, old) = &fraction(&mut numbers);
        let (n, m, wide) = (numbers.word() as i64, numbers.below(5) as u8, numbers.wide() as i128);
        let [n_old, m_old, wide_old] = [BigInt::from(n), BigInt::from(m), BigInt::from(wide)].map(Original::from);
        rows! { (x, n, m, wide);
            with_number!(x + n, +=) => all(old + &n_old);
            with_number!(x - m, -=) => all(old - &m_old);
            with_number!(x * wide, *=) => all(old * &wide_old);
            with_number!(n + x) => all(&n_old + old);
            with_number!(m - x) => all(&m_old - old);
            with_number!(wide * x) => all(&wide_old * old);
        };
        if m != 0 && n != 0 && !x.is_zero() {
            rows! { (x, n, m, wide);
                with_number!(x / n, /=) => all(old / &n_old);
                with_number!(x % m, %=) => all(old % &m_old);
                with_number!(n / x) => all(&n_old / old);
                with_number!(wide % x) => all(&wide_old % old);
            };
        }
    }
}

#[test]
fn calls_on_one() {
    let mut numbers = Numbers(2);
    for _ in 0..pairs() {
        let (x, old) = &fraction(&mut numbers);
        let (numer, denom) = (old.numer(), old.denom());
        let reduced = || Some((numer.to_i64()?, denom.to_i64()?));
        rows! { x;
            [x.clone(), x.try_clone().unwrap()].map(fields) => all(old.clone());
            [-x, -x.clone(), x.try_neg().unwrap()].map(fields) => all(-old);
            [x.abs(), x.try_abs().unwrap()].map(fields) => all(old.abs());
            fields(x.signum()) => original(old.signum());
            (x.is_zero(), x.is_one(), x.is_positive(), x.is_negative()) => (old.is_zero(), old.is_one(), old.is_positive(), old.is_negative());
            x.is_integer() => old.is_integer();
            [x.floor(), x.try_floor().unwrap()].map(fields) => all(old.floor());
            [x.ceil(), x.try_ceil().unwrap()].map(fields) => all(old.ceil());
            [x.round(), x.try_round().unwrap()].map(fields) => all(old.round());
            [x.trunc(), x.try_trunc().unwrap()].map(fields) => all(old.trunc());
            [x.fract(), x.try_fract().unwrap()].map(fields) => all(old.fract());
            (x.to_i64(), x.to_u64(), x.to_i128(), x.to_u128(), x.to_i8(), x.to_u32()) => {
                let whole = old.to_integer();
                (whole.to_i64(), whole.to_u64(), whole.to_i128(), whole.to_u128(), whole.to_i8(), whole.to_u32())
            };
            [x.to_f64(), x.try_to_f64().ok()].map(bits) => [old.to_f64(); 2].map(bits);
            [x.numer(), x.try_numer().unwrap()].map(fields) => [(); 2].map(|_| (numer.clone(), BigInt::one()));
            [x.denom(), x.try_denom().unwrap()].map(fields) => [(); 2].map(|_| (denom.clone(), BigInt::one()));
            fields(x.to_integer()).0 => old.to_integer();
            { let (numer, denom) = x.clone().into_raw(); [numer, denom].map(|number| fields(number).0) } => [numer.clone(), denom.clone()];
            (x.numer_digits(), x.denom_digits()) => (numer.magnitude().to_u64_digits(), denom.magnitude().to_u64_digits());
            BigFraction::try_from(&BigRational::new_raw(numer * 6, denom * -6)) => Ok(-x);
            BigFraction::try_from(BigRational::new_raw(numer * -6, denom * -6)) => Ok(x.clone());
            fields(BigFraction::from(numer.clone())) => (numer.clone(), BigInt::one());
            Reduced64::try_from(x).ok().map(Reduced::into_raw) => reduced();
            Reduced::<u128>::try_from(x).ok().map(Reduced::into_raw) => numer.to_u128().and_then(|numer| Some((numer, denom.to_u128()?)));
        };
        if let Some((numer, denom)) = reduced() {
            let short = Reduced::checked_new(numer, denom).unwrap();
            rows! { x;
                hash_of(x) => hash_of(short);
                BigFraction::from(short) => *x;
                BigFraction::try_from_reduced(short).as_ref() => Ok(x);
                BigFraction::new(numer, denom) => *x;
                BigFraction::try_from(Ratio::new_raw(numer, denom)).as_ref() => Ok(x);
            };
        }
        if !x.is_zero() {
            rows! { x;
                [x.recip(), x.inv(), x.clone().inv()].map(fields) => all(old.recip());
                tried(x.try_recip()) => Some(original(old.recip()));
            };
        }
    }
}

/// The whole number that the rule gives.
fn rounded(x: &Original<BigInt>, rule: Rounding) -> Original<BigInt> {
    let half = Original::new(BigInt::from(1), BigInt::from(2));
    match rule {
        Rounding::HalfAway => x.round(),
        Rounding::HalfEven if (x + &half).is_integer() => Original::from(BigInt::from(2)) * (x / BigInt::from(2)).round(),
        Rounding::HalfEven => (x + half).floor(),
        Rounding::Down => x.trunc(),
        Rounding::Up if x.is_negative() => x.floor(),
        Rounding::Up | Rounding::Ceil => x.ceil(),
        Rounding::Floor => x.floor(),
    }
}

/// The quotients of the continued fraction, by Euclid's algorithm.
fn quotients(x: &Original<BigInt>) -> Vec<BigInt> {
    let floor = x.floor().to_integer();
    let (mut n, mut d) = (x.denom().clone(), x.numer() - &floor * x.denom());
    let mut quotients = vec![floor];
    while !d.is_zero() {
        quotients.push(&n / &d);
        (n, d) = (d.clone(), n % d);
    }
    quotients
}

/// The simplest fraction strictly between two, by a search through the denominators up to 200.
fn simplest(low: &Original<BigInt>, high: &Original<BigInt>) -> Option<Original<BigInt>> {
    (1..=200).map(BigInt::from).find_map(|denom| {
        let first = (low * &denom).floor().to_integer() + 1;
        let last = (high * &denom).ceil().to_integer() - 1;
        (first <= last).then(|| Original::new(BigInt::zero().max(first).min(last), denom))
    })
}

#[test]
fn simplest_between_two() {
    let mut numbers = Numbers(11);
    for _ in 0..pairs() / 5 {
        let left = fraction(&mut numbers);
        let right = beside(&left, &mut numbers);
        let ((x, low), (y, high)) = if left.1 < right.1 { (&left, &right) } else { (&right, &left) };
        rows! { (x, y);
            BigFraction::simplest_between(x, y).is_none() => low == high;
            BigFraction::try_simplest_between(x, y) => Ok(BigFraction::simplest_between(x, y));
            BigFraction::simplest_between(y, x) => None;
        };
        match (BigFraction::simplest_between(x, y), simplest(low, high)) {
            (Some(found), None) => {
                assert!(x < &found && &found < y, "{found} is between {x} and {y}");
                assert!(fields(found).1 > BigInt::from(200), "between {x} and {y}");
            }
            (found, expected) => assert_eq!(found.map(fields), expected.map(original), "between {x} and {y}"),
        }
    }
}

/// The nearest fraction with a denominator from 1 to `most`: for each denominator, the two numerators next to `x` are tried.
fn nearest(x: &Original<BigInt>, most: u64) -> Option<Fields> {
    let denoms = (1..=most).map(BigInt::from);
    let tried = denoms.flat_map(|q| [0, 1].map(|up| Original::new((x * &q).floor().to_integer() + up, q.clone())));
    tried.min_by_key(|y| ((y - x).abs(), y.denom().clone(), y.numer().clone())).map(original)
}

#[test]
fn fractions_near() {
    let mut numbers = Numbers(9);
    let rules = [Rounding::HalfAway, Rounding::HalfEven, Rounding::Down, Rounding::Up, Rounding::Floor, Rounding::Ceil];
    for _ in 0..pairs() / 10 {
        let left = fraction(&mut numbers);
        let (step, width) = beside(&left, &mut numbers);
        let (x, old) = (&left.0, &left.1);
        let (step, width) = (&step.abs(), width.abs());
        rows! { x;
            x.continued_fraction() => quotients(old).into_iter().map(BigFraction::from).collect::<Vec<_>>();
            x.try_continued_fraction().unwrap().len() => quotients(old).len();
            x.nearest(&BigFraction::from(old.denom().clone())) => Some(x.clone());
        };
        let (most, halves) = (numbers.below(20), numbers.below(2));
        let bound = BigFraction::new(2 * most + halves, 2);
        rows! { (x, most);
            x.nearest(&bound).map(fields) => nearest(old, most);
            tried(x.try_nearest(&bound)) => nearest(old, most);
            tried(x.try_nearest(&-bound)) => None;
        };
        let parts = (numbers.word() >> (1 + numbers.below(63))).max(1) as i64;
        let short = Reduced64::try_from(x);
        for rule in rules {
            let in_parts = original(rounded(&(old * BigInt::from(parts)), rule) / BigInt::from(parts));
            rows! { (x, parts);
                fields(x.round_to(parts, rule)) => in_parts;
                tried(x.try_round_to(parts, rule)) => Some(in_parts);
                [0, -parts, i64::MIN].map(|parts| x.try_round_to(parts, rule)) => [Ok(None), Ok(None), Ok(None)];
                short.as_ref().map_or(true, |short| short.round_to(parts, rule).map_or(true, |multiple| x.round_to(parts, rule) == multiple)) => true;
            };
            let multiple = || if width.is_zero() { None } else { Some(original(rounded(&(old / &width), rule) * &width)) };
            rows! { (x, step);
                tried(x.try_round_to_multiple_of(step, rule)) => multiple();
                tried(x.try_round_to_multiple_of(&-step, rule)) => None;
            };
            if !step.is_zero() {
                rows! { (x, step);
                    Some(fields(x.round_to_multiple_of(step, rule))) => multiple();
                };
            }
        }
    }
    let half = BigFraction::new(1, 2);
    assert_eq!(rules.map(|rule| half.round_to(1, rule)), [1, 0, 0, 1, 0, 1].map(BigFraction::from));
    assert_eq!(rules.map(|rule| half.round_to_multiple_of(&BigFraction::one(), rule)), [1, 0, 0, 1, 0, 1].map(BigFraction::from));
    let cents = |text| (Reduced64::from_decimal(text).unwrap().round_to(100, Rounding::HalfEven), BigFraction::from_decimal(text).unwrap().round_to(100, Rounding::HalfEven));
    assert_eq!(cents("19.996"), (Some(Reduced64::from(20)), BigFraction::from(20)));
}

#[test]
fn texts() {
    let mut numbers = Numbers(3);
    for _ in 0..pairs() {
        let (x, old) = &fraction(&mut numbers);
        let (plain, radix) = (old.to_string(), numbers.below(35) as u32 + 2);
        let bits = old.numer().bits().max(old.denom().bits());
        let in_radix = format!("{}/{}", old.numer().to_str_radix(radix), old.denom().to_str_radix(radix));
        rows! { x;
            x.try_to_string() => Ok(plain.clone());
            [format!("{x}"), format!("{x:+}"), format!("{x:>90}"), format!("{x:<+90}|{x:^9}|{x:020}"), format!("{x:?}")] => [plain.clone(), format!("{old:+}"), format!("{old:>90}"), format!("{old:<+90}|{old:^9}|{old:020}"), format!("BigFraction({old})")];
            plain.parse() => Ok(x.clone());
            BigFraction::try_from_str(&plain) => Ok(Ok(x.clone()));
            BigFraction::from_str_radix(&in_radix, radix) => Ok(x.clone());
            BigFraction::from_text(&plain) => Ok(x.clone());
            BigFraction::try_from_text(&plain) => Ok(Ok(x.clone()));
            [bits, bits - 1].map(|bits| BigFraction::from_text_within(&plain, bits)) => [Ok(x.clone()), Err(BigTextRefusal::TooLong)];
        };
    }
}

/// The decimal with so many places, cut towards 0.
fn cut(old: &Original<BigInt>, places: u32) -> String {
    let scaled = (old * BigInt::from(10).pow(places)).to_integer();
    let digits = format!("{:0>width$}", scaled.magnitude(), width = places as usize + 1);
    let sign = if scaled.sign() == Sign::Minus { "-" } else { "" };
    let (whole, part) = digits.split_at(digits.len() - places as usize);
    format!("{sign}{whole}{}{part}", if places == 0 { "" } else { "." })
}

#[test]
fn decimals() {
    let mut numbers = Numbers(4);
    for _ in 0..pairs() {
        let (x, old) = &fraction(&mut numbers);
        let places = numbers.below(60) as u32;
        let text = cut(old, places);
        let (numer, denom): (BigInt, BigInt) = (text.replace('.', "").parse().unwrap(), BigInt::from(10).pow(places));
        let bits = numer.bits().max(denom.bits());
        let of_text = Original::new(numer, denom);
        rows! { (x, places);
            x.decimal(places, Rounding::Down) => text.clone();
            x.try_decimal(places, Rounding::Down) => Ok(text.clone());
            BigFraction::from_decimal(&text).map(fields) => Ok(original(of_text.clone()));
            BigFraction::try_from_decimal(&text).unwrap().map(fields) => Ok(original(of_text.clone()));
            [bits, bits - 1].map(|bits| BigFraction::from_decimal_within(&text, bits).map(fields)) => [Ok(original(of_text)), Err(BigTextRefusal::TooLong)];
        };
    }
    assert_eq!(format!("{:.2} {:.0} {:+.1}", BigFraction::new(1, 8), BigFraction::new(5, 2), BigFraction::new(2, 3)), "0.12 2 +0.7");
    assert_eq!(BigFraction::from_decimal("1e-40").map(|x| x.recip()), Ok(BigFraction::from(10).pow(40)));
}

#[test]
fn folds_and_powers() {
    let mut numbers = Numbers(5);
    for _ in 0..pairs() / 10 {
        let (ours, theirs): (Vec<_>, Vec<_>) = (0..5).map(|_| fraction(&mut numbers)).unzip();
        assert_eq!(fields(ours.iter().sum()), original(theirs.iter().sum()));
        assert_eq!(fields(ours.iter().product()), original(theirs.iter().product()));
        let (x, old) = (&ours[0], &theirs[0]);
        for exponent in if x.is_zero() { 0..4i32 } else { -3..4 } {
            let (wide, power) = (i64::from(exponent), original(Pow::pow(old, exponent)));
            let bits = power.0.bits().max(power.1.bits());
            rows! { (x, exponent);
                fields(x.pow(exponent)) => power;
                tried(x.try_pow(wide)) => Some(power.clone());
                [bits, bits - 1].map(|bits| x.pow_within(wide, bits).map(fields)) => [Some(power.clone()), None];
                [bits, bits - 1].map(|bits| tried(x.try_pow_within(wide, bits))) => [Some(power.clone()), None];
                [Pow::pow(x, exponent), Pow::pow(x.clone(), &exponent), Pow::pow(x, &wide), Pow::pow(x.clone(), wide)].map(fields) => [(); 4].map(|_| power.clone());
            };
        }
        assert_eq!(fields(ours.into_iter().sum()), original(theirs.iter().sum()));
    }
}

#[test]
fn floats() {
    let mut numbers = Numbers(6);
    let drawn = (0..pairs()).map(|_| f64::from_bits(numbers.word()));
    for float in drawn.chain([0.0, -0.0, -0.75, 0.1, 1e300, 1e-300, f64::MIN_POSITIVE, 5e-324, f64::MAX, f64::NAN, f64::INFINITY]) {
        let old = Original::from_float(float);
        let want = || old.clone().map(original);
        rows! { float;
            BigFraction::from_float(float).map(fields) => want();
            tried(BigFraction::try_from_float(float)) => want();
            BigFraction::from_f64(float).map(fields) => want();
            BigFraction::from_f32(float as f32).map(fields) => Original::from_float(float as f32).map(original);
            BigFraction::from_float(float as f32).map(fields) => Original::from_float(float as f32).map(original);
            bits(BigFraction::from_float(float).and_then(|x| x.to_f64())) => bits(old.and(Some(float + 0.0)));
            BigFraction::from_float(float as f32).and_then(|x| x.to_f32()).map(f32::to_bits) => (float as f32).is_finite().then(|| (float as f32 + 0.0).to_bits());
        };
    }
}

/// The bits of the nearest `f32`: its place, the least one that leaves at most 24 binary digits, and these digits. A tie goes to the even number.
fn bits_of_32(x: &Original<BigInt>) -> u32 {
    let sign = u32::from(x.is_negative()) << 31;
    let power = |k: u32| Original::from(BigInt::one() << k);
    let size = x.abs() * power(149);
    let least = if x.is_zero() { 0 } else { (125 + x.numer().bits()).saturating_sub(x.denom().bits()).min(254) as u32 };
    let place = match (least..254).find(|&place| (&size / power(place)).to_integer().bits() <= 24) {
        Some(place) => place,
        None => return sign | 0x7f80_0000,
    };
    let units = size / power(place);
    let whole = units.to_integer();
    let rest = (units - &whole) * BigInt::from(2);
    let is_up = rest > Original::one() || rest.is_one() && whole.bit(0);
    // A carry of the digits goes into the place.
    sign | ((place << 23) + (whole + u8::from(is_up)).to_u32().unwrap())
}

/// `to_f32` rounds once, also beside a tie of 32 bits that an `f64` cannot tell from it.
#[test]
fn floats_of_32_bits() {
    let mut numbers = Numbers(9);
    for _ in 0..pairs() {
        let (x, old) = fraction(&mut numbers);
        let tie = f32::from_bits((numbers.word() >> 33) as u32 % 0x7f00_0000);
        let (low, high) = (BigFraction::from_float(tie).unwrap(), BigFraction::from_float(f32::from_bits(tie.to_bits() + 1)).unwrap());
        let beside = (low + high) / BigFraction::from(2) * (BigFraction::from(1) + BigFraction::new(1, 1i128 << 70));
        for (x, old) in [(x, old), (beside.clone(), Original::from(fields(beside)))] {
            rows! { x;
                [x.to_f32(), x.try_to_f32().ok()].map(|float| float.map(f32::to_bits)) => [Some(bits_of_32(&old)); 2];
            };
        }
    }
}

/// The sum of a total, with fractions that a slot takes and others.
#[test]
fn sums_of_totals() {
    let mut numbers = Numbers(10);
    for _ in 0..pairs() / 10 {
        let (mut short, mut wide) = (Total::<i64>::new(), Total::<i128>::new());
        let (mut short_sum, mut wide_sum) = (Original::<BigInt>::zero(), Original::<BigInt>::zero());
        for _ in 0..numbers.below(40) {
            let numer = numbers.word() as i64 >> numbers.below(63);
            let denom = (numbers.word() >> (1 + numbers.below(63))).max(1) as i64;
            short.add(Reduced::checked_new(numer, denom).unwrap());
            short_sum += Original::new(numer.into(), denom.into());
            let (numer, denom) = (i128::from(numer) << numbers.below(60), i128::from(denom) << numbers.below(60));
            wide.subtract(Reduced::checked_new(numer, denom).unwrap());
            wide_sum -= Original::<BigInt>::new(numer.into(), denom.into());
        }
        rows! { short;
            short.big_sum().map(fields) => Ok(original(short_sum));
            wide.big_sum().map(fields) => Ok(original(wide_sum));
        };
    }
}

#[test]
fn made_from_numbers() {
    rows! { "numbers";
        [BigFraction::from_i64(-3), BigFraction::from_u64(3), BigFraction::from_i128(-3), BigFraction::from_u128(3)] => [-3, 3, -3, 3].map(|n| Some(BigFraction::from(n)));
        [BigFraction::zero(), BigFraction::default(), BigFraction::from_integer(0u8)] => [0, 0, 0].map(BigFraction::from);
        BigFraction::one() => BigFraction::from(1u128);
        BigFraction::from(i128::MIN).to_string() => i128::MIN.to_string();
        BigFraction::from(u128::MAX).to_string() => u128::MAX.to_string();
        BigFraction::new(-128i8, -1).to_string() => "128";
        BigFraction::new(1i8, -128).to_string() => "-1/128";
        BigFraction::new(i128::MIN, 3).to_string() => format!("{}/3", i128::MIN);
        BigFraction::new(i128::MIN, -3).to_string() => format!("{}/3", 1u128 << 127);
        BigFraction::new(5, i128::MIN).to_string() => format!("-5/{}", 1u128 << 127);
        (BigFraction::checked_new(6, -4), BigFraction::checked_new(1, 0)) => (Some(BigFraction::new(-3, 2)), None);
        (BigFraction::try_new(6u8, 4), BigFraction::try_new(0, 0)) => (Ok(Some(BigFraction::new(3, 2))), Ok(None));
        BigFraction::try_from_digits(true, &[6, 0, 0], &[4, 0]) => Ok(Some(BigFraction::new(-3, 2)));
        BigFraction::from_digits(true, &[6], &[0, 0]) => None;
        Reduced::<i8>::try_from(BigFraction::new(1, 128)).map_err(|error: ReducedError| error.to_string()).is_err() => true;
        BigFraction::try_from(&BigRational::new_raw(BigInt::one(), BigInt::zero())).is_err() => true;
        BigFraction::try_from(Ratio::new_raw(1i8, 0)).is_err() => true;
        BigFraction::try_from(Ratio::new_raw(i8::MIN, -1)) => Ok(BigFraction::from(128));
    };
}

#[test]
fn refused_texts() {
    for text in ["", "-", "+", "/", "1/", "/1", "1/x", "1//2", "--1", "1 /2", "1/2/3", "0x1"] {
        assert_eq!((text.parse::<BigFraction>().is_err(), BigFraction::from_str_radix(text, 10).is_err()), (true, true), "{text}");
    }
    let zero = |error: bakhsney::ParseRatioError| error.to_string();
    let want = "1/0".parse::<Original<BigInt>>().unwrap_err().to_string();
    assert_eq!("1/0".parse::<BigFraction>().map_err(zero), Err(want.clone()));
    assert_eq!(BigFraction::from_str_radix("1/0", 7).map_err(zero), Err(want));
    assert!(BigFraction::from_str_radix("12", 10).is_err(), "as num-rational's, it needs a slash");
    assert_eq!(BigFraction::from_str_radix("+zz/-7", 36), Ok(BigFraction::new(-1295, 7)));
    // num-bigint reads the line below a digit, and its fractions have no precision.
    assert!("1_000/3".parse::<Original<BigInt>>().is_ok() && "1_000/3".parse::<BigFraction>().is_err());
    assert_eq!(format!("{:.2}", Original::new(BigInt::from(1), BigInt::from(8))), "1/8");
    assert_eq!(BigFraction::from_decimal("1,5"), Err(BigTextRefusal::NotDecimal));
    assert_eq!([BigFraction::from_text("1 /2"), BigFraction::from_text("1/0")], [Err(BigTextRefusal::NotNumber), Err(BigTextRefusal::ZeroDenominator)]);
}

/// The message of the panic.
#[cfg(panic = "unwind")]
fn message<R>(call: impl FnOnce() -> R + std::panic::UnwindSafe) -> String {
    let cause = catch_unwind(call).err().expect("the call must panic");
    cause.downcast_ref::<String>().cloned().or_else(|| cause.downcast_ref::<&str>().map(|text| text.to_string())).unwrap()
}

#[cfg(panic = "unwind")]
#[test]
fn multiple_of_0() {
    for parts in [0, -1, i64::MIN] {
        assert_eq!(message(|| BigFraction::new(1, 2).round_to(parts, Rounding::Up)), "the number of parts is not above 0");
    }
    assert_eq!(message(|| BigFraction::new(1, 2).round_to_multiple_of(&BigFraction::from(0), Rounding::Up)), "the step is not above 0");
}

#[cfg(panic = "unwind")]
#[test]
fn division_by_0() {
    let (half, zero) = (|| BigFraction::new(1, 2), || BigFraction::from(0));
    let messages = [message(|| half() / zero()), message(|| half() / 0), message(|| 1 / zero()), message(|| zero().recip()), message(|| zero().pow(-1)), message(|| BigFraction::new(1, 0))];
    assert_eq!(messages, [(); 6].map(|_| "denominator == 0"));
    for message in [message(|| half() % zero()), message(|| half().rem_euclid(&zero())), message(|| 7 % zero()), message(|| half() % Ratio::new(0, 1))] {
        assert_eq!(message, "attempt to calculate the remainder with a divisor of zero");
    }
    assert_eq!(message(|| half().div_euclid(&zero())), "attempt to divide by zero");
    assert_eq!(message(|| BigFraction::from_str_radix("1/2", 37)), "from_str_radix_int: must lie in the range `[2, 36]` - found 37");
}

/// Newer releases of std refuse so many places themselves.
#[cfg(target_pointer_width = "64")]
#[test]
fn too_many_places() {
    let told = message(|| format!("{:.*}", 1 << 32, BigFraction::new(1, 3)));
    assert!(["memory allocation failed", "Formatting argument out of range"].contains(&&*told), "{told}");
}

#[test]
fn exponents_of_any_size() {
    let powers = |n: i8| [Pow::pow(BigFraction::from(n), u128::MAX), Pow::pow(BigFraction::from(n), u128::MAX - 1)];
    assert_eq!([powers(-1), powers(0), powers(1)], [[-1, 1], [0, 0], [1, 1]].map(|row| row.map(BigFraction::from)));
    assert_eq!([i128::MIN, i128::MIN + 1].map(|exponent| Pow::pow(BigFraction::from(-1), exponent)), [1, -1].map(BigFraction::from));
}

/// The values of JSON in a format that must not be asked for more after the end of a sequence.
#[cfg(feature = "serde")]
mod once {
    use serde::de::{DeserializeSeed, Deserializer, SeqAccess, Visitor};
    use serde_json::{Error, Value};

    pub struct Once(pub Value);

    impl<'de> Deserializer<'de> for Once {
        type Error = Error;

        fn deserialize_any<V: Visitor<'de>>(self, visitor: V) -> Result<V::Value, Error> {
            match self.0 {
                Value::Array(values) => visitor.visit_seq(Values(Some(values.into_iter()))),
                value => value.deserialize_any(visitor),
            }
        }

        serde::forward_to_deserialize_any! {
            bool i8 i16 i32 i64 i128 u8 u16 u32 u64 u128 f32 f64 char str string bytes byte_buf option unit unit_struct newtype_struct seq tuple
            tuple_struct map struct enum identifier ignored_any
        }
    }

    struct Values(Option<std::vec::IntoIter<Value>>);

    impl<'de> SeqAccess<'de> for Values {
        type Error = Error;

        fn next_element_seed<S: DeserializeSeed<'de>>(&mut self, seed: S) -> Result<Option<S::Value>, Error> {
            let next = self.0.as_mut().expect("the sequence is over").next();
            if next.is_none() {
                self.0 = None;
            }
            next.map(|value| seed.deserialize(Once(value))).transpose()
        }
    }
}

/// The texts are those of num-rational's `BigRational`, which num-bigint's feature `serde` writes.
#[cfg(feature = "serde")]
#[test]
fn serialized() {
    let text = |x: &BigFraction| serde_json::to_string(x).unwrap();
    let read = |text: &str| {
        let x = serde_json::from_str::<BigFraction>(text).ok();
        let value = serde_json::from_str(text).unwrap();
        assert_eq!(<BigFraction as serde::Deserialize>::deserialize(once::Once(value)).ok(), x);
        x
    };
    let wide = BigFraction::new(-(1i128 << 64), 3);
    rows! { "texts";
        [text(&BigFraction::new(-1, 3)), text(&BigFraction::from(0)), text(&wide)] => ["[[-1,[1]],[1,[3]]]", "[[0,[]],[1,[1]]]", "[[-1,[0,0,1]],[1,[3]]]"];
        text(&BigFraction::new(5i64 << 32, 3)) => "[[1,[0,5]],[1,[3]]]";
        [read("[[1,[6]],[-1,[4]]]"), read("[[0,[6]],[1,[4]]]"), read("[[-1,[0,0,2,0]],[1,[6,0]]]")] => [Some(BigFraction::new(-3, 2)), Some(BigFraction::from(0)), Some(wide)];
        ["[[1,[1]],[1,[]]]", "[[1,[1]],[0,[1]]]", "[[2,[1]],[1,[1]]]", "[[1,[1]],[-2,[1]]]", "[[1,[4294967296]],[1,[1]]]", "[1,2]"].map(read) => [(); 6].map(|_| None);
    };
    let mut numbers = Numbers(8);
    for _ in 0..pairs() / 10 {
        let (x, _) = fraction(&mut numbers);
        assert_eq!(read(&text(&x)), Some(x));
    }
}

/// A number from -2^53 to 2^53, which is 9007199254740992, is a number in JSON, and each other one is a text.
#[cfg(feature = "serde")]
#[test]
fn two_numbers() {
    use bakhsney::two_numbers::{deserialize, deserialize_within, serialize};
    let text = |x: &BigFraction| serialize(x, serde_json::value::Serializer).unwrap().to_string();
    let read = |text: &str| {
        let x = deserialize(&mut serde_json::Deserializer::from_str(text));
        assert_eq!(deserialize(once::Once(serde_json::from_str(text).unwrap())).ok(), x.as_ref().ok().cloned());
        x.map_err(|refusal| refusal.to_string().split(" at line").next().unwrap().to_string())
    };
    let [at_most, past] = [1i128 << 53, (1 << 53) + 1].map(BigFraction::from);
    rows! { "texts";
        deserialize(serialize(&past.recip(), serde_json::value::Serializer).unwrap()).ok() => Some(past.recip());
        [text(&BigFraction::new(-1, 3)), text(&BigFraction::from(0)), text(&BigFraction::from(7))] => ["[-1,3]", "[0,1]", "[7,1]"];
        [text(&at_most), text(&-&at_most)] => ["[9007199254740992,1]", "[-9007199254740992,1]"];
        [text(&past), text(&-&past)] => [r#"["9007199254740993",1]"#, r#"["-9007199254740993",1]"#];
        [text(&at_most.recip()), text(&-past.recip())] => ["[1,9007199254740992]", r#"[-1,"9007199254740993"]"#];
        text(&BigFraction::new(-(1i128 << 64), 3)) => r#"["-18446744073709551616",3]"#;
        [read("[-6,4]"), read(r#"["-6","4"]"#), read(r#"["+006",-4]"#)] => [(); 3].map(|_| Ok(BigFraction::new(-3, 2)));
        [read("[18446744073709551615,-1]"), read(r#"["-9223372036854775808",-1]"#)] => [Ok(BigFraction::from(-i128::from(u64::MAX))), Ok(BigFraction::from(1u64 << 63))];
        read(r#"[1,"18446744073709551616"]"#) => Ok(BigFraction::new(1, 1u128 << 64));
        read("[1.0,2]") => Err("invalid type: floating point `1`, expected a whole number, or a text of one".to_string());
        read(r#"[1,"1/2"]"#) => Err("invalid value: string \"1/2\", expected a whole number, or a text of one".to_string());
        read(r#"[1,"0"]"#) => Err("invalid value: integer `0`, expected a ratio with non-zero denominator".to_string());
        deserialize_within::<4, _>(serialize(&BigFraction::new(-15, 14), serde_json::value::Serializer).unwrap()).ok() => Some(BigFraction::new(-15, 14));
        read("[1]") => Err("invalid length 1, expected a list of two whole numbers".to_string());
        read("[1,2,3]") => Err("invalid length 3, expected a list of two whole numbers".to_string());
        read("7") => Err("invalid type: integer `7`, expected a list of two whole numbers".to_string());
    };
    for refused in ["[1,0]", "[0,0]", "[0,\"-00\"]", "[]", "[1,null]", "[[1],2]", "[true,2]", "{}", "\"1/2\"", "[1e2,1]"] {
        assert!(read(refused).is_err(), "{refused}");
    }
    for refused in ["", "+", "-", "--1", "1.0", "1e2", " 1", "1_000", "0x1", "1/1", "/"] {
        assert!(read(&format!("[{refused:?},1]")).is_err(), "{refused}");
    }
    let within = |text: &str| deserialize_within::<4, _>(&mut serde_json::Deserializer::from_str(text)).map_err(|refusal| refusal.to_string());
    for text in ["[-15,14]", r#"["-15","+0014"]"#, r#"["-0015",14]"#] {
        assert_eq!(within(text), Ok(BigFraction::new(-15, 14)), "{text}");
    }
    for text in ["[16,1]", "[1,-16]", r#"["16",1]"#, r#"[1,"16"]"#, "[-9223372036854775808,1]", &format!("[1,\"{}\"]", "9".repeat(3_000_000))] {
        assert!(within(text).unwrap_err().contains("more bits than the bound"), "{text:.60}");
    }
    let mut numbers = Numbers(9);
    for _ in 0..pairs() / 10 {
        let (x, y) = fraction(&mut numbers);
        let item = |n: &BigInt| if n.bits() > 53 && n.magnitude() != &(1u64 << 53).into() { format!("\"{n}\"") } else { n.to_string() };
        assert_eq!(text(&x), format!("[{},{}]", item(y.numer()), item(y.denom())));
        assert_eq!(read(&text(&x)), Ok(x));
    }
}

/// The example of the crate's README with fewer sales, beside num-rational.
#[test]
fn sales() {
    let mut ours = vec![BigFraction::new(1, 10); 10];
    for sale in 0..200 {
        let sold = &ours[sale % 10] / (sale % 8 + 3);
        ours[sale % 10] -= &sold;
        ours[(sale + 1) % 10] += sold;
    }
    let mut theirs = vec![Original::new(BigInt::from(1), BigInt::from(10)); 10];
    for sale in 0..200 {
        let sold = &theirs[sale % 10] / BigInt::from(sale % 8 + 3);
        theirs[sale % 10] -= &sold;
        theirs[(sale + 1) % 10] += sold;
    }
    assert!(ours.into_iter().map(fields).eq(theirs.into_iter().map(original)));
}
