//! Each call on one fraction of `i8`, beside a model of whole numbers.
//!
//! A `Ratio` is tried with all 65,536 pairs of fields: reduced or not, over each denominator, also over 0. A `Reduced` is tried with all
//! 19,895 fractions. Each call is a row of a table, with what the model says. A trait's call has a row beside the method of the same name.
//!
//! Some calls have other arguments. The rows try each rule of rounding. Numbers are drawn anew for each fraction, and
//! `BAKHSNEY_WALK=SEED` chooses them. It also chooses the eighth of the rows that a short run tries with each fraction. A run with
//! `BAKHSNEY_WALK=all` tries all rows.

// Not every row names all of its arguments.
#![allow(unused_variables)]

#[macro_use]
mod support;
#[path = "support/answers.rs"]
mod answers;

use answers::{or_panic, run, Answer, Answered, Fields};
#[cfg(feature = "serde")]
use bakhsney::{decimal, text, two_numbers};
use bakhsney::{BaseTenText, Ratio, RatioErrorKind, Reduced, Rounding};
use num_traits::{CheckedNeg, FromPrimitive, Inv, Num, One, Pow, Signed, ToPrimitive, Zero};
#[cfg(feature = "serde")]
use serde_json::value::Serializer as Json;
use std::collections::hash_map::DefaultHasher;
use std::hash::{Hash, Hasher};
use support::Numbers;

const RULES: [Rounding; 6] = [Rounding::HalfAway, Rounding::HalfEven, Rounding::Down, Rounding::Up, Rounding::Floor, Rounding::Ceil];

/// A short run tries one of so many rows with each fraction.
const PART: usize = 8;

/// The fields of a fraction, and the other arguments of its calls.
#[derive(Clone, Copy, Debug)]
struct Case {
    numer: i64,
    denom: i64,
    parts: i64,
    places: u32,
    most: i64,
    exponent: i32,
    radix: u32,
}

/// A call as a program writes it, what it returns, and what the model says.
type Row<X> = (&'static str, fn(X, &Case) -> Answer, fn(&Case) -> Answer);

macro_rules! rows {
    ($x:ident, $case:ident: $($call:expr => $want:expr;)*) => {
        &[$((stringify!($call), |$x, $case| $call.answer(), |$case| $want.answer())),*]
    };
}

// ---- the model

fn fits(number: i64) -> bool {
    i8::try_from(number).is_ok()
}

/// The lowest terms with a positive denominator, if there are any that fit.
fn lowest(numer: i64, denom: i64) -> Option<Fields> {
    let (mut divisor, mut rest) = (numer.abs(), denom.abs());
    while rest != 0 {
        (divisor, rest) = (rest, divisor % rest);
    }
    let divisor = if denom < 0 { -divisor } else { divisor };
    Some((numer, denom)).filter(|_| denom != 0).map(|(n, d)| (n / divisor, d / divisor)).filter(|&(n, d)| fits(n) && fits(d))
}

/// `numer/denom` for a positive denominator, rounded to a whole number.
fn rounded(numer: i128, denom: i128, rule: Rounding) -> i128 {
    let (below, rest) = (numer.div_euclid(denom), numer.rem_euclid(denom));
    let is_up = match rule {
        Rounding::HalfAway => 2 * rest > denom || (2 * rest == denom && numer > 0),
        Rounding::HalfEven => 2 * rest > denom || (2 * rest == denom && below % 2 != 0),
        Rounding::Down => rest != 0 && numer < 0,
        Rounding::Up => rest != 0 && numer > 0,
        Rounding::Floor => false,
        Rounding::Ceil => rest != 0,
    };
    below + i128::from(is_up)
}

/// The decimal of this many units of its last place.
fn decimal_text(units: i128, places: usize) -> String {
    let digits = format!("{:0>width$}", units.abs(), width = places + 1);
    let (whole, part) = digits.split_at(digits.len() - places);
    let sign = if units < 0 { "-" } else { "" };
    if places == 0 { format!("{sign}{whole}") } else { format!("{sign}{whole}.{part}") }
}

/// The digits of a number in a radix.
fn in_radix(number: i64, radix: u32) -> String {
    let (mut digits, mut rest) = (Vec::new(), number.unsigned_abs() as u32);
    while digits.is_empty() || rest > 0 {
        digits.push(char::from_digit(rest % radix, radix).unwrap());
        rest /= radix;
    }
    let sign = if number < 0 { "-" } else { "" };
    format!("{sign}{}", digits.iter().rev().collect::<String>())
}

/// A text for each of both numbers, or for the first one alone if the second is 1.
fn both_texts(case: &Case, text: fn(i8) -> String) -> String {
    let (numer, denom) = case.narrow();
    if denom == 1 { text(numer) } else { format!("{}/{}", text(numer), text(denom)) }
}

/// The quotients of the continued fraction.
fn quotients((mut numer, mut denom): Fields) -> Vec<i64> {
    let mut all = Vec::new();
    while denom != 0 {
        all.push(numer.div_euclid(denom));
        (numer, denom) = (denom, numer.rem_euclid(denom));
    }
    all
}

/// The fraction of these quotients, from the last one on.
fn folded(quotients: &[i64]) -> Fields {
    let (numer, denom) = quotients.iter().rev().fold((1, 0), |(numer, denom), quotient| (quotient * numer + denom, numer));
    (numer, denom)
}

/// The nearest fraction with a denominator up to `most`. Of two that are as near it is the one with the smaller denominator, and of two
/// whole numbers the smaller one.
fn nearest((numer, denom): Fields, most: i64) -> Fields {
    let mut best = (numer.div_euclid(denom), 1);
    for d in 1..=most {
        let below = (numer * d).div_euclid(denom);
        for n in [below, below + 1] {
            let [error, least] = [(n, d), best].map(|(n, d)| ((numer * d - n * denom).abs(), d));
            if error.0 * least.1 < least.0 * error.1 {
                best = (n, d);
            }
        }
    }
    best
}

fn hash_of(x: impl Hash) -> i128 {
    let mut state = DefaultHasher::new();
    x.hash(&mut state);
    state.finish().into()
}

impl Case {
    fn narrow(&self) -> (i8, i8) {
        (self.numer as i8, self.denom as i8)
    }

    fn lowest(&self) -> Option<Fields> {
        lowest(self.numer, self.denom)
    }

    fn is_lowest(&self) -> bool {
        self.lowest() == Some((self.numer, self.denom))
    }

    /// The fields if the denominator is positive, or else the lowest terms.
    fn positive(&self) -> Option<Fields> {
        if self.denom > 0 { Some((self.numer, self.denom)) } else { self.lowest() }
    }

    /// The sign of the value: -1, 0 or 1.
    fn sign(&self) -> Option<i64> {
        Some(self.numer.signum() * self.denom.signum()).filter(|_| self.denom != 0)
    }

    /// What a call makes of the fraction over a positive denominator. It panics if there is none.
    fn made(&self, make: impl Fn(i64, i64) -> Fields) -> Answer {
        or_panic(self.positive().map(|(numer, denom)| make(numer, denom)))
    }

    /// The same for a whole number, over 1.
    fn whole(&self, make: impl Fn(i64, i64) -> i64) -> Answer {
        self.made(|numer, denom| (make(numer, denom), 1))
    }

    /// The quotient, cut towards 0.
    fn cut(&self) -> Option<i64> {
        self.positive().map(|(numer, denom)| numer / denom)
    }

    fn negative(&self) -> Option<Fields> {
        Some((-self.numer, self.denom)).filter(|_| self.denom != 0 && fits(-self.numer))
    }

    fn magnitude(&self) -> Option<Fields> {
        if self.sign()? < 0 { self.negative() } else { Some((self.numer, self.denom)) }
    }

    /// The reciprocal, with its sign in the numerator.
    fn reciprocal(&self) -> Option<Fields> {
        let (numer, denom) = self.positive()?;
        Some((denom * numer.signum(), numer.abs())).filter(|_| numer != 0 && fits(numer.abs()))
    }

    /// Each field to the exponent.
    fn power(&self, exponent: i32) -> Option<Fields> {
        let (numer, denom) = self.positive()?;
        let (mut n, mut d) = (1i64, 1i64);
        for _ in 0..exponent.unsigned_abs() {
            (n, d) = (n * numer, d * denom);
            if !fits(d) || n.abs() > 128 {
                return None;
            }
        }
        let (n, d) = if exponent < 0 { (d * n.signum(), n.abs()) } else { (n, d) };
        Some((n, d)).filter(|_| d != 0 && fits(n) && fits(d))
    }

    /// The fraction as a multiple of 1/`parts`.
    fn multiple(&self, parts: i64, rule: Rounding) -> Option<Fields> {
        let (numer, denom) = self.lowest()?;
        if parts <= 0 {
            return None;
        }
        lowest(rounded((numer * parts).into(), denom.into(), rule) as i64, parts)
    }

    fn decimal(&self, places: u32, rule: Rounding) -> Option<String> {
        let (numer, denom) = self.lowest()?;
        Some(decimal_text(rounded(i128::from(numer) * 10i128.pow(places), denom.into(), rule), places as usize))
    }

    fn exact_decimal(&self) -> Option<String> {
        let (_, denom) = self.lowest()?;
        let places = (0..8).find(|&places| 10i64.pow(places) % denom == 0)?;
        self.decimal(places, Rounding::Down)
    }

    /// The lowest terms if their denominator is a power of two: only then does a float have this value.
    fn binary(&self) -> Option<Fields> {
        self.lowest().filter(|(_, denom)| denom & (denom - 1) == 0)
    }

    /// The quotient of the fields as a float. The processor rounds it once.
    fn double(&self) -> Option<f64> {
        Some(self.numer as f64 / self.denom as f64).filter(|float| !float.is_nan())
    }

    fn single(&self) -> Option<f32> {
        Some(self.numer as f32 / self.denom as f32).filter(|float| !float.is_nan())
    }

    /// The fields as a text in the radix.
    fn text(&self, radix: u32) -> String {
        format!("{}/{}", in_radix(self.numer, radix), in_radix(self.denom, radix))
    }

    /// Why such a text is no fraction.
    fn refusal(&self) -> Result<Fields, RatioErrorKind> {
        self.lowest().ok_or(if self.denom == 0 { RatioErrorKind::ZeroDenominator } else { RatioErrorKind::ParseError })
    }

    /// A number of up to 16 bits, of which many fit an `i8`.
    fn number(&self) -> i64 {
        if self.places % 2 == 0 { self.numer } else { self.numer * 128 + self.denom }
    }
}

/// The fields if both fit the other type.
fn cast<T: TryFrom<i64> + bakhsney::integer::Integer>(fields: Option<Fields>) -> Option<(T, T)> {
    let (numer, denom) = fields?;
    Some((T::try_from(numer).ok()?, T::try_from(denom).ok()?))
}

/// The refusal as a number, to compare it.
fn refused(read: Result<impl Answered, RatioErrorKind>) -> Answer {
    read.map_or_else(|kind| Answer::Number(kind as i128), Answered::answer)
}

// ---- the tables

// Rows of both types: their calls have the same names and results.
macro_rules! of_both {
    ($($rows:tt)*) => {
        const RATIO_AS_REDUCED: &[Row<Ratio<i8>>] = rows! { $($rows)* };
        const REDUCED_AS_RATIO: &[Row<Reduced<i8>>] = rows! { $($rows)* };
    };
}

of_both! { x, c:
    (*x.numer(), *x.denom()) => (c.numer, c.denom);
    x.into_raw() => (c.numer, c.denom);
    x.is_zero() => c.numer == 0;
    x.is_integer() => c.denom == 1;

    x.floor() => c.whole(|n, d| n.div_euclid(d));
    x.ceil() => c.whole(|n, d| -(-n).div_euclid(d));
    x.round() => c.whole(|n, d| rounded(n.into(), d.into(), Rounding::HalfAway) as i64);
    x.trunc() => c.whole(|n, d| n / d);
    x.fract() => c.made(|n, d| (n % d, d));
    x.to_integer() => or_panic(c.cut());
    x.nearest(c.most as i8) => c.positive().filter(|_| c.most > 0).map(|x| nearest(x, c.most));

    x.round_to(c.parts as i8, Rounding::HalfAway) => c.multiple(c.parts, Rounding::HalfAway);
    x.round_to(c.parts as i8, Rounding::HalfEven) => c.multiple(c.parts, Rounding::HalfEven);
    x.round_to(c.parts as i8, Rounding::Down) => c.multiple(c.parts, Rounding::Down);
    x.round_to(c.parts as i8, Rounding::Up) => c.multiple(c.parts, Rounding::Up);
    x.round_to(c.parts as i8, Rounding::Floor) => c.multiple(c.parts, Rounding::Floor);
    x.round_to(c.parts as i8, Rounding::Ceil) => c.multiple(c.parts, Rounding::Ceil);
    RULES.map(|rule| x.round_to(1, rule)).to_vec() => RULES.map(|rule| c.multiple(1, rule)).to_vec();
    RULES.map(|rule| x.round_to(4, rule)).to_vec() => RULES.map(|rule| c.multiple(4, rule)).to_vec();

    x.decimal(c.places, Rounding::HalfAway).as_str().to_owned() => or_panic(c.decimal(c.places, Rounding::HalfAway));
    x.decimal(c.places, Rounding::HalfEven).as_str().to_owned() => or_panic(c.decimal(c.places, Rounding::HalfEven));
    x.decimal(c.places, Rounding::Down).as_str().to_owned() => or_panic(c.decimal(c.places, Rounding::Down));
    x.decimal(c.places, Rounding::Up).as_str().to_owned() => or_panic(c.decimal(c.places, Rounding::Up));
    x.decimal(c.places, Rounding::Floor).as_str().to_owned() => or_panic(c.decimal(c.places, Rounding::Floor));
    x.decimal(c.places, Rounding::Ceil).as_str().to_owned() => or_panic(c.decimal(c.places, Rounding::Ceil));
    x.exact_decimal().map(|text| text.to_string()) => c.exact_decimal();

    x.to_i64() => c.cut();
    x.to_i128() => c.cut();
    x.to_u64() => c.cut().and_then(|n| u64::try_from(n).ok());
    x.to_u128() => c.cut().and_then(|n| u128::try_from(n).ok());
    x.to_i8() => c.cut();
    x.to_u8() => c.cut().and_then(|n| u8::try_from(n).ok());
    x.to_isize() => c.cut();
    x.to_usize() => c.cut().and_then(|n| usize::try_from(n).ok());
    ToPrimitive::to_i64(&x) => c.cut();
    ToPrimitive::to_i128(&x) => c.cut();
    ToPrimitive::to_u64(&x) => c.cut().and_then(|n| u64::try_from(n).ok());
    ToPrimitive::to_u128(&x) => c.cut().and_then(|n| u128::try_from(n).ok());
    ToPrimitive::to_f64(&x) => c.double();
    ToPrimitive::to_f32(&x) => c.single();

    x.checked_pow(c.exponent) => c.power(c.exponent);
    x.checked_pow(-1) => c.power(-1);
    x.checked_pow(0) => c.power(0);
    x.signum() => or_panic(c.sign().map(|sign| (sign, 1)));
    x.is_positive() => or_panic(c.sign().map(|sign| sign > 0));
    x.is_negative() => or_panic(c.sign().map(|sign| sign < 0));

    x.cast::<u8>() => cast::<u8>(c.lowest());
    x.cast::<i16>() => cast::<i16>(c.lowest());
    x.cast::<u128>() => cast::<u128>(c.lowest());
    x.cast::<isize>() => cast::<isize>(c.lowest());

    format!("{x}") => both_texts(c, |n| format!("{n}"));
    format!("{x:b}") => both_texts(c, |n| format!("{n:b}"));
    format!("{x:o}") => both_texts(c, |n| format!("{n:o}"));
    format!("{x:x}") => both_texts(c, |n| format!("{n:x}"));
    format!("{x:X}") => both_texts(c, |n| format!("{n:X}"));
    format!("{x:#b}") => both_texts(c, |n| format!("{n:#b}"));
    format!("{x:#o}") => both_texts(c, |n| format!("{n:#o}"));
    format!("{x:#x}") => both_texts(c, |n| format!("{n:#x}"));
    format!("{x:#X}") => both_texts(c, |n| format!("{n:#X}"));
    format!("{x:*^12}") => format!("{:*^12}", both_texts(c, |n| format!("{n}")));
    x.base_ten_text().as_str().to_owned() => both_texts(c, |n| format!("{n}"));
    { let mut text = BaseTenText::empty(); x.put_base_ten_text(&mut text); text.to_string() } => both_texts(c, |n| format!("{n}"));
}

const RATIO: &[Row<Ratio<i8>>] = rows! { x, c:
    Ratio::new_raw(c.narrow().0, c.narrow().1) => (c.numer, c.denom);
    Ratio::new(c.narrow().0, c.narrow().1) => or_panic(c.lowest());
    Ratio::from(c.narrow()) => or_panic(c.lowest());
    Ratio::checked_new(c.narrow().0, c.narrow().1) => c.lowest();
    x.reduced() => or_panic(c.lowest());
    <(i8, i8)>::from(x) => (c.numer, c.denom);
    hash_of(x) == hash_of(x.reduced()) => or_panic(c.lowest().map(|_| true));
    Reduced::from_ratio(&x) => c.lowest();
    Reduced::try_from(x) => c.lowest();
    Zero::is_zero(&x) => c.numer == 0;
    x.is_one() => c.numer == c.denom;
    [Ratio::<i8>::default(), Ratio::ZERO, Zero::zero(), Ratio::ONE, One::one()].to_vec() => vec![(0i8, 1), (0, 1), (0, 1), (1, 1), (1, 1)];
    Ratio::from_integer(c.narrow().0) => (c.numer, 1);
    Ratio::from(c.narrow().0) => (c.numer, 1);

    x.recip() => or_panic(c.reciprocal());
    Inv::inv(x) => or_panic(c.reciprocal());
    Inv::inv(&x) => or_panic(c.reciprocal());
    Ratio::pow(&x, c.exponent) => or_panic(c.power(c.exponent));
    Pow::pow(x, c.exponent as i8) => or_panic(c.power(c.exponent));
    Pow::pow(x, &(c.exponent as i16)) => or_panic(c.power(c.exponent));
    Pow::pow(&x, c.exponent) => or_panic(c.power(c.exponent));
    Pow::pow(&x, &i64::from(c.exponent)) => or_panic(c.power(c.exponent));
    Pow::pow(x, i128::from(c.exponent)) => or_panic(c.power(c.exponent));
    Pow::pow(x, &(c.exponent as isize)) => or_panic(c.power(c.exponent));
    Pow::pow(&x, c.exponent.unsigned_abs() as u8) => or_panic(c.power(c.exponent.abs()));
    Pow::pow(&x, &(c.exponent.unsigned_abs() as u16)) => or_panic(c.power(c.exponent.abs()));
    Pow::pow(x, c.exponent.unsigned_abs()) => or_panic(c.power(c.exponent.abs()));
    Pow::pow(x, &u64::from(c.exponent.unsigned_abs())) => or_panic(c.power(c.exponent.abs()));
    Pow::pow(&x, u128::from(c.exponent.unsigned_abs())) => or_panic(c.power(c.exponent.abs()));
    Pow::pow(&x, &(c.exponent.unsigned_abs() as usize)) => or_panic(c.power(c.exponent.abs()));

    -x => or_panic(c.negative());
    -&x => or_panic(c.negative());
    x.abs() => or_panic(c.magnitude());
    Signed::signum(&x) => or_panic(c.sign().map(|sign| (sign, 1)));
    Signed::is_positive(&x) => or_panic(c.sign().map(|sign| sign > 0));
    Signed::is_negative(&x) => or_panic(c.sign().map(|sign| sign < 0));

    Ratio::<i8>::from_i64(c.number()) => cast::<i8>(Some((c.number(), 1)));
    Ratio::<i8>::from_i128(c.number().into()) => cast::<i8>(Some((c.number(), 1)));
    Ratio::<i8>::from_u64(c.number().unsigned_abs()) => cast::<i8>(Some((c.number().abs(), 1)));
    Ratio::<i8>::from_u128(c.number().unsigned_abs().into()) => cast::<i8>(Some((c.number().abs(), 1)));
    c.double().map(Ratio::<i8>::from_float64) => c.double().map(|_| c.binary());
    c.single().map(Ratio::<i8>::from_float32) => c.single().map(|_| c.binary());
    c.double().map(Ratio::<i8>::rationalize) => c.double().map(|_| c.lowest());
    c.single().map(Ratio::<i8>::rationalize32) => c.single().map(|_| c.lowest());

    refused(c.text(10).parse::<Ratio<i8>>().map_err(|refusal| refusal.kind())) => refused(c.refusal());
    refused(Ratio::<i8>::from_str_radix(&c.text(c.radix), c.radix).map_err(|refusal| refusal.kind())) => refused(c.refusal());
    refused(<Ratio<i8> as Num>::from_str_radix(&c.text(10), 10).map_err(|refusal| refusal.kind())) => refused(c.refusal());
    x.numer().to_string().parse::<Ratio<i8>>() => (c.numer, 1);
    format!("{x:e}") => both_texts(c, |n| format!("{n:e}"));
    format!("{x:E}") => both_texts(c, |n| format!("{n:E}"));
    format!("{x:?}") => format!("Ratio {{ numer: {}, denom: {} }}", c.numer, c.denom);

    x.continued_fraction().map(|all| all.collect::<Vec<i8>>()) => c.lowest().map(quotients);
    x.convergents().map(|all| all.collect::<Vec<_>>()) => c.lowest().map(convergents);
    Ratio::from_continued_fraction(&c.lowest().map_or(vec![], narrow_quotients)) => c.lowest();
};

const REDUCED: &[Row<Reduced<i8>>] = rows! { x, c:
    Reduced::checked_new(c.narrow().0, c.narrow().1) => (c.numer, c.denom);
    Reduced::try_from(c.narrow()) => (c.numer, c.denom);
    <(i8, i8)>::from(x) => (c.numer, c.denom);
    x.to_ratio() => (c.numer, c.denom);
    Ratio::<i8>::from(x) => (c.numer, c.denom);
    Reduced::from(&x) => (c.numer, c.denom);
    [Reduced::<i8>::default(), Reduced::ZERO, Reduced::ONE].to_vec() => vec![(0i8, 1), (0, 1), (1, 1)];
    Reduced::from_integer(c.narrow().0) => (c.numer, 1);
    Reduced::from(c.narrow().0) => (c.numer, 1);
    Reduced::from(&c.narrow().0) => (c.numer, 1);
    hash_of(x) == hash_of(c.narrow()) => true;

    x.checked_recip() => c.reciprocal();
    x.checked_neg() => c.negative();
    CheckedNeg::checked_neg(&x) => c.negative();
    x.checked_abs() => c.magnitude();
    x.to_f64() => c.double().unwrap();
    x.to_f32() => c.single().unwrap();

    c.double().map(Reduced::<i8>::from_float) => c.binary();
    c.single().map(Reduced::<i8>::from_float32) => c.binary();
    c.double().map(Reduced::<i8>::rationalize) => c.lowest();
    c.single().map(Reduced::<i8>::rationalize32) => c.lowest();

    c.text(10).parse::<Reduced<i8>>() => (c.numer, c.denom);
    Reduced::<i8>::from_str_radix(&c.text(c.radix), c.radix) => (c.numer, c.denom);
    Reduced::<i8>::from_text(&c.text(10)) => (c.numer, c.denom);
    c.exact_decimal().map(|text| Reduced::<i8>::from_decimal(&text)) => c.exact_decimal().map(|_| (c.numer, c.denom));
    format!("{x:.*}", c.places as usize) => c.decimal(c.places, Rounding::HalfEven);
    format!("{x:?}") => format!("Reduced {{ numer: {}, denom: {} }}", c.numer, c.denom);

    x.continued_fraction().collect::<Vec<i8>>() => c.lowest().map(quotients);
    x.convergents().collect::<Vec<_>>() => c.lowest().map(convergents);
    Reduced::from_continued_fraction(&c.lowest().map_or(vec![], narrow_quotients)) => c.lowest();
};

#[cfg(feature = "serde")]
const RATIO_IN_JSON: &[Row<Ratio<i8>>] = rows! { x, c:
    serde_json::to_string(&x) => format!("[{},{}]", c.numer, c.denom);
    serde_json::from_str::<Ratio<i8>>(&format!("[{},{}]", c.numer, c.denom)) => Some((c.numer, c.denom)).filter(|_| c.denom != 0);
    serde_json::from_str::<Reduced<i8>>(&format!("[{},{}]", c.numer, c.denom)) => Some((c.numer, c.denom)).filter(|_| c.is_lowest());
    text::deserialize::<Ratio<i8>, _>(text::serialize(&x, Json).unwrap_or_default()) => c.lowest();
    decimal::deserialize::<Ratio<i8>, _>(decimal::serialize(&x, Json).unwrap_or_default()) => c.lowest().filter(|_| c.exact_decimal().is_some());
    two_numbers::deserialize::<Ratio<i8>, _>(two_numbers::serialize(&x, Json).unwrap_or_default()) => c.lowest();
};

#[cfg(feature = "serde")]
const REDUCED_IN_JSON: &[Row<Reduced<i8>>] = rows! { x, c:
    serde_json::to_string(&x) => format!("[{},{}]", c.numer, c.denom);
};

fn narrow_quotients(fields: Fields) -> Vec<i8> {
    quotients(fields).into_iter().map(|quotient| quotient as i8).collect()
}

fn convergents(fields: Fields) -> Vec<Fields> {
    let quotients = quotients(fields);
    (1..=quotients.len()).map(|count| folded(&quotients[..count])).collect()
}

// ---- the walks

fn compared<X: Copy>(rows: &[Row<X>], x: X, case: &Case, place: usize) {
    let is_long = std::env::var("BAKHSNEY_WALK").map_or(false, |choice| choice == "all");
    for (number, (call, returned, model)) in rows.iter().enumerate() {
        if is_long || number % PART == place {
            assert_eq!(run(|| returned(x, case)), model(case), "{call} of {case:?}");
        }
    }
}

/// The cases whose numerator leaves `rest` by 4.
fn walk(rest: i64) {
    let choice = std::env::var("BAKHSNEY_WALK").ok().and_then(|choice| choice.parse::<u64>().ok());
    let mut numbers = Numbers(choice.unwrap_or(1) + rest as u64);
    for numer in (-128..=127i64).filter(|numer| numer.rem_euclid(4) == rest) {
        for denom in -128..=127 {
            let mut drawn = |end| numbers.below(end) as i64;
            let (parts, most) = (drawn(160) - 32, drawn(160) - 32);
            let case = Case {
                numer,
                denom,
                parts: parts.min(127),
                places: drawn(31) as u32,
                most: most.min(127),
                exponent: drawn(15) as i32 - 7,
                radix: drawn(35) as u32 + 2,
            };
            let (n, d) = case.narrow();
            let place = drawn(PART as u64) as usize;
            let x = Ratio::new_raw(n, d);
            compared(RATIO_AS_REDUCED, x, &case, place);
            compared(RATIO, x, &case, place);
            #[cfg(feature = "serde")]
            compared(RATIO_IN_JSON, x, &case, place);
            if case.is_lowest() {
                let x = Reduced::checked_new(n, d).unwrap();
                compared(REDUCED_AS_RATIO, x, &case, place);
                compared(REDUCED, x, &case, place);
                #[cfg(feature = "serde")]
                compared(REDUCED_IN_JSON, x, &case, place);
            }
        }
    }
}

quarters! { walk first_quarter 0; second_quarter 1; third_quarter 2; fourth_quarter 3; }
