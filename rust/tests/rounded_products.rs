//! Products and quotients rounded to whole numbers and to multiples, beside big integers: random pairs over all twelve types, by each
//! of the six rules.
//!
//! `BAKHSNEY_PAIRS` says how many pairs each type gets; without it there are 300. Of each pair, 36 results are compared.
#[macro_use]
mod support;

use bakhsney::{integer::Integer, Reduced, Rounding};
use core::cmp::Ordering;
use num_traits::{FromPrimitive, NumCast, One, Signed, ToPrimitive, Zero};
use original::BigRational;
use support::Numbers;

const RULES: [Rounding; 6] = [Rounding::HalfAway, Rounding::HalfEven, Rounding::Down, Rounding::Up, Rounding::Floor, Rounding::Ceil];

fn big<T: ToPrimitive>(number: &T) -> BigRational {
    number.to_i128().and_then(BigRational::from_i128).or_else(|| BigRational::from_u128(number.to_u128()?)).unwrap()
}

/// Whether a whole number is even.
fn is_even(whole: &BigRational) -> bool {
    (whole / big(&2)).is_integer()
}

/// The whole number that the rule gives.
fn rounded(exact: &BigRational, rule: Rounding) -> BigRational {
    let floor = exact.floor();
    let above = &floor + BigRational::one();
    if exact.is_integer() {
        return floor;
    }
    let nearer = (exact - &floor).cmp(&(&above - exact));
    let up = match rule {
        Rounding::HalfAway => nearer == Ordering::Greater || nearer == Ordering::Equal && exact.is_positive(),
        Rounding::HalfEven => nearer == Ordering::Greater || nearer == Ordering::Equal && !is_even(&floor),
        Rounding::Down => exact.is_negative(),
        Rounding::Up => exact.is_positive(),
        Rounding::Floor => false,
        Rounding::Ceil => true,
    };
    if up {
        above
    } else {
        floor
    }
}

fn pairs() -> u64 {
    std::env::var("BAKHSNEY_PAIRS").map_or(300, |text| text.parse().unwrap())
}

macro_rules! sweep {
    ($($name:ident $type:ident;)*) => {$(
        #[test]
        fn $name() {
            let mut dice = Numbers(7);
            let number = |dice: &mut Numbers| {
                let size = dice.of_any_length();
                match dice.below(8) {
                    0 => $type::MIN,
                    1 => $type::MAX,
                    2 => (size as $type).wrapping_neg(),
                    _ => size as $type,
                }
            };
            for _ in 0..pairs() {
                let fields = [number(&mut dice), number(&mut dice), number(&mut dice), number(&mut dice)];
                let (left, right) = match (Reduced::checked_new(fields[0], fields[1]), Reduced::checked_new(fields[2], fields[3])) {
                    (Some(left), Some(right)) => (left, right),
                    _ => continue,
                };
                compare(&left, &right);
                compare(&left, &Reduced::from(fields[2]));
                let parts = match dice.below(4) {
                    0 => 1 + dice.below(100) as $type,
                    1 => [1, 2, 60, 100][dice.below(4) as usize],
                    _ => number(&mut dice),
                };
                if parts > 0 {
                    compare_multiples(&left, &right, parts);
                }
            }
        }
    )*};
}

fn exact<T: Integer + ToPrimitive>(x: &Reduced<T>) -> BigRational {
    big(x.numer()) / big(x.denom())
}

/// The number, if it fits the type.
fn held<T: NumCast>(whole: &BigRational) -> Option<T> {
    whole.to_i128().and_then(T::from).or_else(|| T::from(whole.to_u128()?))
}

fn compare<T: Integer + NumCast + core::fmt::Debug>(left: &Reduced<T>, right: &Reduced<T>) {
    let divisor = exact(right);
    let product = exact(left) * &divisor;
    for rule in RULES {
        let want = held(&rounded(&product, rule));
        assert_eq!(left.checked_mul_round(right, rule), want, "{left} {right} {rule:?}");
        let want = if divisor.is_zero() { None } else { held(&rounded(&(exact(left) / &divisor), rule)) };
        assert_eq!(left.checked_div_round(right, rule), want, "{left} {right} {rule:?}");
    }
    assert!(!product.is_zero() || left.checked_mul_round(right, Rounding::Up) == Some(T::zero()));
}

/// The multiple of `1/parts` that the rule gives, in lowest terms, if these fit the type.
fn multiple<T: NumCast>(exact: &BigRational, parts: &BigRational, rule: Rounding) -> Option<(T, T)> {
    let nearest = rounded(&(exact * parts), rule) / parts;
    let number = |field: &_| held(&BigRational::from_integer(Clone::clone(field)));
    Some((number(nearest.numer())?, number(nearest.denom())?))
}

fn compare_multiples<T: Integer + NumCast + core::fmt::Debug>(left: &Reduced<T>, right: &Reduced<T>, parts: T) {
    let divisor = exact(right);
    let product = exact(left) * &divisor;
    let units = big(&parts);
    for rule in RULES {
        let result = left.checked_mul_round_to(right, parts, rule).map(Reduced::into_raw);
        assert_eq!(result, multiple(&product, &units, rule), "{left} times {right} in parts of {parts} {rule:?}");
        let want = if divisor.is_zero() { None } else { multiple(&(exact(left) / &divisor), &units, rule) };
        let result = left.checked_div_round_to(right, parts, rule).map(Reduced::into_raw);
        assert_eq!(result, want, "{left} by {right} in parts of {parts} {rule:?}");
    }
}

each_type! { sweep }
