//! Greatest common divisors and least common multiples of fractions, beside big integers: random pairs over all twelve types.
//!
//! Each result that fits the type must be given. `BAKHSNEY_PAIRS` says how many pairs each type gets; without it there are 300. Each pair has two results.
#[macro_use]
mod support;

use bakhsney::{integer::Integer, Reduced};
use num_integer::Integer as _;
use num_traits::{FromPrimitive, NumCast, Signed, ToPrimitive, Zero};
use original::BigRational;
use support::Numbers;

fn big<T: ToPrimitive>(number: &T) -> BigRational {
    number.to_i128().and_then(BigRational::from_i128).or_else(|| BigRational::from_u128(number.to_u128()?)).unwrap()
}

/// The lowest terms of an exact fraction, if both fit.
fn fitting<T: NumCast>(exact: BigRational) -> Option<(T, T)> {
    let number = |signed: Option<i128>, unsigned: Option<u128>| signed.and_then(T::from).or_else(|| T::from(unsigned?));
    let (numer, denom) = (exact.numer(), exact.denom());
    Some((number(numer.to_i128(), numer.to_u128())?, number(denom.to_i128(), denom.to_u128())?))
}

/// Whether the divisor and the multiple fit. Over the product of the denominators, both fractions are whole numbers.
fn compare<T: Integer>(left: Reduced<T>, right: Reduced<T>) -> [bool; 2] {
    let shared = big(left.denom()) * big(right.denom());
    let [x, y] = [left, right].map(|x| (big(x.numer()) / big(x.denom()) * &shared).to_integer());
    let divisor = x.gcd(&y);
    let multiple = if divisor.is_zero() { divisor.clone() } else { (x * y / &divisor).abs() };
    let [divisor, multiple] = [divisor, multiple].map(|above| fitting(BigRational::from(above) / &shared));
    assert_eq!(left.checked_gcd(right).map(Reduced::into_raw), divisor, "{left} and {right}");
    assert_eq!(left.checked_lcm(right).map(Reduced::into_raw), multiple, "{left} and {right}");
    [divisor.is_some(), multiple.is_some()]
}

/// A number of any length, or the number by some factor: then the pair has much in common.
fn number<T: Integer>(dice: &mut Numbers, near: T) -> T {
    let drawn = dice.of_any_length();
    let size = T::from(drawn & (u128::MAX >> (129 - 8 * std::mem::size_of::<T>()))).unwrap();
    match dice.below(8) {
        0 => T::min_value(),
        1 => T::max_value(),
        2 | 3 => near.checked_mul(&(size % T::from(13).unwrap())).unwrap_or(near),
        4 => T::zero().checked_sub(&size).unwrap_or(size),
        _ => size,
    }
}

fn pairs() -> u64 {
    std::env::var("BAKHSNEY_PAIRS").map_or(300, |text| text.parse().unwrap())
}

fn walk<T: Integer>() {
    let (mut dice, mut fitted, mut compared) = (Numbers(13), [0; 2], 0);
    for _ in 0..pairs() {
        let (a, b) = (number(&mut dice, T::one()), number(&mut dice, T::one()));
        let (c, d) = (number(&mut dice, a), number(&mut dice, b));
        let fractions = [Reduced::checked_new(a, b), Reduced::checked_new(c, d), Some(Reduced::from_integer(c))];
        if let [Some(left), Some(right), Some(whole)] = fractions {
            let fits = compare(left, if dice.below(4) == 0 { whole } else { right });
            (0..2).for_each(|i| fitted[i] += fits[i] as u64);
            compared += 1;
        }
    }
    println!("{compared} of {} pairs are two fractions: {fitted:?} results fit", pairs());
    assert!(fitted.iter().all(|&count| 10 * count > pairs()), "{fitted:?}");
}

macro_rules! sweep {
    ($($name:ident $type:ident;)*) => {$(
        #[test]
        fn $name() {
            walk::<$type>();
        }
    )*};
}

each_type! { sweep }
