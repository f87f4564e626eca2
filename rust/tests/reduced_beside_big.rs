//! The operators of `Reduced` beside big integers, by drawn pairs over each type: the lowest terms, or a panic exactly where these do not fit or the
//! divisor is 0. `BAKHSNEY_PAIRS` says how many pairs. Each gets ten calls: five operators, each in its plain and in one of its other forms.
#![cfg(feature = "num-bigint")]

#[path = "support/outcomes.rs"]
mod outcomes;
#[macro_use]
mod support;

use bakhsney::integer::Integer;
use bakhsney::Reduced;
use num_bigint::BigInt;
use num_integer::Integer as _;
use num_traits::{Signed, Zero};
use outcomes::{outcome, quietly};
use support::Numbers;

type Fields = (BigInt, BigInt);

fn pairs() -> u64 {
    std::env::var("BAKHSNEY_PAIRS").map_or(500, |pairs| pairs.parse().unwrap())
}

/// A number of the type, short or long.
fn number<T: Integer + TryFrom<i128> + TryFrom<u128>>(numbers: &mut Numbers) -> T {
    loop {
        let size = if numbers.below(3) == 0 { u128::from(numbers.below(13)) } else { numbers.of_any_length() };
        let found = if numbers.below(2) == 0 { T::try_from(size).ok() } else { i128::try_from(size).ok().and_then(|size| T::try_from(-size - 1).ok()) };
        if let Some(found) = found {
            return found;
        }
    }
}

fn fraction<T: Integer + TryFrom<i128> + TryFrom<u128>>(numbers: &mut Numbers) -> Reduced<T> {
    loop {
        if let Some(found) = Reduced::checked_new(number(numbers), number(numbers)) {
            return found;
        }
    }
}

/// A fraction to go with another one: a whole number in a quarter of the draws.
fn beside<T: Integer + TryFrom<i128> + TryFrom<u128>>(numbers: &mut Numbers) -> Reduced<T> {
    if numbers.below(4) == 0 { Reduced::from(number::<T>(numbers)) } else { fraction(numbers) }
}

fn fields<T: Integer + Into<BigInt>>(x: Reduced<T>) -> Fields {
    let (numer, denom) = x.into_raw();
    (numer.into(), denom.into())
}

/// The lowest terms of a fraction over a denominator that is not 0.
fn lowest((numer, denom): Fields) -> Fields {
    let divisor = numer.gcd(&denom) * denom.signum();
    (numer / &divisor, denom / divisor)
}

/// What the operator gives without a bound. `None` for a divisor 0.
fn exact(operator: char, (a, b): Fields, (c, d): Fields) -> Option<Fields> {
    if "/%".contains(operator) && c.is_zero() {
        return None;
    }
    Some(lowest(match operator {
        '+' => (a * &d + c * &b, b * d),
        '-' => (a * &d - c * &b, b * d),
        '*' => (a * c, b * d),
        '/' => (a * d, b * c),
        _ => {
            let quotient = (&a * &d) / (&b * &c);
            (a * &d - quotient * c * &b, b * d)
        }
    }))
}

// Compares the operators over each type. A panic is `None`.
macro_rules! compare {
    ($($name:ident $type:ident;)*) => {$(
        fn $name() {
            let mut numbers = Numbers(stringify!($type).bytes().map(u64::from).sum());
            let fits = |(numer, denom): &Fields| [numer, denom].iter().all(|it| BigInt::from($type::MIN) <= **it && **it <= BigInt::from($type::MAX));
            let mut refused = 0;
            for _ in 0..pairs() {
                let (x, y) = (fraction::<$type>(&mut numbers), beside(&mut numbers));
                let form = numbers.below(4);
                compare!(of x, y, form, refused, fits: + +=; - -=; * *=; / /=; % %=;);
            }
            assert!(refused > 0 && refused < 5 * pairs(), "{refused} calls of {} were refused", 5 * pairs());
        }
    )*

        #[test]
        fn operators_give_lowest_terms_or_panic() {
            quietly(|| {
                $($name();)*
            });
        }
    };
    (of $x:ident, $y:ident, $form:ident, $refused:ident, $fits:ident: $($op:tt $assign:tt;)*) => {$(
        let sign = stringify!($op).chars().next().unwrap();
        let wanted = exact(sign, fields($x), fields($y)).filter($fits);
        let plain = outcome(|| $x $op $y).ok();
        assert_eq!(plain.map(fields), wanted, "{} {sign} {}", $x, $y);
        let other = outcome(|| match $form {
            0 if $y.is_integer() => $x $op *$y.numer(),
            0 if $x.is_integer() => *$x.numer() $op $y,
            0 | 1 => &$x $op &$y,
            2 => {
                let mut z = $x;
                z $assign $y;
                z
            }
            _ => {
                let mut z = $x;
                z $assign &$y;
                z
            }
        });
        assert_eq!(other.ok(), plain, "{} {sign} {}, form {}", $x, $y, $form);
        $refused += u64::from(plain.is_none());
    )*};
}

each_type!(compare);
