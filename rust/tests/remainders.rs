//! Remainders of fractions of 128 bits, beside those of big integers.
//!
//! The numbers have any count of binary digits, so the products of many pairs do not fit 128 bits. In every fourth pair the remainder mostly
//! fits, although the least common denominator does not. A remainder must be `None` exactly if its lowest terms do not fit, or the divisor is 0.
//! `BAKHSNEY_REMAINDERS` says how many pairs each type gets. Without it, an optimized run with `BAKHSNEY_WALK=all` draws ten times as many as else.

mod support;

use bakhsney::Reduced;
use num_integer::Integer;
use num_traits::{FromPrimitive, One, ToPrimitive, Zero};
use original::BigRational;
use support::Numbers;

/// How many pairs a short run draws for each type.
const FEW: usize = if cfg!(debug_assertions) { 20_000 } else { 500_000 };

fn count_of_pairs() -> usize {
    let all = std::env::var("BAKHSNEY_WALK").map_or(false, |choice| choice == "all") && !cfg!(debug_assertions);
    std::env::var("BAKHSNEY_REMAINDERS").map_or(FEW * if all { 10 } else { 1 }, |count| count.parse().unwrap())
}

/// What the drawn pairs gave: remainders that fit, and those that do not. Then results that differ, and refusals of what fits.
#[derive(Default)]
struct Seen {
    some: usize,
    none: usize,
    crossed: usize,
    different: usize,
    refused: usize,
}

/// A whole number from 1 on, of at most so many binary digits.
fn whole(numbers: &mut Numbers, digits: u64) -> BigRational {
    let size = numbers.wide() >> (128 - 1 - numbers.below(digits));
    BigRational::from_u128(size.max(1)).unwrap()
}

/// A pair whose remainder is c/(p*r), if that is below the divisor b/(q*r). The first fraction is over p*q, so the least common denominator is p*q*r.
fn crossed(numbers: &mut Numbers) -> Option<(BigRational, BigRational)> {
    let (p, q, r) = (whole(numbers, 63), whole(numbers, 63), whole(numbers, 63));
    let (b, c) = (whole(numbers, 40), whole(numbers, 30));
    // With this many divisors, the numerator over p*q*r is a multiple of r.
    let step = (&b * &p).to_integer().extended_gcd(&r.to_integer());
    if !step.gcd.is_one() {
        return None;
    }
    let times = (-(&c * &q).to_integer() * step.x).mod_floor(&r.to_integer());
    let divisor = b / (q * &r);
    let mut left = c / (p * r) + BigRational::from(times) * &divisor;
    if numbers.below(4) == 0 {
        left = -left;
    }
    Some((left, if numbers.below(4) == 0 { -divisor } else { divisor }))
}

macro_rules! walk {
    ($name:ident $Type:ident $from:ident $to:ident $seed:literal) => {
        #[test]
        fn $name() {
            let big = |(numer, denom): ($Type, $Type)| BigRational::$from(numer).unwrap() / BigRational::$from(denom).unwrap();
            let fields = |exact: &BigRational| Some((exact.numer().$to()?, exact.denom().$to()?));
            let fraction = |numbers: &mut Numbers| Reduced::checked_new(numbers.of_any_length() as $Type, numbers.of_any_length() as $Type);
            let given = |exact: BigRational| fields(&exact).and_then(|(numer, denom)| Reduced::checked_new(numer, denom));
            let (count, mut numbers, mut seen) = (count_of_pairs(), Numbers($seed), Seen::default());
            for i in 0..count {
                let pair = match i % 4 {
                    0 => crossed(&mut numbers).and_then(|(x, y)| given(x).zip(given(y))),
                    _ => fraction(&mut numbers).zip(fraction(&mut numbers)),
                };
                let (x, y) = match pair {
                    Some(pair) => pair,
                    None => continue,
                };
                let exact = (big(x.into_raw()), big(y.into_raw()));
                let wanted = if exact.1.is_zero() { None } else { fields(&(&exact.0 % &exact.1)) };
                let rest = x.checked_rem(y).map(Reduced::into_raw);
                if rest != wanted {
                    eprintln!("{x} % {y} is {rest:?}, not {wanted:?}");
                    seen.different += usize::from(rest.is_some());
                    seen.refused += usize::from(rest.is_none());
                }
                let common = exact.0.denom().lcm(exact.1.denom());
                seen.crossed += usize::from(wanted.is_some() && common.$to().is_none());
                if wanted.is_some() { seen.some += 1 } else { seen.none += 1 }
            }
            let Seen { some, none, crossed, different, refused } = seen;
            println!("{count} pairs: {some} remainders fit, {crossed} of them over a common denominator that does not, and {none} do not fit");
            assert_eq!((different, refused), (0, 0), "so many differ, and so many that fit are refused");
            assert!(some > count / 20 && none > count / 20 && crossed > count / 50, "{some}, {none} and {crossed}");
        }
    };
}

walk! { of_i128 i128 from_i128 to_i128 1 }
walk! { of_u128 u128 from_u128 to_u128 2 }
