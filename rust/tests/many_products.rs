//! Products and quotients of many fractions: rows, and random chains of rates beside big integers. The answers of the rows are from
//! Python's `fractions`.

mod support;

use bakhsney::integer::Integer;
use bakhsney::{Reduced, Reduced64};
use num_traits::{One, ToPrimitive, Zero};
use original::BigRational;
use support::Numbers;

fn of<T: Integer>(numer: T, denom: T) -> Reduced<T> {
    Reduced::checked_new(numer, denom).unwrap()
}

fn product<T: Integer>(items: &[Reduced<T>]) -> Option<(T, T)> {
    let answer = Reduced::checked_product(items.iter().copied());
    assert_eq!(items.iter().product::<Option<Reduced<T>>>(), answer);
    assert_eq!(Reduced::checked_quotient_of(items.iter().copied(), [0u8; 0].map(|_| Reduced::ONE)), answer);
    answer.map(Reduced::into_raw)
}

/// The items in each order, by exchanging two of them.
fn each_order<T: Copy>(items: &mut Vec<T>, from: usize, check: &mut impl FnMut(&[T])) {
    if from == items.len() {
        return check(items);
    }
    for other in from..items.len() {
        items.swap(from, other);
        each_order(items, from + 1, check);
        items.swap(from, other);
    }
}

type Fields = (i8, i8);

#[test]
fn rows_in_each_order() {
    let rows: [(&[Fields], Option<Fields>); 9] = [
        (&[], Some((1, 1))),
        (&[(100, 3), (3, 100), (127, 2), (2, 127)], Some((1, 1))),
        (&[(127, 1), (127, 1), (0, 1)], Some((0, 1))),
        (&[(127, 1), (127, 1)], None),
        (&[(64, 1), (2, 1), (-1, 1)], Some((-128, 1))),
        (&[(64, 1), (2, 1)], None),
        (&[(-128, 1), (-1, 1)], None),
        (&[(-128, 1), (-1, 1), (-1, 1)], Some((-128, 1))),
        (&[(-128, 3), (-128, 5), (15, 64), (-1, 2)], Some((-128, 1))),
    ];
    for (items, answer) in rows {
        let mut items: Vec<Reduced<i8>> = items.iter().map(|&(n, d)| of(n, d)).collect();
        each_order(&mut items, 0, &mut |items| assert_eq!(product(items), answer, "{items:?}"));
    }
    let mut rates = vec![of(9460730472580800i64, 1), of(5000, 127), of(1, 63360)];
    each_order(&mut rates, 0, &mut |rates| assert_eq!(product(rates), Some((8212439646337500, 1397)), "{rates:?}"));
}

#[test]
fn quotients() {
    let quotient = |above: &[i8], below: &[i8]| {
        Reduced::checked_quotient_of(above.iter().copied(), below.iter().copied()).map(Reduced::into_raw)
    };
    assert_eq!(quotient(&[100, 36], &[60, 60]), Some((1, 1)));
    assert_eq!(quotient(&[127], &[0]), None);
    assert_eq!(quotient(&[0], &[0]), None);
    assert_eq!(quotient(&[0, 127, 127], &[-128]), Some((0, 1)));
    assert_eq!(quotient(&[-128], &[-128]), Some((1, 1)));
    assert_eq!(quotient(&[-128, -128], &[-128]), Some((-128, 1)));
    assert_eq!(quotient(&[1], &[-128]), None);
    assert_eq!(quotient(&[2], &[-128]), Some((-1, 64)));
    assert_eq!(quotient(&[-128], &[-1]), None);
    assert_eq!(quotient(&[64, 4], &[-1, 2]), Some((-128, 1)));
}

#[test]
fn unsigned_and_narrow_words() {
    assert_eq!(product(&[of(255u8, 1), of(255, 2), of(2, 255), of(1, 255)]), Some((1, 1)));
    assert_eq!(product(&[of(usize::MAX, 1), of(2, 1), of(1, usize::MAX)]), Some((2, 1)));
    assert_eq!(product(&[of(isize::MIN, 1), of(-1, 1), of(1, 2)]), Some((isize::MAX / 2 + 1, 1)));
}

#[test]
fn a_thousand_rates() {
    let mut rates: Vec<Reduced64> = (1..=1000).map(|n| of(n + 1, n)).collect();
    assert_eq!(product(&rates), Some((1001, 1)));
    rates.reverse();
    assert_eq!(product(&rates), Some((1001, 1)));
    rates.sort_by_key(|rate| rate.denom() % 97);
    assert_eq!(product(&rates), Some((1001, 1)));
}

/// The lowest terms of an exact fraction, where both numbers fit.
fn fitting<T: TryFrom<i128>>(exact: &BigRational) -> Option<(T, T)> {
    let number = |n: &original::BigRational| n.numer().to_i128().and_then(|n| T::try_from(n).ok());
    Some((number(exact)?, number(&BigRational::from(exact.denom().clone()))?))
}

/// A number of a chain: mostly one with small factors, as rates have, and else one of any length.
fn number<T: Integer + TryFrom<i128>>(numbers: &mut Numbers) -> T {
    loop {
        let digits = 8 * std::mem::size_of::<T>() as u64;
        let size: i128 = match numbers.below(4) {
            0 => (numbers.of_any_length() >> (128 - digits)) as i128,
            1 => i128::from([60u8, 100, 36, 127, 12, 25, 2, 1][numbers.below(8) as usize]),
            _ => {
                let primes = [2i128, 2, 3, 5, 7, 11, 127];
                let bits = numbers.below(digits - 4);
                let mut size = 1i128;
                while size >> bits == 0 {
                    size = size.saturating_mul(primes[numbers.below(7) as usize]);
                }
                size
            }
        };
        let signed = if numbers.below(4) == 0 { size.wrapping_neg() } else { size };
        if let Ok(number) = T::try_from(signed) {
            return number;
        }
    }
}

fn rate<T: Integer + TryFrom<i128>>(numbers: &mut Numbers) -> Reduced<T> {
    loop {
        if let Some(rate) = Reduced::checked_new(number(numbers), number(numbers)) {
            return rate;
        }
    }
}

/// Random chains: how many results fit, how many of these have a step that does not, and that no result differs and none that fits is refused.
/// `BAKHSNEY_CHAINS` says how many chains each type gets; without it there are 3,000.
fn chains<T: Integer + TryFrom<i128> + Into<i128>>(seed: u64) {
    let count: u32 = std::env::var("BAKHSNEY_CHAINS").map_or(3_000, |count| count.parse().unwrap());
    let mut numbers = Numbers(seed);
    let (mut fitted, mut lost) = (0u32, 0u32);
    let (mut different, mut refused) = (0u32, 0u32);
    let mut compare = |answer: Option<(T, T)>, exact: Option<(T, T)>, above: &[Reduced<T>], below: &[Reduced<T>]| {
        if answer != exact {
            eprintln!("{above:?} by {below:?} is {answer:?}, not {exact:?}");
            different += u32::from(answer.is_some());
            refused += u32::from(answer.is_none());
        }
    };
    for _ in 0..count {
        let mut rates: Vec<Reduced<T>> = (0..2 + numbers.below(7)).map(|_| rate(&mut numbers)).collect();
        // Half of the chains turn some of their own rates over, so that much cancels.
        if numbers.below(2) == 0 {
            for place in 1..rates.len() {
                if let Some(turned) = rates[numbers.below(place as u64) as usize].checked_recip() {
                    if numbers.below(2) == 0 {
                        rates[place] = turned;
                    }
                }
            }
        }
        let cut = numbers.below(1 + rates.len() as u64) as usize;
        let (above, below) = rates.split_at(cut);
        let exact = |items: &[Reduced<T>]| {
            items.iter().fold(BigRational::one(), |total, x| {
                total * BigRational::new((*x.numer()).into().into(), (*x.denom()).into().into())
            })
        };
        let answer = product(&rates);
        compare(answer, fitting(&exact(&rates)), &rates, &[]);
        let divisor = exact(below);
        let quotient = if divisor.is_zero() { None } else { fitting(&(exact(above) / divisor)) };
        let copied = |items: &[Reduced<T>]| items.to_vec();
        compare(Reduced::checked_quotient_of(copied(above), copied(below)).map(Reduced::into_raw), quotient, above, below);
        let steps = rates.iter().try_fold(Reduced::ONE, |total, rate| total.checked_mul(rate));
        fitted += u32::from(answer.is_some());
        lost += u32::from(answer.is_some() && steps.is_none());
    }
    println!("{count} chains: {fitted} fit, and {lost} of these have a step that does not");
    assert_eq!((different, refused), (0, 0), "so many differ, and so many that fit are refused");
    // There are enough chains of both kinds.
    assert!(fitted > count / 8 && lost > count / 200, "{fitted} {lost}");
}

macro_rules! each_type {
    ($($name:ident $type:ident $seed:literal;)*) => {$(
        #[test]
        fn $name() {
            chains::<$type>($seed);
        }
    )*};
}

each_type! {
    chains_of_i8 i8 1;
    chains_of_i64 i64 2;
    chains_of_i128 i128 3;
    chains_of_i16 i16 4;
    chains_of_i32 i32 5;
    chains_of_u8 u8 6;
    chains_of_u16 u16 7;
    chains_of_u32 u32 8;
    chains_of_u64 u64 9;
}
