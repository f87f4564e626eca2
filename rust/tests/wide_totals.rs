//! Totals with fractions that no slot takes: rows, and random totals beside fractions of big integers. The answers of the rows are from
//! Python's `fractions`.

mod support;

use bakhsney::integer::Integer;
use bakhsney::{Reduced, Rounding, Total};
use num_traits::{FromPrimitive, Pow, Signed, ToPrimitive, Zero};
use original::BigRational;
use std::cmp::Ordering;
use support::Numbers;

const RULES: [Rounding; 6] =
    [Rounding::HalfEven, Rounding::HalfAway, Rounding::Down, Rounding::Up, Rounding::Floor, Rounding::Ceil];

/// Two primes whose product has 196 bits.
const P: i128 = (1 << 89) - 1;
const Q: i128 = (1 << 107) - 1;

fn of<T: Integer>(numer: T, denom: T) -> Reduced<T> {
    Reduced::checked_new(numer, denom).unwrap()
}

fn sum<T: Integer>(total: &Total<T>) -> Option<(T, T)> {
    total.sum().unwrap().map(Reduced::into_raw)
}

fn mean<T: Integer>(total: &Total<T>) -> Option<(T, T)> {
    total.mean().unwrap().map(Reduced::into_raw)
}

macro_rules! rows {
    ($($call:expr => $answer:expr;)*) => {$(
        assert_eq!($call, $answer, "{}", stringify!($call));
    )*};
}

#[test]
fn each_call() {
    let mut total = Total::<i128>::new();
    let mut other: Total<i128> = [of(1, Q), of(5, 12)].iter().collect();
    rows! {
        total.add(of(1, P)) => ();
        (total.count(), sum(&total), mean(&total)) => (1, Some((1, P)), Some((1, P)));
        total.subtract(of(7, 3 * P)) => ();
        (total.count(), sum(&total), mean(&total)) => (0, Some((-4, 3 * P)), None);
        (total.sign(), total.to_f64()) => (Ok(Ordering::Less), Ok(-2.1541161785235095e-27));
        total.decimal(40, Rounding::HalfEven) => Ok("-0.0000000000000000000000000021541161785235".to_string());
        RULES.map(|rule| total.to_integer(rule)) => [0, 0, 0, -1, -1, 0].map(|n| Ok(Some(n)));
        RULES.map(|rule| total.round_to(1000, rule)) => [(0, 1), (0, 1), (0, 1), (-1, 1000), (-1, 1000), (0, 1)].map(|(n, d)| Ok(Some(of(n, d))));
        total.compare_with(of(0, 1)) => Ok(Ordering::Less);
        total.compare_with(of(-4, 3 * P)) => Ok(Ordering::Equal);
        total.add(of(5, 12)) => ();
        (total.count(), sum(&total)) => (1, Some((3094850098213450687247810539, 7427640235712281649394745332)));
        total.compare(&other) => Ok(Ordering::Less);
        other.compare(&total) => Ok(Ordering::Greater);
        total.compare(&total.clone()) => Ok(Ordering::Equal);
        total.compare_with(of(5, 12)) => Ok(Ordering::Less);
        total.compare_with(of(1, Q)) => Ok(Ordering::Greater);
        other.compare_with(of(5, 12)) => Ok(Ordering::Greater);
        total.add(of(1, Q)) => ();
        (total.count(), sum(&total), mean(&total)) => (2, None, None); // the common denominator has 200 bits
        format!("{total:?}") => "Total { count: 2, .. }";
        (total.sign(), total.to_f64()) => (Ok(Ordering::Greater), Ok(0.4166666666666667));
        total.decimal(40, Rounding::HalfEven) => Ok("0.4166666666666666666666666645125566511190".to_string());
        total.decimal(2, Rounding::Up) => Ok("0.42".to_string());
        RULES.map(|rule| total.to_integer(rule)) => [0, 0, 0, 1, 0, 1].map(|n| Ok(Some(n)));
        total.round_to(1 << 100, Rounding::Up) => Ok(Some(of(528187750095095583956959666177, 1 << 100)));
        total.round_to(1 << 100, Rounding::Floor) => Ok(Some(of(64476043712780222650996053, 154742504910672534362390528)));
        total.round_to(0, Rounding::Floor) => Ok(None);
        total.take_out(&other) => ();
        (total.count(), sum(&total)) => (0, Some((-4, 3 * P)));
        other.take_out(&total) => ();
        (other.count(), sum(&other), other.decimal(40, Rounding::Floor)) => (2, None, Ok("0.4166666666666666666666666688207890081659".to_string()));
        other.merge(&total) => ();
        (other.count(), sum(&other)) => (2, Some((811296384146066816957890051440647, 1947111321950560360698936123457524))); // 5/12 + 1/Q
        other.compare_with(of(5, 12)) => Ok(Ordering::Greater);
        other.subtract(of(5, 12)) => ();
        (other.count(), sum(&other), mean(&other)) => (1, Some((1, Q)), Some((1, Q)));
    }
}

/// The least and the greatest number, with what goes in and out beside them.
#[test]
fn ends() {
    const MOST: u128 = u128::MAX;
    let mut total: Total<u128> = [of(MOST, 1), of(1, MOST)].iter().sum();
    rows! {
        (sum(&total), total.to_integer(Rounding::Floor), total.to_integer(Rounding::Ceil)) => (None, Ok(Some(MOST)), Ok(None));
        total.decimal(0, Rounding::Ceil) => Ok("340282366920938463463374607431768211456".to_string());
        total.round_to(1, Rounding::HalfEven) => Ok(Some(of(MOST, 1)));
        total.round_to(MOST, Rounding::HalfEven) => Ok(None);
        total.subtract(of(MOST, 1)) => ();
        (sum(&total), total.to_integer(Rounding::Ceil), total.round_to(MOST, Rounding::Down)) => (Some((1, MOST)), Ok(Some(1)), Ok(Some(of(1, MOST))));
        total.subtract(of(2, MOST)) => ();
        (sum(&total), total.to_integer(Rounding::Ceil), total.to_integer(Rounding::Floor)) => (None, Ok(Some(0)), Ok(None));
    }
    const LEAST: i128 = i128::MIN;
    let mut total: Total<i128> = [of(LEAST, 1), of(-1, 2)].iter().sum();
    rows! {
        (sum(&total), total.to_integer(Rounding::Ceil), total.to_integer(Rounding::Floor)) => (None, Ok(Some(LEAST)), Ok(None));
        total.add(of(1, 2)) => ();
        (sum(&total), mean(&total), total.compare_with(of(LEAST, 1))) => (Some((LEAST, 1)), Some((LEAST, 3)), Ok(Ordering::Equal));
        total.subtract(of(LEAST, 1)) => ();
        (sum(&total), total.sign(), total.count()) => (Some((0, 1)), Ok(Ordering::Equal), 2);
        total.subtract(of(LEAST, 1)) => ();
        (sum(&total), total.to_f64()) => (None, Ok(170141183460469231731687303715884105728.0));
    }
}

/// The lowest terms have more than 64 bits, though each fraction has its slot.
#[test]
fn a_long_sum_of_slots() {
    let total: Total<u128> = [of(1, (1 << 64) - 1), of(1, (1 << 64) - 3)].iter().sum();
    rows! {
        sum(&total) => Some((36893488147419103228, 340282366920938463389587631136930004995));
        mean(&total) => Some((18446744073709551614, 340282366920938463389587631136930004995));
        total.round_to(1 << 65, Rounding::Up) => Ok(Some(of(5, 1 << 65)));
        total.to_integer(Rounding::Up) => Ok(Some(1));
        total.compare_with(of(1, 1 << 63)) => Ok(Ordering::Greater);
        total.compare_with(of(5, 1 << 65)) => Ok(Ordering::Less);
    }
}

/// Which products go in, by Python's `fractions`.
#[test]
fn products_of_128_bits() {
    const TOP: i128 = i128::MAX;
    const LEAST: i128 = i128::MIN;
    let rows = [
        ((TOP, 1), (2, 1), true),
        ((TOP, 1), (3, 1), false),
        ((LEAST, 1), (1, 1), true),
        ((LEAST, 1), (-2, 1), false),
        ((LEAST, 1), (LEAST, 1 << 126), false),
        ((1, 1 << 126), (1, 2), true),
        ((1, 1 << 126), (-1, 4), false),
        ((TOP, 2), (2, TOP), true),
        ((TOP, 5), (-5, TOP), true),
        ((1 << 64, 3), (1 << 64, 5), false),
        (((1 << 64) - 1, 3), ((1 << 64) + 1, 5), true),
        ((1 << 64, 3), (-(1 << 63), 5), true),
    ];
    let (mut total, mut exact) = (Total::new(), BigRational::zero());
    let mut went = 0;
    for ((n, d), (m, e), fits) in rows {
        let (x, y) = (of(n, d), of(m, e));
        assert_eq!(total.add_product(x, y).is_some(), fits, "{x} * {y}");
        assert_eq!(Total::dot(&[x], &[y]).is_some(), fits, "{x} * {y}");
        if fits {
            went += 1;
            exact += big(x) * big(y);
        }
        assert_eq!((total.count(), total.decimal(50, Rounding::Up).unwrap()), (went, decimal(&exact, 50, Rounding::Up)), "{x} * {y}");
    }
    let great = [of(u128::MAX, 2)];
    assert!(Total::dot(&great, &great).is_none() && Total::dot(&great, &[of(1, 1)]).is_some());
    assert_eq!(sum(&Total::dot(&great, &[of(2, u128::MAX)]).unwrap()), Some((1, 1)));
}

/// Each product of 64 bits goes in.
#[test]
fn products_of_64_bits() {
    const LEAST: i64 = i64::MIN;
    let mut total = Total::new();
    rows! {
        total.add_product(of(LEAST, 1), of(LEAST, 1)) => Some(());
        (sum(&total), total.decimal(0, Rounding::Down)) => (None, Ok("85070591730234615865843651857942052864".to_string()));
        total.add_product(of(LEAST, 1), of(i64::MAX, 1)) => Some(());
        (sum(&total), total.count(), total.to_integer(Rounding::Up)) => (None, 2, Ok(None)); // 2^63
        total.subtract(of(1, 1)) => ();
        (sum(&total), mean(&total), total.to_integer(Rounding::Up)) => (Some((i64::MAX, 1)), Some((i64::MAX, 1)), Ok(Some(i64::MAX)));
        total.compare_with(of(i64::MAX, 1)) => Ok(Ordering::Equal);
        total.round_to(7, Rounding::Up) => Ok(Some(of(i64::MAX, 1)));
        total.add_product(of(1, i64::MAX), of(1, i64::MAX - 1)) => Some(());
        (sum(&total), total.compare_with(of(i64::MAX, 1))) => (None, Ok(Ordering::Greater));
    }
    let great = [of(u64::MAX, 1); 2];
    let squares = Total::dot(&great, &great).unwrap();
    assert_eq!((sum(&squares), squares.decimal(0, Rounding::Up).unwrap()), (None, "680564733841876926852962238568698216450".to_string()));
}

#[test]
fn a_copy_is_another_total() {
    let mut first: Total<i128> = [of(1, P)].iter().sum();
    let copy = first.clone();
    first.add(of(1, P));
    assert_eq!((sum(&first), sum(&copy)), (Some((2, P)), Some((1, P))));
}

/// Merges of a total with itself double its additions, of which there are at most 2^63-1.
#[test]
#[cfg(target_pointer_width = "64")]
fn too_many_additions_panic() {
    use std::panic::catch_unwind;
    let mut double: Total<i128> = [of(1, P)].iter().sum();
    let mut total = Total::new();
    for _ in 0..62 {
        total.merge(&double);
        double.merge(&double.clone());
    }
    total.merge(&double);
    assert_eq!((total.count(), mean(&total), total.compare(&total)), (i64::MAX, Some((1, P)), Ok(Ordering::Equal)));
    assert_eq!(total.add_product(of(1, P), of(1, 1)), None);
    let calls: [fn(&mut Total<i128>); 4] = [
        |total| total.add(of(1, P)),
        |total| *total -= of(1, P),
        |total| total.merge(&[of(1, Q)].iter().sum()),
        |total| *total -= &[of(1, Q)].iter().sum::<Total<i128>>(),
    ];
    for call in calls {
        let mut full = total.clone();
        let why = catch_unwind(move || call(&mut full)).unwrap_err();
        assert_eq!(*why.downcast::<&str>().unwrap(), "a total of more than 2^63-1 additions");
    }
}

/// Code that is generic over the twelve types, as users write it.
#[test]
fn generic_code() {
    fn total_of<T: Integer>(shares: &[Reduced<T>]) -> Total<T> {
        let mut total: Total<T> = shares.iter().sum();
        total.extend(shares);
        total
    }
    assert_eq!(sum(&total_of(&[of(1u8, 4)])), Some((1, 2)));
    assert_eq!(sum(&total_of(&[of(2, P)])), Some((4, P)));
}

/// 21,000 numbers below 2^64 have too long a common denominator. A decimal needs none while each fraction has its slot.
#[test]
#[cfg(not(debug_assertions))]
fn too_long_a_denominator() {
    let mut total: Total<u128> = (0..21_000).map(|i| of(1, (1 << 64) - 1 - i)).sum();
    assert!(total.decimal(38, Rounding::HalfEven).is_ok());
    total.add(of(1, P as u128));
    let too_long = total.sum().unwrap_err();
    let one: Total<u128> = [of(1, 1)].iter().sum();
    assert_eq!((total.decimal(38, Rounding::HalfEven), total.to_f64()), (Err(too_long), Err(too_long)));
    assert_eq!((one.compare(&total), total.compare_with(of(1, 1))), (Err(too_long), Err(too_long)));
}

/// The whole number as a fraction of big integers.
fn whole<T: Integer>(n: T) -> BigRational {
    n.to_i128().and_then(BigRational::from_i128).or_else(|| BigRational::from_u128(n.to_u128()?)).unwrap()
}

fn big<T: Integer>(x: Reduced<T>) -> BigRational {
    whole(*x.numer()) / whole(*x.denom())
}

/// The fields over `T`, if they fit.
fn fitting<T: Integer>(x: &BigRational) -> Option<(T, T)> {
    let number = |n: Option<i128>, m: Option<u128>| n.and_then(T::from).or_else(|| T::from(m?));
    Some((number(x.numer().to_i128(), x.numer().to_u128())?, number(x.denom().to_i128(), x.denom().to_u128())?))
}

/// The whole number that the rule gives.
fn rounded(x: &BigRational, rule: Rounding) -> BigRational {
    let (floor, half) = (x.floor(), BigRational::new(1.into(), 2.into()));
    let rest = x - &floor;
    let is_even = (&floor * &half).is_integer();
    let up = match rule {
        Rounding::HalfEven => rest > half || rest == half && !is_even,
        Rounding::HalfAway => rest > half || rest == half && x.is_positive(),
        Rounding::Down => !rest.is_zero() && x.is_negative(),
        Rounding::Up => !rest.is_zero() && x.is_positive(),
        Rounding::Floor => false,
        Rounding::Ceil => !rest.is_zero(),
    };
    if up {
        floor + whole(1)
    } else {
        floor
    }
}

fn decimal(x: &BigRational, places: usize, rule: Rounding) -> String {
    let number = rounded(&(x * Pow::pow(whole(10), places as i32)), rule).to_integer();
    let digits = format!("{:0>width$}", number.abs(), width = places + 1);
    let (front, back) = digits.split_at(digits.len() - places);
    format!("{}{front}{}{back}", if number.is_negative() { "-" } else { "" }, if places == 0 { "" } else { "." })
}

/// Compares each read with what the exact sum says.
fn compare_reads<T: Integer>(total: &Total<T>, exact: &BigRational, count: i64, numbers: &mut Numbers) {
    assert_eq!(total.count(), count);
    assert_eq!(sum(total), fitting(exact), "{exact}");
    let exact_mean = if count > 0 { fitting(&(exact / whole(count))) } else { None };
    assert_eq!(mean(total), exact_mean, "{exact} by {count}");
    assert_eq!(total.sign(), Ok(exact.cmp(&BigRational::zero())), "{exact}");
    let parts = T::from(numbers.of_any_length() >> 1).unwrap_or_else(T::max_value);
    for rule in RULES {
        assert_eq!(total.to_integer(rule).unwrap(), fitting(&rounded(exact, rule)).map(|(number, _)| number), "{exact}");
        let places = numbers.below(60) as u32 * if numbers.below(30) == 0 { 10 } else { 1 };
        assert_eq!(total.decimal(places, rule).unwrap(), decimal(exact, places as usize, rule), "{exact}");
        let multiple = if parts > T::zero() { fitting(&(rounded(&(exact * whole(parts)), rule) / whole(parts))) } else { None };
        assert_eq!(total.round_to(parts, rule).unwrap().map(Reduced::into_raw), multiple, "{exact} in parts of {parts}");
    }
}

/// Compares the orders of two sums, and of a sum and a fraction.
fn compare_orders<T: Integer>(left: (&Total<T>, &BigRational), right: (&Total<T>, &BigRational), fraction: Reduced<T>) {
    assert_eq!(left.0.compare(right.0), Ok(left.1.cmp(right.1)), "{} and {}", left.1, right.1);
    assert_eq!(left.0.compare_with(fraction), Ok(left.1.cmp(&big(fraction))), "{} and {fraction}", left.1);
    if let Some(same) = left.0.sum().unwrap() {
        assert_eq!(left.0.compare_with(same), Ok(Ordering::Equal));
    }
}

/// How many random totals are compared. Optimized runs compare more.
const TOTALS: usize = if cfg!(debug_assertions) { 40 } else { 3_000 };

/// Compares random totals: fractions go in and out, products go in, totals are merged and taken out. Of the sums, many fit the type and many
/// do not.
fn compare_random<T: Integer>(mut fraction: impl FnMut(&mut Numbers) -> Reduced<T>) {
    let mut numbers = Numbers(12);
    let (mut fitting_sums, mut products, mut refused) = (0, 0, 0);
    let (mut total, mut exact, mut count) = (Total::<T>::new(), BigRational::zero(), 0);
    for _ in 0..TOTALS {
        let (mut part, mut part_exact, mut part_count) = (Total::new(), BigRational::zero(), 0);
        for _ in 0..numbers.below(4) {
            let (x, y) = (fraction(&mut numbers), fraction(&mut numbers));
            match numbers.below(3) {
                0 => {
                    part.add(x);
                    part_exact += big(x);
                    part_count += 1;
                }
                1 => {
                    part -= x;
                    part_exact -= big(x);
                    part_count -= 1;
                }
                _ => {
                    let (product, before) = (big(x) * big(y), part.count());
                    let fits = fitting::<u128>(&product.abs()).is_some();
                    assert_eq!(part.add_product(x, y).is_some(), fits, "{x} * {y}");
                    assert_eq!(part.count(), before + i64::from(fits));
                    products += 1;
                    if fits {
                        part_exact += product;
                        part_count += 1;
                    } else {
                        refused += 1;
                    }
                }
            }
        }
        compare_reads(&part, &part_exact, part_count, &mut numbers);
        compare_orders((&total, &exact), (&part, &part_exact), fraction(&mut numbers));
        compare_orders((&part, &part_exact), (&total, &exact), fraction(&mut numbers));
        fitting_sums += usize::from(fitting::<T>(&part_exact).is_some());
        match numbers.below(4) {
            0 => (total, exact, count) = (part, part_exact, part_count),
            1 => {
                total -= &part;
                exact -= part_exact;
                count -= part_count;
            }
            _ => {
                total += &part;
                exact += part_exact;
                count += part_count;
            }
        }
        compare_reads(&total, &exact, count, &mut numbers);
        fitting_sums += usize::from(fitting::<T>(&exact).is_some());
    }
    assert!(TOTALS / 5 < fitting_sums && fitting_sums < TOTALS / 5 * 9, "{fitting_sums} of {} sums fit", 2 * TOTALS);
    let narrow = T::max_value().to_u64().is_some();
    assert!(if narrow { refused == 0 } else { products / 20 < refused && refused < products }, "{refused} of {products} products are refused");
}

/// A number near a power of 2, or one with few divisors, or a short one, below 2^127.
fn field(numbers: &mut Numbers) -> u128 {
    match numbers.below(4) {
        0 => 1 + u128::from(numbers.below(12)),
        1 => [P as u128, Q as u128, (1 << 64) - 1, 1 << 64, (1 << 64) + 1, (1 << 127) - 1, 3 * P as u128][numbers.below(7) as usize],
        _ => (numbers.of_any_length() >> 1).max(1),
    }
}

#[test]
fn random_totals_of_i128() {
    compare_random(|numbers| {
        let numer = (field(numbers) >> numbers.below(100)) as i128;
        of(if numbers.below(2) == 0 { numer } else { -numer - 1 }, field(numbers) as i128)
    });
}

#[test]
fn random_totals_of_u128() {
    compare_random(|numbers| of((2 * field(numbers)) >> numbers.below(100), 2 * field(numbers) + u128::from(numbers.below(2))));
}

#[test]
fn random_totals_with_products_of_i64() {
    compare_random(|numbers| of(numbers.word() as i64 >> numbers.below(64), 1 + (field(numbers) as i64 & (i64::MAX - 1))));
}

#[test]
fn random_totals_with_products_of_u64() {
    compare_random(|numbers| of(numbers.word() >> numbers.below(64), 1 + (field(numbers) as u64 >> 1)));
}
